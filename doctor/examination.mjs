// All findings of a build: a line `PATH:LINE:COLUMN: WHAT: REMEDY` for each, by path and place.
import { chunkFindings } from './chunks.mjs';
import { configurationFindings } from './configuration.mjs';
import { assertions, commentRemedy, lostComments } from './imports.mjs';
import { missingNames, setIn } from './names.mjs';
import { placeAt } from './place.mjs';
import { Requires } from './requires.mjs';
import { sourcesOf } from './sources.mjs';

export function examine(stats, config) {
  const sources = sourcesOf(stats);
  const scripts = sources.filter((source) => source.syntax);
  const isSet = new Set(scripts.flatMap(({ syntax }) => setIn(syntax)));
  const found = [...(config ? configurationFindings(config) : []), ...sources.flatMap(staleFindings),
    ...scripts.flatMap((source) => moduleFindings(source, isSet)), ...chunkFindings(stats)];
  return found.sort(inOrder).map(({ path, line, column, told }) => `${path}:${line}:${column}: ${told}`);
}

function staleFindings({ path, problem }) {
  return problem ? [{ path, line: 1, column: 1, told: `${problem} since the build: build again` }] : [];
}

function moduleFindings(source, isSet) {
  const { path, text, syntax, notes } = source;
  const requires = new Requires(source);
  const found = [...requires.findings(), ...missingNames(syntax, isSet), ...assertions(syntax, text), ...lostComments(syntax),
    ...notes.flatMap((note) => noteFinding(source, requires, note))];
  return found.map(({ at, told }) => ({ path, ...placeAt(text, at), told }));
}

const NOTES = {
  N1: ({ detail }) => `N1 require("${detail}") names no file and stays as it is written`,
  N2: () => 'N2 require without one text stays as it is written',
  N3: ({ detail }) => `N3 the magic comment's key ${detail} has no effect`,
  N4: () => "N4 the magic comment can't be read",
};

function noteFinding({ syntax }, requires, note) {
  const comment = syntax.comments.find(({ start }) => start === note.place);
  const remedies = { N3: () => 'take the key out', N4: () => commentRemedy(comment?.text ?? '') };
  const remedy = (remedies[note.kind] ?? (() => requires.remedyOf(note)))();
  return remedy === null ? [] : [{ at: note.place, told: `${NOTES[note.kind](note)}: ${remedy}` }];
}

function inOrder(one, other) {
  if (one.path !== other.path) return one.path < other.path ? -1 : 1;
  return one.line - other.line || one.column - other.column;
}
