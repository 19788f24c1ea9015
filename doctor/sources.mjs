// The modules of a build with their texts and notes, as `stats.json` in `dist` tells them.
import fs from 'node:fs';
import { readStats } from '../view/src/reading.mjs';
import { placeOfByte } from './place.mjs';
import { Syntax } from './syntax.mjs';

const STATS = 'dist/stats.json';

// The stats, or an error with a sentence for the user.
export function statsOfBuild() {
  if (!fs.existsSync(STATS)) throw new Error(`${STATS} isn't there: build first`);
  return readStats(fs.readFileSync(STATS, 'utf8'));
}

// One that isn't JavaScript has no syntax, and one that isn't what was built has no text.
export function sourcesOf(stats) {
  return stats.modules.map((module) => {
    const bytes = fs.existsSync(module.path) ? fs.readFileSync(module.path) : null;
    if (bytes === null || bytes.length !== module.size) return { path: module.path, problem: bytes === null ? "isn't there" : 'has changed' };
    const text = bytes.toString();
    const isScript = !module.path.endsWith('.json');
    return { path: module.path, text, module, syntax: isScript ? new Syntax(text) : null, notes: notesOf(stats, module, text) };
  });
}

function notesOf(stats, { path }, text) {
  return stats.notes.filter((note) => note.path === path).map((note) => ({ ...note, place: placeOfByte(text, note.at) }));
}
