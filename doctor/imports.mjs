// Imports whose ends or comments a build reads in another way than webpack does.
const MAGIC = /\b(webpack[A-Z]\w*)\s*:/;

// `assert {..}` behind an import isn't taken with it, and stays in the chunk.
export function assertions(syntax, text) {
  const { tokens } = syntax;
  const is = (at, wanted) => syntax.is(at, wanted);
  return [...tokens.keys()].filter((at) => tokens[at].kind === 'text' && (is(at - 1, 'from') || is(at - 1, 'import'))
    && is(at + 1, 'assert') && is(at + 2, '{') && !text.slice(tokens[at].end, tokens[at + 1].start).includes('\n'))
    .map((at) => ({ at: tokens[at + 1].start, told: 'assert {..} stays in the chunk, which then doesn\'t parse: write with {..}' }));
}

// Comments of an `import()` that stand where none is read: what they say is lost without a note.
export function lostComments(syntax) {
  return syntax.comments.flatMap((comment) => {
    const key = MAGIC.exec(comment.text)?.[1];
    const place = key && placeOf(syntax, comment);
    return place ? [{ at: comment.start, told: `${key} isn't read ${place}: write import(/* ${key}: .. */ "..")` }] : [];
  });
}

function placeOf(syntax, comment) {
  const next = syntax.tokenAt(comment.start);
  const before = next < 0 ? syntax.tokens.length - 1 : next - 1;
  if (syntax.is(before, 'import') && syntax.is(next, '(')) return 'before the bracket';
  const isFirst = syntax.is(before, '(') && isImport(syntax, before);
  if (isFirst) return comment.text.startsWith('//') ? 'in a // comment' : null;
  return before >= 0 && isImport(syntax, syntax.within[before]) ? 'behind the text' : null;
}

function isImport(syntax, bracket) {
  return bracket > 0 && syntax.is(bracket, '(') && syntax.is(bracket - 1, 'import') && syntax.isValue(bracket - 1);
}

// Why a magic comment couldn't be read, as far as its text shows it.
export function commentRemedy(text) {
  if (/,\s*\*\/$/.test(text)) return 'take away the comma behind its last pair';
  if (/`/.test(text)) return 'write the name in quotes';
  if (/:\s*[[{]/.test(text)) return 'take the list out: with it nothing of the comment is read';
  if (/:\s*\//.test(text)) return 'take the regular expression out: with it nothing of the comment is read';
  return 'write KEY: VALUE, with commas between such pairs, where VALUE is a text in quotes, a number, true or false';
}
