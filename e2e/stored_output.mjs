// Holds what the program showed, step by step, against a stored output. A step has the text that it showed, or why it was
// not tried; its end is `passed`, `failed` or `skipped`.
const BLOCK = /((?:.*\n)*?)status (\d+)(?: \w+)?\n((?:asset .*\n)*)/y;
const READS = /(?:read .*\n)*/y;
const SAME = /(?:the same|other) assets\n/y;
const LOST = 'where its lines begin is not known, behind one that was not tried or that differs';

// What the pattern takes of the text from there on, or nothing.
function taken(pattern, text, at) {
  pattern.lastIndex = at;
  return pattern.exec(text)?.[0];
}

// The lines that the stored output has for a step, where they can be told.
function storedFor(step, wanted, at) {
  if (step.word === 'W') return taken(BLOCK, wanted, at);
  if (step.word === 'L') return taken(READS, wanted, at);
  if (step.word === '=') return taken(SAME, wanted, at);
  if (step.shown !== undefined && wanted.startsWith(step.shown, at)) return step.shown;
  return undefined;
}

// The next place at which a line of the stored output begins with what a step showed. Only comments and commands can be told.
function place(step, wanted, from, limit) {
  if ((step.word !== '#' && step.word !== 'W') || !step.shown) return -1;
  if (wanted.startsWith(step.shown, from)) return from;
  const at = wanted.indexOf(`\n${step.shown}`, from) + 1;
  return at > 0 && at <= limit ? at : -1;
}

function nextComment(steps, number, wanted, from) {
  const comment = steps.slice(number).find(({ word, line }) => word === '#' && line !== '');
  const at = comment ? wanted.indexOf(`\n${comment.line}\n`, from) : -1;
  return at < 0 ? wanted.length : at + 1;
}

function end(step, stored) {
  if (step.why !== undefined) return { ...step, end: 'skipped' };
  if (stored === step.shown) return { ...step, end: 'passed' };
  return { ...step, end: 'failed', stored };
}

// Each step with its end, in order; a last step tells what the stored output has besides.
export function compare(steps, wanted) {
  let at = 0;
  let isLost = false;
  const ends = steps.map((step, number) => {
    if (isLost) {
      const found = place(step, wanted, at, nextComment(steps, number, wanted, at));
      if (found < 0) return { ...step, end: 'skipped', why: step.why ?? LOST };
      at = found;
    }
    const stored = storedFor(step, wanted, at);
    isLost = stored === undefined;
    at += stored?.length ?? 0;
    return end(step, stored);
  });
  if (!isLost && at < wanted.length) ends.push({ word: 'W', line: 'the end', end: 'failed', shown: '', stored: wanted.slice(at) });
  return ends;
}
