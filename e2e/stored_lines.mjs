// Reads the stored commands of crates/runs_commands: cases, each with the files of its tree and the steps behind them. All
// texts are bytes, one a character.
import fs from 'node:fs';

const NOT_SHOWN = new Set(['T', 'F', 'R', 'N', 'M', 'X']);
const STEPS = new Set(['W', 'A', 'V', 'L', '=']);

export function readBytes(file) {
  return fs.readFileSync(file, 'latin1');
}

function unescaped(text) {
  return text.replace(/\\x(..)|\\\\/g, (_, digits) => (digits ? String.fromCharCode(parseInt(digits, 16)) : '\\'));
}

// A text at its first bar: what comes before it, and what comes behind it.
function halves(text) {
  const at = text.indexOf('|');
  return [text.slice(0, at), text.slice(at + 1)];
}

function fileOf(word, given) {
  const [path, rest] = halves(given);
  if (word === 'F') return { path, text: unescaped(rest) };
  const [count, part] = halves(rest);
  return { path, text: unescaped(part).repeat(Number(count)) };
}

function addLine(one, line, number) {
  const [word] = line.split(' ', 1);
  const given = line.slice(word.length + 1);
  if (word === 'F' || word === 'R') one.files.push(fileOf(word, given));
  else if (word === 'N') one.readers = Number(given);
  else if (word === 'X') one.why = given === '' ? undefined : 'what fails is only in memory';
  else if (word === 'M') one.why = 'reads that wait for each other are only in memory';
  else if (STEPS.has(word)) one.steps.push({ word, given, line, number, readers: one.readers, why: one.why });
  else if (word === '' || word.startsWith('#')) one.steps.push({ word: '#', line, number });
  else if (!NOT_SHOWN.has(word)) one.unknown ??= word;
}

// A line of a word that isn't known here may change what the whole case shows.
function closed(one) {
  if (one.unknown !== undefined) {
    for (const step of one.steps) step.why = `lines ${one.unknown} are not known to this driver`;
  }
  return one;
}

export function readCases(text) {
  const cases = [];
  let one = { files: [], steps: [], readers: 1 };
  text.replace(/\n$/, '').split('\n').forEach((line, at) => {
    if (line === 'T') {
      cases.push(closed(one));
      one = { files: [], steps: [], readers: 1 };
    }
    addLine(one, line, at + 1);
  });
  cases.push(closed(one));
  return cases;
}
