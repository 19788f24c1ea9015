// What the program does with its words before it looks at them. Words that aren't UTF-8 come from a shell, since Node can't
// hand them on.
import assert from 'node:assert/strict';
import fs from 'node:fs';
import path from 'node:path';
import { command, isOnPath, programPath, projectOf, run, temporaryFolder } from './command.mjs';

const USAGE = { status: 2, printed: 'usage: chunkpack build CONFIG [--workers N] | chunkpack sample N [--workers N]\n' };
const PROJECT = { 'c.json': '{"entry":"./a.js"}', 'a.js': '' };

// `byte` stands for the byte 255 in the words of a shell.
function shell(folder, words, program) {
  return run('sh', ['-c', `byte=$(printf '\\377'); exec "$0" ${words}`, program], { cwd: folder });
}

function badWords() {
  const folder = projectOf(PROJECT);
  for (const words of ['build "$byte"', 'build "c.json$byte"', '"$byte" c.json', 'build c.json "$byte"', '"$byte"']) {
    assert.deepEqual(shell(folder, words, command), USAGE, words);
  }
  assert.deepEqual(fs.readdirSync(folder).sort(), ['a.js', 'c.json']);
}

function noPlaceForUsage() {
  const full = fs.openSync('/dev/full', 'w');
  const ran = run('sh', ['-c', `exec "$0" build "$(printf '\\377')"`, command], { cwd: projectOf(PROJECT), stdio: ['ignore', full, 'inherit'] });
  fs.closeSync(full);
  assert.deepEqual(ran, { status: 4, printed: '' });
}

// The program's own name is no word of the command.
function badProgramName() {
  const place = Buffer.concat([Buffer.from(path.join(temporaryFolder(), 'p')), Buffer.from([255])]);
  fs.copyFileSync(programPath(), place);
  fs.chmodSync(place, 0o755);
  const script = `exec "$0$(printf '\\377')" build c.json`;
  const ran = run('sh', ['-c', script, place.subarray(0, -1).toString()], { cwd: projectOf(PROJECT) });
  assert.deepEqual(ran, { status: 0, printed: 'built: 1 modules, 1 chunks, 2 assets\n' });
}

// At some room the program starts and can't hold its words.
function noMemoryForWords() {
  const words = ['build', ...Array(6).fill('a'.repeat(120_000))];
  const ended = new Map();
  const program = programPath();
  for (let room = 2_000_000; room <= 16_000_000; room += 200_000) {
    const { status, printed } = run('prlimit', [`--as=${room}`, program, ...words], { stdio: ['ignore', 'pipe', 'ignore'] });
    ended.set(status, printed);
  }
  assert.equal(ended.get(2), USAGE.printed);
  assert.equal(ended.get(5), 'no memory\n');
}

export async function checkWords(tally) {
  await tally.check('words that are not UTF-8', badWords);
  if (fs.existsSync('/dev/full')) await tally.check('no place for the line of such words', noPlaceForUsage);
  else tally.skip('no place for the line of such words', 'this system has no /dev/full');
  await tally.check('a program whose own name is not UTF-8', badProgramName);
  if (isOnPath('prlimit')) await tally.check('no memory for the words', noMemoryForWords);
  else tally.skip('no memory for the words', 'prlimit is not on PATH');
}
