// The stored commands of crates/runs_commands, whose trees lie in memory there, carried out by the program in real folders:
// what it prints, its status and its assets are those of the stored output. What a folder can't show is skipped and told.
import { spawnSync } from 'node:child_process';
import fs from 'node:fs';
import path from 'node:path';
import { programPath, repository, temporaryFolder } from './command.mjs';
import { readBytes, readCases } from './stored_lines.mjs';
import { compare } from './stored_output.mjs';

// What comes before the public path in the text of an entry's chunk.
const RUNTIME_END = '})(self);\n';
const READERS = 32;
const program = programPath();

// False where a folder can't hold the tree.
function layOut(folder, files) {
  for (const { path: name, text } of files) {
    const isNormal = path.posix.normalize(name) === name && !/^\/|^\.\.?(\/|$)|\/$/.test(name);
    if (!isNormal) return false;
    try {
      const file = Buffer.from(path.join(folder, name), 'latin1');
      fs.mkdirSync(Buffer.from(path.join(folder, path.posix.dirname(name)), 'latin1'), { recursive: true });
      fs.writeFileSync(file, text, 'latin1');
    } catch {
      return false;
    }
  }
  return true;
}

// The names of the files in a folder and below it.
function namesIn(folder, before = '') {
  return fs.readdirSync(Buffer.from(folder, 'latin1'), { withFileTypes: true, encoding: 'latin1' }).flatMap((entry) => {
    const name = before + entry.name;
    return entry.isDirectory() ? namesIn(`${folder}/${entry.name}`, `${name}/`) : [name];
  });
}

// The assets by name.
function assetsIn(folder) {
  const dist = path.join(folder, 'dist');
  if (!fs.existsSync(dist)) return new Map();
  return new Map(namesIn(dist).sort().map((name) => [name, fs.readFileSync(Buffer.from(path.join(dist, name), 'latin1'))]));
}

function carryOut(folder, words) {
  fs.rmSync(path.join(folder, 'dist'), { recursive: true, force: true });
  const given = words === '' ? [] : words.split(' ');
  const ran = spawnSync(program, given, { cwd: folder, stdio: ['ignore', 'pipe', 'ignore'], encoding: 'latin1', timeout: 60_000 });
  if (ran.error) throw ran.error;
  const assets = assetsIn(folder);
  const names = [...assets.keys()].map((name) => `asset ${name}\n`).join('');
  return { assets, shown: `${ran.stdout}status ${ran.status}\n${names}` };
}

function isText(bytes) {
  try {
    new TextDecoder('utf-8', { fatal: true }).decode(bytes);
    return true;
  } catch {
    return false;
  }
}

function textOf(asset) {
  if (asset === undefined) return '';
  return isText(asset) ? asset.toString('latin1') : 'no text\n';
}

// The text of an entry's chunk from its public path on, and the whole one of another.
function behindRuntime(text) {
  const at = text.indexOf(RUNTIME_END);
  return at < 0 ? text : text.slice(at + RUNTIME_END.length);
}

function areSame(one, other) {
  return one.size === other.size && [...one].every(([name, bytes]) => other.get(name)?.equals(bytes));
}

// More workers than a command has readers in memory, and not more than the program has.
function wantsReaders({ given, readers }) {
  const workers = Number(/--workers[ =](\d+)/.exec(given)?.[1] ?? 1);
  return workers > readers && workers <= READERS;
}

// What a step shows, or why it isn't tried. `left` has the assets of the last command and of the one before, where they ran.
function tried(step, folder, left) {
  if (step.word === '#') return { ...step, shown: `${step.line}\n` };
  if (step.word === 'L') return { ...step, why: step.why ?? 'what was read is only told in memory' };
  const lacks = step.word === 'A' || step.word === 'V' ? !left.last : step.word === '=' && !(left.last && left.before);
  const why = step.why ?? (wantsReaders(step) ? `the program has ${READERS} readers` : lacks ? 'its command was not tried' : undefined);
  if (step.word === 'W') left.before = left.last;
  if (why !== undefined) {
    if (step.word === 'W') left.last = undefined;
    return { ...step, why };
  }
  if (step.word === 'A') return { ...step, shown: behindRuntime(textOf(left.last.get(step.given))) };
  if (step.word === 'V') return { ...step, shown: textOf(left.last.get(step.given)) };
  if (step.word === '=') return { ...step, shown: areSame(left.last, left.before) ? 'the same assets\n' : 'other assets\n' };
  const { assets, shown } = carryOut(folder, step.given);
  left.last = assets;
  return { ...step, shown };
}

function triedCase({ files, steps }) {
  const folder = temporaryFolder();
  const isThere = layOut(folder, files);
  const left = { last: new Map(), before: new Map() };
  const of = (step) => (isThere || step.word === '#' ? step : { ...step, why: 'a folder cannot hold its tree' });
  const ends = steps.map((step) => tried(of(step), folder, left));
  fs.rmSync(folder, { recursive: true, force: true });
  return ends;
}

// The names of assets stand in the order in which they were put, which a folder doesn't have.
function withSortedAssets(text) {
  return text.replace(/^status \d+.*\n((?:asset .*\n)*)/gm, (block, names) => {
    const sorted = names.split('\n').slice(0, -1).sort().map((name) => `${name}\n`).join('');
    return block.slice(0, block.length - names.length) + sorted;
  });
}

function firstDifference(one, other) {
  const [lines, others] = [one.split('\n'), other.split('\n')];
  const at = lines.findIndex((line, number) => line !== others[number]);
  return [lines[at], others[at]].map((line) => (line === undefined ? 'no line' : JSON.stringify(line.slice(0, 200))));
}

function tellFailed({ line, number, shown, stored }) {
  const [is, was] = firstDifference(shown, stored ?? '');
  console.log(`FAILED: crates/runs_commands/stdin:${number ?? 'end'}: ${line}\n  stored: ${stored === undefined ? 'other lines' : was}\n  shown:  ${is}`);
}

function tellSkipped(skipped) {
  const byWhy = new Map();
  for (const { why } of skipped) byWhy.set(why, (byWhy.get(why) ?? 0) + 1);
  for (const [why, count] of byWhy) console.log(`skipped: ${count} steps of crates/runs_commands: ${why}`);
}

const stored = path.join(repository, 'crates', 'runs_commands');
const cases = readCases(readBytes(path.join(stored, 'stdin')));
const ends = compare(cases.flatMap(triedCase), withSortedAssets(readBytes(path.join(stored, 'stdout'))));
const counted = ends.filter(({ word, end }) => word !== '#' || end === 'failed');
const [passed, failed, skipped] = ['passed', 'failed', 'skipped'].map((wanted) => counted.filter(({ end }) => end === wanted));
failed.forEach(tellFailed);
tellSkipped(skipped);
console.log(`${passed.length} passed, ${failed.length} failed, ${skipped.length} skipped`);
process.exitCode = failed.length > 0 ? 1 : 0;
