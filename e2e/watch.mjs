// bin/watch in folders of their own: what it builds again for, and what it leaves alone; what a build that fails leaves; how often it builds;
// and how it ends.
import assert from 'node:assert/strict';
import { spawn } from 'node:child_process';
import fs from 'node:fs';
import path from 'node:path';
import { within } from './devtools.mjs';
import { command, emitted, isOnPath, programPath, projectOf, repository, run, temporaryFolder } from './command.mjs';

const WATCH = path.join(repository, 'bin', 'watch');
// A few times what bin/watch waits after the last change.
const QUIET = 400;
const PATIENCE = 30_000;
const PROJECT = { 'c.json': '{"entry":"./src/index.js"}', 'src/index.js': 'import "./a.js";\n', 'src/a.js': '' };

const pause = (time) => new Promise((due) => setTimeout(due, time));

async function until(isThere, what) {
  const end = Date.now() + PATIENCE;
  while (!isThere()) {
    if (Date.now() > end) throw new Error(`not there in ${PATIENCE / 1000} seconds: ${what()}`);
    await pause(10);
  }
}

// A watch that runs, and the lines of its builds, each of which ends with a line of its own.
class Running {
  constructor(folder, { words = ['c.json'], program = WATCH, env = {} } = {}) {
    const named = process.env.CHUNKPACK ? { CHUNKPACK: command } : {};
    this.child = spawn(program, words, { cwd: folder, env: { ...process.env, ...named, ...env }, stdio: ['ignore', 'pipe', 'pipe'] });
    this.printed = '';
    this.told = '';
    this.child.stdout.on('data', (text) => { this.printed += text; });
    this.child.stderr.on('data', (text) => { this.told += text; });
    this.ended = new Promise((end) => this.child.on('close', (status) => end(status)));
  }

  get builds() {
    return this.printed.split(/^watch: \d+\.\d\d s, \d\d:\d\d:\d\d(?:; dist is as it was)?\n/m).slice(0, -1);
  }

  // What the last build printed, when it is what is wanted: a loaded machine may build more often than an idle one.
  async last(wanted) {
    const text = () => (this.builds[this.builds.length - 1] ?? '').split('\n').filter((line) => !line.startsWith('watch: ')).join('\n').trim();
    await until(() => wanted.test(text()), () => `${wanted} in ${JSON.stringify(this.printed + this.told)}`);
  }

  // A file of a build is there a moment before its lines are.
  async isQuiet() {
    await pause(QUIET);
    const before = this.builds.length;
    await pause(QUIET);
    assert.equal(this.builds.length, before, this.printed);
  }

  async stop(signal = 'SIGINT') {
    this.child.kill(signal);
    assert.equal(await within(this.ended, 'the end of the watch', 20_000), 0);
  }
}

async function watching(files, body, options) {
  const folder = projectOf(files);
  const watch = new Running(folder, options);
  const write = (name, text) => {
    fs.mkdirSync(path.dirname(path.join(folder, name)), { recursive: true });
    fs.writeFileSync(path.join(folder, name), text);
  };
  const main = path.join(folder, 'dist', 'main.js');
  const written = (part) => until(() => fs.readFileSync(main, 'utf8').includes(part), () => `${part} in main.js`);
  try {
    await watch.last(/^built: /);
    await body({ watch, folder, write, written });
  } finally {
    watch.child.kill('SIGINT');
    await watch.ended;
  }
}

const built = (modules) => new RegExp(`^built: ${modules} modules, 1 chunks, 2 assets$`);

function buildsAgain() {
  return watching(PROJECT, async ({ watch, write, written }) => {
    await watch.last(built(2));
    write('src/a.js', 'exports.a = 1;\n');
    await written('exports.a = 1');
    write('c.json', '{"entry":"./src/a.js"}');
    await watch.last(built(1));
    await watch.isQuiet();
  });
}

// Folders that are new, with all that is in them; that come again under their name; and that are moved.
function seesNewFolders() {
  const deep = 'src/one/two/deep.js';
  return watching(PROJECT, async ({ watch, write, written, folder }) => {
    for (const name of [deep, 'node_modules/pack/index.js']) write(name, '');
    write('src/index.js', 'import "./one/two/deep.js";\nimport "pack";\n');
    await watch.last(built(3));
    await watch.isQuiet();
    write(deep, 'exports.deep = 1;\n');
    await written('exports.deep = 1');
    write('node_modules/pack/index.js', 'exports.pack = 1;\n');
    await written('exports.pack = 1');
    fs.rmSync(path.join(folder, 'src/one'), { recursive: true });
    await watch.last(/B9 cannot resolve/);
    write(deep, '');
    await watch.last(built(3));
    await watch.isQuiet();
    write(deep, 'exports.deep = 2;\n');
    await written('exports.deep = 2');
    fs.renameSync(path.join(folder, 'src/one'), path.join(folder, 'src/other'));
    await watch.last(/B9 cannot resolve/);
    write('src/index.js', 'import "./other/two/deep.js";\nimport "pack";\n');
    await watch.last(built(3));
    await watch.isQuiet();
    write('src/other/two/deep.js', 'exports.deep = 3;\n');
    await written('exports.deep = 3');
  });
}

function passesOver() {
  const files = { ...PROJECT, '.git/index': '', 'dist/other.js': '' };
  return watching(files, async ({ watch, write }) => {
    write('.git/index', 'more');
    write('.git/objects/new', '');
    write('.cache/new', '');
    write('dist/other.js', 'more');
    write('dist/view/new', '');
    write('src/.a.js.swp', '');
    await watch.isQuiet();
    assert.equal(watch.builds.length, 1);
  });
}

function leavesTheLastBuild() {
  return watching(PROJECT, async ({ watch, write, folder }) => {
    const before = emitted(folder);
    write('src/a.js', 'let a = `;\n');
    await watch.last(/^src\/a\.js:1:9: B2 unfinished token\nfaults: 1$/);
    write('c.json', '{');
    await watch.last(/^c\.json:1:\d+: config Json$/);
    fs.rmSync(path.join(folder, 'c.json'));
    await watch.last(/^read failed$/);
    assert.ok(watch.printed.endsWith('; dist is as it was\n'));
    assert.ok(watch.printed.split('; dist is as it was\n').length >= 4, watch.printed);
    assert.deepEqual(emitted(folder), before);
    write('src/a.js', '');
    write('c.json', PROJECT['c.json']);
    await watch.last(built(2));
  });
}

// Thirty changes that come one upon the other are one or, on a machine that stops in between, a few builds.
function waitsForTheLastChange() {
  return watching(PROJECT, async ({ watch, write, written }) => {
    for (let at = 1; at <= 30; at++) {
      write('src/a.js', `exports.a = ${at};\n`);
      await pause(10);
    }
    await written('exports.a = 30');
    await watch.isQuiet();
    assert.ok(watch.builds.length <= 6, watch.printed);
  });
}

// A program that takes its time, and the numbers of its processes.
function slowProgram(time) {
  const folder = temporaryFolder();
  const program = path.join(folder, 'slow');
  fs.writeFileSync(program, `#!/bin/sh\necho $$ >>"${folder}/began"\nsleep ${time}\nexec "${programPath()}" "$@"\n`, { mode: 0o755 });
  const list = path.join(folder, 'began');
  const began = () => (fs.existsSync(list) ? fs.readFileSync(list, 'utf8').trim().split('\n').map(Number) : []);
  return { env: { CHUNKPACK: program }, began };
}

function buildsOnceMore() {
  const { env, began } = slowProgram(2);
  return watching(PROJECT, async ({ watch, write, written }) => {
    write('src/a.js', 'exports.a = 1;\n');
    await until(() => began().length === 2, () => 'a second build');
    for (const value of [2, 3, 4]) {
      write('src/a.js', `exports.a = ${value};\n`);
      await pause(100);
    }
    await until(() => watch.builds.length >= 3, () => 'a third build');
    await pause(QUIET);
    assert.deepEqual([began().length, watch.builds.length], [3, 3]);
    await written('exports.a = 4');
  }, { env });
}

function isThere(number) {
  try {
    process.kill(number, 0);
    return true;
  } catch {
    return false;
  }
}

// A build that runs is let end, and a second signal stops it.
async function endsWithoutChildren() {
  const first = new Running(projectOf(PROJECT));
  await first.last(/^built/);
  await first.stop();
  const patient = slowProgram(0.5);
  const folder = projectOf(PROJECT);
  const second = new Running(folder, { env: patient.env });
  await until(() => patient.began().length === 1, () => 'a build');
  await second.stop();
  assert.deepEqual(Object.keys(emitted(folder)), ['main.js', 'stats.json']);
  const stuck = slowProgram(60);
  const third = new Running(projectOf(PROJECT), { env: stuck.env });
  await until(() => stuck.began().length === 1, () => 'a build');
  third.child.kill('SIGTERM');
  await pause(100);
  await third.stop();
  for (const number of [...patient.began(), ...stuck.began()]) assert.ok(!isThere(number), `${number} is left`);
}

async function refusesWords() {
  const folder = projectOf(PROJECT);
  for (const words of [[], ['c.json', '--workers', '33'], ['--help']]) {
    const watch = new Running(folder, { words });
    assert.equal(await within(watch.ended, 'the end of the watch'), 2);
    assert.equal(watch.told, 'usage: bin/watch CONFIG [--workers N]\n');
  }
  await watching(PROJECT, ({ watch }) => watch.last(built(2)), { words: ['c.json', '--workers', '2'] });
}

// As npm puts a package: through a link, with the release beside it and none of the crates.
async function runsInstalled() {
  const folder = projectOf(PROJECT);
  const place = path.join(folder, 'node_modules', 'chunkpack');
  for (const part of ['bin/watch', 'watch']) fs.cpSync(path.join(repository, part), path.join(place, part), { recursive: true });
  fs.mkdirSync(path.join(place, 'release'));
  fs.copyFileSync(programPath(), path.join(place, 'release', 'chunkpack'));
  fs.mkdirSync(path.join(folder, 'node_modules', '.bin'));
  const link = path.join(folder, 'node_modules', '.bin', 'chunkpack-watch');
  fs.symlinkSync('../chunkpack/bin/watch', link);
  const watch = new Running(folder, { program: link, env: { CHUNKPACK: '' } });
  await watch.last(built(2));
  await watch.stop();
}

// A namespace of its own has a limit of its own.
const LIMITED = 'echo 3 >/proc/sys/user/max_inotify_watches && exec "$0" c.json';

function canLimit() {
  return isOnPath('unshare') && run('unshare', ['-Ur', 'sh', '-c', 'echo 3 >/proc/sys/user/max_inotify_watches'], { stdio: 'ignore' }).status === 0;
}

async function tellsLimit() {
  const files = { ...PROJECT, 'src/b/c/d.js': '', 'src/e/f.js': '' };
  const watch = new Running(projectOf(files), { program: 'unshare', words: ['-Ur', 'sh', '-c', LIMITED, WATCH] });
  await watch.last(/^built/);
  assert.match(watch.told, /^watch: changes in 2 folders aren't seen, as in src\/\S+ \(ENOSPC\): /);
  await watch.stop();
}

export async function checkWatch(tally) {
  await tally.check('watch: builds again after a change', buildsAgain);
  await tally.check('watch: sees folders that are new, moved and there again', seesNewFolders);
  await tally.check('watch: passes over dist, folders with a dot and files of editors', passesOver);
  await tally.check('watch: a build that fails leaves the last one', leavesTheLastBuild);
  await tally.check('watch: waits for the last change', waitsForTheLastChange);
  await tally.check('watch: changes in a build lead to one more', buildsOnceMore);
  await tally.check('watch: ends at a signal and leaves no child', endsWithoutChildren);
  await tally.check('watch: words that the program refuses', refusesWords);
  await tally.check('watch: runs from an installed package', runsInstalled);
  if (canLimit()) await tally.check('watch: tells which changes it cannot see', tellsLimit);
  else tally.skip('watch: tells which changes it cannot see', 'unshare sets no limit here');
}
