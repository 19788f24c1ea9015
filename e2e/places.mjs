// What stands where a command reads and writes: links, second names, pipes, devices, folders, and no room.
import assert from 'node:assert/strict';
import { spawn, spawnSync } from 'node:child_process';
import { once } from 'node:events';
import fs from 'node:fs';
import path from 'node:path';
import { chunkpack, isOnPath, programPath, projectOf, run, temporaryFolder } from './command.mjs';

const ENTRY = '{"entry":"./src/index.js"}';
const WORDS = ['build', 'c.json'];
const BUILT = { status: 0, printed: 'built: 1 modules, 1 chunks, 2 assets\n' };
const READ_FAILED = { status: 3, printed: 'read failed\n' };
const WRITE_FAILED = { status: 4, printed: 'write failed\n' };
const NOBODY = 65_534;

// A command that waits for a pipe is ended, which fails its case.
function build(folder, words = WORDS) {
  return chunkpack(folder, words, { timeout: 60_000 });
}

function makePipe(place) {
  assert.equal(spawnSync('mkfifo', [place]).status, 0, 'mkfifo makes a pipe');
}

// The names in `dist`, or none where it isn't there.
function names(folder) {
  const dist = path.join(folder, 'dist');
  return fs.existsSync(dist) ? fs.readdirSync(dist).sort() : undefined;
}

function texts(folder) {
  return ['main.js', 'stats.json'].map((name) => fs.readFileSync(path.join(folder, 'dist', name), 'utf8'));
}

// What a build of these files writes where nothing is in the way.
function wanted(files) {
  const folder = projectOf(files);
  assert.equal(build(folder).status, 0);
  return texts(folder);
}

const PROJECT = { 'c.json': ENTRY, 'src/index.js': '' };
const CHANGED = { 'c.json': ENTRY, 'src/index.js': 'import "./a.js";\n', 'src/a.js': '' };

function linkedConfiguration() {
  const outside = projectOf(PROJECT);
  for (const target of ['real.json', path.join(outside, 'c.json'), 'src', 'gone.json', '/dev/zero', '/dev/stdin']) {
    const folder = projectOf({ 'real.json': ENTRY, 'src/index.js': '' });
    fs.symlinkSync(target, path.join(folder, 'c.json'));
    assert.deepEqual(build(folder), READ_FAILED, target);
    assert.equal(names(folder), undefined);
  }
}

function configurationBehindLink() {
  const folder = projectOf({ ...PROJECT, 'real/deep/c.json': ENTRY });
  fs.symlinkSync('real', path.join(folder, 'linked'));
  fs.symlinkSync('..', path.join(folder, 'real', 'up'));
  assert.deepEqual(build(folder, ['build', 'real/deep/c.json']), BUILT);
  for (const config of ['linked/deep/c.json', 'real/up/c.json']) {
    assert.deepEqual(build(folder, ['build', config]), READ_FAILED, config);
  }
}

function configurationIsPipe() {
  const folder = projectOf({ 'src/index.js': '' });
  makePipe(path.join(folder, 'c.json'));
  assert.deepEqual(build(folder), READ_FAILED);
}

// Links, and a folder behind one, are no modules.
function linkedModules() {
  const folder = projectOf({
    'c.json': ENTRY, 'src/index.js': 'import "./a.js";import "../far/b.js";import "./c.js";', 'real/b.js': '',
  });
  fs.symlinkSync('../real/b.js', path.join(folder, 'src', 'a.js'));
  fs.symlinkSync('real', path.join(folder, 'far'));
  fs.symlinkSync('/dev/zero', path.join(folder, 'src', 'c.js'));
  assert.deepEqual(build(folder), {
    status: 1,
    printed: 'src/index.js:1:8: B9 cannot resolve "./a.js"\nsrc/index.js:1:24: B9 cannot resolve "../far/b.js"\n'
      + 'src/index.js:1:45: B9 cannot resolve "./c.js"\nfaults: 3\n',
  });
}

function moduleIsPipe() {
  const folder = projectOf({ 'c.json': ENTRY, 'src/index.js': 'import "./a.js";' });
  makePipe(path.join(folder, 'src', 'a.js'));
  assert.deepEqual(build(folder), { status: 1, printed: 'src/index.js:1:8: B9 cannot resolve "./a.js"\nfaults: 1\n' });
}

// What stands in the place of an asset is replaced, and what it names outside stays.
function linkedAssets() {
  const folder = projectOf({ ...PROJECT, 'kept.txt': 'kept', 'dist/other.txt': 'other' });
  fs.symlinkSync('../kept.txt', path.join(folder, 'dist', 'main.js'));
  fs.symlinkSync('/dev/full', path.join(folder, 'dist', 'stats.json'));
  assert.deepEqual(build(folder), BUILT);
  assert.deepEqual(texts(folder), wanted(PROJECT));
  assert.deepEqual(names(folder), ['main.js', 'other.txt', 'stats.json']);
  for (const name of names(folder)) assert.ok(fs.lstatSync(path.join(folder, 'dist', name)).isFile(), name);
  assert.equal(fs.readFileSync(path.join(folder, 'kept.txt'), 'utf8'), 'kept');
}

function secondName() {
  const folder = projectOf({ ...PROJECT, 'kept.txt': 'kept', 'dist/other.txt': 'other' });
  fs.linkSync(path.join(folder, 'kept.txt'), path.join(folder, 'dist', 'main.js'));
  assert.deepEqual(build(folder), BUILT);
  assert.deepEqual(texts(folder), wanted(PROJECT));
  assert.equal(fs.readFileSync(path.join(folder, 'kept.txt'), 'utf8'), 'kept');
}

// A build again leaves the files that would be as they are, and replaces those that wouldn't.
function sameBytesStay() {
  const folder = projectOf({ ...CHANGED, 'c.json': '{"entry":{"one":"./src/index.js","two":"./src/a.js"}}' });
  const numbers = () => ['one.js', 'two.js', 'stats.json'].map((name) => fs.statSync(path.join(folder, 'dist', name)).ino);
  const two = { status: 0, printed: 'built: 2 modules, 2 chunks, 3 assets\n' };
  assert.deepEqual(build(folder), two);
  const before = numbers();
  assert.deepEqual(build(folder), two);
  assert.deepEqual(numbers(), before);
  fs.writeFileSync(path.join(folder, 'src', 'index.js'), 'import "./a.js";;');
  assert.deepEqual(build(folder), two);
  const after = numbers();
  assert.notEqual(after[0], before[0], 'one.js is new');
  assert.equal(after[1], before[1], 'two.js is not');
  assert.ok(fs.readFileSync(path.join(folder, 'dist', 'one.js'), 'utf8').includes(';;'), 'one.js has the new text');
}

function assetIsPipe() {
  const folder = projectOf({ ...PROJECT, 'dist/other.txt': 'other' });
  makePipe(path.join(folder, 'dist', 'main.js'));
  assert.deepEqual(build(folder), BUILT);
  assert.deepEqual(texts(folder), wanted(PROJECT));
}

// A `dist` that is a link is the user's, and one that leads nowhere can't be written.
function linkedDist() {
  const outside = temporaryFolder();
  const folder = projectOf(PROJECT);
  fs.symlinkSync(outside, path.join(folder, 'dist'));
  assert.deepEqual(build(folder), BUILT);
  assert.deepEqual(fs.readdirSync(outside).sort(), ['main.js', 'stats.json']);
  const astray = projectOf(PROJECT);
  fs.symlinkSync('nowhere', path.join(astray, 'dist'));
  assert.deepEqual(build(astray), WRITE_FAILED);
  assert.deepEqual(fs.readdirSync(astray).sort(), ['c.json', 'dist', 'src']);
}

// A folder stands in the place of an asset: it stays, and no part of a file is left.
function folderInTheWay() {
  for (const name of ['main.js', 'stats.json']) {
    const folder = projectOf({ ...PROJECT, [`dist/${name}/x`]: '' });
    assert.deepEqual(build(folder), WRITE_FAILED);
    assert.deepEqual(fs.readdirSync(path.join(folder, 'dist', name)), ['x']);
    const others = names(folder).filter((other) => other !== name);
    assert.ok(others.every((other) => ['main.js', 'stats.json'].includes(other)), others.join());
  }
}

// The names that a build takes for files that aren't whole yet may be taken.
function spareNamesTaken() {
  const folder = projectOf({ ...PROJECT, 'dist/.chunkpack-0': 'another build' });
  fs.symlinkSync('../c.json', path.join(folder, 'dist', '.chunkpack-1'));
  assert.deepEqual(build(folder), BUILT);
  assert.deepEqual(names(folder), ['.chunkpack-0', '.chunkpack-1', 'main.js', 'stats.json']);
  assert.equal(fs.readFileSync(path.join(folder, 'dist', '.chunkpack-0'), 'utf8'), 'another build');
  assert.equal(fs.readFileSync(path.join(folder, 'c.json'), 'utf8'), ENTRY);
}

// Builds at once into one folder all end well, and leave what one leaves.
async function buildsAtOnce() {
  const program = programPath();
  const folder = projectOf(PROJECT);
  for (let round = 0; round < 5; round++) {
    const ends = Array.from({ length: 8 }, () => once(spawn(program, WORDS, { cwd: folder, stdio: 'ignore' }), 'exit'));
    for (const [status] of await Promise.all(ends)) assert.equal(status, 0);
    assert.deepEqual(texts(folder), wanted(PROJECT));
    assert.deepEqual(names(folder), ['main.js', 'stats.json']);
  }
}

// A shell gives the program so many blocks for each file that it writes. The signal for one more is ignored, so that the
// write fails as on a full disk, after some of its bytes.
function buildInBlocks(folder, blocks) {
  const script = `trap '' XFSZ; ulimit -f ${blocks}; exec "$0" "$@"`;
  return run('sh', ['-c', script, programPath(), ...WORDS], { cwd: folder, timeout: 60_000 });
}

function noRoom() {
  for (const blocks of [0, 1]) {
    const folder = projectOf(PROJECT);
    assert.deepEqual(buildInBlocks(folder, blocks), WRITE_FAILED);
    assert.deepEqual(fs.readdirSync(folder).sort(), ['c.json', 'src']);
  }
}

function earlierBuildIsWhole() {
  for (const blocks of [0, 1]) {
    const folder = projectOf(PROJECT);
    assert.deepEqual(build(folder), BUILT);
    const before = texts(folder);
    for (const [name, text] of Object.entries(CHANGED)) fs.writeFileSync(path.join(folder, name), text);
    assert.deepEqual(buildInBlocks(folder, blocks), WRITE_FAILED);
    assert.deepEqual(texts(folder), before);
    assert.deepEqual(names(folder), ['main.js', 'stats.json']);
  }
}

// As nobody where the tests run as root, whom no mode of a folder stops.
function buildAsUser(folder, words) {
  const user = process.getuid() === 0 ? { uid: NOBODY, gid: NOBODY } : {};
  return run(programPath(), words, { cwd: folder, timeout: 60_000, ...user });
}

// A `dist` that may not be written keeps what it has, and where there is none none is made.
function noLeave() {
  const folder = projectOf(PROJECT);
  assert.deepEqual(build(folder), BUILT);
  const before = texts(folder);
  fs.writeFileSync(path.join(folder, 'src', 'index.js'), 'import "./index.js";');
  const empty = projectOf(PROJECT);
  for (const place of [folder, path.join(folder, 'dist'), empty]) fs.chmodSync(place, 0o555);
  for (const place of [folder, empty]) assert.deepEqual(buildAsUser(place, WORDS), WRITE_FAILED);
  assert.deepEqual(texts(folder), before);
  assert.deepEqual(names(folder), ['main.js', 'stats.json']);
  assert.equal(names(empty), undefined);
  for (const place of [folder, path.join(folder, 'dist'), empty]) fs.chmodSync(place, 0o755);
}

function mayRunAsUser() {
  const folder = temporaryFolder();
  fs.chmodSync(folder, 0o755);
  try {
    return buildAsUser(folder, []).status === 2;
  } catch {
    return false;
  }
}

export async function checkPlaces(tally) {
  const havePipes = isOnPath('mkfifo');
  const pipes = [
    ['a configuration that is a pipe', configurationIsPipe],
    ['a module that is a pipe', moduleIsPipe],
    ['a pipe in the place of an asset', assetIsPipe],
  ];
  await tally.check('a configuration that is a link, to a device too', linkedConfiguration);
  await tally.check('a configuration behind a linked folder', configurationBehindLink);
  await tally.check('modules that are links or lie behind one', linkedModules);
  for (const [name, body] of pipes) {
    if (havePipes) await tally.check(name, body);
    else tally.skip(name, 'mkfifo is not on PATH');
  }
  await tally.check('links in the place of assets are replaced', linkedAssets);
  await tally.check('a second name in the place of an asset', secondName);
  await tally.check('files that are already as they would be written', sameBytesStay);
  await tally.check('a dist that is a link', linkedDist);
  await tally.check('a folder in the place of an asset', folderInTheWay);
  await tally.check('names of unfinished files that are taken', spareNamesTaken);
  await tally.check('builds at once into one folder', buildsAtOnce);
  await tally.check('no room for a file leaves nothing behind', noRoom);
  await tally.check('an earlier build stays whole where there is no room', earlierBuildIsWhole);
  if (mayRunAsUser()) await tally.check('a dist that may not be written', noLeave);
  else tally.skip('a dist that may not be written', 'the program does not run as nobody here');
}
