// bin/from-webpack: what it prints, what it tells, and that the program builds of it the chunks that webpack builds of the same
// configuration, where webpack is installed.
import assert from 'node:assert/strict';
import { spawnSync } from 'node:child_process';
import fs from 'node:fs';
import path from 'node:path';
import { chunkpack, projectOf, repository } from './command.mjs';
import { checkConditions } from './webpack_conditions.mjs';
import { examples, project } from './webpack_examples.mjs';

const SCRIPT = path.join(repository, 'bin', 'from-webpack');
const PEER = path.join(repository, 'e2e', 'webpack_peer.mjs');
const KINDS = ['dropped', 'differs', "can't"];

function read(folder, words = []) {
  const { status, stdout, stderr } = spawnSync(SCRIPT, words, { cwd: folder, encoding: 'utf8' });
  return { status, printed: stdout, told: stderr };
}

function folderOf({ file = 'webpack.config.js', text, files = {} }) {
  return fs.realpathSync(projectOf({ ...project, ...files, [file]: text }));
}

// The options that lines tell of, by kind.
function toldOptions(text) {
  const found = {};
  for (const line of text.split('\n').filter(Boolean)) {
    const [, kind, option] = /^([^:]+): (.+?): ./.exec(line);
    assert.ok(KINDS.includes(kind), line);
    (found[kind] ??= []).push(option);
  }
  return found;
}

// What is told, the status, and that the program builds what is printed.
function translates(example) {
  const folder = folderOf(example);
  const { status, printed, told } = read(folder);
  assert.deepEqual(toldOptions(told), example.told, told);
  assert.equal(status, example.told.differs || example.told["can't"] ? 1 : 0);
  fs.writeFileSync(path.join(folder, 'c.json'), printed);
  const built = chunkpack(folder, ['build', 'c.json']);
  assert.equal(built.status, 0, built.printed);
  return folder;
}

function ownChunks(folder) {
  const stats = JSON.parse(fs.readFileSync(path.join(folder, 'dist/stats.json'), 'utf8'));
  const files = new Map(stats.chunks.map((chunk) => [chunk.id, chunk.modules.map((number) => stats.modules[number].path).sort()]));
  const entries = stats.groups.filter((group) => group.entry).map((group) => [group.name, group.chunks.map((id) => files.get(id))]);
  return { chunks: stats.chunks.map((chunk) => ({ name: chunk.name, modules: files.get(chunk.id) })), entries: Object.fromEntries(entries) };
}

// Neither the order of chunks nor numbers count.
function inOrder({ chunks, entries }) {
  const sorted = (list) => list.map((member) => JSON.stringify(member)).sort();
  return { chunks: sorted(chunks), entries: Object.fromEntries(Object.entries(entries).sort().map(([name, list]) => [name, sorted(list)])) };
}

function peer(words) {
  const env = { ...process.env, NODE_PATH: [process.env.NODE_PATH, '/usr/share/nodejs'].filter(Boolean).join(':') };
  return spawnSync(process.execPath, [PEER, ...words], { env, encoding: 'utf8', maxBuffer: 1 << 26 });
}

async function checkPeer(tally, folders) {
  const version = peer([]);
  if (version.status !== 0) return tally.skip('translated configurations build the chunks that webpack builds', 'webpack is not installed');
  const ran = peer(folders.map(({ folder }) => folder));
  await tally.check('webpack builds the configurations', () => assert.equal(ran.status, 0, ran.stderr));
  if (ran.status !== 0) return undefined;
  for (const [at, theirs] of JSON.parse(ran.stdout).entries()) {
    const { example, folder } = folders[at];
    const compare = example.other ? assert.notDeepEqual : assert.deepEqual;
    const what = example.other ? `other chunks than webpack ${version.stdout.trim()}: ${example.other}` : `the chunks of webpack ${version.stdout.trim()}`;
    await tally.check(`from-webpack: ${example.name}: ${what}`, () => compare(inOrder(ownChunks(folder)), inOrder(theirs)));
  }
  return undefined;
}

function refuses() {
  const cases = [
    ['module.exports = [{}, {}];', /a list of configurations/],
    ['module.exports = () => 1;', /gives no object/],
    ['module.exports = require("not-there-at-all");', /node can't read it/],
    ['module.exports = () => { throw new Error("own words"); };', /own words/],
    ['module.exports = { entry: () => Promise.reject(new Error("own words")) };', /own words/],
  ];
  for (const [text, sentence] of cases) {
    const { status, printed, told } = read(projectOf({ 'webpack.config.js': text }));
    assert.deepEqual({ status, printed }, { status: 2, printed: '' }, text);
    assert.match(told, sentence);
  }
  const none = read(projectOf({}));
  assert.equal(none.status, 2);
  assert.match(none.told, /webpack\.config\.js isn't there/);
  assert.equal(read(projectOf({}), ['a', 'b']).status, 2);
}

// What a configuration prints isn't mixed into what comes out.
function printsAlone() {
  const { printed, told } = read(projectOf({ 'webpack.config.js': 'console.log("a word");\nmodule.exports = { entry: "./a.js" };\n' }));
  assert.equal(JSON.parse(printed).entry, './a.js');
  assert.match(told, /^a word\n/);
}

// Where the project lies, links and manifests count.
function tellsPackages() {
  const folder = fs.realpathSync(projectOf({ 'node_modules/both/package.json': '{"name":"both","browser":{"fs":false},"sideEffects":false}', 'node_modules/@a/kit/package.json': '{"name":"@a/kit"}', 'webpack.config.js': 'module.exports = { mode: "none", entry: "./a.js", output: { publicPath: "" }, optimization: { splitChunks: false } };\n' }));
  assert.deepEqual(toldOptions(read(folder).told), { differs: ['resolve.aliasFields (by default)', 'optimization.sideEffects (by mode)'] });
  fs.symlinkSync('kit', path.join(folder, 'node_modules/@a/link'));
  assert.deepEqual(toldOptions(read(folder).told).differs, ['resolve.symlinks (by default)', 'resolve.aliasFields (by default)', 'optimization.sideEffects (by mode)']);
}

export async function checkFromWebpack(tally) {
  await tally.check('from-webpack refuses what is no configuration', refuses);
  await tally.check('from-webpack reads the conditions of cache groups', checkConditions);
  await tally.check('from-webpack prints the configuration alone', printsAlone);
  await tally.check('from-webpack tells of packages that ask for more', tellsPackages);
  const folders = [];
  for (const example of examples) {
    await tally.check(`from-webpack: ${example.name}`, () => folders.push({ example, folder: translates(example) }));
  }
  await checkPeer(tally, folders);
}
