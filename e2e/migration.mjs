// What docs/FROM_WEBPACK.md, and docs/USING.md of modules, say of Chunkpack is built and run, with the page's own lines where it has
// some: a block of JavaScript there begins with its file's name, and a block of JSON is a configuration.
import assert from 'node:assert/strict';
import fs from 'node:fs';
import path from 'node:path';
import vm from 'node:vm';
import { chunkpack, projectOf, repository } from './command.mjs';
import { openPage, whatPageSaw } from './page.mjs';

const TEXT = fs.readFileSync(path.join(repository, 'docs/FROM_WEBPACK.md'), 'utf8');
const ES = 'export const value = 1;\nself.saw = value;\n';

function section(heading) {
  const [, text] = TEXT.split(`\n### ${heading}\n`);
  assert.ok(text, heading);
  return text.split('\n### ')[0];
}

// The blocks of a section: files by name, and the configuration put together.
function blocksOf(heading) {
  const files = {};
  const config = { entry: './src/index.js' };
  for (const [, kind, text] of section(heading).matchAll(/```(\w+)\n(.*?)```/gs)) {
    if (kind === 'js') files[/^\/\/ (\S+)/.exec(text)[1]] = text;
    else Object.assign(config, JSON.parse(text));
  }
  return { 'c.json': JSON.stringify(config), ...files };
}

function build(files) {
  const folder = projectOf({ 'c.json': '{"entry":"./src/index.js"}', ...files });
  return { folder, ...chunkpack(folder, ['build', 'c.json']) };
}

function stats(folder) {
  return JSON.parse(fs.readFileSync(path.join(folder, 'dist/stats.json'), 'utf8'));
}

// What the modules of a build leave in `self.saw`, and what went wrong in the page.
async function saw(files) {
  const { folder, status, printed } = build(files);
  assert.equal(status, 0, printed);
  const page = await openPage(path.join(folder, 'dist'), ['main.js']);
  const found = page.evaluate('JSON.stringify(self.saw)');
  return { folder, saw: found === undefined ? undefined : JSON.parse(found), problems: whatPageSaw(page).problems.map(String) };
}

async function sees(expected, files) {
  const { saw: found, problems } = await saw(files);
  assert.deepEqual({ found, problems }, { found: expected, problems: [] });
}

async function breaks(pattern, files) {
  const { problems } = await saw(files);
  assert.match(problems.join('\n'), pattern);
}

// The build ends well, and the page can't read what it wrote.
function parsesNot(files) {
  const { folder, status, printed } = build(files);
  assert.equal(status, 0, printed);
  assert.throws(() => new vm.Script(fs.readFileSync(path.join(folder, 'dist/main.js'), 'utf8')), SyntaxError);
}

function faults(pattern, files) {
  const { status, printed } = build(files);
  assert.equal(status, 1);
  assert.match(printed, pattern);
}

async function environment() {
  const own = blocksOf('process.env.NODE_ENV and global');
  const asks = 'self.saw = [process.env.NODE_ENV, global === self];\n';
  await sees(['production', true], { ...own, 'src/app.js': asks });
  await breaks(/process is not defined/, { 'src/index.js': asks });
  await sees('1.2.0', { 'src/index.js': 'import "./env.js";\nimport "./app.js";\n', 'src/env.js': 'self.VERSION = "1.2.0";\n', 'src/app.js': 'self.saw = VERSION;\n' });
}

async function oldPackages() {
  const own = blocksOf('Old packages that ask `typeof require`');
  const head = 'if (typeof require === "function") module.exports = require("dep"); else self.old = true;\n';
  const files = { 'src/index.js': 'import old from "old";\nself.saw = old;\n', 'node_modules/old/index.js': head, 'node_modules/old/es/index.js': 'export { default } from "dep";\n', 'node_modules/dep/index.js': 'module.exports = "dep";\n' };
  await sees('dep', { ...files, ...own });
  await sees({}, files);
  await sees(['object', 'object', 'undefined', 'undefined'], { 'src/index.js': 'self.saw = [typeof exports, typeof module, typeof require, typeof define];\n' });
}

async function browserObjects() {
  const own = blocksOf('`browser` as an object');
  const names = ['index', 'page', 'util', 'util-page'];
  const files = Object.fromEntries(names.map((name) => [`node_modules/both/${name}.js`, `module.exports = "${name}";\n`]));
  const project = { ...files, 'node_modules/both/package.json': '{"browser":{"./index.js":"./page.js","./util.js":"./util-page.js"}}', 'src/index.js': 'self.saw = [require("both"), require("both/util")];\n' };
  await sees(['index', 'util'], project);
  await sees(['page', 'util-page'], { ...project, ...own });
  await sees({}, { 'c.json': '{"entry":"./src/index.js","resolve":{"alias":{"fs$":"./src/empty.js"}}}', 'src/empty.js': '', 'src/index.js': 'self.saw = require("fs");\n' });
  await sees('page', { ...project, 'node_modules/both/package.json': '{"browser":"./page.js"}', 'src/index.js': 'self.saw = require("both");\n' });
}

async function computedNames() {
  const own = blocksOf('Computed names in `require` and `import()`');
  const files = { 'src/home.js': 'export default "home";\n', 'src/help.js': ES, 'src/de.js': 'module.exports = "de";\n', 'src/en.js': 'self.ran = true;\n' };
  const index = 'import { pages } from "./pages.js";\nimport locales from "./locales.js";\npages["ho" + "me"]().then((page) => { self.saw = [page.default, locales["d" + "e"], self.ran === undefined]; });\n';
  await sees(['home', 'de', true], { ...own, ...files, 'src/index.js': index });
  const { folder } = build({ ...own, ...files, 'src/index.js': index });
  assert.equal(stats(folder).chunks.length, 3);
  faults(/B8/, { 'src/index.js': 'import("./" + self.name);\n' });
  faults(/B8/, { 'src/index.js': 'import(`./home.js`);\n', ...files });
  for (const call of ['require("./" + self.name)', 'require.context("./", true)', 'require.ensure([], () => {})', 'require.resolve("./home.js")']) {
    await breaks(/require is not defined/, { ...files, 'src/index.js': `${call};\n` });
  }
}

async function folderKeys() {
  const own = blocksOf('Keys of `exports` that name a folder, and `imports`');
  const files = { 'package.json': '{"name":"own","imports":{"#settings":"./src/settings.js"}}', 'src/settings.js': 'export default "settings";\n', 'node_modules/kit/package.json': '{"exports":{"./es/":"./es/"}}', 'node_modules/kit/es/one.js': 'export default "one";\n', 'src/index.js': 'import one from "kit/es/one.js";\nimport settings from "#settings";\nself.saw = [one, settings];\n' };
  await sees(['one', 'settings'], { ...files, ...own });
  faults(/B10 "kit\/es\/one.js" is not exported\n.*B9 cannot resolve "#settings"/, files);
}

async function otherFiles() {
  for (const ending of ['ts', 'tsx', 'jsx', 'css']) faults(/B15/, { 'src/index.js': `import "./a.${ending}";\n`, [`src/a.${ending}`]: '' });
  faults(/B2/, { 'src/index.js': 'const a = <b>x</b>;\n' });
  parsesNot({ 'src/index.js': 'const a: number = 1;\n' });
  faults(/B7/, { 'src/index.js': 'new Worker(new URL("./a.js", import.meta.url));\n', 'src/a.js': '' });
}

async function externals() {
  const own = blocksOf('Externals');
  await sees([18, 18], { ...own, 'src/index.js': 'import "./page.js";\nimport "./app.js";\n', 'src/page.js': 'self.React = { version: 18 };\n', 'src/app.js': 'import React, { version } from "react";\nself.saw = [React.version, version];\n' });
}

async function thisOfImports() {
  assert.match(section('`this` of imported functions'), /gets an object/);
  await sees(['object', 'object', true], { 'src/index.js': 'import { run, plain } from "./b.js";\nself.saw = [typeof run(), typeof plain(), (0, plain)()];\n', 'src/b.js': 'exports.run = function () { "use strict"; return this; };\nexports.plain = function () { return this === self ? true : this; };\n' });
  await sees(['object', true, 'undefined'], { 'src/index.js': 'import { run } from "./b.js";\nimport * as tools from "./b.js";\nself.saw = [typeof run(), tools.run() === tools, typeof (0, run)()];\n', 'src/b.js': 'export function run() { return this; }\n' });
}

async function hotLoops() {
  const own = blocksOf('Hot loops');
  await sees(6, { ...own, 'src/mix.js': 'export const mix = (a, b) => a + b;\n', 'src/index.js': 'import { sum } from "./loop.js";\nself.saw = sum(4);\n' });
}

async function attributes() {
  const files = { 'src/data.json': '{"a":1}' };
  await sees(1, { ...files, 'src/index.js': 'import data from "./data.json" with { type: "json" };\nself.saw = data.a;\n' });
  await sees(1, { ...files, 'src/index.js': 'import data from "./data.json" with { type: "css" };\nself.saw = data.a;\n' });
  parsesNot({ ...files, 'src/index.js': 'import data from "./data.json" assert { type: "json" };\nself.saw = data.a;\n' });
  faults(/B8/, { ...files, 'src/index.js': 'import("./data.json", { with: { type: "json" } });\n' });
  await sees(1, { ...files, 'src/index.js': 'import("./data.json").then((data) => { self.saw = data.a; });\n' });
}

// Each row of the table: whether the chunk has its name, and how many notes there are.
const comments = [['x', 0], [null, 1], [null, 1], [null, 1], [null, 1], [null, 1], ['x', 1], [null, 0], [null, 0]];

function magicComments() {
  const rows = [...section('Magic comments').matchAll(/^\| `{1,2}(import\(.*?)`{1,2}( and a new line)? \|/gm)];
  assert.equal(rows.length, comments.length);
  for (const [at, [, text, line]] of rows.entries()) {
    const { folder, status, printed } = build({ 'src/index.js': line ? `${text}\n"./x.js");\n` : `${text};\n`, 'src/x.js': ES });
    assert.equal(status, 0, `${text}: ${printed}`);
    const { chunks, notes } = stats(folder);
    assert.deepEqual([chunks.find((chunk) => !chunk.entry).name, notes.length], comments[at], text);
  }
}

async function others() {
  parsesNot({ 'src/index.js': 'self.saw = await 1;\nexport {};\n' });
  await breaks(/Cannot access 'exports' before initialization/, { 'src/index.js': 'const exports = {};\nself.saw = exports;\nexport {};\n' });
  await breaks(/define is not defined/, { 'src/index.js': 'define([], () => 1);\n' });
  await sees(true, { 'src/index.js': 'self.saw = module.hot === undefined;\n' });
  await sees('inner', { 'c.json': '{"entry":"./src/index.mjs"}', 'src/index.mjs': 'import old from "./old.js";\nself.saw = old;\n', 'src/old.js': 'exports.__esModule = true;\nexports.default = "inner";\n' });
  await breaks(/require is not defined/, { 'src/index.js': 'require("fs");\n' });
}

// Another build of the page finds the first one's modules in the place of its own.
async function twoBuilds() {
  const first = build({ 'src/index.js': 'self.saw = "first";\n' });
  const second = build({ 'c.json': '{"entry":{"second":"./src/index.js"}}', 'src/index.js': 'self.saw = "second";\n' });
  fs.copyFileSync(path.join(second.folder, 'dist/second.js'), path.join(first.folder, 'dist/second.js'));
  const page = await openPage(path.join(first.folder, 'dist'), ['main.js', 'second.js']);
  assert.equal(page.evaluate('self.saw'), 'first');
}

// What docs/USING.md says of requests, comments and the configuration besides.
function requests() {
  const files = { 'src/d.js': ES };
  const noted = (text) => {
    const { folder, status, printed } = build({ ...files, 'src/index.js': text });
    assert.equal(status, 0, printed);
    return stats(folder).notes.map((note) => note.kind + note.detail);
  };
  faults(/^src\/index.js:1:1: B7 /, { ...files, 'src/index.js': 'import "./\\u0064.js";\n' });
  faults(/^src\/index.js:1:1: B8 /, { ...files, 'src/index.js': 'import("./\\u0064.js");\n' });
  for (const request of ['"./\\u0064.js"', '`./d.js`', '"./" + "d.js"']) assert.deepEqual(noted(`require(${request});\n`), ['N2'], request);
  assert.deepEqual(noted("import './d.js';\nrequire('./d.js');\n"), []);
  assert.deepEqual(noted('require("fs");\n'), ['N1fs']);
  assert.deepEqual(noted('import(/* a word */ /* webpackMode: "eager" */ /* webpackChunkName: "x" */ "./d.js");\n'), []);
  assert.deepEqual(noted('import /* webpackChunkName: "x" */ ("./d.js");\n'), []);
}

function configuration() {
  const refused = (text) => chunkpack(projectOf({ 'c.json': text }), ['build', 'c.json']);
  assert.deepEqual(refused('{\n  "entry": "./a.js",\n  "output": { "clean": true }\n}\n'), { status: 2, printed: 'c.json:3:15: config UnknownKey\n' });
  assert.deepEqual(refused('{"$schema":"x"}'), { status: 2, printed: 'c.json:1:2: config UnknownKey\n' });
  const dots = { 'c.json': '{"entry":"./src/index.js","resolve":{"extensions":[".mjs","..."]}}', 'src/index.js': 'import "./d";\n' };
  faults(/B9 cannot resolve "\.\/d"/, { ...dots, 'src/d.js': ES });
  faults(/^src\/d\.\.\.:1:1: B15 /, { ...dots, 'src/d...': ES });
}

function defaults() {
  const lazy = { 'src/index.js': 'import("./a.js");\n', 'src/a.js': ES };
  const names = (files) => stats(build(files).folder).assets.map((asset) => asset.name).sort();
  assert.deepEqual(names(lazy), ['1.js', 'main.js']);
  const named = { 'src/index.js': 'import(/* webpackChunkName: "a" */ "./a.js");\n', 'src/a.js': ES };
  assert.deepEqual(names(named), ['1.js', 'main.js']);
  assert.deepEqual(names({ ...named, 'c.json': '{"entry":"./src/index.js","output":{"chunkFilename":"[name].js"}}' }), ['a.js', 'main.js']);
  const two = { 'c.json': '{"entry":{"a":"./src/a.js","b":"./src/b.js"},"output":{"filename":"entry-[name].js","chunkFilename":"other-[id].js"},"optimization":{"splitChunks":{"chunks":"all","minSize":0}}}', 'src/a.js': 'import "./c.js";\n', 'src/b.js': 'import "./c.js";\n', 'src/c.js': ES };
  const large = { 'src/index.js': 'import "large";\n', 'node_modules/large/index.js': `//${'x'.repeat(30000)}\n` };
  const bounds = (threshold) => JSON.stringify({ entry: './src/index.js', optimization: { splitChunks: { chunks: 'all', minSize: 40000, enforceSizeThreshold: threshold } } });
  assert.deepEqual(names({ ...large, 'c.json': bounds(40000) }), ['main.js']);
  assert.deepEqual(names({ ...large, 'c.json': bounds(10000) }), ['1.js', 'main.js']);
  assert.deepEqual(names(two), ['entry-a.js', 'entry-b.js', 'other-2.js']);
}

const trials = { environment, oldPackages, browserObjects, computedNames, folderKeys, otherFiles, externals, thisOfImports, hotLoops, attributes, magicComments, others, twoBuilds, defaults, requests, configuration };

export async function checkMigration(tally) {
  for (const [name, trial] of Object.entries(trials)) await tally.check(`what documents say of ${name} is so`, trial);
}
