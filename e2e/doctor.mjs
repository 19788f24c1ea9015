// bin/doctor: each of its findings on a project made for it, what isn't one, and what it says of packages of the system. PACKAGES names
// another folder of these.
import assert from 'node:assert/strict';
import { spawnSync } from 'node:child_process';
import fs from 'node:fs';
import path from 'node:path';
import { chunkpack, programPath, projectOf, repository } from './command.mjs';

const DOCTOR = path.join(repository, 'bin', 'doctor');
const PLACE = process.env.PACKAGES ?? '/usr/share/nodejs';
// Packages of modules that a page runs as they are.
const SOUND = ['acorn', 'd3-array', 'immutable', 'jquery', 'lodash', 'semver', 'underscore', 'uuid', 'yaml', 'highlight.js', 'dompurify'];
const OTHERS = ['internmap', 'lru-cache', 'yallist'];

function doctor(folder, words = [], program = DOCTOR) {
  const { status, stdout, stderr } = spawnSync(program, words, { cwd: folder, encoding: 'utf8' });
  return { status, lines: stdout.split('\n').slice(0, -1), told: stderr };
}

// A project that builds, of an entry and modules that it may name.
function built(entry, others = {}) {
  const folder = projectOf({ 'c.json': '{"entry":"./i.js"}', 'i.js': entry, 'a.js': 'exports.a = 1;\n', 'b.js': 'exports.b = 1;\n', ...others });
  const { status, printed } = chunkpack(folder, ['build', 'c.json']);
  assert.equal(status, 0, printed);
  return folder;
}

// The findings of an entry, each by its place and a part of its line.
function finds(entry, wanted, others = {}) {
  const { status, lines, told } = doctor(built(entry, others));
  assert.deepEqual({ status, told }, { status: wanted.length > 0 ? 1 : 0, told: '' }, lines.join('\n'));
  assert.equal(lines.pop(), `findings: ${wanted.length}`, lines.join('\n'));
  for (const [at, [place, part]] of wanted.entries()) {
    assert.ok(lines[at].startsWith(`${place}: `) && lines[at].includes(part), `${lines[at]} isn't ${place} ${part}`);
  }
}

function findsRequires() {
  finds('/* é😀 */ require(`./a.js`);\nrequire("./" + "a.js");\nrequire("./\\x61.js");\nrequire("./a.js", 1);\nrequire(x);\n'
    + 'require("./gone.js");\nrequire("fs");\n', [
    ['i.js:1:14', 'N2 require without one text stays as it is written: write the text in quotes'],
    ['i.js:2:1', 'N2 require without one text stays as it is written: write the sum as one text'],
    ['i.js:3:1', 'without a backslash'],
    ['i.js:4:1', 'give it one text and nothing besides'],
    ['i.js:5:1', 'write a table of the files'],
    ['i.js:6:9', 'N1 require("./gone.js") names no file and stays as it is written: install it, or mend the name'],
    ['i.js:7:9', 'put a package for pages in its place by resolve.alias'],
  ]);
  finds('if (typeof require === "function") require("./a.js");\n', [['i.js:1:12', 'typeof require is "undefined" in a page, so require("./a.js")']]);
  finds('self.run = function (require, exports) { require("./a.js"); };\nself.go = (require) => require("./b.js");\n', [
    ['i.js:1:22', 'require is a parameter here, and require("./a.js")'], ['i.js:2:12', 'require("./b.js")']]);
  finds('require.context("./", true);\nconst where = require.resolve("./a.js");\n', [['i.js:1:1', 'require.context'], ['i.js:2:15', 'require.resolve']]);
}

// What a page doesn't come to, or what works as it is written.
function passesOverRequires() {
  finds('try { require("fs"); } catch {}\n', []);
  finds('const load = typeof require === "function" && require;\nif (load) require("fs");\n', []);
  finds('self.t = { 1: [function (require, module, exports) { require("./x"); require(y); }, {}] };\n', []);
  finds('if (typeof define === "function" && define.amd) define(["./a"], function (require) { return require("./a.js"); });\n', []);
  finds('const require = self.load;\nrequire(x);\n', []);
  finds('a.require(x);\nconst text = "require(x)"; // require(x) and typeof require\nconst r = /require(x)/;\nrequire("./a.js");\n', []);
}

function findsNames() {
  const remedy = 'begin the entry with an import of a module that says globalThis.process ??= { env: { NODE_ENV: "production" } };';
  finds('if (process.env.NODE_ENV) self.a = process.env.A;\n',
    [['i.js:1:5', `process.env is read, 2 times in this module, and nothing sets process, which a page doesn't have: ${remedy}`]]);
  finds('global.a = 1;\nself.b = { global };\n', [['i.js:1:1', 'global is read, 2 times']]);
  finds('self.t = `${process.env.A}`;\n', [['i.js:1:13', 'process.env is read']]);
}

function passesOverNames() {
  const sets = { 'set.js': 'globalThis.process ??= { env: { NODE_ENV: "production" } };\nglobalThis.global ??= globalThis;\n' };
  finds('import "./set.js";\nself.a = process.env.NODE_ENV;\nglobal.b = 1;\n', [], sets);
  finds('self.a = typeof process === "undefined" ? "" : process.env.A;\n', []);
  finds('self.root = typeof self !== "undefined" ? self : global;\n', []);
  finds('(function (global, factory) { factory(global); })(self, function (global) { global.a = 1; });\n', []);
  finds('self.a = { global: 1, process: { env: 2 } }.global;\nself.process.env;\nconst b = "process.env";\n', []);
  finds('import process, { env } from "./set.js";\nself.a = process.env;\n', [], { 'set.js': 'export default { env: {} };\nexport const env = 1;\n' });
  finds('const { global } = self;\nvar one, process = {};\nself.a = [global, process.env];\n', []);
}

function findsAssertions() {
  const entry = 'import d from "./d.json" assert { type: "json" };\nself.d = d;\n';
  const parse = "the chunk doesn't parse (Unexpected token '{') in i.js: ";
  finds(entry, [[placeInChunk(entry), parse], ['i.js:1:26', 'write with {..}']], { 'd.json': '{}' });
  finds(entry.replace('assert', 'with'), [], { 'd.json': '{}' });
}

// Where the chunk has the bracket that it can't have.
function placeInChunk(entry) {
  const text = fs.readFileSync(path.join(built(entry, { 'd.json': '{}' }), 'dist', 'main.js'), 'utf8');
  const lines = text.split('\n');
  const line = lines.findIndex((one) => one.includes('assert {'));
  return `dist/main.js:${line + 1}:${lines[line].indexOf('{') + 1}`;
}

function findsComments() {
  finds('import(/* webpackChunkName: "a", */ "./a.js");\nimport(/* webpackChunkName: "a", webpackExports: ["a"] */ "./a.js");\n'
    + 'import(/* webpackChunkName: `a` */ "./a.js");\nimport(/* webpackInclude: /a/ */ "./a.js");\nimport(/* webpackPrefetch: true */ "./a.js");\n', [
    ['i.js:1:8', "N4 the magic comment can't be read: take away the comma behind its last pair"],
    ['i.js:2:8', 'take the list out'], ['i.js:3:8', 'write the name in quotes'], ['i.js:4:8', 'take the regular expression out'],
    ['i.js:5:8', "N3 the magic comment's key webpackPrefetch has no effect: take the key out"]]);
  finds('import("./a.js" /* webpackChunkName: "a" */);\nimport /* webpackChunkName: "a" */ ("./a.js");\n'
    + 'import(// webpackChunkName: "a"\n"./a.js");\nimport(/* webpackChunkName: "b" */ "./b.js");\n// import("./a.js" /* webpackChunkName: "a" */)\n', [
    ['i.js:1:17', "webpackChunkName isn't read behind the text"], ['i.js:2:8', "isn't read before the bracket"], ['i.js:3:8', "isn't read in a // comment"]]);
}

function findsConfiguration() {
  const others = { 'c.json': '{"entry":"./i.js",\n "resolve":{"extensions":[".js","..."],"mainFields":["..."]}}' };
  finds('', [['c.json:2:33', '"..." among resolve.extensions is a text like any other: write ".js", ".json" in its place'],
    ['c.json:2:54', '"..." among resolve.mainFields']], others);
  const folder = built('', others);
  fs.renameSync(path.join(folder, 'c.json'), path.join(folder, 'other.json'));
  assert.deepEqual(doctor(folder).lines, ['findings: 0']);
  assert.equal(doctor(folder, ['other.json']).lines.length, 3);
}

function findsStaleBuilds() {
  const folder = built('require("./a.js");\nrequire("./b.js");\n');
  fs.writeFileSync(path.join(folder, 'a.js'), 'exports.a = 12;\n');
  fs.rmSync(path.join(folder, 'b.js'));
  fs.rmSync(path.join(folder, 'dist', 'main.js'));
  assert.deepEqual(doctor(folder).lines, ['a.js:1:1: has changed since the build: build again', "b.js:1:1: isn't there since the build: build again",
    "dist/main.js:1:1: the chunk isn't there: build again", 'findings: 3']);
}

function everyFile(folder) {
  return fs.readdirSync(folder, { recursive: true }).sort().map((name) => {
    const { mtimeMs } = fs.statSync(path.join(folder, name));
    return [name, mtimeMs];
  });
}

function leavesNoTraces() {
  const folder = built('require(x);\n');
  const before = everyFile(folder);
  assert.equal(doctor(folder).status, 1);
  assert.deepEqual(everyFile(folder), before);
}

function refuses() {
  const folder = projectOf({ 'c.json': '{}' });
  assert.deepEqual(doctor(folder), { status: 2, lines: [], told: "doctor: dist/stats.json isn't there: build first\n" });
  assert.deepEqual(doctor(folder, ['a', 'b']), { status: 2, lines: [], told: 'usage: bin/doctor [CONFIG]\n' });
  fs.mkdirSync(path.join(folder, 'dist'));
  fs.writeFileSync(path.join(folder, 'dist', 'stats.json'), '{"version":"5.0.0","modules":[]}');
  assert.match(doctor(folder).told, /^doctor: These are stats of version "5\.0\.0"/);
  const good = built('');
  assert.match(doctor(good, ['gone.json']).told, /^doctor: ENOENT/);
  fs.writeFileSync(path.join(good, 'bad.json'), '{');
  assert.equal(doctor(good, ['bad.json']).status, 2);
}

// As npm puts a package: through a link, with none of the crates.
function runsInstalled() {
  const folder = built('require(x);\n');
  const place = path.join(folder, 'node_modules', 'chunkpack');
  for (const part of ['bin/doctor', 'doctor', 'view']) fs.cpSync(path.join(repository, part), path.join(place, part), { recursive: true });
  fs.mkdirSync(path.join(folder, 'node_modules', '.bin'));
  const link = path.join(folder, 'node_modules', '.bin', 'chunkpack-doctor');
  fs.symlinkSync('../chunkpack/bin/doctor', link);
  assert.equal(doctor(folder, [], link).lines.at(-1), 'findings: 1');
}

// The findings of a program over a package.
function findingsOf(name) {
  const folder = projectOf({ 'c.json': '{"entry":"./m.js"}', 'm.js': `require("${name}");\n` });
  for (const one of [name, ...OTHERS]) {
    if (fs.existsSync(path.join(PLACE, one))) fs.cpSync(path.join(PLACE, one), path.join(folder, 'node_modules', one), { recursive: true, dereference: true });
  }
  const { status, stdout } = spawnSync(programPath(), ['build', 'c.json'], { cwd: folder, encoding: 'utf8' });
  assert.equal(status, 0, stdout);
  return doctor(folder).lines;
}

function readsReact() {
  const lines = findingsOf('react').filter((line) => line.startsWith('node_modules/react/index.js'));
  assert.equal(lines.length, 1);
  assert.match(lines[0], /^node_modules\/react\/index\.js:3:5: process\.env is read/);
}

export async function checkDoctor(tally) {
  const checks = {
    'requires that are not read': findsRequires, 'requires that are no finding': passesOverRequires, 'names that a page lacks': findsNames,
    'names that are there': passesOverNames, 'assertions and chunks that do not parse': findsAssertions, 'magic comments that are lost': findsComments,
    'a list with "..."': findsConfiguration, 'a build that is stale': findsStaleBuilds, 'leaves no traces': leavesNoTraces,
    'what it cannot read': refuses, 'runs from an installed package': runsInstalled,
  };
  for (const [name, body] of Object.entries(checks)) await tally.check(`doctor: ${name}`, body);
  const packages = [...SOUND.map((name) => [name, () => assert.deepEqual(findingsOf(name), ['findings: 0'])]), ['react', readsReact]];
  for (const [name, body] of packages) {
    if (fs.existsSync(path.join(PLACE, name, 'package.json'))) await tally.check(`doctor: no false alarm over ${name}`, body);
    else tally.skip(`doctor: no false alarm over ${name}`, 'it is not installed');
  }
}
