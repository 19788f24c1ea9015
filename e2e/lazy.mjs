// Builds with chunks that are loaded on demand: a page loads exactly those that the stats name, in order, and each module runs once.
import assert from 'node:assert/strict';
import fs from 'node:fs';
import path from 'node:path';
import { chunkpack, emitted, projectOf } from './command.mjs';
import { openPage, whatPageSaw } from './page.mjs';

function built(files) {
  const folder = projectOf(files);
  const { status, printed } = chunkpack(folder, ['build', 'c.json']);
  assert.equal(status, 0, printed);
  return { dist: path.join(folder, 'dist'), stats: JSON.parse(emitted(folder)['stats.json']) };
}

// The files of a group's chunks but those that are there already.
function filesOf(stats, group) {
  const names = new Map(stats.assets.map((asset) => [asset.chunk, asset.name]));
  return stats.groups[group].chunks.filter((id) => !stats.chunks.find((chunk) => chunk.id === id).entry).map((id) => names.get(id));
}

const ROUTES = {
  'c.json': JSON.stringify({ entry: { app: './src/index.js' }, optimization: { splitChunks: { minSize: 0 } } }),
  'src/index.js': 'self.told = [];\nimport("./home.js").then((home) => self.told.push(home.name));\n'
    + 'import(/* webpackChunkName: "about" */ "./about.js").then((about) => self.told.push(about.default()));\n',
  'src/home.js': 'import { draw } from "chart";\nexport const name = draw("home");\n',
  'src/about.js': 'import { draw } from "chart";\nexport default function () { return draw("about"); }\n',
  'node_modules/chart/package.json': '{"exports":{"import":"./chart.mjs","require":"./chart.cjs"}}',
  'node_modules/chart/chart.mjs': 'export function draw(what) { return "drawn " + what; }\n',
  'node_modules/chart/chart.cjs': 'throw new Error("not this one");\n',
};

async function loadsRoutes() {
  const { dist, stats } = built(ROUTES);
  assert.equal(stats.splits.length, 1);
  const page = await openPage(dist, ['app.js']);
  await page.settle();
  const loads = [...new Set([...filesOf(stats, 2), ...filesOf(stats, 1)])];
  assert.deepEqual(page.loads, loads);
  assert.deepEqual(JSON.parse(page.evaluate('JSON.stringify(self.told.sort())')), ['drawn about', 'drawn home']);
  assert.deepEqual(whatPageSaw(page).problems, []);
}

const ENTRIES = {
  'c.json': JSON.stringify({ entry: { one: './one.js', two: './two.js' }, optimization: { splitChunks: { chunks: 'all', minSize: 0 } } }),
  'one.js': 'import { count } from "./shared.js";\nself.one = count();\n',
  'two.js': 'const shared = require("./shared.js");\nself.two = shared.count();\nimport("./late.js").then((late) => { self.late = late.default; });\n',
  'shared.js': 'let times = 0;\nexport function count() { times += 1; return times; }\n',
  'late.js': 'import { count } from "./shared.js";\nexport default count();\n',
};

// Two entries on one page share a module, which runs once.
async function loadsTwoEntries() {
  const { dist, stats } = built(ENTRIES);
  const page = await openPage(dist, ['one.js', 'two.js']);
  await page.settle();
  assert.deepEqual(JSON.parse(page.evaluate('JSON.stringify([self.one, self.two, self.late])')), [1, 2, 3]);
  assert.deepEqual(new Set(page.loads), new Set([0, 1, 2].flatMap((group) => filesOf(stats, group))));
  assert.equal(page.loads.length, new Set(page.loads).size);
}

// A chunk that can't be loaded refuses the promise, and is loaded by a later try.
async function triesAgain() {
  const { dist, stats } = built({
    'c.json': '{"entry":"./a.js"}',
    'a.js': 'self.load = () => import("./b.js").then((b) => b.default, (error) => error.message);\n',
    'b.js': 'export default "here";\n',
  });
  const [file] = filesOf(stats, 1);
  fs.renameSync(path.join(dist, file), path.join(dist, 'away'));
  const page = await openPage(dist, ['main.js']);
  page.evaluate('self.load().then((told) => { self.first = told; });');
  await page.settle();
  fs.renameSync(path.join(dist, 'away'), path.join(dist, file));
  page.evaluate('self.load().then((told) => { self.second = told; });');
  await page.settle();
  assert.deepEqual(JSON.parse(page.evaluate('JSON.stringify([self.first, self.second])')), ['chunk 1', 'here']);
}

export async function checkLazy(tally) {
  await tally.check('routes load the chunks that the stats name', loadsRoutes);
  await tally.check('two entries share a module, which runs once', loadsTwoEntries);
  await tally.check('a load that failed can be tried again', triesAgain);
}
