// What is asked of each project: its lines, its files, and what its modules do in a page.
import assert from 'node:assert/strict';
import path from 'node:path';
import { browse } from './browser.mjs';
import { chunkpack, copyOf, emitted } from './command.mjs';
import { openPage, whatPageSaw } from './page.mjs';
import { readProject } from './sources.mjs';

const CONFIG = 'c.json';

function checkBuild(folder, project) {
  assert.deepEqual(chunkpack(folder, ['build', CONFIG]), {
    status: 0,
    printed: `built: ${project.modules.length} modules, 1 chunks, 2 assets\n`,
  });
  assert.deepEqual(Object.keys(emitted(folder)), ['main.js', 'stats.json']);
}

// The whole of stats.json, from the sources alone.
function checkStats(folder, project) {
  const text = emitted(folder)['stats.json'];
  const ids = project.modules.map((module) => module.id);
  const size = project.modules.reduce((sum, module) => sum + module.size, 0);
  assert.deepEqual(JSON.parse(text), {
    assets: [{ chunk: 0, name: 'main.js' }],
    chunks: [{ entry: true, id: 0, modules: ids, name: 'main', no: 0, size }],
    groups: [{ chunks: [0], entry: true, name: 'main', roots: [project.root] }],
    modules: project.modules.map((module) => ({ blocks: [], ...module })),
    notes: [],
    splits: [],
    version: 1,
  });
  assert.match(text, /^[^\n]+\n$/);
}

// Each module is instantiated once and no other is, they end in the order of ECMA-262, and nothing throws.
function checkRun(saw, project) {
  const ids = project.modules.map((module) => module.id);
  assert.deepEqual(saw.problems, []);
  assert.deepEqual(saw.instances.map((instance) => instance.id), ids);
  assert.deepEqual([...saw.started].sort((one, other) => one - other), ids);
  assert.deepEqual(saw.ended, project.order);
  assert.deepEqual(saw.chunks, [0]);
}

// A module with imports is an ES module, one of no bytes isn't, and neither exports a name.
function checkExports(saw, project) {
  for (const { id, marked, names } of saw.instances) {
    assert.equal(marked, project.modules[id].sync.length > 0, project.modules[id].path);
    assert.deepEqual(names, [], project.modules[id].path);
  }
}

async function checkPage(folder, project) {
  const page = await openPage(path.join(folder, 'dist'), ['main.js']);
  const saw = whatPageSaw(page);
  checkRun(saw, project);
  checkExports(saw, project);
  assert.deepEqual(page.loads, [], 'one chunk loads no other');
}

// The runtime and the modules are the page's once, also where a page has the script twice.
async function checkTwice(folder, project) {
  const page = await openPage(path.join(folder, 'dist'), ['main.js', 'main.js']);
  checkRun(whatPageSaw(page), project);
}

// Again over what the first build left, and in another folder.
function checkRebuild(folder, project) {
  const before = emitted(folder);
  checkBuild(folder, project);
  assert.deepEqual(emitted(folder), before);
  const other = copyOf(folder);
  checkBuild(other, project);
  assert.deepEqual(emitted(other), before);
}

function checkBrowser(browser, folder, project) {
  const saw = browse(browser, folder, 'dist/main.js');
  checkRun(saw, project);
  checkExports(saw, project);
}

export async function checkProject(tally, name, folder, browser) {
  const project = readProject(folder, CONFIG);
  await tally.check(`${name}: builds`, () => checkBuild(folder, project));
  await tally.check(`${name}: stats.json agrees with the sources`, () => checkStats(folder, project));
  await tally.check(`${name}: each module runs once, in order`, () => checkPage(folder, project));
  await tally.check(`${name}: a second script element changes nothing`, () => checkTwice(folder, project));
  await tally.check(`${name}: equal bytes again`, () => checkRebuild(folder, project));
  if (browser) await tally.check(`${name}: runs in a browser`, () => checkBrowser(browser, folder, project));
  else tally.skip(`${name}: runs in a browser`, 'no Chromium is on PATH');
}
