// The page that compares two builds: what came, went, moved, grew and shrank, each held against the two stats; why a module has moved; and
// the ways to hand it a second file. VIEW_SHOTS=FOLDER keeps the pictures.
import assert from 'node:assert/strict';
import fs from 'node:fs';
import path from 'node:path';
import { chunkpack, programPath, projectOf, run } from './command.mjs';
import { viewOf, withPage } from './view.mjs';
import { large, shop, small } from './view_projects.mjs';
import { Build } from '../view/src/build.mjs';
import { Comparison } from '../view/src/comparison.mjs';

const PROJECTS = 60;

// The shop some weeks later: the table is shown at once, taxes are new, cells are gone, and rules have grown.
const laterShop = {
  ...shop,
  'src/shop.js': `import { table } from "./lib/table.js";\n${shop['src/shop.js']}self.table = table;\n`,
  'src/cart.js': `import { tax } from "./lib/tax.js";\nself.tax = tax;\n${shop['src/cart.js']}`,
  'src/lib/tax.js': `export const tax = 7;\n// ${'t'.repeat(800)}\n`,
  'src/lib/grid.js': shop['src/lib/grid.js'].replace('import { cell } from "./cell.js";\nexport const grid = cell;', 'export const grid = "grid";'),
  'src/lib/rules.js': `${shop['src/lib/rules.js']}// ${'r'.repeat(500)}\n`,
};
delete laterShop['src/lib/cell.js'];

function statsOf(files, program = programPath()) {
  const folder = projectOf(files);
  const { status, printed } = run(program, ['build', 'c.json'], { cwd: folder });
  assert.equal(status, 0, printed);
  return JSON.parse(fs.readFileSync(path.join(folder, 'dist', 'stats.json'), 'utf8'));
}

function sizes(stats) {
  return new Map(stats.modules.map(({ path: name, size }) => [name, size]));
}

function sum(numbers) {
  return numbers.reduce((all, number) => all + number, 0);
}

// What the two stats give by themselves: the modules of each kind but for those that moved, and the bytes of all chunks.
function agrees(earlier, now) {
  const compared = new Comparison(new Build(earlier), new Build(now), 'earlier');
  const [before, after] = [sizes(earlier), sizes(now)];
  const paths = (kind) => compared.of(kind).map((change) => change.path).sort();
  const only = (one, other) => [...one.keys()].filter((name) => !other.has(name)).sort();
  assert.deepEqual(paths('came'), only(after, before));
  assert.deepEqual(paths('went'), only(before, after));
  const moved = new Set(paths('moved'));
  const kept = [...after.keys()].filter((name) => before.has(name) && !moved.has(name));
  assert.deepEqual(paths('grew'), kept.filter((name) => after.get(name) > before.get(name)).sort());
  assert.deepEqual(paths('shrank'), kept.filter((name) => after.get(name) < before.get(name)).sort());
  const bytes = (stats) => sum(stats.chunks.map((chunk) => chunk.size));
  assert.equal(compared.size, bytes(now) - bytes(earlier));
  assert.equal(sum(compared.chunks.map((change) => change.size)), compared.size);
  return compared;
}

// A build beside itself, and random ones beside one another.
function comparesBuilds() {
  const program = programPath();
  let moved = 0;
  for (let seed = 1; seed <= PROJECTS; seed++) {
    const one = statsOf(small(seed), program);
    const same = agrees(one, one);
    assert.deepEqual([same.modules, same.chunks], [[], []]);
    moved += agrees(one, statsOf(small(seed + 1000), program)).of('moved').length;
  }
  assert.ok(moved > PROJECTS / 2, `${moved} moved`);
  agrees(statsOf(large(300), program), statsOf(large(400), program));
}

// Chunks without a name are found again though their numbers are others, as each module of them is.
function findsChunksAgain() {
  const entry = (first) => `${first}self.a = () => import("./m.js");\n`;
  const files = { 'c.json': '{"entry":"./e.js"}', 'e.js': entry(''), 'm.js': 'exports.m = 1;\n', 'a.js': 'exports.a = 1;\n' };
  const later = { ...files, 'e.js': entry('self.b = () => import("./a.js");\n') };
  const compared = agrees(statsOf(files), statsOf(later));
  assert.deepEqual(compared.modules.map(({ path: name, kind }) => [name, kind]), [['e.js', 'grew'], ['a.js', 'came']]);
  assert.deepEqual(compared.chunks.map(({ chunk, kind }) => [chunk.title, kind]), [['main', 'changed'], ['a.js', 'came']]);
}

function built(files) {
  const folder = projectOf(files);
  assert.equal(chunkpack(folder, ['build', 'c.json']).status, 0);
  return folder;
}

// A project with the page that compares its later build with an earlier one.
function comparedShop() {
  const [earlier, now] = [built(shop), built(laterShop)];
  const other = path.join(earlier, 'dist', 'stats.json');
  const index = path.join(now, 'dist', 'view', 'index.html');
  assert.deepEqual(viewOf(now, ['--with', other]), { status: 0, printed: `open ${index}\n`, told: '' });
  return { index, other, stats: path.join(now, 'dist', 'stats.json') };
}

const shownTab = 'document.querySelector(".tabs [aria-selected=true]")?.innerText';

async function showsChanges(browser, { index }, scheme) {
  await withPage(browser, index, scheme, async (view) => {
    await view.page.until(`${shownTab} === "Compared (7)" && document.querySelector(".told")`);
    assert.match(await view.text('.told'), /^Since \S+stats\.json: modules: 1 came, 1 went, 1 moved, 3 grew, 1 shrank; all chunks together \+852 bytes\.$/);
    const rows = await view.texts('[role=tabpanel] .row');
    const row = (name) => rows.find((one) => one.startsWith(name));
    assert.match(row('src/lib/tax.js'), /\+826 bytes$/);
    assert.match(row('src/lib/cell.js'), /−432 bytes$/);
    assert.match(row('src/lib/table.js'), /desk, .*→ shop, desk, 1\.1 kB$/);
    await view.choose('[role=tabpanel]', 'src/lib/table.js');
    await view.page.until('document.querySelector(".reason")');
    assert.deepEqual(await view.texts('.reason p'), [
      'shop needs it now, and has to bring it. A page may begin with it.',
      'pay needn’t bring it any more: in whatever order a page loads groups, one before pay has brought it.',
      'src/help.js from src/shop.js needn’t bring it any more: in whatever order a page loads groups, one before src/help.js from src/shop.js has brought it.',
    ]);
    await view.shoot(`with-${scheme}`);
    await view.page.evaluate('document.querySelector(".details .light").click()');
    await view.page.until('document.querySelector(".details h3")?.innerText.startsWith("In ")');
    await view.page.evaluate('document.querySelector(".bar button").click()');
    await view.page.until('document.querySelector(".details h2").innerText.startsWith("Chunk ")');
    await view.shoot(`with-${scheme}-chunk`);
  });
}

async function findsChanges(browser, { index }) {
  await withPage(browser, index, 'light', async (view) => {
    await view.page.until('document.querySelector(".told")');
    await view.search('lib/tax');
    assert.deepEqual(await view.texts('[role=tabpanel] .row .name'), ['Came (1)', 'src/lib/tax.js']);
    await view.search('');
    await view.page.evaluate('document.querySelector("[role=tabpanel] .rows").focus()');
    await view.page.press('ArrowDown', 'ArrowDown', 'Enter');
    await view.page.until('document.querySelector(".details h2").innerText.endsWith(".js")');
  });
}

function drop(text, name) {
  return `{
    const dataTransfer = new DataTransfer();
    dataTransfer.items.add(new File([${JSON.stringify(text)}], ${JSON.stringify(name)}));
    dispatchEvent(new DragEvent("drop", { dataTransfer }));
  }`;
}

// A second file that is dropped is compared, also after one that can't be read; “Open stats…” ends it.
async function takesSecondFile(browser, { index, other, stats }) {
  await withPage(browser, index, 'dark', async (view) => {
    await view.page.until('document.querySelector(".told")');
    await view.pick(stats);
    await view.page.until(`${shownTab}?.startsWith("Chunks")`);
    assert.equal((await view.texts('[role=tab]')).length, 5);
    await view.page.evaluate(drop('{', 'half.json'));
    assert.match(await view.problem(), /half\.json: This file breaks off/);
    await view.page.evaluate(drop(fs.readFileSync(other, 'utf8'), 'then.json'));
    await view.page.until('document.querySelector(".told")?.innerText.startsWith("Since then.json: ")');
    await view.page.evaluate(drop(fs.readFileSync(stats, 'utf8'), 'same.json'));
    await view.page.until('document.querySelector(".told")?.innerText === "Since same.json: modules: none changed; all chunks together as before."');
    await view.shoot('with-dark-same');
  });
}

function refusesWords() {
  const folder = built({ 'c.json': '{"entry":"./a.js"}', 'a.js': '' });
  const usage = { status: 2, printed: '', told: 'usage: bin/view [DIST] [--with STATS]\n' };
  for (const words of [['--with'], ['dist', '--with'], ['--with', 'a', '--with', 'b']]) assert.deepEqual(viewOf(folder, words), usage);
  assert.deepEqual(viewOf(folder, ['--with', 'gone.json']), { status: 1, printed: '', told: 'view: gone.json is no file: name the stats.json of an earlier build\n' });
  assert.equal(viewOf(folder, ['dist', '--with', 'dist/stats.json']).status, 0);
}

export async function checkViewWith(tally, browser) {
  await tally.check('view: what two builds differ in agrees with their stats', comparesBuilds);
  await tally.check('view: chunks without a name are found again', findsChunksAgain);
  await tally.check('view: words with --with', refusesWords);
  const made = {};
  await tally.check('view: a page that compares is built', () => Object.assign(made, comparedShop()));
  const runs = [
    ['what has changed and why', () => showsChanges(browser, made, 'light')],
    ['the same in dark', () => showsChanges(browser, made, 'dark')],
    ['search and keys among changes', () => findsChanges(browser, made)],
    ['a second file', () => takesSecondFile(browser, made)],
  ];
  for (const [name, body] of runs) {
    if (browser) await tally.check(`view: compares: ${name}`, body);
    else tally.skip(`view: compares: ${name}`, 'no Chromium is on PATH');
  }
}
