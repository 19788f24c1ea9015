// The page that shows a build, in headless Chromium from `file:`: its numbers, the reason of a module, the search, the keys, and what it
// says to files that it can't show. VIEW_SHOTS=FOLDER keeps the pictures that are taken of it.
import assert from 'node:assert/strict';
import { spawnSync } from 'node:child_process';
import fs from 'node:fs';
import path from 'node:path';
import { pathToFileURL } from 'node:url';
import { chunkpack, command, projectOf, repository, temporaryFolder } from './command.mjs';
import { failing, large, shop, statsOfMany } from './view_projects.mjs';

const VIEW = path.join(repository, 'bin', 'view');
const MOST_ELEMENTS = 1_500;
const MANY = 20_000;

export function viewOf(folder, words = []) {
  const env = process.env.CHUNKPACK ? { ...process.env, CHUNKPACK: command } : process.env;
  const { status, stdout, stderr } = spawnSync(VIEW, words, { cwd: folder, encoding: 'utf8', env });
  return { status, printed: stdout, told: stderr };
}

// A built project with its page.
function shown(files) {
  const folder = projectOf(files);
  const built = chunkpack(folder, ['build', 'c.json']);
  assert.equal(built.status, 0, built.printed);
  const index = path.join(folder, 'dist', 'view', 'index.html');
  assert.deepEqual(viewOf(folder), { status: 0, printed: `open ${index}\n`, told: '' });
  return { index, stats: JSON.parse(fs.readFileSync(path.join(folder, 'dist', 'stats.json'), 'utf8')) };
}

// The page as a user has it, and what is asked of it.
export class ViewPage {
  static async open(browser, index, scheme = 'light') {
    const page = await browser.openPage();
    await page.ask('Emulation.setEmulatedMedia', { features: [{ name: 'prefers-color-scheme', value: scheme }] });
    await page.ask('Emulation.setDeviceMetricsOverride', { width: 1360, height: 820, deviceScaleFactor: 1, mobile: false });
    await page.open(pathToFileURL(index).href);
    return new ViewPage(page);
  }

  constructor(page) {
    this.page = page;
  }

  text(selector) {
    return this.page.evaluate(`document.querySelector(${JSON.stringify(selector)})?.innerText.trim() ?? null`);
  }

  texts(selector) {
    return this.page.evaluate(`[...document.querySelectorAll(${JSON.stringify(selector)})].map((one) => one.innerText?.trim() ?? one.textContent)`);
  }

  // When the picture is there.
  pictured() {
    return this.page.until("performance.getEntriesByName('picture').length > 0");
  }

  async tab(name) {
    await this.page.evaluate(`[...document.querySelectorAll('[role=tab]')].find((tab) => tab.innerText.startsWith(${JSON.stringify(name)})).click()`);
    await this.page.until(`document.querySelector('[role=tabpanel]').getAttribute('aria-label') === ${JSON.stringify(name)}`);
  }

  async search(text) {
    await this.page.evaluate('document.querySelector("input[type=search]").focus(); document.querySelector("input[type=search]").select()');
    if (text === '') await this.page.press('Backspace');
    else await this.page.ask('Input.insertText', { text });
  }

  // Clicks the row of a list that has this name, when it is drawn.
  async choose(list, name) {
    const rows = `[...document.querySelectorAll(${JSON.stringify(`${list} .row`)})]`;
    const row = `${rows}.find((row) => row.firstChild.innerText === ${JSON.stringify(name)})`;
    await this.page.until(row);
    await this.page.evaluate(`${row}.click()`);
  }

  // Takes a file by the file picker.
  async pick(file) {
    await this.page.evaluate('document.querySelector(".problem").textContent = ""; performance.clearMarks()');
    const { result } = await this.page.ask('Runtime.evaluate', { expression: 'document.querySelector("input[type=file]")' });
    await this.page.ask('DOM.setFileInputFiles', { files: [file], objectId: result.objectId });
  }

  problem() {
    return this.page.until('document.querySelector(".problem").innerText !== ""').then(() => this.text('.problem'));
  }

  shoot(name) {
    return this.page.screenshot(path.join(process.env.VIEW_SHOTS ?? temporaryFolder(), `${name}.png`));
  }

  close() {
    assert.deepEqual(this.page.problems, []);
    return this.page.close();
  }
}

export async function withPage(browser, index, scheme, body) {
  const view = await ViewPage.open(browser, index, scheme);
  try {
    await body(view);
  } catch (error) {
    error.message += `; the page says ${JSON.stringify(view.page.problems)}`;
    throw error;
  }
  await view.close();
}

function inWords(number, word) {
  return `${number.toLocaleString('en')} ${word}${number === 1 ? '' : 's'}`;
}

// The numbers at the head are those of the stats.
async function checkSummary(view, stats) {
  const told = ['module', 'chunk', 'group', 'split'].map((word) => inWords(stats[`${word}s`].length, word)).join(' · ');
  const summary = await view.text('.summary');
  assert.ok(summary.startsWith(`${told} · `), `${summary} is not ${told}`);
}

// Each tab has as many things as the stats. All are pictured where the pictures are kept, and else the first.
async function showsAllTabs(view, name, stats) {
  const several = stats.modules.filter((module) => stats.chunks.filter((chunk) => chunk.modules.includes(module.id)).length > 1);
  const tabs = { Chunks: stats.chunks, Loads: stats.groups, Splits: stats.splits, 'In several chunks': several, Notes: stats.notes };
  assert.deepEqual(await view.texts('[role=tab]'), Object.entries(tabs).map(([tab, { length }]) => `${tab} (${length})`));
  for (const tab of Object.keys(tabs)) {
    await view.tab(tab);
    if (tab === 'Chunks' || process.env.VIEW_SHOTS) await view.shoot(`${name}-${tab.toLowerCase().replaceAll(' ', '-')}`);
  }
  await view.tab('Chunks');
}

async function showsShop(browser, { index, stats }, scheme) {
  await withPage(browser, index, scheme, async (view) => {
    await view.pictured();
    await checkSummary(view, stats);
    await showsAllTabs(view, `shop-${scheme}`, stats);
    const rows = await view.texts('[role=tabpanel] .row.level0 .name');
    assert.deepEqual([...rows].sort(), [...rows].filter((row) => / \((entry|on demand|split)\)$/.test(row)).sort());
    await view.tab('Splits');
    assert.equal((await view.texts('.bar button')).length, stats.splits.length);
    assert.match((await view.texts('.bar'))[0], /^tools → chunk tools: 2 modules, 6\.6 kB\s+taken out of cart and report; loaded with cart and report$/);
    await view.tab('Notes');
    assert.match((await view.texts('[role=tabpanel] .row'))[0], /^src\/help\.js, byte \d+\s+N1: require\("\.\/missing\.js"\) names no file/);
  });
}

// Why a module lies in a group, in words and in the graph.
async function tellsReasons(browser, { index }) {
  await withPage(browser, index, 'dark', async (view) => {
    await view.pictured();
    await view.tab('Loads');
    await view.choose('[role=tabpanel]', 'pay (on demand)');
    await view.page.until('document.querySelector(".details h2").innerText === "Group pay"');
    await view.choose('.details', 'src/lib/rules.js');
    await view.page.until('document.querySelector(".reason")');
    assert.deepEqual(await view.texts('.reason li'),
      ['shop, an entry: a page may begin with it', 'cart, which src/shop.js loads by import()', 'pay, which src/cart.js loads by import()']);
    assert.match(await view.text('.reason'), /None of shop and cart needs src\/lib\/rules\.js, so it would be missing if pay didn’t bring it\./);
    assert.deepEqual(await view.texts('.box.lit .box-name'), ['shop', 'cart', 'pay']);
    assert.deepEqual(await view.texts('.badge-number'), ['1', '2', '3']);
    assert.equal((await view.texts('.line.lit')).length, 2);
    await view.shoot('shop-dark-reason');
    await view.choose('.details', 'src/help.js from src/pay.js');
    await view.page.until('document.querySelector(".reason").innerText.includes("has brought it")');
    assert.deepEqual(await view.texts('.badge-number'), []);
  });
}

async function findsModules(browser, { index, stats }) {
  await withPage(browser, index, 'light', async (view) => {
    await view.pictured();
    await view.search('LIB/');
    const found = stats.modules.filter((module) => module.path.includes('lib/'));
    assert.ok((await view.text('.found')).startsWith(`${found.length} modules of ${stats.modules.length}, `));
    assert.deepEqual([...new Set(await view.texts('[role=tabpanel] .row.level1 .name'))].sort(), found.map((module) => module.path));
    await view.shoot('shop-light-search');
    await view.search('no such module');
    assert.equal(await view.text('.found'), `0 modules of ${stats.modules.length}, 0 bytes`);
    assert.equal(await view.text('[role=tabpanel] .rows'), 'Nothing to list.');
    await view.search('');
    assert.equal(await view.text('.found'), '');
  });
}

// By keys alone: from the search to the tabs, the picture and the list, and a choice in each.
async function takesKeys(browser, { index, stats }) {
  await withPage(browser, index, 'light', async (view) => {
    await view.pictured();
    const focused = () => view.page.evaluate('[document.activeElement.tagName, document.activeElement.getAttribute("role")].join(" ")');
    await view.page.evaluate('document.querySelector("input[type=search]").focus()');
    const seen = [];
    for (let step = 0; step < 5; step++) {
      await view.page.press('Tab');
      seen.push(await focused());
    }
    assert.deepEqual(seen, ['BUTTON ', 'BUTTON ', 'BUTTON tab', 'CANVAS application', 'DIV listbox']);
    await view.page.press('ArrowDown', 'ArrowDown', 'Enter');
    await view.page.until('document.querySelector(".reason")');
    const first = stats.chunks[0].modules.map((number) => stats.modules[number]).sort((one, other) => other.size - one.size)[0];
    assert.equal(await view.text('.details h2'), first.path);
    await view.page.evaluate('document.querySelector("canvas").focus()');
    await view.page.press('ArrowRight', 'ArrowRight', 'ArrowDown');
    const told = (await view.text('.picture .status')).split(',')[0];
    await view.page.press('Enter');
    assert.equal(await view.text('.details h2'), told);
    await view.shoot('shop-light-keys');
    await view.page.press('+');
    assert.equal((await view.texts('.trail button')).length, 2);
    await view.page.press('Escape');
    assert.equal((await view.texts('.trail button')).length, 1);
    await view.page.evaluate('document.querySelector("[role=tab]").focus()');
    await view.page.press('ArrowRight');
    await view.page.until('document.querySelector(".graph")');
    await view.page.evaluate('document.querySelector(".graph").focus()');
    await view.page.press('ArrowRight', 'ArrowDown', 'Enter');
    await view.page.until('document.querySelector(".details h2").innerText.startsWith("Group ")');
  });
}

async function showsLarge(browser, { index, stats }, scheme) {
  await withPage(browser, index, scheme, async (view) => {
    await view.pictured();
    await checkSummary(view, stats);
    await showsAllTabs(view, `large-${scheme}`, stats);
    await view.search('common/1');
    const found = stats.modules.filter((module) => module.path.includes('common/1'));
    assert.ok((await view.text('.found')).startsWith(`${found.length} modules of 2,000, `));
    await view.shoot(`large-${scheme}-search`);
    assert.ok(await view.page.evaluate('document.querySelectorAll("*").length') < MOST_ELEMENTS);
  });
}

// As many modules as a large application has, taken by the file picker.
async function showsMany(browser, { index }) {
  const file = path.join(temporaryFolder(), 'stats.json');
  fs.writeFileSync(file, JSON.stringify(statsOfMany(MANY)));
  await withPage(browser, index, 'light', async (view) => {
    await view.pictured();
    await view.pick(file);
    await view.page.until('document.querySelector(".summary").innerText.startsWith("20,000 modules")');
    await view.pictured();
    assert.ok(await view.page.evaluate('document.querySelectorAll("*").length') < MOST_ELEMENTS);
    await view.search('folder7/module');
    assert.match(await view.text('.found'), /^\d+ modules of 20,000, /);
    await view.choose('[role=tabpanel]', await view.page.evaluate('document.querySelector("[role=tabpanel] .row.level1 .name").innerText'));
    await view.page.until('document.querySelector(".reason")');
    await view.shoot('many-light');
  });
}

function noFolder() {
  const folder = projectOf(failing);
  assert.equal(chunkpack(folder, ['build', 'c.json']).status, 1);
  assert.deepEqual(viewOf(folder), { status: 1, printed: '', told: 'view: dist is no folder: build first, or name the folder with stats.json\n' });
  assert.deepEqual(viewOf(folder, ['one', 'two']), { status: 2, printed: '', told: 'usage: bin/view [DIST] [--with STATS]\n' });
}

// A dist in which a build that failed has left nothing.
async function noStats(browser) {
  const folder = projectOf({ ...failing, 'out here/other.txt': '' });
  const { status, printed, told } = viewOf(folder, ['out here']);
  const index = path.join(folder, 'out here', 'view', 'index.html');
  assert.deepEqual({ status, printed }, { status: 0, printed: `open ${index}\n` });
  assert.match(told, /has no stats\.json/);
  for (const scheme of ['light', 'dark']) {
    await withPage(browser, index, scheme, async (view) => {
      assert.match(await view.problem(), /^.?\s*The folder has no stats\.json: a build that ends with faults writes none\./u);
      assert.match(await view.text('.invitation'), /drop the file here/);
      await view.shoot(`none-${scheme}`);
    });
  }
}

// What the page says to files that it can't show, one after another; a good one is shown after them.
async function tellsBadFiles(browser, { index, stats }) {
  const whole = JSON.stringify(stats);
  const bad = {
    'empty.json': ['', /is empty/],
    'page.html': ['<!doctype html>', /is not JSON/],
    'list.json': ['[1, 2]', /not the stats of a build/],
    'package.json': ['{"name":"x","version":"1.0.0"}', /not the stats of a build/],
    'other.json': [JSON.stringify({ ...stats, version: 2 }), /version 2, and this page reads version 1/],
    'webpack.json': ['{"version":"5.90.0","modules":[]}', /version "5\.90\.0"/],
    'half.json': [whole.slice(0, whole.length / 2), /breaks off after [\d,]+ characters/],
    'parts.json': [JSON.stringify({ ...stats, groups: undefined }), /no list “groups”/],
    'member.json': [JSON.stringify({ ...stats, chunks: [{ id: 0 }] }), /chunks\[0\] has no “entry”/],
    'numbers.json': [JSON.stringify({ ...stats, modules: [{ ...stats.modules[0], sync: [99] }] }), /names the module/],
  };
  const folder = projectOf(Object.fromEntries([...Object.entries(bad).map(([name, [text]]) => [name, text]), ['good.json', whole]]));
  await withPage(browser, index, 'light', async (view) => {
    for (const [name, [, sentence]] of Object.entries(bad)) {
      await view.pick(path.join(folder, name));
      const told = await view.problem();
      assert.ok(told.includes(`${name}: `), told);
      assert.match(told, sentence);
    }
    await view.shoot('bad-light');
    await view.pick(path.join(folder, 'good.json'));
    await view.page.until('document.querySelector(".problem").hidden');
    await checkSummary(view, stats);
  });
}

// Stats that break off where bin/view takes them, and a file that is dropped on the page.
async function takesDroppedFiles(browser, { stats }) {
  const text = JSON.stringify(stats);
  const folder = projectOf({ 'dist/stats.json': `${text.slice(0, 500)}\r\n"\\\u2028` });
  assert.equal(viewOf(folder).status, 0);
  await withPage(browser, path.join(folder, 'dist', 'view', 'index.html'), 'dark', async (view) => {
    assert.match(await view.problem(), /stats\.json: This (file breaks off|is not JSON)/);
    await view.page.evaluate(`{
      const dataTransfer = new DataTransfer();
      dataTransfer.items.add(new File([${JSON.stringify(text)}], "stats.json"));
      dispatchEvent(new DragEvent("drop", { dataTransfer }));
    }`);
    await view.page.until('document.querySelector(".problem").hidden');
    await view.pictured();
    await checkSummary(view, stats);
  });
}

export async function checkView(tally, browser) {
  await tally.check('view: a folder that is not there', noFolder);
  const built = {};
  await tally.check('view: is built of its modules', () => Object.assign(built, { shop: shown(shop), large: shown(large(2000)) }));
  const runs = [
    ['numbers, splits and notes of a build', () => showsShop(browser, built.shop, 'light')],
    ['the same in dark', () => showsShop(browser, built.shop, 'dark')],
    ['why a module lies in a group', () => tellsReasons(browser, built.shop)],
    ['search', () => findsModules(browser, built.shop)],
    ['keys', () => takesKeys(browser, built.shop)],
    ['2,000 modules', () => showsLarge(browser, built.large, 'light')],
    ['2,000 modules in dark', () => showsLarge(browser, built.large, 'dark')],
    ['20,000 modules', () => showsMany(browser, built.shop)],
    ['a folder without stats', () => noStats(browser)],
    ['files that are no stats', () => tellsBadFiles(browser, built.shop)],
    ['a file that is dropped', () => takesDroppedFiles(browser, built.shop)],
  ];
  for (const [name, body] of runs) {
    if (browser) await tally.check(`view: ${name}`, body);
    else tally.skip(`view: ${name}`, 'no Chromium is on PATH');
  }
}
