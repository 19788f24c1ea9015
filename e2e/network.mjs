// Pages over a real network: headless Chromium loads what was built from a small server on the loopback. The server's log shows that a
// page asks for exactly the chunks that the stats name for its groups, and loads that fail are told and tried again.
import assert from 'node:assert/strict';
import fs from 'node:fs';
import path from 'node:path';
import { fileURLToPath } from 'node:url';
import { chunkpack, projectOf } from './command.mjs';
import { failures, Server } from './server.mjs';

const RECORDER = fileURLToPath(new URL('./recorder.js', import.meta.url));

// Two entries, lazy groups within lazy groups, and splits that all of them share.
const SHOP = {
  'c.json': JSON.stringify({
    entry: { shop: './src/shop.js', desk: './src/desk.js' },
    output: { filename: '[name].[contenthash:8].js', chunkFilename: 'c-[name].[contenthash:8].js', publicPath: '/dist/' },
    optimization: {
      splitChunks: { chunks: 'all', minSize: 0, cacheGroups: { tools: { test: { inDir: 'node_modules' }, name: 'tools', priority: 5 } } },
    },
  }),
  'src/shop.js': 'import { price } from "./price.js";\nself.told = ["shop " + price(1)];\n'
    + 'self.openCart = () => import(/* webpackChunkName: "cart" */ "./cart.js").then((cart) => cart.tell());\n'
    + 'self.openHelp = () => import("./help.js").then((help) => help.tell());\n',
  'src/desk.js': 'import { price } from "./price.js";\nself.desk = "desk " + price(2);\n'
    + 'self.openReport = () => import("./report.js").then((report) => report.tell());\n',
  'src/price.js': 'let times = 0;\nexport function price(count) { times += 1; return count + " for " + times; }\n',
  'src/cart.js': 'import { format } from "tools";\nimport { price } from "./price.js";\n'
    + 'export function tell() { return format("cart") + price(3); }\n'
    + 'self.openPay = () => import("./pay.js").then((pay) => pay.tell());\n',
  'src/pay.js': 'import { format } from "tools";\nimport { table } from "./table.js";\nexport const tell = () => format("pay") + table;\n',
  'src/help.js': 'import { table } from "./table.js";\nexport const tell = () => "help" + table;\n',
  'src/report.js': 'import { format } from "tools";\nimport { table } from "./table.js";\nexport const tell = () => format("report") + table;\n',
  'src/table.js': 'export const table = " and a table";\n',
  'node_modules/tools/package.json': '{"main":"./tools.js"}',
  'node_modules/tools/tools.js': 'exports.format = (text) => "[" + text + "]";\n',
};

// One lazy group of two chunks.
const LATE = {
  'c.json': JSON.stringify({
    entry: './main.js',
    output: { publicPath: '/dist/' },
    optimization: { splitChunks: { minSize: 0, cacheGroups: { half: { test: 'half.js', enforce: true } } } },
  }),
  'main.js': 'self.load = () => import("./late.js").then((late) => late.default, (error) => error.message);\n',
  'late.js': 'import { half } from "./half.js";\nexport default half + half;\n',
  'half.js': 'export const half = "ha";\n',
};

class Site {
  constructor(files) {
    this.folder = projectOf(files);
    const { status, printed } = chunkpack(this.folder, ['build', 'c.json']);
    assert.equal(status, 0, printed);
    this.stats = JSON.parse(fs.readFileSync(path.join(this.folder, 'dist', 'stats.json'), 'utf8'));
    fs.copyFileSync(RECORDER, path.join(this.folder, 'recorder.js'));
  }

  // The group of an entry or of a chunk's name, or else the one that begins with this module.
  group(name) {
    const { groups, modules } = this.stats;
    const found = groups.find((group) => group.name === name)
      ?? groups.find((group) => !group.entry && group.roots.some((root) => modules[root].path === name));
    assert.ok(found, name);
    return found;
  }

  // The files of a group's chunks, the entry's own first.
  filesOf(name) {
    const group = this.group(name);
    const file = new Map(this.stats.assets.map((asset) => [asset.chunk, `dist/${asset.name}`]));
    const isEntry = new Map(this.stats.chunks.map((chunk) => [chunk.id, chunk.entry]));
    const first = group.chunks.filter((id) => isEntry.get(id));
    return [...first, ...group.chunks.filter((id) => !isEntry.get(id))].map((id) => file.get(id));
  }

  entryFile(name) {
    return this.filesOf(name)[0];
  }

  // A page with the recorder and the scripts of these entries.
  writePage(entries) {
    const scripts = ['recorder.js', ...entries.map((name) => this.entryFile(name))];
    fs.writeFileSync(path.join(this.folder, 'page.html'), `<!doctype html>\n<meta charset="utf-8">\n<link rel="icon" href="data:,">\n`
      + scripts.map((script) => `<script src="/${script}"></script>\n`).join(''));
  }
}

// A site that is served, with a page of these entries open in the browser.
async function visit(browser, files, entries, body) {
  const site = new Site(files);
  site.writePage(entries);
  const server = await new Server(site.folder).start();
  const page = await browser.openPage();
  try {
    await page.open(`${server.origin}/page.html`);
    await body({ site, server, page });
  } finally {
    await page.close();
    await server.stop();
  }
}

function chunksIn(log) {
  return log.filter((name) => name.startsWith('dist/'));
}

// What the page asked for, in its own order.
function askedBy(page, server) {
  return chunksIn(page.requests.map((address) => address.replace(`${server.origin}/`, '')));
}

// The page's order is that of its groups; the server, to which requests come side by side, saw each of them once too.
function checkLoads({ site, server, page }, groups) {
  const wanted = [...new Set(groups.flatMap((name) => site.filesOf(name)))];
  assert.deepEqual(askedBy(page, server), wanted);
  assert.deepEqual(chunksIn(server.log).sort(), [...wanted].sort());
}

async function checkOnce(page) {
  const saw = JSON.parse(await page.evaluate('JSON.stringify(self.whatPageSaw())'));
  assert.deepEqual(saw.problems, []);
  assert.equal(saw.started.length, new Set(saw.started).size, 'each module runs once');
  assert.deepEqual(page.problems, []);
}

// The entry has told what it does: its start waits for the chunks that it shares.
function hasStarted(page, name) {
  return page.until(`self.${name}`);
}

function loadsGroups(browser) {
  return visit(browser, SHOP, ['shop'], async (visited) => {
    const { page, site } = visited;
    assert.ok(site.stats.splits.length >= 2, 'there are splits');
    await hasStarted(page, 'openCart');
    checkLoads(visited, ['shop']);
    assert.equal(await page.evaluate('self.openCart()'), '[cart]3 for 2');
    checkLoads(visited, ['shop', 'cart']);
    assert.equal(await page.evaluate('self.openPay()'), '[pay] and a table');
    checkLoads(visited, ['shop', 'cart', 'src/pay.js']);
    assert.equal(await page.evaluate('self.openHelp()'), 'help and a table');
    assert.equal(await page.evaluate('self.openCart()'), '[cart]3 for 3');
    checkLoads(visited, ['shop', 'cart', 'src/pay.js', 'src/help.js']);
    await checkOnce(page);
  });
}

// Another order of loads asks for the same chunks at other times.
function loadsInAnotherOrder(browser) {
  return visit(browser, SHOP, ['shop'], async (visited) => {
    const { page } = visited;
    await hasStarted(page, 'openCart');
    assert.equal(await page.evaluate('self.openHelp()'), 'help and a table');
    checkLoads(visited, ['shop', 'src/help.js']);
    assert.equal(await page.evaluate('self.openCart().then(() => self.openPay())'), '[pay] and a table');
    checkLoads(visited, ['shop', 'src/help.js', 'cart', 'src/pay.js']);
    await checkOnce(page);
  });
}

function loadsTwoEntries(browser) {
  return visit(browser, SHOP, ['shop', 'desk'], async (visited) => {
    const { page, site, server } = visited;
    await hasStarted(page, 'openCart');
    await hasStarted(page, 'openReport');
    const asked = askedBy(page, server);
    const wanted = [...new Set([...site.filesOf('shop'), ...site.filesOf('desk')])];
    assert.deepEqual([...asked].sort(), [...wanted].sort());
    assert.equal(asked[0], site.entryFile('shop'));
    assert.equal(await page.evaluate('self.openReport()'), '[report] and a table');
    assert.equal(await page.evaluate('self.openCart()'), '[cart]3 for 3', 'the price is counted for both entries');
    assert.deepEqual([...askedBy(page, server)].sort(), [...new Set([...wanted, ...site.filesOf('src/report.js'), ...site.filesOf('cart')])].sort());
    assert.deepEqual(chunksIn(server.log).sort(), askedBy(page, server).sort());
    await checkOnce(page);
  });
}

// A chunk of the group comes late, in each order of arrival.
function arrivesInAnyOrder(browser) {
  return visit(browser, LATE, ['main'], async ({ page, site, server }) => {
    const files = site.filesOf('late.js');
    assert.equal(files.length, 2);
    const releases = files.map((file) => server.hold(file));
    await page.evaluate('self.saw = self.load(); self.again = self.load(); true');
    releases[1]();
    await page.until(`self.__chunkpack.w[${site.group('late.js').chunks[1]}]`);
    releases[0]();
    assert.deepEqual(await page.evaluate('Promise.all([self.saw, self.again])'), ['haha', 'haha']);
    assert.deepEqual(askedBy(page, server), [site.entryFile('main'), ...files]);
    await checkOnce(page);
  });
}

// One chunk of the group fails: the import is refused, and the next try asks for that chunk alone.
function failsAndTriesAgain(browser, failure, at) {
  return visit(browser, LATE, ['main'], async ({ page, site, server }) => {
    const files = site.filesOf('late.js');
    const refused = `chunk ${site.group('late.js').chunks[at]}`;
    server.spoil(files[at], failure);
    assert.equal(await page.evaluate('self.load()'), refused);
    assert.equal(await page.evaluate('self.load()'), refused, 'it fails as long as the server does');
    server.mend(files[at]);
    await page.until(`self.__chunkpack.w[${site.group('late.js').chunks[1 - at]}]`);
    const before = askedBy(page, server).length;
    assert.equal(await page.evaluate('self.load()'), 'haha');
    assert.deepEqual(askedBy(page, server).slice(before), [files[at]]);
    assert.equal(await page.evaluate('self.load()'), 'haha');
    assert.equal(askedBy(page, server).length, before + 1);
    await checkOnce(page);
  });
}

export async function checkNetwork(tally, browser) {
  const runs = [
    ['each group loads exactly its chunks, in order', () => loadsGroups(browser)],
    ['another order of loads', () => loadsInAnotherOrder(browser)],
    ['two entries on one page', () => loadsTwoEntries(browser)],
    ['chunks may arrive in another order', () => arrivesInAnyOrder(browser)],
    ...Object.keys(failures).map((failure, at) => [`after ${failure} a load is tried again`, () => failsAndTriesAgain(browser, failure, at % 2)]),
  ];
  for (const [name, body] of runs) {
    if (browser) await tally.check(`network: ${name}`, body);
    else tally.skip(`network: ${name}`, 'no Chromium is on PATH');
  }
}
