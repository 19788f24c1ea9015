// examples/routes, built and opened: what it prints, what a page loads at once and what later, and the picture of it in README.md, which
// VIEW_SHOTS=FOLDER takes anew.
import assert from 'node:assert/strict';
import path from 'node:path';
import { pathToFileURL } from 'node:url';
import { chunkpack, copyOf, emitted, repository } from './command.mjs';
import { openPage, whatPageSaw } from './page.mjs';
import { viewOf, ViewPage } from './view.mjs';

const TITLES = ['Shop: from 0.80 EUR', 'Checkout: 0.80 EUR | 12.50 EUR'];

function built() {
  const folder = copyOf(path.join(repository, 'examples', 'routes'));
  assert.deepEqual(chunkpack(folder, ['build', 'c.json']), { status: 0, printed: 'built: 5 modules, 4 chunks, 5 assets\n' });
  assert.deepEqual(Object.keys(emitted(folder)), ['checkout.js', 'desk.js', 'lib.js', 'shop.js', 'stats.json']);
  return folder;
}

async function runs() {
  const page = await openPage(built(), ['dist/shop.js']);
  await page.settle();
  assert.deepEqual([page.evaluate('document.title'), page.loads], [TITLES[0], ['dist/lib.js']]);
  page.evaluate('checkout([80, 1250])');
  await page.settle();
  assert.deepEqual([page.evaluate('document.title'), page.loads], [TITLES[1], ['dist/lib.js', 'dist/checkout.js']]);
  assert.deepEqual(whatPageSaw(page).problems, []);
  const desk = await openPage(page.folder, ['dist/desk.js']);
  await desk.settle();
  assert.deepEqual([desk.evaluate('document.title'), desk.loads], ['Desk: 0.80 EUR | 12.50 EUR', ['dist/lib.js']]);
}

// From the disk, by its button.
async function runsInBrowser(browser) {
  const page = await browser.openPage();
  await page.open(pathToFileURL(path.join(built(), 'shop.html')).href);
  for (const title of TITLES) {
    await page.until(`document.title === ${JSON.stringify(title)}`);
    await page.evaluate('document.querySelector("button").click()');
  }
  assert.deepEqual(page.requests.map((request) => request.split('/').pop()), ['shop.html', 'shop.js', 'lib.js', 'checkout.js']);
  assert.deepEqual(page.problems, []);
  await page.close();
}

// The picture: the graph of loads, and why the table comes with the route.
async function isPictured(browser, index, scheme) {
  const view = await ViewPage.open(browser, index, scheme);
  await view.page.ask('Emulation.setDeviceMetricsOverride', { width: 1180, height: 580, deviceScaleFactor: 1, mobile: false });
  await view.tab('Loads');
  await view.choose('[role=tabpanel]', 'checkout (on demand)');
  await view.page.until('document.querySelector(".details h2").innerText === "Group checkout"');
  await view.choose('.details', 'src/lib/table.js');
  await view.page.until('document.querySelector(".reason")');
  assert.match(await view.text('.reason'), /shop doesn’t need src\/lib\/table\.js, so it would be missing if checkout didn’t bring it\./);
  await view.page.evaluate('document.activeElement.blur()');
  await view.shoot(`routes-${scheme}`);
  await view.close();
}

async function picture(browser) {
  const folder = built();
  assert.equal(viewOf(folder).status, 0);
  for (const scheme of ['light', 'dark']) await isPictured(browser, path.join(folder, 'dist', 'view', 'index.html'), scheme);
}

export async function checkRoutes(tally, browser) {
  await tally.check('examples/routes: loads its route when it is gone to', runs);
  for (const [name, body] of [['runs in a browser', runsInBrowser], ['is pictured', picture]]) {
    if (browser) await tally.check(`examples/routes: ${name}`, () => body(browser));
    else tally.skip(`examples/routes: ${name}`, 'no Chromium is on PATH');
  }
}
