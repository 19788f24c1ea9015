// The same page in a real browser, where one is installed: headless Chromium prints the page after it has run.
import { spawnSync } from 'node:child_process';
import fs from 'node:fs';
import path from 'node:path';
import { fileURLToPath, pathToFileURL } from 'node:url';

const NAMES = ['chromium', 'chromium-browser', 'google-chrome'];
const RECORDER = fileURLToPath(new URL('./recorder.js', import.meta.url));
const SHOWN = /<pre id="saw">([^<]*)<\/pre>/;

// The browser's path, or nothing.
export function findBrowser() {
  for (const folder of (process.env.PATH ?? '').split(path.delimiter)) {
    for (const name of NAMES) {
      const file = path.join(folder, name);
      if (fs.existsSync(file)) return file;
    }
  }
}

function pageText(script) {
  return `<!doctype html>
<meta charset="utf-8">
<title>chunkpack</title>
<pre id="saw"></pre>
<script src="recorder.js"></script>
<script src="${script}"></script>
<script>
addEventListener("load", () => {
  document.getElementById("saw").textContent = encodeURIComponent(JSON.stringify(self.whatPageSaw()));
});
</script>
`;
}

// What a page with this script saw in the browser.
export function browse(browser, folder, script) {
  fs.copyFileSync(RECORDER, path.join(folder, 'recorder.js'));
  fs.writeFileSync(path.join(folder, 'page.html'), pageText(script));
  const profile = path.join(folder, 'profile');
  const words = ['--headless', '--no-sandbox', '--disable-gpu', '--disable-dev-shm-usage', `--user-data-dir=${profile}`,
    '--virtual-time-budget=5000', '--dump-dom', pathToFileURL(path.join(folder, 'page.html')).href];
  const ran = spawnSync(browser, words, { encoding: 'utf8', timeout: 60_000, stdio: ['ignore', 'pipe', 'pipe'] });
  const shown = SHOWN.exec(ran.stdout ?? '');
  if (!shown || shown[1] === '') throw new Error(`the page shows nothing: ${ran.error ?? ''}${ran.stderr}`);
  return JSON.parse(decodeURIComponent(shown[1]));
}
