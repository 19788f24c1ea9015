// A page in node:vm: `self`, `document` with the loading of scripts, and events, over the files of a folder.
import fs from 'node:fs';
import path from 'node:path';
import vm from 'node:vm';
import { fileURLToPath } from 'node:url';

const RECORDER = fileURLToPath(new URL('./recorder.js', import.meta.url));

// A promise that is refused and that nobody takes is told to the page that was opened last.
let opened;
process.on('unhandledRejection', (reason) => opened?.tell('unhandledrejection', { reason }));

export class Page {
  constructor(folder) {
    this.folder = folder;
    this.loads = [];
    this.listeners = new Map();
    const page = {
      document: {
        createElement: (tag) => ({ tag }),
        head: { appendChild: (script) => this.load(script) },
      },
      addEventListener: (type, listener) => this.listeners.set(type, listener),
    };
    page.self = page;
    page.window = page;
    this.page = vm.createContext(page);
  }

  tell(type, event) {
    this.listeners.get(type)?.(event);
  }

  // A script element's own loading: later, by its `src` below the page's folder.
  load(script) {
    this.loads.push(script.src);
    setImmediate(() => {
      if (!fs.existsSync(path.join(this.folder, script.src))) return script.onerror?.();
      this.run(script.src);
      script.onload?.();
    });
  }

  // Runs a script of the page's folder to its end. An error is the page's, as it is in a browser.
  run(name) {
    this.evaluate(fs.readFileSync(path.join(this.folder, name), 'utf8'), name);
  }

  evaluate(text, name = 'inline') {
    try {
      return vm.runInContext(text, this.page, { filename: name });
    } catch (error) {
      this.tell('error', { message: String(error) });
    }
  }

  // Lets all that is due run: promises, and scripts that are being loaded.
  async settle() {
    for (let turn = 0; turn < 5; turn++) await new Promise((due) => setImmediate(due));
  }
}

// Runs a page that has these scripts.
export async function openPage(folder, scripts) {
  const page = new Page(folder);
  opened = page;
  page.evaluate(fs.readFileSync(RECORDER, 'utf8'), 'recorder.js');
  for (const script of scripts) page.run(script);
  await page.settle();
  return page;
}

export function whatPageSaw(page) {
  return JSON.parse(page.evaluate('JSON.stringify(self.whatPageSaw())'));
}
