// A headless browser that is asked over the DevTools protocol, by a pipe: pages are opened, scripts are evaluated in them, and
// what they tell is noted. Each wait ends with what is waited for, or with an error after a generous time.
import { spawn } from 'node:child_process';
import fs from 'node:fs';
import path from 'node:path';
import { temporaryFolder } from './command.mjs';

const PATIENCE = 60_000;
const KEY_CODES = {
  Backspace: 8, Tab: 9, Enter: 13, Escape: 27, ' ': 32, End: 35, Home: 36, ArrowLeft: 37, ArrowUp: 38, ArrowRight: 39, ArrowDown: 40,
};
const FLAGS = ['--headless', '--no-sandbox', '--disable-gpu', '--disable-dev-shm-usage', '--no-first-run', '--disable-background-networking',
  '--disable-extensions', '--force-device-scale-factor=1', '--hide-scrollbars', '--remote-debugging-pipe'];

// The answer, or an error that says what didn't come.
export async function within(promise, what, patience = PATIENCE) {
  let timer;
  const late = new Promise((_, refuse) => {
    timer = setTimeout(() => refuse(new Error(`${what}: nothing came for ${patience / 1000} seconds`)), patience);
  });
  try {
    return await Promise.race([promise, late]);
  } finally {
    clearTimeout(timer);
  }
}

// Messages are JSON texts, each ended by a zero byte.
class Pipe {
  constructor(into, out, hear) {
    this.into = into;
    let rest = '';
    out.setEncoding('utf8');
    out.on('data', (text) => {
      const parts = (rest + text).split('\0');
      rest = parts.pop();
      for (const part of parts) hear(JSON.parse(part));
    });
  }

  send(message) {
    this.into.write(`${JSON.stringify(message)}\0`);
  }
}

export class Browser {
  constructor(program) {
    this.profile = temporaryFolder();
    this.asked = new Map();
    this.pages = new Map();
    this.count = 0;
    this.process = spawn(program, [...FLAGS, `--user-data-dir=${this.profile}`, 'about:blank'],
      { stdio: ['ignore', 'ignore', 'ignore', 'pipe', 'pipe'] });
    const [, , , into, out] = this.process.stdio;
    into.on('error', () => {});
    this.pipe = new Pipe(into, out, (message) => this.hear(message));
    this.ended = new Promise((end) => this.process.on('close', end));
    this.process.on('error', (error) => this.refuseAll(error));
    this.process.on('close', () => this.refuseAll(new Error('the browser ended')));
  }

  refuseAll(error) {
    this.gone = error;
    for (const { refuse } of this.asked.values()) refuse(error);
    this.asked.clear();
  }

  hear(message) {
    if (message.id === undefined) return this.pages.get(message.sessionId)?.hear(message);
    const { answer, refuse } = this.asked.get(message.id) ?? {};
    this.asked.delete(message.id);
    if (message.error) refuse?.(new Error(message.error.message));
    else answer?.(message.result);
  }

  async ask(method, params = {}, sessionId = undefined) {
    if (this.gone) throw this.gone;
    const id = ++this.count;
    const asked = new Promise((answer, refuse) => this.asked.set(id, { answer, refuse }));
    this.pipe.send({ id, method, params, sessionId });
    return within(asked, method);
  }

  async openPage() {
    const { targetId } = await this.ask('Target.createTarget', { url: 'about:blank' });
    const { sessionId } = await this.ask('Target.attachToTarget', { targetId, flatten: true });
    const page = new BrowserPage(this, sessionId, targetId);
    this.pages.set(sessionId, page);
    for (const domain of ['Page', 'Runtime', 'Network', 'Log']) await page.ask(`${domain}.enable`);
    return page;
  }

  async close() {
    this.ask('Browser.close').catch(() => {});
    await within(this.ended, 'the end of the browser').catch(() => this.process.kill('SIGKILL'));
    fs.rmSync(this.profile, { recursive: true, force: true, maxRetries: 5 });
  }
}

export class BrowserPage {
  requests = [];
  problems = [];
  #waiting = [];

  constructor(browser, session, target) {
    this.browser = browser;
    this.session = session;
    this.target = target;
  }

  ask(method, params = {}) {
    return this.browser.ask(method, params, this.session);
  }

  hear({ method, params }) {
    if (method === 'Network.requestWillBeSent') this.requests.push(params.request.url);
    if (method === 'Runtime.exceptionThrown') this.problems.push(params.exceptionDetails.exception?.description ?? params.exceptionDetails.text);
    for (const waiting of this.#waiting.filter((one) => one.method === method)) waiting.answer(params);
    this.#waiting = this.#waiting.filter((one) => one.method !== method);
  }

  event(method) {
    return within(new Promise((answer) => this.#waiting.push({ method, answer })), method);
  }

  // Opens an address, and comes back when the page's own scripts have run.
  async open(address) {
    const loaded = this.event('Page.loadEventFired');
    const { errorText } = await this.ask('Page.navigate', { url: address });
    if (errorText) throw new Error(`${address}: ${errorText}`);
    await loaded;
  }

  // The value of an expression in the page; a promise is awaited. What it throws is thrown here.
  async evaluate(expression) {
    const { result, exceptionDetails } = await this.ask('Runtime.evaluate',
      { expression, awaitPromise: true, returnByValue: true, userGesture: true });
    if (exceptionDetails) throw new Error(exceptionDetails.exception?.description ?? exceptionDetails.text);
    return result.value;
  }

  // Waits, in the page and frame by frame, until the expression is true.
  until(expression) {
    return this.evaluate(`new Promise((due) => { const look = () => (${expression}) ? due(true) : setTimeout(look, 10); look(); })`);
  }

  // Presses keys by their names, as `Enter`, `ArrowDown` or `a`.
  async press(...keys) {
    for (const key of keys) {
      const text = key === 'Enter' ? '\r' : key.length === 1 ? key : undefined;
      const code = KEY_CODES[key] ?? key.toUpperCase().charCodeAt(0);
      await this.ask('Input.dispatchKeyEvent', { type: 'keyDown', key, code: key, text, windowsVirtualKeyCode: code });
      await this.ask('Input.dispatchKeyEvent', { type: 'keyUp', key, code: key, windowsVirtualKeyCode: code });
    }
  }

  async click(x, y) {
    for (const type of ['mousePressed', 'mouseReleased']) {
      await this.ask('Input.dispatchMouseEvent', { type, x, y, button: 'left', clickCount: 1 });
    }
  }

  async screenshot(file) {
    const { data } = await this.ask('Page.captureScreenshot', { format: 'png' });
    fs.mkdirSync(path.dirname(file), { recursive: true });
    fs.writeFileSync(file, Buffer.from(data, 'base64'));
  }

  close() {
    this.browser.pages.delete(this.session);
    return this.browser.ask('Target.closeTarget', { targetId: this.target });
  }
}
