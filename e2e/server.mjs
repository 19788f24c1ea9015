// A small server of files on the loopback, with a log of what it was asked for. A file's answers may be spoiled or held back,
// as those of a network are.
import fs from 'node:fs';
import http from 'node:http';
import path from 'node:path';

const TYPES = { '.js': 'text/javascript', '.html': 'text/html', '.json': 'application/json' };

// How an answer may fail.
export const failures = {
  'status 404': (response) => response.writeHead(404).end(),
  'status 500': (response) => response.writeHead(500, { 'content-type': 'text/javascript' }).end('throw new Error("an error page was run");'),
  'a closed connection': (response) => response.destroy(),
  'a text that breaks off': (response, text) => {
    response.writeHead(200, { 'content-type': 'text/javascript', 'content-length': text.length });
    response.write(text.subarray(0, text.length / 2), () => response.destroy());
  },
};

export class Server {
  log = [];
  #failing = new Map();
  #held = new Map();

  constructor(folder) {
    this.folder = folder;
    this.server = http.createServer((request, response) => this.answer(request, response));
  }

  async start() {
    await new Promise((ready, refuse) => this.server.once('error', refuse).listen(0, '127.0.0.1', ready));
    this.origin = `http://127.0.0.1:${this.server.address().port}`;
    return this;
  }

  stop() {
    this.server.closeAllConnections();
    return new Promise((ended) => this.server.close(ended));
  }

  async answer(request, response) {
    const name = decodeURIComponent(new URL(request.url, this.origin).pathname).slice(1);
    this.log.push(name);
    await this.#held.get(name);
    const file = path.join(this.folder, name);
    if (!fs.existsSync(file)) return failures['status 404'](response);
    const text = fs.readFileSync(file);
    const fail = this.#failing.get(name);
    if (fail) return fail(response, text);
    response.writeHead(200, { 'content-type': TYPES[path.extname(name)] ?? 'text/plain', 'cache-control': 'no-store' }).end(text);
  }

  // The file's answers fail until it is mended: a browser may ask again by itself where a connection closes.
  spoil(name, failure) {
    this.#failing.set(name, failures[failure]);
  }

  mend(name) {
    this.#failing.delete(name);
  }

  // Holds the file's answers back until the function that comes out is called.
  hold(name) {
    let release;
    this.#held.set(name, new Promise((due) => { release = due; }));
    return () => {
      this.#held.delete(name);
      release();
    };
  }
}
