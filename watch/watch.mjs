// Builds once, and again 50 ms after the last change. One build runs at a time; changes while it runs lead to one more.
import { Command } from './command.mjs';
import { Folders } from './folders.mjs';
import { programOrTeller } from './program.mjs';

const DELAY = 50;
const PATIENCE = 5_000;
// At these ends the program has written nothing.
const NOTHING_WRITTEN = new Set([1, 2, 3, 6]);
const USAGE = 'usage: bin/watch CONFIG [--workers N]\n';

export class Watch {
  constructor(words, { print, complain, end }) {
    this.words = words;
    this.print = print;
    this.complain = complain;
    this.leave = end;
    this.isEnding = false;
    this.isAsked = false;
  }

  async start() {
    if (this.words.length === 0) return this.refuse(USAGE, 2);
    this.program = await this.findProgram();
    if (!this.program || this.isEnding) return;
    this.folders = new Folders(process.cwd(), () => this.changed());
    this.print(`watch: ${counted(this.folders.count)} below ${process.cwd()}; ctrl-C ends it\n`);
    await this.build();
  }

  refuse(text, status) {
    this.complain(text);
    this.leave(status);
  }

  async findProgram() {
    const { program, teller } = programOrTeller();
    if (program) return program;
    this.running = teller;
    const { status, printed, error } = await teller.ended;
    this.running = null;
    if (status === 0) return printed.trimEnd();
    this.leave(error ? 127 : status ?? 0);
    return null;
  }

  changed() {
    clearTimeout(this.timer);
    this.timer = setTimeout(() => this.build(), DELAY);
  }

  async build() {
    this.isAsked = true;
    if (this.running) return;
    while (this.isAsked && !this.isEnding) {
      this.isAsked = false;
      this.folders.settle();
      this.tellRefused();
      await this.buildOnce();
    }
    if (this.isEnding) this.leave(0);
  }

  async buildOnce() {
    const begun = performance.now();
    this.running = new Command(this.program, ['build', ...this.words]);
    const { status, printed, error } = await this.running.ended;
    this.running = null;
    if (error) return this.refuse(`watch: the program or the folder isn't there (${error.message})\n`, 127);
    if (status === 2 && printed.startsWith('usage:')) return this.refuse(USAGE, 2);
    const left = NOTHING_WRITTEN.has(status) ? '; dist is as it was' : '';
    this.print(`${printed}watch: ${((performance.now() - begun) / 1000).toFixed(2)} s, ${clock(new Date())}${left}\n`);
  }

  // Once, since each build would tell it again.
  tellRefused() {
    const [first] = this.folders.refused;
    if (!first || this.hasToldRefused) return;
    this.hasToldRefused = true;
    this.complain(`watch: changes in ${counted(this.folders.refused.length)} aren't seen, as in ${first.folder || '.'} (${first.error.code}): `
      + 'where it says ENOSPC, sysctl fs.inotify.max_user_watches has to be greater\n');
  }

  // A build that runs ends first, so that no file is left half way; a second signal, or patience at its end, stops it.
  end() {
    const isSecond = this.isEnding;
    this.isEnding = true;
    clearTimeout(this.timer);
    this.folders?.close();
    if (!this.running) this.leave(0);
    else if (isSecond || !this.program) this.running.stop();
    else setTimeout(() => this.running?.stop(), PATIENCE).unref();
  }
}

function counted(folders) {
  return folders === 1 ? '1 folder' : `${folders} folders`;
}

function clock(time) {
  return [time.getHours(), time.getMinutes(), time.getSeconds()].map((part) => String(part).padStart(2, '0')).join(':');
}
