// A command with what it prints. It has a process group of its own: ctrl-C doesn't reach it, and `stop` reaches all that it started.
import { spawn } from 'node:child_process';

export class Command {
  constructor(program, words) {
    this.child = spawn(program, words, { stdio: ['ignore', 'pipe', 'inherit'], detached: true });
    this.child.stdout.setEncoding('utf8');
    this.ended = this.end();
  }

  // The status and the lines; a program that can't be started has an error in their place.
  end() {
    let printed = '';
    this.child.stdout.on('data', (text) => { printed += text; });
    return new Promise((done) => {
      this.child.on('error', (error) => done({ error }));
      this.child.on('close', (status) => done({ status, printed }));
    });
  }

  stop() {
    try {
      process.kill(-this.child.pid, 'SIGTERM');
    } catch {
      // It has ended already.
    }
  }
}
