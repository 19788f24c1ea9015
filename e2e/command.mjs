// Runs the bundler as a user does, in a folder of its own.
import { spawnSync } from 'node:child_process';
import fs from 'node:fs';
import os from 'node:os';
import path from 'node:path';
import { fileURLToPath } from 'node:url';

export const repository = path.dirname(path.dirname(fileURLToPath(import.meta.url)));

// CHUNKPACK names another program to try, as one that was installed.
export const command = path.resolve(process.env.CHUNKPACK ?? path.join(repository, 'bin', 'chunkpack'));

const made = [];
process.on('exit', removeFolders);

// Writes the files of a project, by path, into a new temporary folder.
export function projectOf(files) {
  const folder = temporaryFolder();
  for (const [name, text] of Object.entries(files)) {
    const file = path.join(folder, name);
    fs.mkdirSync(path.dirname(file), { recursive: true });
    fs.writeFileSync(file, text);
  }
  return folder;
}

export function copyOf(source) {
  const folder = temporaryFolder();
  fs.cpSync(source, folder, { recursive: true });
  fs.rmSync(path.join(folder, 'dist'), { recursive: true, force: true });
  return folder;
}

export function temporaryFolder() {
  const folder = fs.mkdtempSync(path.join(os.tmpdir(), 'chunkpack-e2e-'));
  made.push(folder);
  return folder;
}

function removeFolders() {
  for (const folder of made) fs.rmSync(folder, { recursive: true, force: true });
}

// The status and the printed lines of a program. What it tells on standard error is passed on.
export function run(program, words, options = {}) {
  const ran = spawnSync(program, words, { stdio: ['ignore', 'pipe', 'inherit'], encoding: 'utf8', ...options });
  if (ran.error) throw ran.error;
  return { status: ran.status, printed: ran.stdout ?? '' };
}

export function chunkpack(folder, words, options = {}) {
  return run(command, words, { cwd: folder, ...options });
}

export function isOnPath(tool) {
  return spawnSync(tool, ['--version'], { stdio: 'ignore' }).error === undefined;
}

// The program itself, which needs nothing of the repository.
export function programPath() {
  return process.env.CHUNKPACK ? command : run(path.join(repository, 'bin', 'program'), []).printed.trimEnd();
}

// bin/chunkpack builds the program where that is needed, and has a status of its own where it can't.
export function checkProgram() {
  const { status, printed } = chunkpack(temporaryFolder(), []);
  if (status !== 2) throw new Error(`${command} ended with ${status}: ${printed}`);
}

// The emitted files by name, in one order.
export function emitted(folder) {
  const dist = path.join(folder, 'dist');
  if (!fs.existsSync(dist)) return {};
  return Object.fromEntries(fs.readdirSync(dist).sort().map((name) => [name, fs.readFileSync(path.join(dist, name), 'utf8')]));
}
