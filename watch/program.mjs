// Where the program is: CHUNKPACK names one, as for bin/view; in a checkout bin/program tells it, and builds it first where that is
// needed; in an installed package it is the release.
import fs from 'node:fs';
import path from 'node:path';
import { fileURLToPath } from 'node:url';
import { Command } from './command.mjs';

const ROOT = path.dirname(path.dirname(fileURLToPath(import.meta.url)));
const TELLER = path.join(ROOT, 'bin', 'program');
const RELEASE = path.join(ROOT, 'release', 'chunkpack');

// A program's path, or the command that prints it.
export function programOrTeller() {
  const { CHUNKPACK: named } = process.env;
  if (named) return { program: named.includes('/') ? path.resolve(named) : named };
  return fs.existsSync(TELLER) ? { teller: new Command(TELLER, []) } : { program: RELEASE };
}
