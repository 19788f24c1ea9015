// bin/install copies the program to where it needs nothing of the repository.
import assert from 'node:assert/strict';
import path from 'node:path';
import { projectOf, repository, run } from './command.mjs';

const INSTALL = path.join(repository, 'bin', 'install');

function installs() {
  const folder = projectOf({ 'c.json': '{"entry":"./a.js"}', 'a.js': '' });
  assert.deepEqual(run(INSTALL, ['there'], { cwd: folder }), { status: 0, printed: 'installed there/bin/chunkpack\n' });
  const program = path.join(folder, 'there', 'bin', 'chunkpack');
  assert.deepEqual(run(program, ['build', 'c.json'], { cwd: folder }), { status: 0, printed: 'built: 1 modules, 1 chunks, 2 assets\n' });
}

export async function checkInstall(tally) {
  if (process.env.CHUNKPACK) tally.skip('bin/install', 'CHUNKPACK names another program');
  else await tally.check('bin/install copies a program that runs', installs);
}
