// The scripts of bin/ over the program that stands here, which e2e/run.sh leaves out where CHUNKPACK names the program itself.
import { checkProgram } from './command.mjs';
import { checkInstall } from './install.mjs';
import { checkNpm } from './npm.mjs';
import { checkRelease } from './release.mjs';
import { Tally } from './tally.mjs';
import { checkWatch } from './watch.mjs';

const tally = new Tally();
await tally.check('bin/chunkpack runs the program', checkProgram);
if (tally.failed === 0) {
  await checkInstall(tally);
  await checkNpm(tally);
  await checkWatch(tally);
  await checkRelease(tally);
}
process.exitCode = tally.finish();
