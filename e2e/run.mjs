// Builds projects with the bundler and runs what comes out as a page does. `run.sh` finds Node and calls it. The last lines
// count what was skipped, and what passed and failed; the status is 1 where something failed.
import { findBrowser } from './browser.mjs';
import { checkProject } from './built.mjs';
import { checkProgram } from './command.mjs';
import { Browser } from './devtools.mjs';
import { checkDoctor } from './doctor.mjs';
import { checkDocuments } from './documents.mjs';
import { checkEnds } from './ends.mjs';
import { checkFromWebpack } from './from_webpack.mjs';
import { checkInstall } from './install.mjs';
import { checkLazy } from './lazy.mjs';
import { checkLoading } from './loading.mjs';
import { checkMigration } from './migration.mjs';
import { checkNetwork } from './network.mjs';
import { checkNpm } from './npm.mjs';
import { checkPackages } from './packages.mjs';
import { checkPlaces } from './places.mjs';
import { projects } from './projects.mjs';
import { checkReasons } from './reasons.mjs';
import { checkRelease } from './release.mjs';
import { checkRoutes } from './routes.mjs';
import { checkSamples } from './samples.mjs';
import { checkSchema } from './schema.mjs';
import { Tally } from './tally.mjs';
import { checkView } from './view.mjs';
import { checkViewWith } from './view_with.mjs';
import { checkWatch } from './watch.mjs';
import { checkWords } from './words.mjs';

// What is asked of one browser, page after page.
async function checkPages(tally, program) {
  const browser = program && new Browser(program);
  try {
    await checkNetwork(tally, browser);
    await checkView(tally, browser);
    await checkViewWith(tally, browser);
    await checkRoutes(tally, browser);
  } finally {
    await browser?.close();
  }
}

const tally = new Tally();
const browser = findBrowser();
// Without a program there is nothing to ask, and each command would try to build it again.
await tally.check('the program is there', checkProgram);
if (tally.failed === 0) {
  for (const { name, make } of projects) await checkProject(tally, name, make(), browser);
  await checkLoading(tally);
  await checkLazy(tally);
  await checkPages(tally, browser);
  await checkReasons(tally);
  await checkPackages(tally);
  await checkEnds(tally);
  await checkWords(tally);
  await checkSamples(tally);
  await checkPlaces(tally);
  await checkDoctor(tally);
  await checkDocuments(tally);
  // bin/test tries them apart, by scripts.mjs.
  if (!process.env.SCRIPTS_APART) {
    await checkInstall(tally);
    await checkNpm(tally);
    await checkWatch(tally);
    await checkRelease(tally);
  }
  await checkFromWebpack(tally);
  await checkMigration(tally);
  await checkSchema(tally);
}
process.exitCode = tally.finish();
