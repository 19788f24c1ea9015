// The emitted runtime loads chunks by script elements. Today's builds have one chunk, so the others are written here.
import assert from 'node:assert/strict';
import fs from 'node:fs';
import path from 'node:path';
import { chunkpack, projectOf } from './command.mjs';
import { openPage, whatPageSaw } from './page.mjs';

const LATE = `self.__chunkpack.a(1,{
7:function(module,exports,__cp){
exports.late=true;
}
});
`;

async function pageOfLateChunk() {
  const folder = projectOf({ 'c.json': '{"entry":"./src/index.js"}', 'src/index.js': '' });
  assert.equal(chunkpack(folder, ['build', 'c.json']).status, 0);
  const dist = path.join(folder, 'dist');
  fs.writeFileSync(path.join(dist, 'late.js'), LATE);
  const page = await openPage(dist, ['main.js']);
  page.evaluate('self.__chunkpack.f={1:"late.js",2:"gone.js"};self.told=[];');
  return page;
}

// Two calls share one script element, and the chunk's modules are there behind them.
async function loadsOnce() {
  const page = await pageOfLateChunk();
  const load = 'self.__chunkpack.e([1]).then(function(){self.told.push(self.__chunkpack(7).late);});';
  page.evaluate(load);
  page.evaluate(load);
  await page.settle();
  page.evaluate(load);
  await page.settle();
  assert.deepEqual(page.loads, ['late.js']);
  assert.equal(page.evaluate('JSON.stringify(self.told)'), '[true,true,true]');
  const saw = whatPageSaw(page);
  assert.deepEqual(saw.problems, []);
  assert.deepEqual(saw.started, [0, 7]);
}

// A script that can't be loaded refuses the promise, and may be tried again.
async function refuses() {
  const page = await pageOfLateChunk();
  const load = 'self.__chunkpack.e([2]).catch(function(error){self.told.push(error.message);});';
  for (let time = 0; time < 2; time++) {
    page.evaluate(load);
    await page.settle();
  }
  assert.deepEqual(page.loads, ['gone.js', 'gone.js']);
  assert.equal(page.evaluate('JSON.stringify(self.told)'), '["chunk 2","chunk 2"]');
}

export async function checkLoading(tally) {
  await tally.check('the runtime loads a chunk once', loadsOnce);
  await tally.check('the runtime tells a chunk that cannot be loaded', refuses);
}
