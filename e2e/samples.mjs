// Samples: builds that need no files. Each tells the hash of what a build of the same tree from a folder writes, and no
// number of workers changes a byte.
import assert from 'node:assert/strict';
import { createHash } from 'node:crypto';
import fs from 'node:fs';
import { chunkpack, emitted, projectOf, temporaryFolder } from './command.mjs';
import { sampleTree } from './sample_tree.mjs';

const ENTRY = '{"entry":"./src/m00000.js"}';
const HASH_DIGITS = 20;
const COUNTS = [
  [1, '1 modules, 1 groups, 1 chunks, 0 splits'],
  [4, '5 modules, 2 groups, 3 chunks, 1 splits'],
  [16, '18 modules, 3 groups, 5 chunks, 2 splits'],
];

// The line of a sample, which leaves nothing in the folder.
function sampleLine(count, workers) {
  const folder = temporaryFolder();
  const { status, printed } = chunkpack(folder, ['sample', String(count), '--workers', String(workers)]);
  assert.equal(status, 0, printed);
  assert.deepEqual(fs.readdirSync(folder), []);
  return printed;
}

// The first digits of the hash of all assets in the order of the stats, which stand last.
function hashOf(assets) {
  const hash = createHash('sha256');
  for (const { name } of JSON.parse(assets['stats.json']).assets) hash.update(assets[name]);
  hash.update(assets['stats.json']);
  return hash.digest('hex').slice(0, HASH_DIGITS);
}

function built(count, workers) {
  const folder = projectOf({ 'c.json': ENTRY, ...sampleTree(count) });
  const { status, printed } = chunkpack(folder, ['build', 'c.json', `--workers=${workers}`]);
  assert.equal(status, 0, printed);
  return emitted(folder);
}

function checkCounts() {
  for (const [count, told] of COUNTS) {
    assert.equal(sampleLine(count, 1), `sample ${count}: ${told}, hash ${hashOf(built(count, 1))}\n`);
  }
}

function checkWorkers() {
  for (const count of [16, 1_000]) {
    const line = sampleLine(count, 1);
    assert.ok(line.endsWith(`hash ${hashOf(built(count, 1))}\n`), line);
    for (const workers of [2, 4, 7, 32]) assert.equal(sampleLine(count, workers), line, `${workers} workers`);
  }
}

// The largest sample there is.
function checkLargest() {
  const line = sampleLine(20_000, 4);
  assert.ok(line.endsWith(`hash ${hashOf(built(20_000, 1))}\n`), line);
}

function checkBuilds() {
  const one = built(500, 1);
  for (const workers of [2, 7, 32]) assert.deepEqual(built(500, workers), one, `${workers} workers`);
}

export async function checkSamples(tally) {
  await tally.check('samples tell the hash of the same tree in a folder', checkCounts);
  await tally.check('a sample is the same by any number of workers', checkWorkers);
  await tally.check('the largest sample', checkLargest);
  await tally.check('a build is the same by any number of workers', checkBuilds);
}
