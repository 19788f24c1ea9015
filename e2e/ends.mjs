// How a command ends where it builds nothing: the status, the lines, and what is left in `dist`.
import assert from 'node:assert/strict';
import fs from 'node:fs';
import { chunkpack, emitted, projectOf } from './command.mjs';

const ENTRY = '{"entry":"./src/index.js"}';
const WORDS = ['build', 'c.json'];
const USAGE = 'usage: chunkpack build CONFIG [--workers N] | chunkpack sample N [--workers N]\n';
const MOST_BYTES = 4_194_304;
const MOST_PATH_BYTES = 1_024;

function checkEnd(files, words, status, printed) {
  const folder = projectOf(files);
  assert.deepEqual(chunkpack(folder, words), { status, printed });
  assert.deepEqual(emitted(folder), {});
}

function build(files, status, printed) {
  checkEnd({ 'c.json': ENTRY, ...files }, WORDS, status, printed);
}

function longPath(bytes) {
  const folders = `${'f'.repeat(99)}/`.repeat(10);
  return folders + 'x'.repeat(bytes - folders.length);
}

function unresolved() {
  build({}, 1, 'c.json:1:10: B9 cannot resolve "./src/index.js"\nfaults: 1\n');
  build({ 'src/index.js': 'import "./a.js";\nimport "../../up.js";\n', 'src/a.js': 'import "./gone.js";' }, 1,
    'src/a.js:1:8: B9 cannot resolve "./gone.js"\n'
    + 'src/index.js:2:8: B9 cannot resolve "../../up.js"\nfaults: 2\n');
}

function textFaults() {
  build({ 'src/index.js': 'let a = `;\n' }, 1, 'src/index.js:1:9: B2 unfinished token\nfaults: 1\n');
  build({ 'src/index.js': 'import a;\nimport(b);\nexport { c as d, e as d };\n' }, 1, 'src/index.js:1:1: B7 form is not supported\n'
    + 'src/index.js:2:1: B8 import() needs one text\nsrc/index.js:3:1: B16 name "d" is repeated\nfaults: 3\n');
  build({ 'src/index.js': 'require("./a.json"); require("./a.css");', 'src/a.json': '{"a":}', 'src/a.css': '' }, 1,
    'src/a.css:1:1: B15 module type is not supported\nsrc/a.json:1:6: B14 bad JSON\nfaults: 2\n');
}

function tooLong() {
  build({ 'src/index.js': Buffer.alloc(MOST_BYTES + 1) }, 1, 'src/index.js:1:1: B19 module is too long\nfaults: 1\n');
  build({ 'src/index.js': Buffer.alloc(MOST_BYTES, '@') }, 1, 'src/index.js:1:1: B3 stray character\nfaults: 1\n');
  build({ 'c.json': Buffer.alloc(MOST_BYTES + 1) }, 2, 'c.json:1:1: config TooLong\n');
}

function badWords() {
  const refused = [[], ['build'], ['build', 'c.json', 'more'], ['pack', 'c.json'], ['build', '-c.json'], ['--help'],
    ['build', '../c.json'], ['build', '/c.json'], ['build', '.'], ['build', 'c.json', '--workers'], ['build', 'c.json', '--workers', '0'],
    ['build', 'c.json', '--workers=33'], ['build', '--workers', '1', 'c.json', '--workers', '1'], ['build', '--', 'c.json', '--workers', '1'],
    ['build', '-h', 'c.json'], ['sample'], ['sample', '0'], ['sample', '20001'], ['sample', '4', '5'], ['sample', 'four']];
  for (const words of refused) checkEnd({ 'c.json': ENTRY, 'src/index.js': '' }, words, 2, USAGE);
}

function badConfiguration() {
  const configurations = [
    ['', '1:1: config Json'],
    ['{"entry":"./src/index.js",}', '1:27: config Json'],
    ['[]', '1:1: config WrongType'],
    ['{"entry":5}', '1:10: config WrongType'],
    ['{"entry":"./src/index.js",\n "mode":"fast"}', '2:9: config OutOfRange'],
    ['{"entry":"./src/index.js","plugins":[]}', '1:27: config UnknownKey'],
    ['{"optimization":{"splitChunks":{"cacheGroups":{"a":{"name":"x"},"b":{"name":"x"}}}}}', '1:77: config Repeated'],
  ];
  for (const [text, told] of configurations) build({ 'c.json': text, 'src/index.js': '' }, 2, `c.json:${told}\n`);
}

function namesThatClash() {
  build({ 'c.json': '{"output":{"filename":"a.js"},"entry":{"x":"./src/x.js","y":"./src/y.js"}}', 'src/x.js': '', 'src/y.js': '' }, 1,
    'c.json:1:1: B17 asset "a.js" of chunk 0 and chunk 1\nfaults: 1\n');
  build({ 'src/index.js': 'import(/* webpackChunkName: "main" */ "./x.js");', 'src/x.js': '' }, 1,
    'src/index.js:1:39: B13 chunk name "main" is an entry\nfaults: 1\n');
  // Both at once: names of groups are told before those of assets.
  build({ 'c.json': '{"output":{"filename":"a.js"},"entry":{"x":"./src/x.js","y":"./src/y.js"}}',
    'src/x.js': 'import(/* webpackChunkName: "x" */ "./z.js");', 'src/y.js': '', 'src/z.js': '' }, 1,
    'src/x.js:1:36: B13 chunk name "x" is an entry\nfaults: 1\n');
}

function missingConfiguration() {
  checkEnd({ 'src/index.js': '' }, WORDS, 3, 'read failed\n');
  checkEnd({ 'c.json/x': '' }, WORDS, 3, 'read failed\n');
}

function longestPath() {
  build({ 'src/index.js': '', [longPath(MOST_PATH_BYTES + 1)]: '' }, 6, 'limit: PathBytes above 1024\n');
  const folder = projectOf({ 'c.json': ENTRY, 'src/index.js': '', [longPath(MOST_PATH_BYTES)]: '' });
  assert.equal(chunkpack(folder, WORDS).status, 0);
}

function noFolderToWrite() {
  const folder = projectOf({ 'c.json': ENTRY, 'src/index.js': '', dist: 'a file\n' });
  assert.deepEqual(chunkpack(folder, WORDS), { status: 4, printed: 'write failed\n' });
  assert.equal(fs.readFileSync(`${folder}/dist`, 'utf8'), 'a file\n');
}

function earlierBuildStays() {
  const folder = projectOf({ 'c.json': ENTRY, 'src/index.js': '' });
  assert.equal(chunkpack(folder, WORDS).status, 0);
  const before = emitted(folder);
  fs.writeFileSync(`${folder}/src/index.js`, 'import a;');
  assert.equal(chunkpack(folder, WORDS).status, 1);
  assert.deepEqual(emitted(folder), before);
}

function noPlaceForLines() {
  const folder = projectOf({ 'c.json': ENTRY, 'src/index.js': '' });
  const full = fs.openSync('/dev/full', 'w');
  assert.deepEqual(chunkpack(folder, WORDS, { stdio: ['ignore', full, 'inherit'] }), { status: 4, printed: '' });
  fs.closeSync(full);
  assert.deepEqual(Object.keys(emitted(folder)), ['main.js', 'stats.json']);
}

export async function checkEnds(tally) {
  await tally.check('a request that names no file is B9', unresolved);
  await tally.check('faults of texts', textFaults);
  await tally.check('names that clash', namesThatClash);
  await tally.check('texts above the limit', tooLong);
  await tally.check('words out of the grammar', badWords);
  await tally.check('a configuration without a meaning', badConfiguration);
  await tally.check('a configuration that is missing', missingConfiguration);
  await tally.check('the longest path', longestPath);
  await tally.check('assets that cannot be written', noFolderToWrite);
  await tally.check('what an earlier build left stays at a fault', earlierBuildStays);
  if (fs.existsSync('/dev/full')) await tally.check('lines that cannot be written', noPlaceForLines);
  else tally.skip('lines that cannot be written', 'this system has no /dev/full');
}
