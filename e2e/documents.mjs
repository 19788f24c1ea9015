// What documents show is tried: a block below `<!-- PATH -->` is that file, and one below `<!-- in FOLDER -->` is what its commands print in a
// copy of the folder. The charts are those that their figures give, and the figures those that bench/modules measured.
import assert from 'node:assert/strict';
import fs from 'node:fs';
import path from 'node:path';
import { command, repository, run, temporaryFolder } from './command.mjs';
import { charts } from '../bench/chart/chart.mjs';

const DOCUMENTS = ['README.md', 'CONTRIBUTING.md', 'docs/USING.md'];
const BLOCK = /<!-- (in )?(\S+) -->\n```\w*\n([^]*?)```\n/g;
const LINK = /<(?:source|img) [^>]*src(?:set)?="([^"]+)"|\]\(([^)#:]+)\)/g;

function read(name) {
  return fs.readFileSync(path.join(repository, name), 'utf8');
}

// The examples, with commands of bin/ that are handed on.
function copyOfExamples() {
  const root = temporaryFolder();
  fs.cpSync(path.join(repository, 'examples'), path.join(root, 'examples'), { recursive: true, filter: (name) => path.basename(name) !== 'dist' });
  fs.mkdirSync(path.join(root, 'bin'));
  const programs = { chunkpack: command, view: path.join(repository, 'bin', 'view'), doctor: path.join(repository, 'bin', 'doctor') };
  for (const [name, program] of Object.entries(programs)) {
    fs.writeFileSync(path.join(root, 'bin', name), `#!/bin/sh\nexec "${program}" "$@"\n`, { mode: 0o755 });
  }
  return root;
}

// Each command with the lines below it, up to the next one.
function commandsOf(block) {
  return block.split(/^\$ /m).slice(1).map((part) => {
    const end = part.indexOf('\n');
    return [part.slice(0, end), part.slice(end + 1)];
  });
}

function showsFiles(name) {
  const shown = [...read(name).matchAll(BLOCK)].filter(([, isFolder]) => !isFolder);
  for (const [, , file, text] of shown) assert.equal(text, read(file), file);
  return shown.length;
}

function showsOutputs(name) {
  const shown = [...read(name).matchAll(BLOCK)].filter(([, isFolder]) => isFolder);
  for (const [, , folder, block] of shown) {
    const root = copyOfExamples();
    for (const [line, wanted] of commandsOf(block)) {
      const { printed } = run('sh', ['-c', line], { cwd: path.join(root, folder) });
      assert.equal(printed, wanted, line);
    }
  }
  return shown.length;
}

// The first command of README, from the top of a checkout.
function startsHere() {
  const [, line] = /## Start here\n\n```sh\n(\([^\n]*\)) {2,}#/.exec(read('README.md'));
  assert.deepEqual(run('sh', ['-c', line], { cwd: copyOfExamples() }),
    { status: 0, printed: 'built: 5 modules, 4 chunks, 5 assets\ncheckout.js\ndesk.js\nlib.js\nshop.js\nstats.json\n' });
}

function hasLinks(name) {
  for (const [, picture, link] of read(name).matchAll(LINK)) {
    const file = path.join(path.dirname(name), picture ?? link);
    assert.ok(fs.existsSync(path.join(repository, file)), file);
  }
}

function drawsCharts() {
  for (const [name, text] of Object.entries(charts())) assert.equal(text, read(`bench/chart/${name}`), name);
}

// A cell of bench/modules/README.md as seconds by the clock and megabytes.
function figuresOf(cell) {
  const told = /^([\d.]+) s, [\d.]+ s, (\d+) MB$/.exec(cell.trim());
  return told && [Number(told[1]), Number(told[2])];
}

function chartsWhatWasMeasured() {
  const { trees } = JSON.parse(read('bench/chart/figures.json'));
  const rows = read('bench/modules/README.md').split('\n').map((line) => line.split('|').map((cell) => cell.trim()));
  for (const { name, ...programs } of trees) {
    const [, , chunkpack, esbuild, , rollup] = rows.find((row) => row[1] === name && figuresOf(row[2] ?? ''));
    const measured = { chunkpack: figuresOf(chunkpack), esbuild: figuresOf(esbuild), ...(rollup && { rollup: figuresOf(rollup) }) };
    assert.deepEqual(programs, measured, name);
  }
  assert.equal(trees.length, 4);
}

export async function checkDocuments(tally) {
  let shown = 0;
  for (const name of DOCUMENTS) {
    await tally.check(`${name}: files and outputs are as it shows them`, () => { shown += showsFiles(name) + showsOutputs(name); });
    await tally.check(`${name}: what it links to is there`, () => hasLinks(name));
  }
  await tally.check('README.md: an example is shown and its first command does what it says', () => {
    assert.ok(shown >= 5);
    startsHere();
  });
  await tally.check('the charts are those of their figures', drawsCharts);
  await tally.check('the figures are those of bench/modules', chartsWhatWasMeasured);
}
