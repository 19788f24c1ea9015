// bin/chunkpack runs the release where its sources stand, and builds where they don't; bin/release makes it. All in a copy
// of the repository, in which scripts stand for the program and for `rt`.
import assert from 'node:assert/strict';
import { spawnSync } from 'node:child_process';
import fs from 'node:fs';
import path from 'node:path';
import { repository, temporaryFolder } from './command.mjs';

const BUILT = '#!/bin/sh\necho "usage: chunkpack build CONFIG"\n';
const RELEASE = '#!/bin/sh\n[ $# -gt 0 ] || exec echo "usage: chunkpack build CONFIG"\necho "released: $*"\nexit 7\n';
// It tells what it is asked for, and for `run` builds and runs the program as `rt` does.
const RT = `#!/bin/sh
echo "$1 \${PWD##*/}" >>"$ASKED"
[ "$1" = run ] || exit 0
mkdir -p out
cat >out/pack_main <<'END'
${BUILT}END
sh out/pack_main
`;

function writeProgram(place, text) {
  fs.mkdirSync(path.dirname(place), { recursive: true });
  fs.writeFileSync(place, text, { mode: 0o755 });
}

// The repository's sources and scripts, with no kit but what is given.
class Copy {
  constructor(rt) {
    this.root = temporaryFolder();
    for (const part of ['bin', 'crates', 'crates.txt', 'docs']) {
      fs.cpSync(path.join(repository, part), path.join(this.root, part), {
        recursive: true, filter: (source) => path.basename(source) !== 'out',
      });
    }
    this.tools = temporaryFolder();
    this.asked = path.join(this.tools, 'asked');
    if (rt) writeProgram(path.join(this.tools, 'rt'), rt);
  }

  place(name) {
    return path.join(this.root, name);
  }

  run(name, words = []) {
    const env = { PATH: `${this.tools}:/usr/bin:/bin`, ASKED: this.asked };
    const { status, stdout, stderr } = spawnSync(this.place(name), words, { cwd: this.tools, env, encoding: 'utf8' });
    return { status, printed: stdout, told: stderr };
  }

  // A release that tells its words, made of the sources as they stand.
  release() {
    writeProgram(this.place('release/chunkpack'), RELEASE);
    fs.writeFileSync(this.place('release/chunkpack.digest'), this.run('bin/digest').printed);
  }

  isReleased() {
    const { status, printed } = this.run('bin/chunkpack', ['build', 'a b']);
    if (status !== 7) return false;
    assert.equal(printed, 'released: build a b\n');
    return true;
  }
}

function append(place, text) {
  fs.appendFileSync(place, text);
}

function whatCounts() {
  const copy = new Copy();
  assert.equal(copy.run('bin/chunkpack').status, 127, 'no release and no kit');
  const changes = [
    ['a source', () => append(copy.place('crates/pack_main/src/main.rt'), '\n')],
    ['a source of a crate below', () => append(copy.place('crates/fault_place/src/lib.rt'), '\n')],
    ['a definition', () => append(copy.place('crates/pack_run/specs/Lib.antt'), '\n')],
    ['a proof', () => append(copy.place('crates/outside/proofs/Lib.antt'), '\n')],
    ['a new file', () => append(copy.place('crates/path_text/src/more.rt'), '')],
    ['a file that is gone', () => fs.rmSync(copy.place('crates/path_text/src/more.rt'))],
    ['a dependency', () => append(copy.place('crates.txt'), 'pack_main: pack_run outside outside_real fault_place hex\n')],
  ];
  for (const [name, change] of changes) {
    copy.release();
    assert.ok(copy.isReleased(), `before ${name}`);
    change();
    assert.ok(!copy.isReleased(), name);
  }
}

function whatDoesNotCount() {
  const copy = new Copy();
  copy.release();
  append(copy.place('docs/USING.md'), '\n');
  append(copy.place('crates/pack_run/README.md'), '\n');
  append(copy.place('crates/test_boards/src/lib.rt'), '\n');
  append(copy.place('crates.txt'), '# a comment\nanother: test_boards\n');
  fs.mkdirSync(copy.place('crates/path_text/must-fail'), { recursive: true });
  append(copy.place('crates/path_text/must-fail/another.edit'), '\n');
  const lines = fs.readFileSync(copy.place('crates.txt'), 'utf8').split('\n');
  fs.writeFileSync(copy.place('crates.txt'), `${lines.reverse().join('\n')}\n`);
  assert.ok(copy.isReleased());
  fs.chmodSync(copy.place('release/chunkpack'), 0o644);
  assert.ok(!copy.isReleased(), 'a release that is no program');
  copy.release();
  writeProgram(copy.place('release/chunkpack'), '\x7fELF');
  assert.ok(!copy.isReleased(), 'a release that this machine does not run');
}

function makesRelease() {
  const copy = new Copy(RT);
  const isReleased = () => copy.run('bin/release', ['--check']).status === 0;
  assert.ok(!isReleased(), 'no release');
  const made = copy.run('bin/release');
  assert.deepEqual({ status: made.status, printed: made.printed }, { status: 0, printed: '' });
  assert.equal(fs.readFileSync(copy.place('release/chunkpack'), 'utf8'), BUILT);
  assert.deepEqual(fs.readdirSync(copy.place('release')).sort(), ['chunkpack', 'chunkpack.digest']);
  assert.ok(isReleased());
  assert.equal(copy.run('bin/program').printed, `${copy.place('release/chunkpack')}\n`);
  append(copy.place('crates/pack_main/out/pack_main'), '\n');
  assert.ok(!isReleased(), 'another program was built');
  assert.equal(copy.run('bin/release').status, 0);
  append(copy.place('crates/pack_main/src/main.rt'), '\n');
  assert.ok(!isReleased(), 'the sources changed');
}

// Each library is asked for once, and the program after all of them.
function buildsSideBySide() {
  const copy = new Copy(RT);
  assert.equal(copy.run('bin/chunkpack').status, 0);
  const asked = fs.readFileSync(copy.asked, 'utf8').trimEnd().split('\n');
  const crates = copy.run('bin/crates').printed.trimEnd().split('\n').map((line) => line.split(' ')[0]);
  assert.equal(crates.at(-1), 'pack_main');
  assert.deepEqual([...asked].sort(), crates.map((name) => `${name === 'pack_main' ? 'run' : 'lib'} ${name}`).sort());
  assert.equal(asked.at(-1), 'run pack_main');
  assert.equal(copy.run('bin/chunkpack').told, '', 'the program is current');
}

function failsToBuild() {
  const copy = new Copy('#!/bin/sh\necho "no proof" >&2\nexit 1\n');
  const { status, printed, told } = copy.run('bin/chunkpack', ['build', 'c.json']);
  assert.deepEqual({ status, printed }, { status: 126, printed: '' });
  assert.match(told, /no proof\n.*was not built/s);
}

export async function checkRelease(tally) {
  await tally.check('a release counts where no source has changed', whatCounts);
  await tally.check('what is no source of the program may change', whatDoesNotCount);
  await tally.check('bin/release makes the release and checks it', makesRelease);
  await tally.check('libraries are asked for before the program', buildsSideBySide);
  await tally.check('a program that is not proved is not run', failsToBuild);
}
