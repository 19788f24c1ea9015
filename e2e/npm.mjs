// The npm package: what `npm pack` puts into it, and that it works where npm installs it, without network and without what else
// the repository has.
import assert from 'node:assert/strict';
import { spawnSync } from 'node:child_process';
import fs from 'node:fs';
import path from 'node:path';
import { isOnPath, projectOf, repository, temporaryFolder } from './command.mjs';

const manifest = JSON.parse(fs.readFileSync(path.join(repository, 'package.json'), 'utf8'));
const MODULES = { 'src/index.js': 'import { one } from "./one.js";\nself.saw = one;\n', 'src/one.js': 'export const one = 1;\n' };
const BUILT = 'built: 2 modules, 1 chunks, 2 assets\n';

// npm in a home of its own, so that neither a cache nor settings of the user count.
class Npm {
  constructor() {
    this.home = temporaryFolder();
  }

  run(tool, folder, words, more = {}) {
    const env = { PATH: process.env.PATH, HOME: this.home, npm_config_cache: path.join(this.home, 'cache'), npm_config_update_notifier: 'false' };
    const { status, stdout, stderr, error } = spawnSync(tool, words, { cwd: folder, env: { ...env, ...more }, encoding: 'utf8' });
    if (error) throw error;
    return { status, printed: stdout, told: stderr };
  }

  // Packs the repository, and tells where the package lies and what is in it.
  pack() {
    const folder = temporaryFolder();
    const packed = this.run('npm', repository, ['pack', '--offline', '--json', '--pack-destination', folder]);
    assert.equal(packed.status, 0, packed.told);
    const [{ filename, files }] = JSON.parse(packed.printed);
    return { file: path.join(folder, filename), files: files.map((file) => file.path) };
  }

  install(folder, source, more) {
    return this.run('npm', folder, ['install', '--save-dev', '--offline', '--no-audit', '--no-fund', source], more);
  }
}

function filesBelow(name) {
  const place = path.join(repository, name);
  if (!fs.existsSync(place)) return [];
  if (!fs.statSync(place).isDirectory()) return [name];
  return fs.readdirSync(place).flatMap((member) => filesBelow(`${name}/${member}`));
}

const isProduct = (name) => /^(release\/chunkpack|LICENSE-(MIT|APACHE)|README\.md|package\.json)$/.test(name);
const folders = ['docs', 'view', 'from-webpack', 'watch', 'doctor'];
// Scripts that need the sources stay out: what they build is in the package already.
const scripts = Object.values(manifest.bin).filter((name) => name.startsWith('bin/'));

function checkContents(files) {
  for (const name of ['package.json', 'README.md', 'LICENSE-MIT', 'LICENSE-APACHE', 'release/chunkpack', 'docs/chunkpack.schema.json']) {
    assert.ok(files.includes(name), name);
  }
  const whole = [...folders, ...scripts].flatMap(filesBelow);
  assert.deepEqual(files.filter((name) => !isProduct(name)).sort(), whole.sort());
}

function projectWithNpm() {
  return projectOf({ 'package.json': '{"name":"project","version":"1.0.0","private":true}', 'c.json': '{}', ...MODULES });
}

function checkProgram(npm, folder) {
  const built = npm.run('npx', folder, ['--offline', 'chunkpack', 'build', 'c.json']);
  assert.deepEqual({ status: built.status, printed: built.printed }, { status: 0, printed: BUILT }, built.told);
  const wrong = npm.run('npx', folder, ['--offline', 'chunkpack', 'build']);
  assert.equal(wrong.status, 2);
}

// The page is built by the program that was installed, found through npm's link.
function checkView(npm, folder) {
  const shown = npm.run('npx', folder, ['--offline', 'chunkpack-view']);
  assert.equal(shown.status, 0, shown.told);
  assert.equal(shown.printed, `open ${path.join(fs.realpathSync(folder), 'dist/view/index.html')}\n`);
  for (const name of ['index.html', 'view.js', 'stats.js', 'style.css']) {
    assert.ok(fs.statSync(path.join(folder, 'dist/view', name)).size > 0, name);
  }
}

function checkFromWebpack(npm, folder) {
  fs.writeFileSync(path.join(folder, 'webpack.config.js'), 'module.exports = { mode: "none", entry: "./src/one.js", output: { publicPath: "" }, optimization: { splitChunks: false } };\n');
  const read = npm.run('npx', folder, ['--offline', 'chunkpack-from-webpack']);
  assert.equal(read.status, 0, read.told);
  assert.equal(JSON.parse(read.printed).entry, './src/one.js');
}

function checkLinks(folder) {
  for (const [name, file] of Object.entries(manifest.bin)) {
    if (!fs.existsSync(path.join(repository, file))) continue;
    const link = path.join(folder, 'node_modules/.bin', name);
    fs.accessSync(link, fs.constants.X_OK);
    assert.equal(fs.realpathSync(link), fs.realpathSync(path.join(folder, 'node_modules/chunkpack', file)));
  }
}

function installsPackage(npm, packed) {
  const folder = projectWithNpm();
  const installed = npm.install(folder, packed.file);
  assert.equal(installed.status, 0, installed.told);
  const place = path.join(folder, 'node_modules/chunkpack');
  assert.deepEqual(filesIn(place), [...packed.files].sort());
  checkLinks(folder);
  checkProgram(npm, folder);
  checkView(npm, folder);
  checkFromWebpack(npm, folder);
}

function filesIn(folder) {
  return fs.readdirSync(folder, { recursive: true }).filter((name) => fs.statSync(path.join(folder, name)).isFile()).sort();
}

// npm makes a link to a folder that it installs.
function installsFolder(npm, packed) {
  const folder = projectWithNpm();
  const source = temporaryFolder();
  for (const name of packed.files) fs.cpSync(path.join(repository, name), path.join(source, name));
  const installed = npm.install(folder, source);
  assert.equal(installed.status, 0, installed.told);
  checkProgram(npm, folder);
  checkView(npm, folder);
}

// What npm asks Node about the system, told otherwise.
const OTHERS = {
  'another system': 'Object.defineProperty(process, "platform", { value: "darwin" });',
  'another processor': 'Object.defineProperty(process, "arch", { value: "arm64" });',
  'another C library': 'process.report.getReport = () => ({ header: {}, sharedObjects: ["/lib/libc.musl-x86_64.so.1"] });',
};

function refusesOtherSystems(npm, packed) {
  for (const [name, text] of Object.entries(OTHERS)) {
    const folder = projectWithNpm();
    const told = path.join(temporaryFolder(), 'told.cjs');
    fs.writeFileSync(told, text);
    const refused = npm.install(folder, packed.file, { NODE_OPTIONS: `--require=${told}` });
    assert.notEqual(refused.status, 0, name);
    assert.match(refused.told, /EBADPLATFORM/, name);
    assert.ok(!fs.existsSync(path.join(folder, 'node_modules/chunkpack')), name);
  }
}

export async function checkNpm(tally) {
  if (!isOnPath('npm')) return tally.skip('the npm package', 'npm is not on PATH');
  if (process.env.CHUNKPACK) return tally.skip('the npm package', 'CHUNKPACK names another program');
  const npm = new Npm();
  let packed;
  await tally.check('npm pack takes the product and nothing else', () => checkContents((packed = npm.pack()).files));
  if (!packed) return;
  await tally.check('a package that npm installs builds, shows and translates', () => installsPackage(npm, packed));
  await tally.check('a folder that npm installs builds and shows', () => installsFolder(npm, packed));
  await tally.check('npm refuses the package on another system', () => refusesOtherSystems(npm, packed));
}
