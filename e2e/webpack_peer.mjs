// Builds folders with webpack and prints, as JSON, what is in which chunk of each: `node webpack_peer.mjs FOLDER ..`. Without a
// folder it prints webpack's version. webpack is looked for as Node does, by NODE_PATH too.
import { createRequire } from 'node:module';
import fs from 'node:fs';
import path from 'node:path';

// Debian's packages ask Debian's Node where they lie, which another Node doesn't tell.
if (!process.config.variables.node_relative_path) {
  const variables = { ...process.config.variables, node_relative_path: 'share/nodejs', node_prefix: '/usr' };
  Object.defineProperty(process, 'config', { value: { ...process.config, variables } });
}
const require = createRequire(import.meta.url);
const webpack = require('webpack');
const WANTED = { all: false, errors: true, entrypoints: true, ids: true, chunks: true, chunkModules: true, dependentModules: true, nestedModules: true, chunkModulesSpace: Infinity, nestedModulesSpace: Infinity };

async function configOf(folder) {
  const name = ['webpack.config.js', 'webpack.config.mjs'].find((one) => fs.existsSync(path.join(folder, one)));
  const { default: given } = await import(path.join(folder, name));
  const config = await (typeof given === 'function' ? given({ WEBPACK_BUNDLE: true }, { env: { WEBPACK_BUNDLE: true } }) : given);
  const { output, optimization, ...rest } = config;
  // Where and how files are written is not asked.
  return { ...rest, output: { ...output, path: path.join(folder, 'by-webpack') }, optimization: { ...optimization, minimize: false } };
}

// A module that webpack has put together of several counts as these.
function filesOf(modules, folder) {
  return modules.flatMap((module) => {
    if (module.modules) return filesOf(module.modules, folder);
    return module.nameForCondition ? [path.relative(folder, module.nameForCondition)] : [];
  });
}

function chunksOf(stats, folder) {
  const chunks = new Map(stats.chunks.map((chunk) => [chunk.id, { name: chunk.names[0] ?? null, modules: filesOf(chunk.modules, folder).sort() }]));
  const entries = Object.entries(stats.entrypoints).map(([name, { chunks: ids }]) => [name, ids.map((id) => chunks.get(id).modules)]);
  return { chunks: [...chunks.values()], entries: Object.fromEntries(entries) };
}

async function build(folder) {
  process.chdir(folder);
  const config = await configOf(folder);
  const stats = await new Promise((done, failed) => webpack(config, (error, made) => (error ? failed(error) : done(made))));
  const told = stats.toJson(WANTED);
  if (told.errors.length > 0) throw new Error(`${folder}: ${told.errors[0].message}`);
  return chunksOf(told, folder);
}

const folders = process.argv.slice(2);
const built = [];
for (const folder of folders) built.push(await build(folder));
console.log(folders.length > 0 ? JSON.stringify(built) : webpack.version);
