// The configuration that a file gives, as webpack's command reads it: an object, a function, or a promise of one.
import fs from 'node:fs';
import path from 'node:path';
import { pathToFileURL } from 'node:url';

export class Refusal extends Error {}

const NAMES = ['webpack.config.js', 'webpack.config.mjs', 'webpack.config.cjs'];

export async function load(folder, name) {
  const file = path.resolve(folder, name ?? NAMES.find((one) => fs.existsSync(path.join(folder, one))) ?? NAMES[0]);
  if (!fs.existsSync(file)) throw new Refusal(`${path.relative(folder, file)} isn't there`);
  return called(exported(await imported(file)));
}

async function imported(file) {
  try {
    return await import(pathToFileURL(file));
  } catch (error) {
    throw new Refusal(`node can't read it: ${String(error?.message ?? error).split('\n')[0]}`);
  }
}

function exported(module) {
  const value = module.default ?? module;
  return value?.__esModule && value.default ? value.default : value;
}

// What webpack's command hands to a function where it has no words besides `build`.
async function called(value) {
  const env = { WEBPACK_BUNDLE: true, WEBPACK_BUILD: true };
  const config = await (typeof value === 'function' ? value(env, { env }) : value);
  if (Array.isArray(config)) throw new Refusal('it is a list of configurations: give each a file of its own');
  if (config === null || typeof config !== 'object') throw new Refusal('it gives no object');
  return config;
}
