// `output`: templates, the public path, and what has no place here.
import path from 'node:path';
import { isNormalPath } from './place.mjs';
import { cannot, differs, dropped, tellMembers } from './told.mjs';

const text = dropped('it changes how files are written and not what is in them');
const noFiles = dropped('there are no such files');
const rules = {
  clean: differs('other files in dist stay: remove dist before the build', false),
  compareBeforeEmit: dropped('a file that has its bytes already stays', true),
  pathinfo: text, charset: text, environment: text, strictModuleErrorHandling: text, strictModuleExceptionHandling: text,
  sourcePrefix: text, ignoreBrowserWarnings: text, importFunctionName: text, importMetaName: text,
  assetModuleFilename: noFiles, webassemblyModuleFilename: noFiles, cssFilename: noFiles, cssChunkFilename: noFiles,
  sourceMapFilename: noFiles, devtoolModuleFilenameTemplate: noFiles, devtoolFallbackModuleFilenameTemplate: noFiles, devtoolNamespace: noFiles,
  hotUpdateChunkFilename: noFiles, hotUpdateMainFilename: noFiles, hotUpdateGlobal: noFiles,
  wasmLoading: noFiles, workerChunkLoading: noFiles, workerWasmLoading: noFiles, workerPublicPath: noFiles,
  enabledChunkLoadingTypes: noFiles, enabledLibraryTypes: noFiles, enabledWasmLoadingTypes: noFiles,
  crossOriginLoading: differs('script elements have no crossorigin: serve the chunks from the page\'s origin', false),
  chunkLoadTimeout: differs('a load has no time limit: hold import() against a timer of your own'),
  chunkLoadingGlobal: differs('the global name is __chunkpack: load one build in a page'),
  uniqueName: differs('the global name is __chunkpack: load one build in a page'),
  globalObject: cannot('the files need a page\'s self', 'self', 'window'),
  library: cannot('an entry exports nothing: assign to self what other scripts need'),
  libraryTarget: cannot('an entry exports nothing: assign to self what other scripts need'),
  libraryExport: cannot('an entry exports nothing: assign to self what other scripts need'),
  umdNamedDefine: dropped('there are no libraries'),
  auxiliaryComment: dropped('there are no libraries'),
  iife: differs('chunks have a scope of their own', true),
  module: cannot('chunks are scripts', false),
  chunkFormat: cannot('chunks are scripts', 'array-push'),
  chunkLoading: cannot('chunks are loaded by script elements', 'jsonp'),
  scriptType: cannot('chunks are scripts', false, 'text/javascript'),
  trustedTypes: cannot('the address of a chunk is set as a text'),
  asyncChunks: cannot('write webpackMode "eager" in each import()', true),
};
const hashRules = {
  hashFunction: differs('the hash is SHA-256 in hexadecimal digits'),
  hashDigest: differs('the hash is SHA-256 in hexadecimal digits', 'hex'),
  hashSalt: differs('the hash is that of the written bytes alone'),
};

export function outputOf(output, place, told) {
  const { path: folder, filename, chunkFilename, publicPath, hashDigestLength, hashFunction, hashDigest, hashSalt, ...rest } = output;
  const made = {};
  if (folder !== undefined) folderOf(folder, place, told);
  const [entries, others] = templatesOf(filename, chunkFilename, told);
  if (entries !== undefined) made.filename = entries;
  if (others !== undefined) made.chunkFilename = others;
  const address = publicPathOf(publicPath, told);
  if (address !== undefined) made.publicPath = address;
  if (hashDigestLength !== undefined) made.hashDigestLength = Math.min(64, Math.max(1, hashDigestLength));
  const hasHash = [entries, others].some((template) => template?.includes('[contenthash'));
  tellMembers('output.', { hashFunction, hashDigest, hashSalt }, hasHash ? hashRules : asDropped(hashRules), told);
  tellMembers('output.', rest, rules, told);
  return made;
}

function asDropped(given) {
  return Object.fromEntries(Object.keys(given).map((key) => [key, dropped('no name has a hash')]));
}

function folderOf(folder, place, told) {
  if (place.below(path.resolve(place.root, folder)) === 'dist') return;
  told.differs('output.path', 'files are written to dist in the folder in which the program is started: copy them after the build');
}

function publicPathOf(value, told) {
  if (typeof value === 'function') {
    told.cannot('output.publicPath', 'a function is not called: write the path');
    return undefined;
  }
  if (value !== undefined && value !== 'auto') return value;
  const option = value === undefined ? 'output.publicPath (auto, as it isn\'t set)' : 'output.publicPath';
  told.differs(option, 'chunks are loaded from the page\'s folder and not from the script\'s: write the path of dist on the server, or "" for pages in dist');
  return undefined;
}

// Both templates, the second as webpack makes it of the first where it isn't given.
function templatesOf(filename = '[name].js', chunkFilename, told) {
  const entries = templateOf('output.filename', filename, told);
  const others = chunkFilename ?? chunkNameAfter(entries ?? '[name].js');
  return [entries, templateOf('output.chunkFilename', others, told)];
}

function chunkNameAfter(filename) {
  if (/\[(name|id|contenthash)[\]:]/.test(filename)) return filename;
  return filename.replace(/(^|\/)([^/]*)$/, '$1[id].$2');
}

function templateOf(option, template, told) {
  if (typeof template !== 'string') {
    told.cannot(option, 'a function is not called: write a template');
    return undefined;
  }
  const hashed = template.replace(/^(\.\/)+/, '').replaceAll('[query]', '').replace(/\[(chunkhash|fullhash|hash)(:\d+)?\]/g, '[contenthash$2]');
  if (/\[(chunkhash|fullhash|hash)[\]:]/.test(template)) told.differs(option, 'the hash is [contenthash], that of the written bytes');
  const plain = hashed.replace(/\[(name|id|contenthash(:([1-9]|[1-5]\d|6[0-4]))?)\]/g, 'a');
  if (!/[[\]?]/.test(plain) && isNormalPath(plain)) return hashed;
  told.cannot(option, `${template} has something besides [name], [id], [contenthash] and [contenthash:8]: write it with these`);
  return undefined;
}
