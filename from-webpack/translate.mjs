// The configuration of Chunkpack for one of webpack.
import { entryOf } from './entry.mjs';
import { few, optimizationOf } from './optimization.mjs';
import { devtoolOf, others, targetOf } from './others.mjs';
import { outputOf } from './output.mjs';
import { packagesOf } from './packages.mjs';
import { Place } from './place.mjs';
import { tellModule, tellPlugins } from './plugins.mjs';
import { resolveOf } from './resolve.mjs';
import { tellMembers } from './told.mjs';

export async function translate(config, root, told) {
  const { mode: given, context, entry, output = {}, resolve = {}, optimization = {}, target, devtool, plugins = [], module = {}, ...rest } = config;
  const mode = given ?? 'production';
  const place = new Place(root, context);
  const packages = packagesOf(root);
  const made = { mode };
  if (given === undefined) told.dropped('mode (not set)', 'webpack takes production');
  if (context !== undefined) told.dropped('context', 'entries are written from the folder in which the program is started');
  const platform = targetOf(target, told);
  if (platform !== undefined) made.target = platform;
  devtoolOf(devtool, mode, told);
  const entries = await entryOf(entry, place, told);
  if (entries !== undefined) made.entry = entries;
  made.output = outputOf(output, place, told);
  made.resolve = resolveOf(resolve, mode, place, told);
  tellPackages(resolve, packages, told);
  made.optimization = optimizationOf(optimization, { mode, place, entries: namesOf(entries), packages }, told);
  tellNames(made, told);
  tellModule(module, told);
  tellPlugins(plugins, told);
  tellMembers('', rest, others, told);
  return made;
}

function namesOf(entries) {
  return entries === undefined || typeof entries === 'string' || Array.isArray(entries) ? ['main'] : Object.keys(entries);
}

// webpack reads by default what a build here doesn't.
function tellPackages(resolve, { links, browser }, told) {
  if (links.length > 0 && resolve.symlinks === undefined) told.differs('resolve.symlinks (by default)', `a symbolic link is not there for a build, and node_modules has ${few(links)}: put copies in their place`);
  if (browser.length > 0 && resolve.aliasFields === undefined) told.differs('resolve.aliasFields (by default)', `the browser object of ${few(browser)} is not read: write its members as resolve.alias`);
}

// A chunk that splits take from entries has output.filename in webpack.
function tellNames({ output, optimization }, told) {
  const { splitChunks } = optimization;
  if (splitChunks === false || output.filename === output.chunkFilename) return;
  const selections = [splitChunks, ...Object.values(splitChunks.cacheGroups)].map((group) => group?.chunks);
  if (selections.some((chunks) => chunks === 'all' || chunks === 'initial')) told.differs('output.chunkFilename', 'it names what splits take from entries too, which webpack names by output.filename: write one template for both');
}
