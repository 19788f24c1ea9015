// `resolve`: aliases, and the lists with webpack's own members where "..." stands.
import path from 'node:path';
import { isRelative } from './place.mjs';
import { cannot, differs, dropped, tellMembers } from './told.mjs';

const speed = dropped('it changes no answer');
const rules = {
  modules: cannot('only node_modules is looked at: write an alias for what lies elsewhere', ['node_modules']),
  fallback: cannot('write it as resolve.alias, with an empty module in the place of false', {}),
  symlinks: differs('a symbolic link is not there for a build: put a copy in its place'),
  fullySpecified: differs('a request without its extension is taken too', false),
  preferRelative: cannot('write ./ before the requests', false),
  preferAbsolute: cannot('write requests from the module\'s folder', false),
  enforceExtension: differs('a request without its extension is taken too', false),
  exportsFields: cannot('only exports is read', ['exports']),
  importsFields: cannot('imports of package.json is not read: write aliases', []),
  aliasFields: cannot('a browser object is not read: write its members as resolve.alias', []),
  descriptionFiles: cannot('only package.json is read', ['package.json']),
  extensionAlias: cannot('write requests with the extension that the file has', {}),
  restrictions: cannot('nothing is refused by its place', []),
  roots: cannot('a request that begins with / names nothing: write it from the module\'s folder'),
  byDependency: cannot('there is one resolve for all', {}),
  plugins: cannot('resolver plugins are not run: write aliases', []),
  resolver: cannot('a resolver is not run: write aliases'),
  unsafeCache: speed, cache: speed, cachePredicate: speed, cacheWithContext: speed, fileSystem: speed, useSyncFileSystemCalls: speed,
};

export function resolveOf(resolve, mode, place, told) {
  const { alias, extensions, mainFields, mainFiles, conditionNames, ...rest } = resolve;
  const made = {};
  const aliases = aliasOf(alias, place, told);
  if (aliases !== undefined) made.alias = aliases;
  if (extensions !== undefined) made.extensions = extensionsOf(extensions, told);
  if (mainFields !== undefined) made.mainFields = listOf('resolve.mainFields', mainFields, ['browser', 'module', 'main'], told);
  if (mainFiles !== undefined) made.mainFiles = listOf('resolve.mainFiles', mainFiles, ['index'], told);
  made.conditionNames = conditionsOf(conditionNames, mode, told);
  tellMembers('resolve.', rest, rules, told);
  return made;
}

function listOf(option, list, defaults, told) {
  return [list].flat().flatMap((member) => {
    if (member === '...') return defaults;
    if (typeof member === 'string') return [member];
    told.cannot(option, 'a member is a text: write the name of one field');
    return [];
  });
}

function extensionsOf(list, told) {
  const made = listOf('resolve.extensions', list, ['.js', '.json'], told);
  const others = made.filter((extension) => extension !== '' && !/\.(js|mjs|cjs|json)$/.test(extension));
  if (others.length > 0) told.differs('resolve.extensions', `a file that ends with ${others.join(' or ')} ends the build with B15: compile it first`);
  return made;
}

// webpack adds the mode and the platform where no list is given, and `module` in each case.
function conditionsOf(list, mode, told) {
  const defaults = ['webpack', mode === 'development' ? 'development' : 'production', 'browser'];
  return [...new Set([...(list ? listOf('resolve.conditionNames', list, defaults, told) : defaults), 'module'])];
}

function aliasOf(alias, place, told) {
  if (alias === undefined || alias === false) return undefined;
  const given = Array.isArray(alias) ? alias.map(({ name, alias: value, onlyModule }) => [onlyModule ? `${name}$` : name, value]) : Object.entries(alias);
  const made = [];
  for (const [key, value] of given) {
    const request = valueOf(`resolve.alias.${key}`, key, value, place, told);
    if (request !== undefined) made.push([key, request]);
  }
  for (const [key, value] of made) tellSecond(key, value, made, told);
  return Object.fromEntries(made);
}

function valueOf(option, key, value, place, told) {
  const because = aliasRefusal(key, value);
  if (because) {
    told.cannot(option, because);
    return undefined;
  }
  if (isRelative(value)) told.differs(option, 'it counts from the folder in which the program is started, not from the module that asks');
  if (!path.isAbsolute(value)) return value;
  const below = place.below(value);
  if (below === undefined) told.cannot(option, `${value} lies outside the folder in which the program is started: start it higher up`);
  return below === undefined ? undefined : below === '' ? '.' : `./${below}`;
}

function aliasRefusal(key, value) {
  if (value === false) return 'name an empty module in the place of false';
  if (Array.isArray(value)) return 'name one place in the place of a list';
  if (key === '' || key.includes('*')) return 'the key is the begin of a request or, with $, all of it';
  if (path.isAbsolute(key)) return 'the key is what the request says, not the file that it names';
  if (value.includes('!') || value.includes('?')) return 'loaders and queries are not read';
  return undefined;
}

// webpack puts a second alias in, which isn't done here.
function tellSecond(key, value, aliases, told) {
  const second = aliases.find(([other]) => other !== key && (other === `${value}$` || other === value || value.startsWith(`${other}/`)));
  if (second) told.differs(`resolve.alias.${key}`, `its value is an alias itself, and one is put in: write ${second[1]} here`);
}
