// `optimization.splitChunks` with webpack's defaults for the mode.
import { conditionOf } from './condition.mjs';
import { isNormalPath } from './place.mjs';
import { cannot, dropped, tellMembers } from './told.mjs';

const MOST = 4294967295;
const SELECTIONS = ['async', 'initial', 'all'];
const COUNTS = ['minSize', 'minChunks', 'maxAsyncRequests', 'maxInitialRequests', 'enforceSizeThreshold'];
const OPTION = 'optimization.splitChunks';

const names = dropped('it makes names of numbers');
const largest = cannot('a chunk has no largest size: write cache groups for its parts');
const rules = {
  maxSize: largest, maxAsyncSize: largest, maxInitialSize: largest,
  minSizeReduction: cannot('a split is not weighed by what it saves: raise minSize', 0),
  filename: cannot('output.chunkFilename names all: give the group a name'),
  layer: cannot('there are no layers'),
  type: cannot('write a test on the ending of the path', 'javascript/auto'),
  idHint: names, automaticNameDelimiter: names, hidePathInfo: names,
  fallbackCacheGroup: dropped('it is for maxSize alone'),
  defaultSizeTypes: dropped('all modules are JavaScript'),
};

// What webpack takes where nothing is written.
function defaultsOf(mode) {
  if (mode === 'production') return {};
  return { minSize: 10000, maxAsyncRequests: MOST, maxInitialRequests: MOST, enforceSizeThreshold: 30000 };
}

// `setting` has the mode, the place, the names of entries and whether exports that nothing uses are left out.
export function splitChunksOf(value, setting, told) {
  if (value === false) return false;
  const { cacheGroups = {}, chunks, name, minRemainingSize, usedExports, ...rest } = value ?? {};
  const { counts, others } = split(rest);
  const made = { ...defaultsOf(setting.mode), ...countsOf(OPTION, counts, told) };
  const selected = selectionOf(OPTION, chunks, told);
  if (selected !== undefined) made.chunks = selected;
  if (name !== undefined && name !== false) told.cannot(`${OPTION}.name`, 'give each cache group a name of its own');
  tellMembers(`${OPTION}.`, others, rules, told);
  made.cacheGroups = groupsOf(cacheGroups, setting, told);
  raiseThresholds(made);
  tellRemaining(value ?? {}, made, setting, told);
  tellUsed(value ?? {}, made, setting, told);
  return made;
}

function split(object) {
  const counts = {};
  const others = {};
  for (const [key, value] of Object.entries(object)) (COUNTS.includes(key) ? counts : others)[key] = value;
  return { counts, others };
}

function countsOf(option, counts, told) {
  const made = {};
  for (const [key, value] of Object.entries(counts)) {
    const size = value === undefined ? undefined : sizeOf(value);
    if (value !== undefined && size === undefined) told.cannot(`${option}.${key}`, 'it is no number from 0');
    // webpack takes 0 as no threshold.
    if (size !== undefined) made[key] = key === 'enforceSizeThreshold' && size === 0 ? MOST : size;
  }
  return made;
}

// A number, or that of JavaScript among sizes by type.
function sizeOf(value) {
  const size = typeof value === 'object' && value !== null ? value.javascript ?? 0 : value;
  return typeof size === 'number' && size >= 0 ? Math.min(MOST, Math.ceil(size)) : undefined;
}

function selectionOf(option, value, told) {
  if (value === undefined || SELECTIONS.includes(value)) return value;
  told.cannot(`${option}.chunks`, 'a function is not called: write async, initial or all');
  return undefined;
}

function groupsOf(cacheGroups, setting, told) {
  const taken = new Set(setting.entries);
  const groups = [];
  for (const [key, value] of Object.entries(cacheGroups)) {
    const group = groupOf(`${OPTION}.cacheGroups.${key}`, value, { ...setting, taken }, told);
    if (group !== undefined) groups.push([key, group]);
  }
  const made = Object.fromEntries(groups);
  const count = Object.values({ default: {}, defaultVendors: {}, ...made }).filter((group) => group !== false).length;
  if (count > 16) told.cannot(`${OPTION}.cacheGroups`, `${count} groups, with the two that are there by default, are more than 16: put some together`);
  return made;
}

// In webpack what is above the threshold is above minSize too.
function raiseThresholds(made) {
  const { minSize = 20000, enforceSizeThreshold = 50000 } = made;
  if (enforceSizeThreshold < minSize) made.enforceSizeThreshold = minSize;
  for (const group of Object.values(made.cacheGroups)) {
    const bound = group.minSize ?? minSize;
    const threshold = group.enforceSizeThreshold ?? Math.max(enforceSizeThreshold, minSize);
    if (group !== false && !group.enforce && threshold < bound) group.enforceSizeThreshold = bound;
  }
}

// A group that nothing is known of is left out.
function groupOf(option, value, setting, told) {
  if (value === false) return false;
  if (typeof value === 'function') return told.cannot(option, 'a function is not called: write a group by hand');
  const given = typeof value === 'string' || value instanceof RegExp ? { test: value } : value;
  const { test, chunks, name, priority, enforce, reuseExistingChunk, minRemainingSize, usedExports, ...rest } = given;
  const read = conditionOf(test, setting.place);
  if (read.cannot) return told.cannot(`${option}.test`, `${read.cannot}; the group is left out`);
  if (chunks !== undefined && !SELECTIONS.includes(chunks)) return told.cannot(`${option}.chunks`, 'write async, initial or all; the group is left out');
  if (read.differs) told.differs(`${option}.test`, read.differs);
  const { counts, others } = split(rest);
  tellMembers(`${option}.`, others, rules, told);
  const called = nameOf(option, name, setting.taken, told);
  const members = { test: read.condition, chunks, name: called, priority: priorityOf(option, priority, told), enforce, reuseExistingChunk, ...countsOf(option, counts, told) };
  return Object.fromEntries(Object.entries(members).filter(([, member]) => member !== undefined));
}

function priorityOf(option, value, told) {
  if (value !== undefined && !Number.isInteger(value)) told.cannot(`${option}.priority`, 'it is no whole number');
  return Number.isInteger(value) ? value : undefined;
}

function nameOf(option, value, taken, told) {
  if (value === undefined || value === false) return value;
  if (typeof value === 'function') return told.cannot(`${option}.name`, 'a function is not called: write one group for each name');
  if (!isNormalPath(value)) return told.cannot(`${option}.name`, `${value} is no path as a/b: give it another`);
  if (taken.has(value)) return told.cannot(`${option}.name`, `an entry or another group has the name ${value}: give it another, or put the groups together`);
  taken.add(value);
  return value;
}

// webpack leaves a split out after which the one chunk that it is of would have less than minRemainingSize.
function tellRemaining(given, made, setting, told) {
  const own = sizeOf(given.minRemainingSize);
  const top = own ?? (setting.mode === 'development' ? 0 : made.minSize ?? 20000);
  const all = Object.entries({ default: {}, defaultVendors: {}, ...given.cacheGroups }).filter(([, group]) => group !== false);
  const sizes = all.map(([, group]) => sizeOf(group.minRemainingSize) ?? (group.enforce ? 0 : top));
  const most = Math.max(0, ...sizes);
  if (most === 0) return;
  const option = `${OPTION}.minRemainingSize${own === undefined ? ' (by default)' : ''}`;
  told.differs(option, `a split may leave less than ${most} bytes behind in a chunk, where webpack would leave it out`);
}

// webpack asks, of several entries, for the same exports in use too.
function tellUsed(given, made, setting, told) {
  const groups = Object.values(given.cacheGroups ?? {});
  const isAsked = given.usedExports ?? setting.usesExports;
  if (setting.entries.length < 2 || !(isAsked || groups.some((group) => group?.usedExports))) return;
  told.differs(`${OPTION}.usedExports${given.usedExports === undefined ? ' (by optimization.usedExports)' : ''}`, 'chunks of several entries count as sharing a module whatever they use of it');
}
