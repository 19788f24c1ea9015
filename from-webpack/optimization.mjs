// `optimization`, with what the mode stands for.
import { splitChunksOf } from './split_chunks.mjs';
import { cannot, differs, dropped, tellMembers } from './told.mjs';

const inside = dropped('it changes no chunk\'s modules');
const rules = {
  minimizer: dropped('nothing is minified'),
  runtimeChunk: differs('the runtime stands in each entry\'s chunk: leave out the script of the runtime', false),
  removeAvailableModules: dropped('what is there already is always left out'),
  flagIncludedChunks: inside, providedExports: inside, concatenateModules: inside, innerGraph: inside, mangleExports: inside, realContentHash: inside,
  mangleWasmImports: inside, checkWasmTypes: inside, portableRecords: inside, avoidEntryIife: inside,
  emitOnErrors: differs('nothing is written where there are faults', false),
  noEmitOnErrors: differs('nothing is written where there are faults', true),
};

const kept = 'modules and exports that nothing uses stay, and cost bytes';
const effective = {
  minimize: differs('files are not minified: run a minifier over dist', false),
  usedExports: differs(kept, false),
  nodeEnv: differs('process.env.NODE_ENV is not set: docs/FROM_WEBPACK.md has the lines that set it', false),
  chunkIds: differs('a chunk without a name has a number, which moves when chunks come or go: name it by webpackChunkName', 'natural'),
};

function defaultsOf(mode) {
  const isProduction = mode === 'production';
  const ids = { production: 'deterministic', development: 'named', none: 'natural' }[mode];
  return { minimize: isProduction, usedExports: isProduction, nodeEnv: mode === 'none' ? false : mode, moduleIds: ids, chunkIds: ids };
}

// `packages` has the names of those that are marked as free of side effects.
export function optimizationOf(optimization, { mode, place, entries, packages }, told) {
  const { splitChunks, moduleIds, sideEffects, mergeDuplicateChunks, removeEmptyChunks, ...rest } = optimization;
  const defaults = defaultsOf(mode);
  const made = {};
  tellEffective(optimization, defaults, told);
  tellSideEffects(sideEffects, mode, packages.flagged, told);
  const ids = moduleIdsOf(moduleIds, defaults.moduleIds, told);
  if (ids === 'named') made.moduleIds = ids;
  if (mergeDuplicateChunks !== undefined) made.mergeDuplicateChunks = Boolean(mergeDuplicateChunks);
  if (removeEmptyChunks !== undefined) made.removeEmptyChunks = Boolean(removeEmptyChunks);
  if (removeEmptyChunks === false) told.differs('optimization.removeEmptyChunks', 'an import() of what is always there has an empty chunk too, which webpack never makes');
  const others = Object.fromEntries(Object.entries(rest).filter(([key]) => !(key in effective)));
  tellMembers('optimization.', others, rules, told);
  const usesExports = Boolean(optimization.usedExports ?? defaults.usedExports);
  made.splitChunks = splitChunksOf(splitChunks, { mode, place, entries, usesExports }, told);
  return made;
}

// What isn't written counts as webpack takes it by the mode.
function tellEffective(given, defaults, told) {
  for (const [key, rule] of Object.entries(effective)) {
    if (given[key] !== undefined) rule(`optimization.${key}`, given[key], told);
    else if (defaults[key] !== false && defaults[key] !== 'natural') rule(`optimization.${key} (by mode)`, defaults[key], told);
  }
}

function moduleIdsOf(given, byMode, told) {
  const ids = given ?? byMode;
  if (ids === 'natural' || ids === 'named') return ids;
  told.differs(`optimization.moduleIds${given === undefined ? ' (by mode)' : ''}`, 'a module\'s number is its place among the paths, which moves when modules come or go: write "named" for ids that stay');
  return undefined;
}

// By `true` webpack looks for side effects itself; else it asks the manifests alone.
function tellSideEffects(given, mode, flagged, told) {
  if (given === false) return told.dropped('optimization.sideEffects', 'it is so here');
  const value = given ?? (mode === 'production' ? true : 'flag');
  if (value !== true && flagged.length === 0) return undefined;
  const where = value === true ? '' : `, of ${few(flagged)} too`;
  return told.differs(`optimization.sideEffects${given === undefined ? ' (by mode)' : ''}`, `modules without side effects of which nothing is used${where} stay, and cost bytes`);
}

export function few(names) {
  return names.length > 4 ? `${names.slice(0, 3).join(', ')} and ${names.length - 3} more` : names.join(', ');
}
