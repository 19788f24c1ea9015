// The options of webpack that have no key here.
import { cannot, differs, dropped, tellMembers } from './told.mjs';

const speed = dropped('it changes the time alone');
const printing = dropped('it changes what is printed');
const serving = dropped('it is for serving: any server of files serves dist');
const watching = dropped('it is for watching: bin/watch watches');
const records = differs('ids follow from the sources and the configuration alone');

export const others = {
  stats: printing, infrastructureLogging: printing, performance: printing, ignoreWarnings: printing, profile: printing, name: printing,
  cache: speed, snapshot: speed, parallelism: speed,
  watch: watching, watchOptions: watching, devServer: serving,
  bail: dropped('all faults are told'),
  resolveLoader: dropped('loaders are not run'),
  loader: dropped('loaders are not run'),
  recordsPath: records, recordsInputPath: records, recordsOutputPath: records,
  dependencies: dropped('one configuration is built'),
  externals: cannot('name each by resolve.alias a module that gives what the page has (docs/FROM_WEBPACK.md)', {}, []),
  externalsType: dropped('it is for externals alone'),
  externalsPresets: cannot('nothing is left to the platform', {}),
  amd: cannot('define() of AMD is not read: name the package\'s ES or CommonJS build by resolve.alias', false),
  node: differs('global, __filename and __dirname are not there: docs/FROM_WEBPACK.md has the lines that set them', false),
  extends: cannot('write the options of that configuration into this one'),
  experiments: (option, value, told) => tellMembers('experiments.', value, experiments, told),
};

const experiments = {
  topLevelAwait: cannot('await outside a function is left as it is written, which is no program: put it into a function', false),
  outputModule: cannot('chunks are scripts', false),
  css: cannot('CSS is not read', false),
  asyncWebAssembly: cannot('WebAssembly is not read', false),
  syncWebAssembly: cannot('WebAssembly is not read', false),
  layers: cannot('there are no layers', false),
  lazyCompilation: speed, cacheUnaffected: speed,
  backCompat: printing,
  buildHttp: cannot('only files are read', false),
  futureDefaults: cannot('the defaults are those of webpack 5 without it', false),
};

export function targetOf(target, told) {
  if (target === undefined) return undefined;
  const targets = [target].flat();
  if (targets.every((one) => /^(web|es\d+|browserslist.*)$/.test(one))) {
    if (targets.some((one) => one === 'es5' || one.startsWith('browserslist'))) told.differs('target', 'what is written around the modules has const: run a compiler over dist for ES5');
    else if (targets.some((one) => one !== 'web')) told.dropped('target', 'no syntax is changed, neither by webpack');
    return 'web';
  }
  told.cannot('target', 'files are for pages: there is only "web"');
  return undefined;
}

export function devtoolOf(devtool, mode, told) {
  if (devtool === false || (devtool === undefined && mode !== 'development')) return;
  told.differs(`devtool${devtool === undefined ? ' (by mode)' : ''}`, 'there are no source maps: modules stand in the chunks as they are written');
}
