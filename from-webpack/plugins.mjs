// `plugins` and `module`: nothing of them runs. Each is told with what does its work.
import { cannot, dropped, tellMembers } from './told.mjs';

const known = {
  HtmlWebpackPlugin: cannot('write the page by hand, with a script element for each entry'),
  DefinePlugin: cannot('set the names in a first import (docs/FROM_WEBPACK.md)'),
  EnvironmentPlugin: cannot('set the names in a first import (docs/FROM_WEBPACK.md)'),
  ProvidePlugin: cannot('import the name where it is used'),
  IgnorePlugin: cannot('write a resolve.alias to an empty module'),
  NormalModuleReplacementPlugin: cannot('write a resolve.alias'),
  MiniCssExtractPlugin: cannot('CSS is not read: write a link element in the page'),
  CopyPlugin: cannot('copy the files after the build'),
  CleanWebpackPlugin: cannot('other files in dist stay: remove dist before the build'),
  BannerPlugin: cannot('write the text into the files after the build'),
  CompressionPlugin: cannot('compress the files after the build'),
  SourceMapDevToolPlugin: cannot('there are no source maps'),
  EvalSourceMapDevToolPlugin: cannot('there are no source maps'),
  SplitChunksPlugin: cannot('write it as optimization.splitChunks'),
  RuntimeChunkPlugin: cannot('the runtime stands in each entry\'s chunk'),
  TerserPlugin: cannot('run it over dist'),
  ProgressPlugin: dropped('it tells of the build'),
  BundleAnalyzerPlugin: dropped('bin/view shows a build'),
  HotModuleReplacementPlugin: dropped('it is for a server of webpack'),
  ForkTsCheckerWebpackPlugin: dropped('it checks and builds nothing'),
  ESLintWebpackPlugin: dropped('it checks and builds nothing'),
  CaseSensitivePathsPlugin: dropped('it checks and builds nothing'),
  WatchIgnorePlugin: dropped('it is for watching'),
};
const other = cannot('plugins are not run: do its work before or after the build');

export function tellPlugins(plugins, told) {
  for (const plugin of plugins) {
    if (!plugin) continue;
    const name = plugin.constructor?.name ?? 'Object';
    (Object.hasOwn(known, name) ? known[name] : other)(`plugins: ${name}`, plugin, told);
  }
}

const warnings = dropped('it changes what webpack warns of');
const moduleRules = {
  rules: (option, rules, told) => rules.forEach((rule, at) => tellRule(`${option}[${at}]`, rule, told)),
  noParse: cannot('each module is read: name a build of the package by resolve.alias that needs no reading', []),
  parser: cannot('how modules are read is fixed', {}),
  generator: cannot('how modules are written is fixed', {}),
  defaultRules: cannot('how modules are read is fixed'),
  unsafeCache: dropped('it changes the time alone'),
  strictExportPresence: warnings, strictThisContextOnImports: warnings,
  exprContextCritical: warnings, unknownContextCritical: warnings, wrappedContextCritical: warnings,
};

export function tellModule(module, told) {
  tellMembers('module.', module, moduleRules, told);
}

function tellRule(option, rule, told) {
  if (!rule || rule === '...') return;
  const loaders = loadersOf(rule);
  if (loaders.length > 0) told.cannot(`${option} (${loaders.join(', ')})`, 'loaders are not run: run their tool over the sources before the build, and import what it writes');
  else told.cannot(option, 'files are read by their ending: .js, .mjs and .cjs as JavaScript, .json as JSON');
}

function loadersOf(rule) {
  const uses = [rule.use, rule.loader, ...[rule.oneOf, rule.rules].flat().map((inner) => inner?.use ?? inner?.loader)].flat();
  return uses.filter(Boolean).map((use) => String(typeof use === 'string' ? use : use.loader ?? 'a function').replace(/^.*node_modules\//, '').replace(/\/(dist|lib)\/.*$/, ''));
}
