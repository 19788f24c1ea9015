// Configurations as webpack's documentation has them for entry, output, resolve and SplitChunksPlugin, written anew. Each is the text of
// webpack.config.js, with `told`, the options that bin/from-webpack tells of by kind, and `files` where it needs some. `other` says
// why webpack builds other chunks.
const PUBLIC = 'output: { publicPath: "" }';
// What webpack does besides by default, and nothing here does.
const QUIET = 'mode: "none", output: { publicPath: "" }';
const LEFT = { differs: ['optimization.splitChunks.minRemainingSize (by default)'] };
const BY_PRODUCTION = ['optimization.minimize (by mode)', 'optimization.usedExports (by mode)', 'optimization.nodeEnv (by mode)', 'optimization.chunkIds (by mode)', 'optimization.sideEffects (by mode)', 'optimization.moduleIds (by mode)'];
const BY_DEFAULT = [...BY_PRODUCTION, ...LEFT.differs];
const TWO = 'entry: { app: "./src/app.js", admin: "./src/admin.js" }';
const THREE = 'entry: { app: "./src/app.js", admin: "./src/admin.js", help: "./src/help.js" }';
const USED = 'optimization.splitChunks.usedExports (by optimization.usedExports)';
const noTold = {};

const entries = [
  { name: 'no entry', text: `module.exports = { mode: "none", output: { publicPath: "" }, optimization: { splitChunks: { minRemainingSize: 0 } } };`, told: noTold },
  { name: 'an entry', text: `module.exports = { ${QUIET}, entry: './src/app.js' };`, told: LEFT },
  { name: 'the default mode', text: `module.exports = { ${PUBLIC}, entry: './src/app.js' };`, told: { dropped: ['mode (not set)'], differs: BY_DEFAULT } },
  { name: 'a list of files', text: `module.exports = { ${QUIET}, entry: ['./src/polyfill.js', './src/app.js'] };`, told: LEFT },
  { name: 'two entries', text: `module.exports = { ${QUIET}, entry: { app: './src/app.js', adminApp: './src/admin.js' } };`, told: LEFT },
  { name: 'several pages', text: `module.exports = { ${QUIET}, entry: { pageOne: './src/app.js', pageTwo: './src/admin.js', pageThree: './src/help.js' } };`, told: LEFT },
  { name: 'vendors as an entry', text: `module.exports = { ${QUIET}, entry: { main: './src/app.js', vendor: ['react', 'react-dom'] } };`, told: LEFT },
  { name: 'descriptors', text: `module.exports = { ${QUIET}, entry: { home: './src/app.js', catalog: { import: ['./src/polyfill.js', './src/help.js'] }, personal: { import: './src/admin.js' } } };`, told: LEFT },
  { name: 'a function for entries', text: `module.exports = { ${QUIET}, entry: () => './src/app.js' };`, told: LEFT },
  { name: 'a promise of entries', text: `module.exports = { ${QUIET}, entry: () => Promise.resolve({ app: './src/app.js', help: './src/help.js' }) };`, told: LEFT },
  { name: 'a function', text: `module.exports = (env, argv) => ({ ${QUIET}, entry: argv.mode ? './src/none.js' : './src/app.js' });`, told: LEFT },
  { name: 'a promise', text: `module.exports = new Promise((made) => setTimeout(() => made({ ${QUIET}, entry: './src/app.js' }), 5));`, told: LEFT },
  { name: 'an ES module', file: 'webpack.config.mjs', text: `export default { ${QUIET}, entry: './src/app.js' };`, told: LEFT },
  { name: 'a context', text: `const path = require('path');\nmodule.exports = { ${QUIET}, context: path.resolve(__dirname, 'src'), entry: './app.js' };`, told: { dropped: ['context'], ...LEFT } },
  { name: 'a whole path', text: `const path = require('path');\nmodule.exports = { ${QUIET}, entry: path.resolve(__dirname, 'src', 'app.js') };`, told: LEFT },
  { name: 'dependOn', text: `module.exports = { ${QUIET}, entry: { app: { import: './src/app.js', dependOn: 'shared' }, shared: ['react', 'react-dom'] } };`, told: { differs: ['entry.app.dependOn', ...LEFT.differs] }, other: 'the entry is loaded behind another' },
];

const outputs = [
  { name: 'one file', text: `const path = require('path');\nmodule.exports = { mode: 'none', entry: './src/plain.js', output: { path: path.resolve(__dirname, 'dist'), filename: 'bundle.js', publicPath: '' } };`, told: LEFT },
  { name: 'names of entries', text: `module.exports = { mode: 'none', ${TWO}, output: { filename: '[name].js', path: __dirname + '/dist', publicPath: '/' } };`, told: LEFT },
  { name: 'hashes', text: `module.exports = { mode: 'none', ${TWO}, output: { filename: '[name].[contenthash].js', chunkFilename: '[id].[contenthash:8].js', hashDigestLength: 12, hashFunction: 'sha256', publicPath: 'https://cdn.example.com/assets/' } };`, told: { differs: ['output.hashFunction', ...LEFT.differs] } },
  { name: 'chunkhash and ids', text: `module.exports = { mode: 'none', entry: './src/app.js', output: { filename: 'js/[id].[chunkhash:6].js', publicPath: '/', clean: true, pathinfo: true } };`, told: { dropped: ['output.pathinfo'], differs: ['output.filename', 'output.clean', ...LEFT.differs] } },
];

const resolves = [
  { name: 'an alias of a folder', text: `const path = require('path');\nmodule.exports = { ${QUIET}, entry: './src/aliased.js', resolve: { alias: { Utilities: path.resolve(__dirname, 'src/utilities/'), Templates: path.resolve(__dirname, 'src/templates/') } } };`, told: LEFT },
  { name: 'an alias of all of a request', text: `const path = require('path');\nmodule.exports = { ${QUIET}, entry: './src/exact.js', resolve: { alias: { lib$: path.resolve(__dirname, 'src/plain.js') } } };`, told: LEFT },
  { name: 'an alias of a package', text: `module.exports = { ${QUIET}, entry: './src/app.js', resolve: { alias: { react: 'preact', 'react-dom': 'preact' } } };`, told: LEFT },
  { name: 'a list of aliases', text: `module.exports = { ${QUIET}, entry: './src/exact.js', resolve: { alias: [{ name: 'lib', alias: 'preact', onlyModule: true }, { name: 'lib/more.js', alias: 'preact' }] } };`, told: LEFT },
  { name: 'extensions', text: `module.exports = { ${QUIET}, entry: './src/ends.js', resolve: { extensions: ['.mjs', '...'] } };`, told: LEFT },
  { name: 'main fields', text: `module.exports = { ${QUIET}, entry: './src/fields.js', resolve: { mainFields: ['main'] } };`, told: LEFT },
  { name: 'the default main fields', text: `module.exports = { ${QUIET}, entry: './src/fields.js' };`, told: LEFT },
  { name: 'main files', text: `module.exports = { ${QUIET}, entry: './src/folder.js', resolve: { mainFiles: ['start', '...'] } };`, told: LEFT },
  { name: 'condition names', text: `module.exports = { ${QUIET}, entry: './src/conditions.js', resolve: { conditionNames: ['special', 'default'] } };`, told: LEFT },
  { name: 'conditions of development', text: `module.exports = { mode: 'development', devtool: false, ${PUBLIC}, entry: './src/conditions.js' };`, told: { differs: ['optimization.nodeEnv (by mode)', 'optimization.chunkIds (by mode)'] } },
  { name: 'conditions of production', text: `module.exports = { mode: 'production', ${PUBLIC}, entry: './src/conditions.js' };`, told: { differs: BY_DEFAULT } },
];

const splits = [
  { name: 'no splits', text: `module.exports = { ${QUIET}, ${TWO}, optimization: { splitChunks: false } };`, told: noTold },
  { name: 'the documented defaults', text: `module.exports = { ${QUIET}, ${TWO}, optimization: { splitChunks: {
    chunks: 'async', minSize: 20000, minRemainingSize: 0, minChunks: 1, maxAsyncRequests: 30, maxInitialRequests: 30, enforceSizeThreshold: 50000,
    cacheGroups: { defaultVendors: { test: /[\\\\/]node_modules[\\\\/]/, priority: -10, reuseExistingChunk: true }, default: { minChunks: 2, priority: -20, reuseExistingChunk: true } } } } };`, told: noTold },
  { name: 'all chunks', text: `module.exports = { mode: 'production', ${PUBLIC}, ${THREE}, optimization: { splitChunks: { chunks: 'all' } } };`, told: { differs: [...BY_DEFAULT, USED] } },
  { name: 'all chunks in development', text: `module.exports = { mode: 'development', devtool: false, ${PUBLIC}, ${THREE}, optimization: { splitChunks: { chunks: 'all' } } };`, told: { differs: ['optimization.nodeEnv (by mode)', 'optimization.chunkIds (by mode)'] } },
  { name: 'initial chunks', text: `module.exports = { ${QUIET}, ${THREE}, optimization: { splitChunks: { chunks: 'initial' } } };`, told: LEFT },
  { name: 'commons', text: `module.exports = { ${QUIET}, ${THREE}, optimization: { splitChunks: { cacheGroups: { commons: { name: 'commons', chunks: 'initial', minChunks: 2 } } } } };`, told: LEFT },
  { name: 'all of node_modules', text: `module.exports = { ${QUIET}, ${THREE}, optimization: { splitChunks: { cacheGroups: { commons: { test: /[\\\\/]node_modules[\\\\/]/, name: 'vendors', chunks: 'all' } } } } };`, told: LEFT },
  { name: 'some packages', text: `module.exports = { ${QUIET}, ${THREE}, optimization: { splitChunks: { cacheGroups: { vendor: { test: /[\\\\/]node_modules[\\\\/](react|react-dom)[\\\\/]/, name: 'vendor', chunks: 'all' } } } } };`, told: LEFT },
  { name: 'no default groups', text: `module.exports = { ${QUIET}, ${THREE}, optimization: { splitChunks: { chunks: 'all', cacheGroups: { default: false, defaultVendors: { reuseExistingChunk: true, test: /node_modules/ } } } } };`, told: LEFT },
  { name: 'priorities', text: `module.exports = { ${QUIET}, ${THREE}, optimization: { splitChunks: { chunks: 'all', minSize: 0, cacheGroups: { low: { minChunks: 2, priority: -5 }, high: { test: /[\\\\/]react/, priority: 5, reuseExistingChunk: true } } } } };`, told: noTold },
  { name: 'enforce', text: `module.exports = { ${QUIET}, ${THREE}, optimization: { splitChunks: { maxInitialRequests: 1, cacheGroups: { tiny: { test: /src\\/util/, chunks: 'all', enforce: true } } } } };`, told: LEFT },
  { name: 'few requests', text: `module.exports = { ${QUIET}, ${THREE}, optimization: { splitChunks: { chunks: 'all', minSize: 1000, minRemainingSize: 0, maxInitialRequests: 2, maxAsyncRequests: 2, enforceSizeThreshold: 1000000 } } };`, told: noTold },
  { name: 'no threshold', text: `module.exports = { ${QUIET}, ${THREE}, optimization: { splitChunks: { chunks: 'all', minSize: 1000, minRemainingSize: 0, maxInitialRequests: 2, enforceSizeThreshold: 0 } } };`, told: noTold },
  { name: 'JSON apart', text: `module.exports = { ${QUIET}, ${THREE}, optimization: { splitChunks: { minSize: 1000, cacheGroups: { data: { test: /\\.json$/, chunks: 'all' } } } } };`, told: LEFT },
  { name: 'a group as a condition', text: `module.exports = { ${QUIET}, ${TWO}, optimization: { splitChunks: { chunks: 'all', cacheGroups: { vendors: /node_modules\\/(?:react|lib)/, vue: false } } } };`, told: LEFT },
  { name: 'a beginning of paths', text: `const path = require('path');\nmodule.exports = { ${QUIET}, ${TWO}, optimization: { splitChunks: { minRemainingSize: 0, cacheGroups: { util: { test: path.resolve(__dirname, 'src/util'), chunks: 'all', minSize: 100 } } } } };`, told: noTold },
  { name: 'sizes by type', text: `module.exports = { ${QUIET}, ${TWO}, optimization: { splitChunks: { chunks: 'all', minSize: { javascript: 40000, webassembly: 1 }, minRemainingSize: 0 } } };`, told: noTold },
  { name: 'a largest size', text: `module.exports = { ${QUIET}, ${TWO}, optimization: { splitChunks: { chunks: 'all', minRemainingSize: 0, maxSize: 0 } } };`, told: { "can't": ['optimization.splitChunks.maxSize'] }, other: 'chunks are cut up' },
  { name: 'a group of its own bounds', text: `module.exports = { ${QUIET}, ${THREE}, optimization: { splitChunks: { chunks: 'all', minRemainingSize: 0, cacheGroups: { react: { test: /react|util/, minSize: 80000, enforceSizeThreshold: 10000 }, own: { minChunks: 2, minSize: 70000 } } } } };`, told: noTold },
  { name: 'candidates that are found later', text: `module.exports = { ${QUIET}, ${THREE}, optimization: { splitChunks: { chunks: 'all', minRemainingSize: 0, cacheGroups: { react: { test: /react/, minSize: 40000 } } } } };`, told: noTold, other: 'webpack goes by the candidates that it found before the first split' },
  { name: 'equal chunks stay', text: `module.exports = { ${QUIET}, entry: './src/twice.js', optimization: { mergeDuplicateChunks: false, removeEmptyChunks: true, removeAvailableModules: true, runtimeChunk: false, splitChunks: { minRemainingSize: 0 } } };`, told: { dropped: ['optimization.removeAvailableModules', 'optimization.runtimeChunk'] } },
  { name: 'equal chunks are one', text: `module.exports = { ${QUIET}, entry: './src/twice.js', optimization: { mergeDuplicateChunks: true } };`, told: LEFT },
  { name: 'equal chunks with names', text: `module.exports = { ${QUIET}, entry: './src/named.js', optimization: { splitChunks: { minRemainingSize: 0 } } };`, told: noTold, other: 'only chunks without a name become one' },
  { name: 'empty chunks', text: `module.exports = { ${QUIET}, entry: './src/twice.js', optimization: { removeEmptyChunks: false, splitChunks: { minRemainingSize: 0 } } };`, told: { differs: ['optimization.removeEmptyChunks'] }, other: 'webpack makes no chunk for what is there' },
  { name: 'a small rest', text: `module.exports = { ${QUIET}, entry: './src/small.js', optimization: { splitChunks: { chunks: 'all', enforceSizeThreshold: 100000 } } };`, told: LEFT, other: 'less than minRemainingSize would be left' },
  { name: 'a condition on no whole path', text: `module.exports = { ${QUIET}, ${TWO}, optimization: { splitChunks: { minRemainingSize: 0, cacheGroups: { own: { test: /^src\\//, chunks: 'all', minSize: 0 } } } } };`, told: { differs: ['optimization.splitChunks.cacheGroups.own.test'] }, other: 'no whole path begins so' },
  { name: 'a function as a condition', text: `module.exports = { ${QUIET}, ${TWO}, optimization: { splitChunks: { chunks: 'all', minRemainingSize: 0, cacheGroups: { own: { test: (module) => /util/.test(module.resource ?? ''), minSize: 0 }, kept: { test: /[\\\\/](?!util)/ }, more: { test: /lib/, name: () => 'lib' } } } } };`, told: { "can't": ['optimization.splitChunks.cacheGroups.own.test', 'optimization.splitChunks.cacheGroups.kept.test', 'optimization.splitChunks.cacheGroups.more.name'] }, other: 'a function chooses' },
];

export const examples = [...entries, ...outputs, ...resolves, ...splits];

// A module of so many bytes that does something, imports packages and files, and loads others later.
function module(size, imports = [], later = []) {
  const lines = imports.map((request, at) => `import { value as value${at} } from "${request}";\n`);
  const used = imports.map((request, at) => `value${at}`).join(', ');
  const loads = later.map((request) => `import(${request});\n`);
  const text = `${lines.join('')}export const value = [${used}];\nself.seen = [self.seen, value];\n${loads.join('')}`;
  return `${text}//${'x'.repeat(Math.max(0, size - text.length - 3))}\n`;
}

const plain = (name, file = 'index.js') => JSON.stringify({ name, version: '1.0.0', main: `./${file}` });

// The project that all configurations build. Entries and lazy modules have more than webpack's bound for what a split leaves.
export const project = {
  'src/index.js': module(21000, ['./util.js']),
  'src/app.js': module(21000, ['react', 'react-dom', './util.js', './shared.js', './data.json.js'], ['"./lazy.js"', '/* webpackChunkName: "route" */ "./route.js"']),
  'src/admin.js': module(22000, ['react', 'lib', './util.js', './shared.js'], ['"./lazy.js"']),
  'src/help.js': module(23000, ['react', './util.js', './shared.js'], ['/* webpackChunkName: "route" */ "./route.js"']),
  'src/plain.js': module(300, ['./util.js']),
  'src/polyfill.js': module(200),
  'src/small.js': module(400, ['lib']),
  'src/util.js': module(500),
  'src/shared.js': module(26000),
  'src/data.json.js': 'import data from "./data.json";\nexport const value = data.list;\nself.seen = value;\n',
  'src/data.json': `{"list":[${'1,'.repeat(3000)}1]}\n`,
  'src/lazy.js': module(24000, ['big', 'lib', './shared-lazy.js']),
  'src/route.js': module(25000, ['big', './shared-lazy.js']),
  'src/shared-lazy.js': module(27000),
  'src/twice.js': module(21000, [], ['"./plain.js"', '"./plain.js"', '"./twice.js"']),
  'src/named.js': module(21000, [], ['/* webpackChunkName: "one" */ "./plain.js"', '/* webpackChunkName: "two" */ "./plain.js"']),
  'src/aliased.js': module(21000, ['Utilities/one.js', 'Templates']),
  'src/utilities/one.js': module(100),
  'src/templates/index.js': module(100),
  'src/exact.js': module(21000, ['lib', 'lib/more.js']),
  'src/ends.js': module(21000, ['./both', './only']),
  'src/both.js': module(100), 'src/both.mjs': module(110), 'src/only.js': module(120),
  'src/fields.js': module(21000, ['fields']),
  'src/folder.js': module(21000, ['./part', './templates']),
  'src/part/start.js': module(100), 'src/part/index.js': module(100),
  'src/conditions.js': `${module(21000, ['conditions'])}require("conditions");\n`.replace('export const value', 'const value').replace('import { value as value0 } from "conditions";', 'import "conditions";').replace('[value0]', '[]'),
  'node_modules/react/package.json': plain('react'), 'node_modules/react/index.js': module(30000),
  'node_modules/react-dom/package.json': plain('react-dom'), 'node_modules/react-dom/index.js': module(45000, ['react']),
  'node_modules/preact/package.json': plain('preact'), 'node_modules/preact/index.js': module(3000),
  'node_modules/lib/package.json': plain('lib'), 'node_modules/lib/index.js': module(26000), 'node_modules/lib/more.js': module(100),
  'node_modules/big/package.json': plain('big'), 'node_modules/big/index.js': module(60000),
  'node_modules/fields/package.json': JSON.stringify({ name: 'fields', main: './main.js', module: './module.js', browser: './browser.js' }),
  'node_modules/fields/main.js': module(100), 'node_modules/fields/module.js': module(110), 'node_modules/fields/browser.js': module(120),
  'node_modules/conditions/package.json': JSON.stringify({ name: 'conditions', exports: { special: './special.js', development: './development.js', production: { require: './required.js', import: './imported.js' }, default: './default.js' } }),
  ...Object.fromEntries(['special', 'development', 'required', 'imported', 'default'].map((name) => [`node_modules/conditions/${name}.js`, `self.seen = "${name}";\n`])),
};
