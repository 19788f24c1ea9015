// The projects whose builds the page shows.

// Text of about so many bytes, as a comment.
function filling(bytes) {
  return `// ${'x'.repeat(bytes)}\n`;
}

// Two entries with lazy groups within lazy groups, splits, a module in several chunks, and a note. It has few enough modules and groups
// for the program of reasons.
export const shop = {
  'c.json': JSON.stringify({
    entry: { shop: './src/shop.js', desk: './src/desk.js' },
    optimization: {
      splitChunks: { minSize: 3000, cacheGroups: { tools: { test: { inDir: 'node_modules' }, name: 'tools', chunks: 'all', priority: 5 } } },
    },
  }),
  'src/shop.js': 'import { price } from "./lib/price.js";\nself.shop = price(1);\n'
    + 'self.open = () => [import(/* webpackChunkName: "cart" */ "./cart.js"), import("./help.js")];\n',
  'src/desk.js': 'import { price } from "./lib/price.js";\nimport { table } from "./lib/table.js";\nself.desk = price(2) + table;\n'
    + 'self.report = () => import(/* webpackChunkName: "report" */ "./report.js");\n',
  'src/cart.js': 'import { format } from "tools";\nimport { grid } from "./lib/grid.js";\nexport const cart = format("cart") + grid;\n'
    + `export const pay = () => import(/* webpackChunkName: "pay" */ "./pay.js");\n${filling(1500)}`,
  'src/pay.js': 'import { format } from "tools";\nimport { table } from "./lib/table.js";\nimport { rules } from "./lib/rules.js";\n'
    + `export const pay = format("pay") + table + rules;\nexport const back = () => import("./help.js");\n${filling(2500)}`,
  'src/help.js': 'import { table } from "./lib/table.js";\nimport { rules } from "./lib/rules.js";\n'
    + 'export const help = "help" + table + rules;\nrequire("./missing.js");\n',
  'src/report.js': 'import { format } from "tools";\nimport { grid } from "./lib/grid.js";\nimport { rules } from "./lib/rules.js";\n'
    + `export const report = format("report") + grid + rules;\n${filling(900)}`,
  'src/lib/price.js': `export const price = (count) => count * 3;\n${filling(700)}`,
  'src/lib/table.js': `export const table = "table";\n${filling(1100)}`,
  'src/lib/grid.js': `import { cell } from "./cell.js";\nexport const grid = cell;\n${filling(3600)}`,
  'src/lib/cell.js': `export const cell = "cell";\n${filling(400)}`,
  'src/lib/rules.js': `export const rules = "rules";\n${filling(600)}`,
  'node_modules/tools/package.json': '{"main":"./tools.js"}',
  'node_modules/tools/tools.js': `const words = require("./words.js");\nexports.format = (text) => words.open + text;\n${filling(5200)}`,
  'node_modules/tools/words.js': `exports.open = "[";\n${filling(1300)}`,
};

const AREAS = ['account', 'billing', 'catalog', 'charts', 'editor', 'inbox', 'search'];

// Two entries, areas on demand, each of which loads another, and a common library: `count` modules in all.
export function large(count) {
  const load = (area) => `self.${area} = () => import(/* webpackChunkName: "${area}" */ "./${area}/index.js");\n`;
  const files = {
    'c.json': '{"entry":{"main":"./src/main.js","office":"./src/office.js"}}',
    'src/main.js': AREAS.map(load).join(''),
    'src/office.js': `import "./common/0.js";\n${load('billing')}`,
  };
  const next = numbers(7);
  const common = Math.floor(count / 10);
  for (let at = 0; at < common; at++) files[`src/common/${at}.js`] = commonText(at, common, next);
  const rest = count - common - 2;
  const share = Math.floor(rest / AREAS.length);
  AREAS.forEach((area, place) => {
    const size = share + (place < rest % AREAS.length ? 1 : 0);
    for (let at = 0; at < size; at++) files[areaFile(area, at)] = areaText(area, at, size, common, next);
  });
  return files;
}

function areaFile(area, at) {
  return at === 0 ? `src/${area}/index.js` : `src/${area}/part${at % 7}/${at}.js`;
}

function commonText(at, common, next) {
  const targets = [2 * at + 1, 2 * at + 2].filter((target) => target < common);
  return targets.map((target) => `import "./${target}.js";\n`).join('') + filling(100 + next(3000));
}

function areaText(area, at, size, common, next) {
  const up = at === 0 ? '../' : '../../';
  const targets = [2 * at + 1, 2 * at + 2].filter((target) => target < size);
  const imports = targets.map((target) => `import "${up}${areaFile(area, target).slice('src/'.length)}";\n`);
  if (next(5) === 0) imports.push(`import "${up}common/${next(common)}.js";\n`);
  const following = AREAS[(AREAS.indexOf(area) + 3) % AREAS.length];
  const load = at === size - 1 ? `self.next = () => import("${up}${following}/index.js");\n` : '';
  return imports.join('') + load + filling(60 + next(at % 40 === 7 ? 30000 : 2500));
}

// Numbers below a bound, the same each time.
export function numbers(seed) {
  let state = seed;
  return (bound) => {
    state = (Math.imul(state, 1103515245) + 12345) >>> 0;
    return (state >>> 8) % bound;
  };
}

// An import that names no file.
export const failing = {
  'c.json': '{"entry":"./src/index.js"}',
  'src/index.js': 'import "./gone.js";\n',
};

// Small projects of each shape: a few modules that import and load one another, one or two entries, and names that loads share.
export function small(seed) {
  const next = numbers(seed);
  const count = 2 + next(8);
  const entries = next(2) === 0 ? { main: './0.js' } : { main: './0.js', other: `./${next(count)}.js` };
  const files = { 'c.json': JSON.stringify({ entry: entries, optimization: { mergeDuplicateChunks: false, splitChunks: { minSize: 30 } } }) };
  let loads = 14 - Object.keys(entries).length;
  for (let at = 0; at < count; at++) {
    const lines = [];
    for (let left = next(4); left > 0; left--) {
      const isLoad = next(2) === 0 && loads-- > 0;
      const name = ['', '', '/* webpackChunkName: "a" */ ', '/* webpackChunkName: "b" */ '][next(4)];
      lines.push(isLoad ? `import(${name}"./${next(count)}.js");\n` : `import "./${next(count)}.js";\n`);
    }
    files[`${at}.js`] = lines.join('');
  }
  return files;
}

// The stats of a build of so many modules, which the page shows as well as a real one's.
export function statsOfMany(count) {
  const next = numbers(11);
  const chunkCount = 40;
  const modules = Array.from({ length: count }, (_, id) => ({
    blocks: id < chunkCount - 1 ? [id + 1] : [],
    id,
    path: `src/area${id % chunkCount}/folder${next(30)}/module${id}.js`,
    size: 50 + next(4000),
    sync: [id + chunkCount, id + 2 * chunkCount].filter((target) => target < count),
  }));
  const chunks = Array.from({ length: chunkCount }, (_, id) => {
    const own = modules.filter((module) => module.id % chunkCount === id);
    const size = own.reduce((sum, module) => sum + module.size, 0);
    return { entry: id === 0, id, modules: own.map((module) => module.id), name: `area${id}`, no: id, size };
  });
  return {
    assets: chunks.map(({ id, name }) => ({ chunk: id, name: `${name}.js` })),
    chunks,
    groups: chunks.map(({ id, name }) => ({ chunks: [id], entry: id === 0, name, roots: [id] })),
    modules,
    notes: [],
    splits: [],
    version: 1,
  };
}
