// The conditions that bin/from-webpack makes of tests hold of the paths that the tests hold of, as webpack asks them: of whole paths.
import assert from 'node:assert/strict';
import { conditionOf } from '../from-webpack/condition.mjs';
import { Place } from '../from-webpack/place.mjs';

const ROOT = '/home/user/project';
const paths = [
  'index.js', 'src/index.js', 'src/util.js', 'src/util/a.js', 'lib/src/a.js', 'src/data.json', 'src/data.json.js', 'src/json', 'src/a.jsx', 'src/a.css',
  'node_modules/react/index.js', 'node_modules/react-dom/index.js', 'node_modules/react-dom/node_modules/react/a.js', 'node_modules/preact/react/a.js',
  'node_modules/@babel/runtime/a.js', 'packages/a/node_modules/react/a.mjs', 'node_modules_old/a.js', 'src/node_modules.js', 'src/react.js',
];
const read = [
  /[\\/]node_modules[\\/]/, /node_modules/, /\/node_modules\//, /[\\/]node_modules[\\/](react|react-dom)[\\/]/, /[\\/]node_modules[\\/](?:@babel|preact)[\\/]/,
  /node_modules[\\/]react/, /\.json$/, /\.jsx?$/, /\.(css|json)$/, /\.m?js$/, /[\\/]src[\\/]/, /[\\/]src[\\/]util/, /src\/index\.js$/, /react|util/, /[\\/](src|lib)[\\/]/,
  /[\\/]react(-dom)?[\\/]/, /u[st]il/, /@babel\/runtime/, /^\/home\/user\/project\/src/, new RegExp(`^${ROOT}/node_modules/`), /^\/home/, /(?:)/, /\//,
  `${ROOT}/src/util`, `${ROOT}/`, ROOT, '/home', `${ROOT}/none`, true, false, undefined,
];
const told = [/^src\//, /^node_modules/, /project/, /home\/user/, 'src/', /project\/src/, /[\\/]project[\\/]src[\\/]/];
const refused = [
  /[\\/]node_modules[\\/](?!react)/, /node_modules.react/, /react.*dom/, /a+/, /[^a]/, /[a-z]/, /\w/, /\d/, /REACT/i, /a/g, /a/y, /[\\/]index\.js$/, /^\/home\/user\/project\/index\.js$/,
  /a{2}/, /(?<name>a)/, /(?<=a)b/, /\bsrc/, /a\\b/, /[\\]/, () => true,
];

function holds(condition, path) {
  if (condition === undefined) return true;
  if (typeof condition === 'string') return path.startsWith(condition);
  if (Array.isArray(condition)) return condition.some((member) => holds(member, path));
  const { contains, endsWith, inDir } = condition;
  if (contains !== undefined) return path.includes(contains);
  if (endsWith !== undefined) return path.endsWith(endsWith);
  return path.split('/').slice(0, -1).includes(inDir);
}

// As webpack's plugin asks.
function asked(test, whole) {
  if (test === undefined || typeof test === 'boolean') return test ?? true;
  return typeof test === 'string' ? whole.startsWith(test) : test.test(whole);
}

export function checkConditions() {
  const place = new Place(ROOT);
  for (const test of read) {
    const { condition, differs, cannot } = conditionOf(test, place);
    assert.deepEqual({ differs, cannot }, { differs: undefined, cannot: undefined }, String(test));
    for (const path of paths) assert.equal(holds(condition, path), asked(test, `${ROOT}/${path}`), `${test} of ${path}`);
  }
  for (const test of told) assert.ok(conditionOf(test, place).differs, String(test));
  for (const test of refused) assert.ok(conditionOf(test, place).cannot, String(test));
  assert.deepEqual(conditionOf(/^src\//, place).condition, 'src/');
}
