// `"..."` stands for what is there without the key in webpack, and for itself here.
import fs from 'node:fs';
import { placeAt } from './place.mjs';

const REST = '"..."';
const DEFAULTS = {
  extensions: '".js", ".json"',
  mainFields: '"browser", "module", "main"',
  mainFiles: '"index"',
  conditionNames: '"webpack", "browser", "module"',
};

export function configurationFindings(path) {
  const text = fs.readFileSync(path, 'utf8').replace(/^\ufeff/, '');
  const { resolve = {} } = JSON.parse(text) ?? {};
  const keys = Object.keys(resolve).filter((key) => key in DEFAULTS && Array.isArray(resolve[key]) && resolve[key].includes('...'));
  return keys.map((key) => {
    const at = text.indexOf(REST, text.indexOf(`"${key}"`));
    return { path, ...placeAt(text, at), told: `"..." among resolve.${key} is a text like any other: write ${DEFAULTS[key]} in its place` };
  });
}
