// Reads a webpack configuration and prints c.json. `bin/from-webpack` finds Node and calls it.
import { load, Refusal } from './load.mjs';
import { Told } from './told.mjs';
import { translate } from './translate.mjs';

async function main(words) {
  if (words.length > 1 || words[0]?.startsWith('-')) {
    console.error('usage: from-webpack [webpack.config.js]');
    return 2;
  }
  // What a configuration prints is no part of c.json.
  const print = console.log;
  console.log = console.error;
  const told = new Told();
  const made = await translate(await load(process.cwd(), words[0]), process.cwd(), told);
  for (const line of told.lines) console.error(line);
  print(JSON.stringify(made, null, 2));
  return told.lost ? 1 : 0;
}

try {
  process.exitCode = await main(process.argv.slice(2));
} catch (error) {
  console.error(error instanceof Refusal ? `from-webpack: ${error.message}` : error);
  process.exitCode = 2;
}
