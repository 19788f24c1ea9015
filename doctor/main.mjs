// Reads the words, prints the findings and how many there are; the status is 1 where there is one, and 2 where nothing can be told.
import fs from 'node:fs';
import { examine } from './examination.mjs';
import { statsOfBuild } from './sources.mjs';

const DEFAULT = 'c.json';

function main(words) {
  if (words.length > 1 || words[0]?.startsWith('-')) {
    console.error('usage: bin/doctor [CONFIG]');
    return 2;
  }
  try {
    const config = words[0] ?? (fs.existsSync(DEFAULT) ? DEFAULT : null);
    const lines = examine(statsOfBuild(), config);
    console.log([...lines, `findings: ${lines.length}`].join('\n'));
    return lines.length > 0 ? 1 : 0;
  } catch (error) {
    console.error(`doctor: ${error.message}`);
    return 2;
  }
}

process.exitCode = main(process.argv.slice(2));
