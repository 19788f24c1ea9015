// docs/chunkpack.schema.json accepts and refuses what the program does, on the stored examples of the configuration's reader that a
// schema can tell: by a validator of our own, and by ajv where it is installed.
import assert from 'node:assert/strict';
import fs from 'node:fs';
import { createRequire } from 'node:module';
import path from 'node:path';
import { repository } from './command.mjs';
import { validator } from './schema_validator.mjs';

const schema = JSON.parse(fs.readFileSync(path.join(repository, 'docs/chunkpack.schema.json'), 'utf8'));
const MOST_GROUPS = 16;

function lines(name) {
  return fs.readFileSync(path.join(repository, 'crates/runs_config', name), 'utf8').trimEnd().split('\n');
}

// The bytes of an example's line: `\xHH` is a byte, `\sN.` is N spaces, and another backslash is one.
function bytesOf(line) {
  const parts = line.split(/\\x([0-9A-F]{2})|\\s(\d+)\./);
  const bytes = [];
  for (let at = 0; at < parts.length; at += 3) {
    bytes.push(Buffer.from(parts[at]));
    if (parts[at + 1]) bytes.push(Buffer.from([parseInt(parts[at + 1], 16)]));
    if (parts[at + 2]) bytes.push(Buffer.from(' '.repeat(Number(parts[at + 2]))));
  }
  return Buffer.concat(bytes);
}

// Why a schema can't tell an answer: it is asked of values, and neither of texts nor of members held against each other.
function beyond(text, value, answer) {
  if (/^(Json|TooLong)/.test(answer)) return 'the text';
  if (answer.startsWith('Repeated')) return 'two names';
  const groups = value?.optimization?.splitChunks?.cacheGroups;
  if (Object.keys(groups ?? {}).length > MOST_GROUPS - 2) return 'the number of groups';
  const numbers = text.replace(/"[^"]*"/g, '').match(/-?\d[\d.eE+]*/g) ?? [];
  return numbers.some((number) => /[.eE]/.test(number) && Number.isInteger(Number(number))) ? 'how a number is written' : undefined;
}

function parsed(text) {
  try {
    return JSON.parse(text);
  } catch {
    return undefined;
  }
}

function examples() {
  const answers = lines('stdout');
  return lines('stdin').map((line, at) => {
    const text = bytesOf(line).toString().replace(/^\uFEFF/, '');
    const value = parsed(text);
    return { line, value, answer: answers[at], beyond: beyond(text, value, answers[at]) };
  });
}

function agrees(isValid, all) {
  const told = all.filter((example) => !example.beyond);
  const wrong = told.filter(({ value, answer }) => isValid(value) !== /^ok\b/.test(answer));
  assert.deepEqual(wrong.map(({ line, answer }) => `${line} ${answer}`), []);
  assert.ok(told.length >= 303, `${told.length} of ${all.length}`);
}

// Debian's ajv knows draft 7, of which the schema uses no more; a later one knows 2020-12.
function ajv() {
  process.env.NODE_PATH = [process.env.NODE_PATH, '/usr/share/nodejs'].filter(Boolean).join(path.delimiter);
  const require = createRequire(import.meta.url);
  require('node:module').Module._initPaths();
  try {
    const Ajv = require('ajv/dist/2020');
    return { Ajv: Ajv.default ?? Ajv, given: schema };
  } catch {
    const { $schema, ...given } = schema;
    return { Ajv: require('ajv'), given };
  }
}

function byAjv() {
  try {
    const { Ajv, given } = ajv();
    return new Ajv().compile(given);
  } catch (error) {
    if (error.code === 'MODULE_NOT_FOUND') return undefined;
    throw error;
  }
}

// The keys of a schema's objects, as USING names them: those of cache groups stand in its text.
function keysOf({ properties = {} }, before = '') {
  return Object.entries(properties).flatMap(([name, member]) => [before + name, ...keysOf(member, `${before}${name}.`)]);
}

function describesKeys() {
  const using = fs.readFileSync(path.join(repository, 'docs/USING.md'), 'utf8');
  const [, configuration] = /\n## The configuration\n(.*?)\n## /s.exec(using);
  const table = [...configuration.matchAll(/^\| `([a-zA-Z.]+)` \|/gm)].map((match) => match[1]);
  const folders = ['output', 'resolve', 'optimization'];
  assert.deepEqual(keysOf(schema).filter((key) => !folders.includes(key)), table);
  for (const part of [schema, ...Object.values(schema.$defs), ...Object.values(schema.properties)]) {
    for (const [name, member] of Object.entries(part.properties ?? {})) {
      assert.ok(member.description, name);
      if (!folders.includes(name)) assert.ok(configuration.includes(`\`${name}\``) || configuration.includes(`.${name}\``), `${name} in USING`);
    }
  }
}

export async function checkSchema(tally) {
  const all = examples();
  await tally.check('the schema has the keys of USING, each with a description', describesKeys);
  await tally.check('the schema accepts and refuses as the program does', () => agrees(validator(schema), all));
  const isValid = byAjv();
  if (isValid) await tally.check('ajv accepts and refuses by the schema as the program does', () => agrees(isValid, all));
  else tally.skip('ajv accepts and refuses by the schema', 'ajv is not installed');
}
