// Programs over real packages: what a built program prints in Node is what it prints without a build. The packages are those of
// the system, copied into the project; one that isn't installed is passed over.
import assert from 'node:assert/strict';
import fs from 'node:fs';
import path from 'node:path';
import { chunkpack, projectOf, run } from './command.mjs';

const PLACE = '/usr/share/nodejs';

// The packages that a program needs, its own text, and whether it is an ES module.
const programs = [
  { packages: ['lodash'], text: 'const _ = require("lodash");\nconsole.log(_.chunk([1, 2, 3, 4, 5], 2), _.camelCase("two words"));\n' },
  { packages: ['semver', 'lru-cache', 'yallist'], text: 'const semver = require("semver");\nconsole.log(semver.satisfies("1.2.3", "^1.0.0"), semver.inc("1.2.3", "minor"));\n' },
  { packages: ['moment'], text: 'const moment = require("moment");\nconsole.log(moment.utc("2020-01-02T03:04:05Z").format("YYYY/MM/DD HH:mm"));\n' },
  { packages: ['react'], text: 'const React = require("react");\nconsole.log(React.createElement("b", { x: 1 }, "t").props.children);\n', needs: ['object-assign', 'loose-envify', 'js-tokens'] },
  { packages: ['d3-array', 'internmap'], es: true, text: 'import { mean, extent, group } from "d3-array";\nconsole.log(mean([1, 2, 3]), extent([5, 1, 4]), [...group([1, 2, 3], (x) => x % 2).keys()]);\n' },
  { packages: ['graphql'], es: true, text: 'import { buildSchema, graphqlSync } from "graphql";\nconst schema = buildSchema("type Query { hello: String }");\nconsole.log(JSON.stringify(graphqlSync({ schema, source: "{ hello }", rootValue: { hello: () => "world" } })));\n' },
  { packages: ['immutable'], es: true, text: 'import { Map, List } from "immutable";\nconsole.log(Map({ a: 1 }).set("b", 2).toJS(), List([3, 1, 2]).sort().toArray());\n' },
  { packages: ['uuid'], es: true, text: 'import { v5, validate } from "uuid";\nconsole.log(v5("hello", v5.DNS), validate("x"));\n' },
  { packages: ['yaml'], text: 'const YAML = require("yaml");\nconsole.log(JSON.stringify(YAML.parse("a: 1\\nb: [2, 3]\\n")));\n' },
  { packages: ['three'], es: true, text: 'import * as THREE from "three";\nconsole.log(new THREE.Vector3(1, 2, 3).length().toFixed(3));\n' },
];

function isInstalled(name) {
  return fs.existsSync(path.join(PLACE, name, 'package.json'));
}

function projectFor({ packages, needs = [], text, es }) {
  const file = es ? 'main.mjs' : 'main.cjs';
  const folder = projectOf({ 'c.json': JSON.stringify({ entry: `./${file}` }), [file]: text });
  for (const name of [...packages, ...needs.filter(isInstalled)]) {
    fs.cpSync(path.join(PLACE, name), path.join(folder, 'node_modules', name), { recursive: true, dereference: true });
  }
  return { folder, file };
}

// What a page has, as far as these programs ask for it.
const PAGE = 'globalThis.self = globalThis;\nglobalThis.document = {};\n';

function printsTheSame(program) {
  const { folder, file } = projectFor(program);
  const alone = run(process.execPath, [file], { cwd: folder });
  const built = chunkpack(folder, ['build', 'c.json']);
  assert.equal(built.status, 0, built.printed);
  fs.writeFileSync(path.join(folder, 'page.cjs'), `${PAGE}require("./dist/main.js");\n`);
  assert.deepEqual(run(process.execPath, ['page.cjs'], { cwd: folder }), { ...alone, status: 0 });
  assert.notEqual(alone.printed, '');
}

export async function checkPackages(tally) {
  for (const program of programs) {
    const [name] = program.packages;
    if (program.packages.every(isInstalled)) await tally.check(`a program over ${name} prints what it prints without a build`, () => printsTheSame(program));
    else tally.skip(`a program over ${name}`, 'it is not installed');
  }
}
