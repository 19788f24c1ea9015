// The reasons that the page tells are those of the proved call: crates/runs_seal, where it is built, reads graphs and prints for each
// group the modules that are placed in it, each with its load history. It takes 16 groups and asks for each pair of a group and a
// module, so a large graph is handed to it with the modules that load and one other, and a group's reach in place of its roots.
import assert from 'node:assert/strict';
import { spawnSync } from 'node:child_process';
import fs from 'node:fs';
import path from 'node:path';
import { programPath, projectOf, repository, run } from './command.mjs';
import { large, shop, small } from './view_projects.mjs';
import { Build } from '../view/src/build.mjs';
import { Loads } from '../view/src/loads.mjs';
import { whyPlaced } from '../view/src/reasons.mjs';

const PROGRAM = path.join(repository, 'crates', 'runs_seal', 'out', 'runs_seal');
const MOST = 16;
const SMALL_PROJECTS = 100;

// The program is run by itself, since there are many projects.
function statsOf(files, program = programPath()) {
  const folder = projectOf(files);
  const { status, printed } = run(program, ['build', 'c.json'], { cwd: folder });
  assert.equal(status, 0, printed);
  return JSON.parse(fs.readFileSync(path.join(folder, 'dist', 'stats.json'), 'utf8'));
}

// A line of the program's input: modules with what they import and the groups they load, and groups with roots.
function lineOf(modules, groups) {
  const blocks = groups.map(() => []);
  let count = 0;
  const words = modules.map(({ sync, loads }) => {
    for (const group of loads) blocks[group].push(count++);
    return `m:${[...sync.map((target) => `i${target}`), ...loads.map((group) => `l${groups[group].roots[0] ?? 0}`)].join(',')}`;
  });
  const told = groups.map(({ entry, roots }, number) => (entry ? `e:${roots}` : `g:${roots}/${blocks[number]}`));
  return ['groups', ...words, ...told].join(' ');
}

function wholeLine({ modules, groups }) {
  return lineOf(modules.map(({ sync, blocks }) => ({ sync, loads: blocks })), groups);
}

// What a group reaches, searched for here by itself.
function reached(modules, roots) {
  const found = new Set(roots);
  for (const number of found) modules[number].sync.forEach((target) => found.add(target));
  return found;
}

// The groups that reach a module, as a text.
function signature(reaches, module) {
  return reaches.map((reach) => Number(reach.has(module))).join('');
}

// The modules that load by the groups that reach them, each with what it loads.
function homesOf({ modules }, reaches) {
  const homes = new Map();
  for (const [number, { blocks }] of modules.entries()) {
    if (blocks.length === 0) continue;
    const key = signature(reaches, number);
    homes.set(key, [...(homes.get(key) ?? []), ...blocks]);
  }
  return homes;
}

// A line with the modules that load, those that the same groups reach as one, and one module more, which is the last.
function condensedLine(groups, homes, asked) {
  const keys = [...homes.keys(), asked];
  assert.ok(keys.length <= MOST && groups.length <= MOST);
  const kept = [...homes.values(), []].map((loads) => ({ sync: [], loads }));
  const roots = (group) => [...keys.keys()].filter((at) => keys[at][group] === '1');
  return lineOf(kept, groups.map(({ entry }, group) => ({ entry, roots: roots(group) })));
}

// The program's reasons for each line: by group, the load history of each module.
function reasonsOf(lines) {
  const ran = spawnSync(PROGRAM, [], { input: lines.map((line) => `${line}\n`).join(''), encoding: 'utf8', maxBuffer: 1 << 28 });
  assert.equal(ran.status, 0, ran.stderr);
  const answers = ran.stdout.trimEnd().split('\n');
  assert.equal(answers.length, lines.length);
  return answers.map((answer) => answer.split('; ').filter((part) => part.trim() !== '').map((part) => {
    assert.match(part, /^\d+: has.* since/, 'the line is in range');
    const told = part.slice(part.indexOf(' since'));
    return new Map([...told.matchAll(/(\d+)\(([\d ]*)\)/g)].map(([, module, members]) => [Number(module), members.trim().split(' ').map(Number)]));
  }));
}

// All reasons that the page tells, by group.
function pageReasons(stats) {
  const build = new Build(stats);
  const loads = new Loads(build);
  const reaches = stats.modules.map((_, module) => loads.groupsThatReach(module));
  return stats.groups.map((_, group) => stats.modules.map((_, module) => whyPlaced(loads, group, module, reaches[module])));
}

// Counts the pairs of a group and a module for which both tell a reason, and those for which both tell none.
function agreeOnWhole(all) {
  const told = reasonsOf(all.map(wholeLine));
  const counts = { placed: 0, not: 0 };
  for (const [at, stats] of all.entries()) {
    for (const [group, reasons] of pageReasons(stats).entries()) {
      for (const [module, reason] of reasons.entries()) {
        assert.deepEqual(reason, told[at][group].get(module) ?? null, `${wholeLine(stats)}: module ${module} in group ${group}`);
        counts[reason ? 'placed' : 'not']++;
      }
    }
  }
  return counts;
}

function smallAgree() {
  const program = programPath();
  const { placed, not } = agreeOnWhole(Array.from({ length: SMALL_PROJECTS }, (_, seed) => statsOf(small(seed + 1), program)));
  assert.ok(placed >= 4 * SMALL_PROJECTS && not >= SMALL_PROJECTS, `${placed} and ${not} pairs`);
}

// Modules that the same groups reach have the same reasons, and each kind of them is asked for once.
function largeAgrees() {
  const stats = statsOf(large(2000));
  assert.equal(stats.modules.length, 2000);
  const reaches = stats.groups.map((group) => reached(stats.modules, group.roots));
  const homes = homesOf(stats, reaches);
  const kinds = stats.modules.map((_, module) => signature(reaches, module));
  const asked = [...new Set(kinds)];
  const answers = reasonsOf(asked.map((kind) => condensedLine(stats.groups, homes, kind)));
  const told = new Map(asked.map((kind, at) => [kind, answers[at].map((reasons) => reasons.get(homes.size) ?? null)]));
  for (const [group, reasons] of pageReasons(stats).entries()) {
    for (const [module, reason] of reasons.entries()) {
      assert.deepEqual(reason, told.get(kinds[module])[group], `module ${module} in group ${group}`);
    }
  }
}

export async function checkReasons(tally) {
  const runs = [
    ['two entries with groups and splits', () => agreeOnWhole([statsOf(shop)])],
    [`${SMALL_PROJECTS} small projects`, smallAgree],
    ['2,000 modules', largeAgrees],
  ];
  for (const [name, body] of runs) {
    if (fs.existsSync(PROGRAM)) await tally.check(`reasons of the page are those of the proved call: ${name}`, body);
    else tally.skip(`reasons of the page are those of the proved call: ${name}`, 'crates/runs_seal is not built');
  }
}
