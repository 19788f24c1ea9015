// Whether an object has the lists of a build's stats, and whether the numbers in them name what is there.
import { count } from './sizes.mjs';
import { Unreadable } from './unreadable.mjs';

const isText = (value) => typeof value === 'string';
const isTextOrNull = (value) => value === null || isText(value);
const isFlag = (value) => typeof value === 'boolean';
const isSize = (value) => Number.isInteger(value) && value >= 0;
const isId = (value) => isText(value) || isSize(value);

// For each list, what its members have.
const MEMBERS = {
  assets: { chunk: isId, name: isText },
  chunks: { entry: isFlag, id: isId, modules: Array.isArray, name: isTextOrNull, no: isSize, size: isSize },
  groups: { chunks: Array.isArray, entry: isFlag, name: isTextOrNull, roots: Array.isArray },
  modules: { blocks: Array.isArray, path: isText, size: isSize, sync: Array.isArray },
  notes: { at: isSize, detail: isText, kind: isText, path: isText },
  splits: { chunks: Array.isArray, forced: isFlag, group: isText, made: isSize, modules: Array.isArray, reused: isFlag },
};

export function checkShape(stats) {
  for (const [list, wanted] of Object.entries(MEMBERS)) {
    if (!Array.isArray(stats[list])) throw new Unreadable(`These stats are not whole: they have no list “${list}”.`);
    stats[list].forEach((member, at) => checkMember(`${list}[${at}]`, member, wanted));
  }
  checkNumbers(stats);
}

function checkMember(place, member, wanted) {
  for (const [key, fits] of Object.entries(wanted)) {
    if (!fits(member?.[key])) throw new Unreadable(`These stats are not whole: ${place} has no “${key}” as it should be.`);
  }
}

function checkNumbers({ chunks, groups, modules, splits }) {
  const moduleCount = within(modules.length, 'module');
  const groupCount = within(groups.length, 'group');
  const ids = new Set(chunks.map((chunk) => chunk.id));
  const isChunk = (id, place) => {
    if (!ids.has(id)) throw new Unreadable(`These stats don’t fit together: ${place} names the chunk ${JSON.stringify(id)}, which isn’t there.`);
  };
  chunks.forEach((chunk, at) => checkAll(chunk.modules, `chunks[${at}].modules`, moduleCount));
  groups.forEach((group, at) => checkAll(group.roots, `groups[${at}].roots`, moduleCount));
  groups.forEach((group, at) => checkAll(group.chunks, `groups[${at}].chunks`, isChunk));
  modules.forEach((module, at) => checkAll(module.sync, `modules[${at}].sync`, moduleCount));
  modules.forEach((module, at) => checkAll(module.blocks, `modules[${at}].blocks`, groupCount));
  splits.forEach((split, at) => checkAll(split.modules, `splits[${at}].modules`, moduleCount));
}

function within(length, word) {
  return (number, place) => {
    if (Number.isInteger(number) && number >= 0 && number < length) return;
    const named = `${place} names the ${word} ${JSON.stringify(number)}`;
    throw new Unreadable(`These stats don’t fit together: ${named}, and they have ${count(length, word)}.`);
  };
}

function checkAll(numbers, place, check) {
  for (const number of numbers) check(number, place);
}
