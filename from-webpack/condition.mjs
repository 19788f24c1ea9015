// Conditions of cache groups. webpack tests the whole path of a file, and Chunkpack the path from the folder in which it is started.
import { isNormalPath } from './place.mjs';
import { textsOf } from './regular.mjs';

const ALL = '';

// Gives { condition } with `differs` where it isn't quite the same, or { cannot }.
export function conditionOf(test, place) {
  if (test === undefined || test === true) return { condition: undefined };
  if (test === false) return { condition: [] };
  if (typeof test === 'string') return beginning(test, `${place.root}/`);
  if (!(test instanceof RegExp)) return { cannot: 'a function is not called: write a condition by hand' };
  const texts = textsOf(test);
  if (!texts) return { cannot: `${test} is not read: write it as a condition (docs/USING.md, "The configuration")` };
  const parts = texts.map((text) => partOf(text, `${place.root}/`));
  if (parts.some((part) => part === undefined)) return { cannot: `${test} is not read: write it as a condition (docs/USING.md, "The configuration")` };
  const conditions = parts.flatMap((part) => part.conditions);
  return { condition: conditions.length === 1 ? conditions[0] : conditions, differs: parts.find((part) => part.differs)?.differs };
}

// A text is a beginning of the whole path.
function beginning(text, root) {
  if (root.startsWith(text)) return { condition: ALL };
  if (text.startsWith(root)) return { condition: text.slice(root.length) };
  return { condition: text, differs: 'webpack tests the whole path, of which it is no beginning, and here it is one of the path from the project\'s folder' };
}

function partOf({ text, start, end }, root) {
  if (start && end) return undefined;
  if (start) {
    const { condition, differs } = beginning(text, root);
    return { conditions: [condition], differs };
  }
  const differs = ownFolder(text, root, end);
  if (!end) return { conditions: anywhere(text), differs };
  return text.startsWith('/') ? undefined : { conditions: [text === '' ? ALL : { endsWith: text }], differs };
}

function anywhere(text) {
  if (text === '' || text === '/') return [ALL];
  if (!text.startsWith('/')) return [{ contains: text }];
  const segment = text.slice(1, -1);
  if (text.endsWith('/') && isNormalPath(segment) && !segment.includes('/')) return [{ inDir: segment }];
  return [text.slice(1), { contains: text }];
}

// What matches by accident of where the project lies.
function ownFolder(text, root, end) {
  const all = 'the project\'s own folder matches it, so in webpack it holds of every module, and here it doesn\'t';
  if (!end && text !== '' && text !== '/' && root.includes(text)) return all;
  for (let at = 2; at < text.length; at++) {
    if (text[at - 1] === '/' && root.endsWith(text.slice(0, at))) return 'a part of it is the project\'s own folder, which no path begins with here';
  }
  return undefined;
}
