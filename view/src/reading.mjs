// Reads the text of a `stats.json`. What can't be shown gets one sentence that says what is wrong.
import { checkShape } from './shape.mjs';
import { whole } from './sizes.mjs';
import { Unreadable } from './unreadable.mjs';

const VERSION = 1;

export function readStats(text) {
  const value = valueOf(text);
  if (value === null || typeof value !== 'object' || Array.isArray(value)) {
    throw new Unreadable('This is JSON, but not the stats of a build: those are one object.');
  }
  if (!('version' in value) || !Array.isArray(value.modules)) {
    throw new Unreadable('This is JSON, but not the stats of a build: choose the stats.json that Chunkpack has written into dist.');
  }
  if (value.version !== VERSION) {
    throw new Unreadable(`These are stats of version ${JSON.stringify(value.version)}, and this page reads version ${VERSION}. `
      + 'Stats of another bundler, or of another Chunkpack, can’t be shown: take the page of the program that wrote them.');
  }
  checkShape(value);
  return value;
}

function valueOf(text) {
  if (text.trim() === '') throw new Unreadable('This file is empty.');
  try {
    return JSON.parse(text);
  } catch (error) {
    if (!breaksOff(text)) throw new Unreadable(`This is not JSON (${error.message}).`);
    throw new Unreadable(`This file breaks off after ${whole(text.length)} characters, in the middle of its JSON. Copy it again, or build again.`);
  }
}

// Whether an object is begun and a text or a bracket of it isn't ended.
function breaksOff(text) {
  if (!text.trimStart().startsWith('{')) return false;
  let open = 0;
  let inText = false;
  for (let at = 0; at < text.length; at++) {
    const sign = text[at];
    if (inText && sign === '\\') at += 1;
    else if (sign === '"') inText = !inText;
    else if (!inText) open += DEPTHS[sign] ?? 0;
  }
  return inText || open > 0;
}

const DEPTHS = { '{': 1, '[': 1, ']': -1, '}': -1 };
