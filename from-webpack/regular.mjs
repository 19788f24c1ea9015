// The texts that a regular expression stands for, where it is one of few: characters, groups of alternatives, [\\/], ? and the
// ends. Gives a list of { text, start, end }, or undefined.
const MOST = 64;
const START = '\u0002';
const END = '\u0003';

export function textsOf({ source, flags }) {
  if (/[gym]/.test(flags)) return undefined;
  const reader = new Reader(source);
  const texts = reader.alternatives();
  if (!texts || reader.at < source.length) return undefined;
  const made = texts.map(ends);
  if (made.includes(undefined) || (flags.includes('i') && made.some(({ text }) => /\p{L}/u.test(text)))) return undefined;
  return made;
}

function ends(text) {
  const start = text.startsWith(START);
  const end = text.endsWith(END);
  const inner = text.slice(start ? 1 : 0, end ? -1 : undefined);
  return inner.includes(START) || inner.includes(END) ? undefined : { text: inner, start, end };
}

// Each method gives the texts of what stands at `at`, or undefined where it isn't read.
class Reader {
  at = 0;

  constructor(source) {
    this.source = source;
  }

  take(text) {
    const isThere = this.source.startsWith(text, this.at);
    if (isThere) this.at += text.length;
    return isThere;
  }

  alternatives() {
    const all = [];
    do {
      const texts = this.sequence();
      if (!texts) return undefined;
      all.push(...texts);
    } while (this.take('|'));
    return all.length > MOST ? undefined : all;
  }

  sequence() {
    let texts = [''];
    while (this.at < this.source.length && !'|)'.includes(this.source[this.at])) {
      const next = this.repeated();
      if (!next || next.length * texts.length > MOST) return undefined;
      texts = texts.flatMap((before) => next.map((after) => before + after));
    }
    return texts;
  }

  repeated() {
    const texts = this.one();
    if (!texts || !this.take('?')) return texts;
    return [...texts, ''];
  }

  one() {
    if (this.take('(')) return this.group();
    if (this.take('[')) return this.characters();
    if (this.take('\\')) return this.escaped();
    if (this.take('^')) return [START];
    if (this.take('$')) return [END];
    const character = this.source[this.at++];
    return '.*+?{}]'.includes(character) ? undefined : [character];
  }

  group() {
    if (!this.take('?:') && this.source[this.at] === '?') return undefined;
    const texts = this.alternatives();
    return this.take(')') ? texts : undefined;
  }

  // A character that stands for itself behind a backslash. No path has a backslash.
  escaped() {
    const character = this.source[this.at++];
    return character === undefined || /[\\\w]/.test(character) ? undefined : [character];
  }

  // A class of single characters, in which a backslash stands beside a slash.
  characters() {
    const found = new Set();
    for (;;) {
      if (this.at >= this.source.length || this.source[this.at] === '^' || this.source[this.at] === '-') return undefined;
      if (this.take(']')) break;
      if (this.take('\\\\')) {
        found.add('\\');
        continue;
      }
      const one = this.take('\\') ? this.escaped() : [this.source[this.at++]];
      if (!one) return undefined;
      found.add(one[0]);
    }
    if (found.delete('\\') && !found.has('/')) return undefined;
    return found.size > 0 ? [...found] : undefined;
  }
}
