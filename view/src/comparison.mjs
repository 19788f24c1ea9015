// What differs between an earlier build and the one that is shown: modules by their paths, and chunks by their names or by what they have in
// common. A module has moved where the chunks that have it now aren't those that had it.
export class Comparison {
  constructor(earlier, now, name) {
    this.earlier = earlier;
    this.now = now;
    this.name = name;
    this.matches = matchChunks(earlier, now);
    this.modules = this.moduleChanges();
    this.chunks = this.chunkChanges();
    this.size = now.size - earlier.size;
  }

  moduleChanges() {
    const paths = new Set([...this.now.byPath.keys(), ...this.earlier.byPath.keys()]);
    const changes = [...paths].map((path) => this.moduleChange(path, this.earlier.byPath.get(path), this.now.byPath.get(path)));
    return changes.filter((change) => change.kind !== null).sort(largestFirst);
  }

  moduleChange(path, before, after) {
    const size = (after?.size ?? 0) - (before?.size ?? 0);
    return { path, before, after, size, kind: this.kindOf(before, after, size) };
  }

  kindOf(before, after, size) {
    if (!before) return 'came';
    if (!after) return 'went';
    if (this.hasMoved(before, after)) return 'moved';
    if (size === 0) return null;
    return size > 0 ? 'grew' : 'shrank';
  }

  hasMoved(before, after) {
    const places = new Set(before.chunks.map((chunk) => this.matches.get(chunk)));
    return places.size !== after.chunks.length || after.chunks.some((chunk) => !places.has(chunk));
  }

  chunkChanges() {
    const pairs = [...this.matches].map(([before, after]) => ({ before, after }));
    const kept = new Set(this.matches.values());
    const added = this.now.chunks.filter((chunk) => !kept.has(chunk)).map((after) => ({ before: undefined, after }));
    const changes = [...pairs, ...added].map((pair) => this.chunkChange(pair));
    return changes.filter(({ came, went, size }) => came.length + went.length > 0 || size !== 0).sort(largestFirst);
  }

  chunkChange({ before, after }) {
    const had = pathsOf(this.earlier, before);
    const has = pathsOf(this.now, after);
    const changed = after ? 'changed' : 'went';
    return {
      chunk: after ?? before,
      before,
      after,
      kind: before ? changed : 'came',
      size: (after?.size ?? 0) - (before?.size ?? 0),
      came: [...has].filter((path) => !had.has(path)),
      went: [...had].filter((path) => !has.has(path)),
    };
  }

  // The changes of one kind, as `came`.
  of(kind) {
    return this.modules.filter((change) => change.kind === kind);
  }
}

function pathsOf(build, chunk) {
  return new Set((chunk?.modules ?? []).map((number) => build.modules[number].path));
}

function largestFirst(one, other) {
  return weight(other) - weight(one);
}

// One that has only moved weighs what it has.
function weight({ size, after, kind }) {
  return kind === 'moved' ? after.size : Math.abs(size);
}

// For each earlier chunk the one that it is now, or undefined: by name; else by the group that it begins; else those that share most.
function matchChunks(earlier, now) {
  const matches = new Map(earlier.chunks.map((chunk) => [chunk, undefined]));
  const free = new Set(now.chunks);
  const match = (before, after) => {
    matches.set(before, after);
    free.delete(after);
  };
  for (const keyOf of [(chunk) => chunk.name, ownGroup]) matchByKey(matches, free, keyOf, match);
  for (const { before, after } of sharers(earlier, now, matches, free)) {
    if (matches.get(before) === undefined && free.has(after)) match(before, after);
  }
  return matches;
}

function matchByKey(matches, free, keyOf, match) {
  const byKey = new Map([...free].map((chunk) => [keyOf(chunk), chunk]));
  for (const [before, found] of matches) {
    const after = byKey.get(keyOf(before));
    if (!found && keyOf(before) !== null && after && free.has(after)) match(before, after);
  }
}

function ownGroup(chunk) {
  return !chunk.isMade && chunk.groups.length === 1 ? chunk.groups[0].title : null;
}

// Pairs of chunks without a match by what they have in common, those that share most first.
function sharers(earlier, now, matches, free) {
  const pairs = [];
  for (const [before, found] of matches) {
    if (found) continue;
    const shared = new Map();
    for (const number of before.modules) {
      const { path, size } = earlier.modules[number];
      for (const after of (now.byPath.get(path)?.chunks ?? []).filter((chunk) => free.has(chunk))) shared.set(after, (shared.get(after) ?? 0) + size + 1);
    }
    for (const [after, size] of shared) pairs.push({ before, after, size });
  }
  return pairs.sort((one, other) => other.size - one.size);
}
