// A build as its stats tell it, with what leads back: the chunks and importers of a module, the groups of a chunk, and the
// modules whose `import()` loads a group.
export class Build {
  constructor(stats) {
    this.modules = stats.modules.map(({ path, size, sync, blocks }, number) => ({ number, path, size, sync, blocks, chunks: [], importers: [] }));
    this.byPath = new Map(this.modules.map((module) => [module.path, module]));
    this.chunks = chunksOf(stats);
    this.groups = groupsOf(stats, this.chunks);
    this.notes = stats.notes;
    this.linkModules();
    this.linkGroups();
    this.splits = stats.splits.map((split, number) => this.splitOf(split, number));
    this.size = this.chunks.reduce((sum, chunk) => sum + chunk.size, 0);
    this.shared = this.modules.filter((module) => module.chunks.length > 1);
  }

  linkModules() {
    for (const chunk of this.chunks) {
      for (const number of chunk.modules) this.modules[number].chunks.push(chunk);
    }
    for (const module of this.modules) {
      for (const target of module.sync) addOnce(this.modules[target].importers, module.number);
    }
  }

  linkGroups() {
    for (const module of this.modules) {
      for (const group of module.blocks) addOnce(this.groups[group].homes, module.number);
    }
    const titles = new Map();
    for (const group of this.groups) {
      const title = this.titleOf(group);
      titles.set(title, [...(titles.get(title) ?? []), group]);
    }
    for (const [title, groups] of titles) {
      for (const group of groups) group.title = groups.length === 1 ? title : this.longTitle(title, group);
    }
    for (const group of this.groups) {
      group.size = group.chunks.reduce((sum, chunk) => sum + chunk.size, 0);
      for (const chunk of group.chunks) chunk.groups.push(group);
    }
    // A chunk without a name is called as the one group that has it.
    for (const chunk of this.chunks) {
      if (chunk.name === null && !chunk.isMade && chunk.groups.length === 1) chunk.title = chunk.groups[0].title;
    }
  }

  // A group without a name is called as the module that it begins with.
  titleOf(group) {
    return group.name ?? this.modules[group.roots[0]]?.path ?? `group ${group.number}`;
  }

  // Where several groups begin with one module, they differ in what loads them.
  longTitle(title, group) {
    return group.homes.length > 0 && group.name === null ? `${title} from ${this.modules[group.homes[0]].path}` : title;
  }

  // The chunk that a split made may be gone: a later one may have emptied it.
  splitOf(split, number) {
    const made = this.chunks.find((chunk) => chunk.no === split.made);
    const size = split.modules.reduce((sum, module) => sum + this.modules[module].size, 0);
    return { ...split, number, size, chunk: made, from: split.chunks.map((no) => this.chunks.find((chunk) => chunk.no === no)) };
  }

  // The modules that lie in all chunks of this one, itself too.
  companionsOf(module) {
    return this.modules.filter((other) => module.chunks.every((chunk) => other.chunks.includes(chunk)));
  }
}

// Numbers come in rising order, so one that is there already is the last.
function addOnce(numbers, number) {
  if (numbers[numbers.length - 1] !== number) numbers.push(number);
}

function chunksOf(stats) {
  const files = new Map(stats.assets.map((asset) => [asset.chunk, asset.name]));
  const made = new Set(stats.splits.filter((split) => !split.reused).map((split) => split.made));
  return stats.chunks.map((chunk, index) => {
    const file = files.get(chunk.id) ?? null;
    return { ...chunk, index, file, title: chunk.name ?? file ?? `chunk ${chunk.id}`, isMade: made.has(chunk.no), groups: [] };
  });
}

function groupsOf(stats, chunks) {
  const byId = new Map(chunks.map((chunk) => [chunk.id, chunk]));
  return stats.groups.map((group, number) => ({ ...group, number, chunks: group.chunks.map((id) => byId.get(id)), homes: [] }));
}

// How a chunk came about, in a word.
export function kindOf(chunk) {
  if (chunk.entry) return 'entry';
  return chunk.isMade ? 'split' : 'on demand';
}
