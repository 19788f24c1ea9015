// Which groups a page may load after which: group q after p where a module that p reaches has an `import()` that loads q.
export class Loads {
  constructor(build) {
    this.build = build;
    this.later = build.groups.map((group) => laterOf(build, group));
    this.loaders = build.groups.map(() => []);
    this.later.forEach((links, group) => links.forEach((link) => this.loaders[link.group].push(group)));
  }

  // Whether each group reaches the module: a walk back along imports marks the modules that need it.
  groupsThatReach(module) {
    const needs = needing(this.build, module);
    return this.build.groups.map((group) => group.roots.some((root) => needs[root] === 1));
  }

  // The module whose `import()` leads from one group to the other, or nothing.
  homeOf(from, to) {
    return this.later[from].find((link) => link.group === to)?.home;
  }
}

function needing({ modules }, module) {
  const needs = new Uint8Array(modules.length);
  const work = [module];
  needs[module] = 1;
  for (const number of work) {
    for (const importer of modules[number].importers) {
      if (needs[importer] === 1) continue;
      needs[importer] = 1;
      work.push(importer);
    }
  }
  return needs;
}

// The modules that a group reaches, those that are found with fewer imports first.
export function reachOf({ modules }, group) {
  const seen = new Uint8Array(modules.length);
  const reached = [];
  const take = (number) => {
    if (seen[number] === 1) return;
    seen[number] = 1;
    reached.push(number);
  };
  group.roots.forEach(take);
  for (const number of reached) modules[number].sync.forEach(take);
  return reached;
}

// The groups that a group may load, each with the first module found that loads it.
function laterOf(build, group) {
  const homes = new Map();
  for (const home of reachOf(build, group)) {
    for (const number of build.modules[home].blocks) {
      if (!homes.has(number) && !build.groups[number].entry) homes.set(number, home);
    }
  }
  return [...homes].map(([number, home]) => ({ group: number, home })).sort((one, other) => one.group - other.group);
}
