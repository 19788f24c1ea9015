// Why a module lies elsewhere than in an earlier build: which groups need it and which bring it, before and now, and which splits have it.
import { whyPlaced } from './reasons.mjs';
import { listed } from './sizes.mjs';

// What a build and its loads say of a module: each group by its title, and the last split that took the module.
export class Standing {
  constructor({ build, loads, module }) {
    this.build = build;
    const reaches = loads.groupsThatReach(module.number);
    this.groups = new Map(build.groups.map((group) => {
      const history = reaches[group.number] ? whyPlaced(loads, group.number, module.number, reaches) : null;
      return [group.title, { isNeeded: reaches[group.number], history }];
    }));
    this.split = build.splits.filter((split) => split.modules.includes(module.number)).pop();
  }

  // How a group stands to the module, in a word.
  of(title) {
    const group = this.groups.get(title);
    if (!group) return 'gone';
    if (group.history) return 'brings';
    return group.isNeeded ? 'finds' : 'free';
  }

  // The groups of the load history along which the module would be missing.
  historyOf(title) {
    return this.groups.get(title).history.map((number) => this.build.groups[number].title);
  }
}

export function whyMoved(before, now) {
  const titles = [...new Set([...now.groups.keys(), ...before.groups.keys()])];
  const told = titles.map((title) => groupSentence(title, before, now)).filter(Boolean);
  const splits = splitSentence(before.split, now.split);
  if (splits) told.push(splits);
  return told.length > 0 ? told : ['The same groups bring it, and no other split has it: the chunks themselves are others.'];
}

function groupSentence(title, before, now) {
  const [was, is] = [before.of(title), now.of(title)];
  if (was === is) return null;
  const sentences = {
    brings: () => `${beginning(title, was)} ${needOf(title, now)}`,
    finds: () => (was === 'brings'
      ? `${title} needn’t bring it any more: in whatever order a page loads groups, one before ${title} has brought it.`
      : `${title} needs it now, and finds it there.`),
    free: () => (was === 'gone' ? null : `${title} doesn’t need it any more.`),
    gone: () => (was === 'free' ? null : `${title}, which needed it, is gone.`),
  };
  return sentences[is]();
}

function beginning(title, was) {
  if (was === 'gone') return `${title} is new and has to bring it.`;
  return was === 'finds' ? `${title} found it there before, and has to bring it now.` : `${title} needs it now, and has to bring it.`;
}

function needOf(title, now) {
  const earlier = now.historyOf(title).slice(0, -1);
  if (earlier.length === 0) return 'A page may begin with it.';
  const needless = earlier.length === 1 ? `${earlier[0]} doesn’t need` : 'none before it needs';
  return `A page may load ${listed([...earlier, title])} one after another, and ${needless} the module.`;
}

function splitSentence(before, now) {
  const placeOf = (split) => `the cache group ${split.group}${split.chunk ? ` into the chunk ${split.chunk.title}` : ''}`;
  if (before && now && placeOf(before) === placeOf(now)) return null;
  if (before && now) return `A split takes it for ${placeOf(now)}, and took it for ${placeOf(before)} before.`;
  if (now) return `A split takes it for ${placeOf(now)} now.`;
  return before ? `No split takes it any more: one took it for ${placeOf(before)}.` : null;
}
