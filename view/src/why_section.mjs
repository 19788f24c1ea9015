// Why a module lies where it lies: its groups, and for the chosen one the load history along which it would be missing.
import { button, element } from './elements.mjs';
import { whyPlaced } from './reasons.mjs';
import { Rows } from './rows.mjs';
import { listed } from './sizes.mjs';

export function whySection(page, { module, chunk, group }) {
  const why = new Why(page, module);
  const list = new Rows(`Groups of ${module.path}`);
  const told = element('div', { className: 'reason' });
  const tell = (number) => told.replaceChildren(...why.told(number));
  list.show(why.groups.map((number) => ({
    key: number,
    name: page.build.groups[number].title,
    get note() { return why.verdict(number); },
    choose: () => page.choose({ module, chunk, group: number }),
  })));
  const shown = group ?? why.firstGroup(chunk);
  if (shown === undefined) return [element('p', {}, 'No group has it.')];
  list.fit(4);
  list.mark(shown);
  tell(shown);
  return [element('h3', {}, 'Why is it there?'), list.element, told];
}

class Why {
  constructor(page, module) {
    this.page = page;
    this.build = page.build;
    this.module = module;
    this.reaches = page.loads.groupsThatReach(module.number);
    this.groups = this.build.groups.filter((group) => this.reaches[group.number] || this.chunkIn(group)).map((group) => group.number);
  }

  chunkIn(group) {
    return group.chunks.find((chunk) => this.module.chunks.includes(chunk));
  }

  history(number) {
    return whyPlaced(this.page.loads, number, this.module.number, this.reaches);
  }

  verdict(number) {
    if (!this.reaches[number]) return 'comes along';
    return this.history(number) ? 'brings it' : 'finds it there';
  }

  // The first group that brings the module, in the chunk if one is given.
  firstGroup(chunk) {
    const inChunk = this.groups.filter((number) => !chunk || this.build.groups[number].chunks.includes(chunk));
    return inChunk.find((number) => this.reaches[number] && this.history(number)) ?? inChunk[0] ?? this.groups[0];
  }

  told(number) {
    const group = this.build.groups[number];
    const history = this.reaches[number] ? this.history(number) : null;
    if (history) return [...this.inWords(group, history), this.lightButton(history, number)];
    return [element('p', {}, this.reaches[number] ? this.foundThere(group) : this.comesAlong(group))];
  }

  lightButton(history, number) {
    return button('Show this in the graph of loads', () => this.page.light(history, number), { className: 'light' });
  }

  foundThere(group) {
    const also = this.chunkIn(group) ? ` It lies in its chunk ${this.chunkIn(group).title} all the same, which it shares.` : '';
    return `${group.title} needs ${this.module.path} and doesn’t have to bring it: `
      + `in whatever order a page loads groups, one before ${group.title} has brought it.${also}`;
  }

  comesAlong(group) {
    return `${group.title} doesn’t need ${this.module.path}. It comes along in the chunk ${this.chunkIn(group).title}, which other groups share.`;
  }

  // The load history step by step, and what follows from it.
  inWords(group, history) {
    const { path } = this.module;
    const steps = history.map((number, at) => element('li', {}, this.step(number, history[at - 1])));
    const earlier = history.slice(0, -1).map((number) => this.build.groups[number].title);
    const chunk = this.chunkIn(group);
    const place = chunk ? ` It does so in the chunk ${chunk.title}.` : '';
    const needless = earlier.length === 1 ? `${earlier[0]} doesn’t need` : `None of ${listed(earlier)} needs`;
    const lack = earlier.length === 0
      ? `Nothing is loaded before it, so ${group.title} has to bring ${path}.`
      : `${needless} ${path}, so it would be missing if ${group.title} didn’t bring it.`;
    return [element('p', {}, `${group.title} needs ${path}. A page may load:`), element('ol', {}, ...steps), element('p', {}, lack + place)];
  }

  step(number, before) {
    const { title, entry } = this.build.groups[number];
    if (entry) return `${title}, an entry: a page may begin with it`;
    const home = this.page.loads.homeOf(before, number);
    return `${title}, which ${this.build.modules[home].path} loads by import()`;
  }
}
