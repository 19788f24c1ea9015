// What is chosen, in words: a module, a chunk, a group or a split, with buttons for what it has to do with.
import { kindOf } from './build.mjs';
import { button, element } from './elements.mjs';
import { links } from './links.mjs';
import { bytes, count, listed } from './sizes.mjs';
import { servesOf, titleOf } from './splits_panel.mjs';

export class Details {
  constructor(page) {
    this.page = page;
    this.element = element('aside', { className: 'details', 'aria-label': 'Details', 'aria-live': 'polite' });
    this.fill('Details', paragraph('Choose a module, a chunk, a group or a split to see what it is and why it is there.'));
  }

  fill(heading, ...inner) {
    this.element.replaceChildren(element('h2', {}, heading), ...inner);
    this.element.scrollTop = 0;
  }

  show(choice) {
    if (choice.change) this.showChange(choice);
    else if (choice.module) this.showModule(choice);
    else if (choice.chunk) this.showChunk(choice.chunk);
    else if (choice.split) this.showSplit(choice.split);
    else this.showLater(choice, (part) => this.fill(...part.groupDetails(this.page, choice.group)));
  }

  showChange(choice) {
    this.showLater(choice, (part) => this.fill(...part.changeDetails(this.page, choice.change)), () => this.page.comparedPart());
  }

  // Shows what the later part of the page tells, unless something else has been chosen meanwhile.
  async showLater(choice, show, load = () => this.page.loadsPart()) {
    try {
      const part = await load();
      if (this.page.choice === choice) show(part);
    } catch (error) {
      this.element.append(element('p', { className: 'none' }, `This part of the page can’t be loaded (${error.message}).`));
    }
  }

  showModule(choice) {
    const { module } = choice;
    const { modules, groups } = this.page.build;
    const why = element('section', { className: 'why' });
    const targets = [...new Set(module.sync)].map((number) => modules[number]);
    const importers = module.importers.map((number) => modules[number]);
    const loads = [...new Set(module.blocks)].map((number) => groups[number]);
    this.fill(module.path, paragraph(`Module ${module.number}, ${bytes(module.size)}.`), ...this.chunksOf(module), why,
      ...links(`Imports (${targets.length})`, targets, (one) => this.moduleLink(one)),
      ...links(`Imported by (${importers.length})`, importers, (one) => this.moduleLink(one)),
      ...links(`Loads on demand (${loads.length})`, loads, (one) => this.groupLink(one)));
    this.showLater(choice, (part) => why.replaceChildren(...part.whySection(this.page, choice)));
  }

  // The chunks of a module, and where there are several what lies in all of them.
  chunksOf(module) {
    const { chunks } = module;
    const lines = links(`In ${chunks.length === 1 ? 'one chunk' : count(chunks.length, 'chunk')}`, chunks, (chunk) => this.chunkLink(chunk));
    if (chunks.length < 2) return lines;
    const companions = this.page.build.companionsOf(module);
    const size = companions.reduce((sum, one) => sum + one.size, 0);
    const lie = companions.length === 1 ? 'lies' : 'lie';
    return [...lines, paragraph('No further split takes it out of these: within its bounds, no cache group asks for it. '
      + `${count(companions.length, 'module')} with ${bytes(size)} together ${lie} in all of these chunks; `
      + 'where minSize isn’t set, a split needs 20.0 kB.')];
  }

  showChunk(chunk) {
    const facts = [kindOf(chunk), chunk.file ?? 'no file', count(chunk.modules.length, 'module'), bytes(chunk.size)];
    this.fill(`Chunk ${chunk.title}`, paragraph(`${facts.join(', ')}.`), paragraph(this.originOf(chunk)),
      ...links('Loaded with the groups', chunk.groups, (group) => this.groupLink(group)));
  }

  originOf(chunk) {
    const split = this.page.build.splits.find((one) => one.chunk === chunk);
    if (split?.reused) return `A split for the cache group ${split.group} left its modules to it alone: ${servesOf(split)}.`;
    if (split) return `A split for the cache group ${split.group} made it: ${servesOf(split)}.`;
    return chunk.entry ? 'It begins an entry, with the runtime.' : 'It has what its group needs and doesn’t find there already.';
  }

  showSplit(split) {
    const taken = split.modules.map((number) => this.page.build.modules[number]);
    const facts = [count(taken.length, 'module'), bytes(split.size), servesOf(split)];
    this.fill(`Split ${split.number + 1}`, paragraph(`${titleOf(split)}: ${facts.join(', ')}.`),
      ...links('Chunk', split.chunk ? [split.chunk] : [], (chunk) => this.chunkLink(chunk)),
      ...links('Modules', taken, (module) => this.moduleLink(module)));
  }

  moduleLink(module) {
    return button(module.path, () => this.page.choose({ module }));
  }

  chunkLink(chunk) {
    const title = `loaded with ${listed(chunk.groups.map((group) => group.title))}`;
    return button(`${chunk.title} (${kindOf(chunk)}, ${bytes(chunk.size)})`, () => this.page.choose({ chunk }), { title });
  }

  groupLink(group) {
    return button(group.title, () => this.page.choose({ group: group.number }));
  }
}

function paragraph(text) {
  return element('p', {}, text);
}
