// What splits took out of chunks: a bar for each by size, and the same as a list with the modules.
import { button, element } from './elements.mjs';
import { Rows } from './rows.mjs';
import { bytes, count, listed } from './sizes.mjs';

const MOST_BARS = 60;

export class SplitsPanel {
  constructor(page) {
    this.page = page;
    this.list = new Rows('Splits and their modules');
    this.bars = element('div', { className: 'picture bars' });
    this.element = element('div', { className: 'sides' }, this.bars, this.list.element);
    this.showBars();
    this.find();
  }

  showBars() {
    const { splits } = this.page.build;
    const largest = [...splits].sort((one, other) => other.size - one.size).slice(0, MOST_BARS);
    const most = Math.max(...largest.map((split) => split.size), 1);
    const rest = splits.length > largest.length ? [element('p', {}, `The list has ${count(splits.length - largest.length, 'split')} more.`)] : [];
    const none = splits.length === 0 ? [element('p', { className: 'none' }, 'No split took anything out of a chunk.')] : [];
    this.bars.replaceChildren(...largest.map((split) => this.bar(split, most)), ...rest, ...none);
  }

  bar(split, most) {
    const length = element('span', { className: 'length' });
    length.style.width = `${(100 * split.size) / most}%`;
    const heading = `${titleOf(split)}: ${count(split.modules.length, 'module')}, ${bytes(split.size)}`;
    return element('div', { className: 'bar' }, button(heading, () => this.page.choose({ split })),
      element('span', { className: 'track' }, length), element('p', {}, servesOf(split)));
  }

  find() {
    this.list.show(this.page.build.splits.flatMap((split) => this.splitRows(split)));
  }

  splitRows(split) {
    const { build, query } = this.page;
    const modules = split.modules.map((number) => build.modules[number]).filter(this.page.matcher() ?? (() => true));
    if (modules.length === 0 && query !== '') return [];
    const heading = { key: `s${split.number}`, name: titleOf(split), note: bytes(split.size), choose: () => this.page.choose({ split }) };
    return [heading, ...modules.map((module) => ({
      key: `s${split.number} m${module.number}`,
      level: 1,
      name: module.path,
      note: bytes(module.size),
      choose: () => this.page.choose({ module, chunk: split.chunk }),
    }))];
  }

  mark({ split, module }) {
    const marked = split ?? (module && this.page.build.splits.find((one) => one.modules.includes(module.number)));
    if (marked) this.list.mark(module ? `s${marked.number} m${module.number}` : `s${marked.number}`);
  }
}

export function titleOf(split) {
  const chunk = split.chunk ? `chunk ${split.chunk.title}` : 'a chunk that is gone now';
  return `${split.group} → ${chunk}${split.reused ? ' (there before)' : ''}${split.forced ? ' (above enforceSizeThreshold)' : ''}`;
}

// From which chunks a split took its modules, and for which groups its chunk is loaded now.
export function servesOf(split) {
  const from = split.from.filter((chunk) => chunk && chunk !== split.chunk).map((chunk) => chunk.title);
  const gone = split.from.filter((chunk) => !chunk).length;
  if (gone > 0) from.push(`${count(gone, 'chunk')} that ${gone === 1 ? 'is' : 'are'} gone now`);
  const serves = split.chunk ? `; loaded with ${listed(split.chunk.groups.map((group) => group.title))}` : '';
  return `taken out of ${listed(from) || 'no other chunk'}${serves}`;
}
