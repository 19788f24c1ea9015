// What has changed since an earlier build: a pair of bars for each chunk, and the modules that came, went, moved, grew or shrank.
import { button, element } from './elements.mjs';
import { Rows } from './rows.mjs';
import { bytes, count, signed } from './sizes.mjs';

const MOST_BARS = 60;
const KINDS = { came: 'Came', went: 'Went', moved: 'Moved', grew: 'Grew', shrank: 'Shrank' };

export class ComparedPanel {
  constructor(page) {
    this.page = page;
    this.list = new Rows('Modules that changed');
    this.bars = element('div', { className: 'picture bars', role: 'group', 'aria-label': 'Chunks that changed' });
    this.element = element('div', { className: 'sides' }, this.bars, this.list.element);
    this.showBars();
    this.find();
  }

  showBars() {
    const { chunks } = this.page.comparison;
    const shown = chunks.slice(0, MOST_BARS);
    const most = Math.max(...shown.flatMap(({ before, after }) => [before?.size ?? 0, after?.size ?? 0]), 1);
    const rest = chunks.length > shown.length ? [element('p', {}, `${count(chunks.length - shown.length, 'chunk')} more changed less.`)] : [];
    const none = chunks.length === 0 ? [element('p', { className: 'none' }, 'No chunk has changed.')] : [];
    this.bars.replaceChildren(element('p', { className: 'told' }, this.told()), ...shown.map((change) => this.bar(change, most)), ...rest, ...none);
  }

  told() {
    const { comparison } = this.page;
    const counts = Object.keys(KINDS).map((kind) => [kind, comparison.of(kind).length]).filter(([, number]) => number > 0);
    const modules = counts.map(([kind, number]) => `${number} ${kind}`).join(', ') || 'none changed';
    return `Since ${comparison.name}: modules: ${modules}; all chunks together ${signed(comparison.size)}.`;
  }

  bar(change, most) {
    const { chunk, before, after, came, went } = change;
    const both = before && after && `${bytes(before.size)} → ${bytes(after.size)}, `;
    const sizes = `${both || (before ? 'went, ' : 'came, ')}${signed(change.size)}`;
    const tracks = [['earlier', before], ['now', after]].map(([name, one]) => track(name, one?.size ?? 0, most));
    const moves = before && after ? movesOf(came, went) : '';
    return element('div', { className: 'bar' }, button(`${chunk.title}: ${sizes}`, () => this.page.choose({ change })), ...tracks, element('p', {}, moves));
  }

  find() {
    const { comparison } = this.page;
    this.list.show(Object.entries(KINDS).flatMap(([kind, heading]) => this.kindRows(heading, comparison.of(kind))));
  }

  kindRows(heading, changes) {
    const shown = changes.filter(this.page.matcher() ?? (() => true));
    if (shown.length === 0) return [];
    const size = shown.reduce((sum, change) => sum + change.size, 0);
    return [{ key: heading, name: `${heading} (${shown.length})`, note: signed(size) }, ...shown.map((change) => this.row(change))];
  }

  row(change) {
    const choose = () => this.page.choose({ change });
    return { key: `m${change.path}`, level: 1, name: change.path, note: noteOf(change), choose };
  }

  mark({ change }) {
    if (change?.path) this.list.mark(`m${change.path}`);
  }
}

function movesOf(came, went) {
  const told = [[came, 'came into it'], [went, 'left it']].filter(([paths]) => paths.length > 0);
  return told.map(([paths, verb]) => `${count(paths.length, 'module')} ${verb}`).join(', ') || 'It has the same modules.';
}

function noteOf({ kind, before, after, size }) {
  const titles = (module) => module.chunks.map((chunk) => chunk.title).join(', ') || 'no chunk';
  if (kind !== 'moved') return signed(size);
  return `${titles(before)} → ${titles(after)}, ${bytes(after.size)}${size === 0 ? '' : `, ${signed(size)}`}`;
}

// A bar with its name, so that the two don't rest on colour.
function track(name, size, most) {
  const length = element('span', { className: `length ${name}` });
  length.style.width = `${(100 * size) / most}%`;
  return element('span', { className: 'pair' }, element('span', { className: 'pair-name' }, name), element('span', { className: 'track' }, length));
}
