// The chunks with their modules by size: a treemap and the same as a list.
import { kindOf } from './build.mjs';
import { treeOfChunks } from './chunk_tree.mjs';
import { element } from './elements.mjs';
import { Rows } from './rows.mjs';
import { bytes, count } from './sizes.mjs';
import { Treemap } from './treemap.mjs';

export class ChunksPanel {
  constructor(page) {
    this.page = page;
    this.map = new Treemap(treeOfChunks(page.build), {
      label: 'Chunks and their modules by size', choose: (choice) => page.choose(choice), matches: () => page.matcher(),
    });
    this.list = new Rows('Chunks and their modules');
    this.element = element('div', { className: 'sides' }, this.map.element, this.list.element);
    this.find();
  }

  find() {
    this.list.show(this.page.build.chunks.flatMap((chunk) => this.chunkRows(chunk)));
    this.map.draw();
  }

  chunkRows(chunk) {
    const { build } = this.page;
    const modules = chunk.modules.map((number) => build.modules[number]).filter(this.page.matcher() ?? (() => true));
    if (modules.length === 0 && this.page.query !== '') return [];
    modules.sort((one, other) => other.size - one.size || one.number - other.number);
    const size = modules.reduce((sum, module) => sum + module.size, 0);
    const heading = { key: `c${chunk.index}`, name: `${chunk.title} (${kindOf(chunk)})`, note: `${count(modules.length, 'module')}, ${bytes(size)}` };
    heading.choose = () => this.page.choose({ chunk });
    return [heading, ...modules.map((module) => this.moduleRow(module, chunk))];
  }

  moduleRow(module, chunk) {
    const choose = () => this.page.choose({ module, chunk });
    return { key: `c${chunk.index} m${module.number}`, level: 1, name: module.path, get note() { return noteOf(module); }, choose };
  }

  mark({ module, chunk }) {
    this.map.mark(module?.number ?? null);
    const place = chunk ?? module?.chunks[0];
    if (place) this.list.mark(module ? `c${place.index} m${module.number}` : `c${place.index}`);
  }
}

function noteOf(module) {
  return `${module.chunks.length > 1 ? `in ${module.chunks.length} chunks, ` : ''}${bytes(module.size)}`;
}
