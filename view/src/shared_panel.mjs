// Modules that lie in several chunks, those whose copies add most first.
import { treeOfShared } from './chunk_tree.mjs';
import { element } from './elements.mjs';
import { Rows } from './rows.mjs';
import { bytes, count } from './sizes.mjs';
import { Treemap } from './treemap.mjs';

export class SharedPanel {
  constructor(page) {
    this.page = page;
    this.list = new Rows('Modules in several chunks');
    this.map = new Treemap(treeOfShared(page.build), {
      label: 'Modules in several chunks by what their copies add', choose: (choice) => page.choose(choice), matches: () => page.matcher(),
    });
    const none = element('p', { className: 'none' }, 'Each module lies in one chunk.');
    const isEmpty = page.build.shared.length === 0;
    this.element = element('div', { className: 'sides' }, isEmpty ? none : this.map.element, this.list.element);
    this.find();
  }

  find() {
    const added = (module) => module.size * (module.chunks.length - 1);
    const modules = this.page.build.shared.filter(this.page.matcher() ?? (() => true));
    modules.sort((one, other) => added(other) - added(one) || one.number - other.number);
    this.list.show(modules.map((module) => ({
      key: module.number,
      name: module.path,
      note: `in ${count(module.chunks.length, 'chunk')}, ${bytes(added(module))} more`,
      choose: () => this.page.choose({ module }),
    })));
    this.map.draw();
  }

  mark({ module }) {
    this.map.mark(module?.number ?? null);
    if (module) this.list.mark(module.number);
  }
}
