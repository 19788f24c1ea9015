// The groups as a graph of loads, and the same as a list: what each loads first, and what it may load later.
import { element } from './elements.mjs';
import { Graph } from './graph.mjs';
import { whyPlaced } from './reasons.mjs';
import { Rows } from './rows.mjs';
import { bytes } from './sizes.mjs';

export class LoadsPanel {
  constructor(page) {
    this.page = page;
    this.graph = new Graph(page.build, page.loads, (group) => page.choose({ group }));
    this.list = new Rows('Groups, what they load first and later');
    this.element = element('div', { className: 'sides' }, this.graph.element, this.list.element);
    this.list.show(page.build.groups.flatMap((group) => this.groupRows(group)));
    if (page.choice) this.mark(page.choice);
  }

  groupRows(group) {
    const { build, loads } = this.page;
    const choose = () => this.page.choose({ group: group.number });
    const heading = { key: group.number, name: `${group.title} (${group.entry ? 'entry' : 'on demand'})`, note: bytes(group.size), choose };
    const first = group.chunks.map((chunk) => ({
      level: 1, name: `first: chunk ${chunk.title}`, note: bytes(chunk.size), choose: () => this.page.choose({ chunk }),
    }));
    const later = loads.later[group.number].map((link) => ({
      level: 1,
      name: `later: ${build.groups[link.group].title}`,
      note: `from ${build.modules[link.home].path}`,
      choose: () => this.page.choose({ group: link.group }),
    }));
    return [heading, ...first, ...later];
  }

  // Of a module in a group the reason is lit, else the group alone.
  mark({ module, group }) {
    if (group === undefined) return this.light([]);
    this.list.mark(group);
    const history = module && whyPlaced(this.page.loads, group, module.number);
    this.light(history ?? [group]);
  }

  light(history) {
    this.graph.light(history);
  }

  shown() {
    this.graph.showLit();
  }
}
