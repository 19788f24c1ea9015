// What a group loads first and may load later, by which modules it is loaded itself, and the modules of its chunks.
import { button, element } from './elements.mjs';
import { links } from './links.mjs';
import { Rows } from './rows.mjs';
import { bytes, count } from './sizes.mjs';

const MOST_ROWS = 12;

export function groupDetails(page, number) {
  const { build, loads } = page;
  const group = build.groups[number];
  const kind = group.entry ? 'An entry: a page loads it by a script element.' : 'Loaded on demand.';
  const loaders = loads.loaders[number].map((other) => ({ group: other, home: loads.homeOf(other, number) }));
  return [`Group ${group.title}`, element('p', {}, `${kind} It loads ${count(group.chunks.length, 'chunk')}, ${bytes(group.size)}.`),
    ...links('First', group.chunks, (chunk) => button(`${chunk.title}, ${bytes(chunk.size)}`, () => page.choose({ chunk }))),
    ...links('Later, on demand', loads.later[number], (link) => loadLink(page, link)),
    ...links('Loaded from', loaders, (link) => loadLink(page, link)),
    element('h3', {}, 'Modules: choose one to see why'), moduleList(page, group)];
}

function loadLink(page, { group, home }) {
  const { groups, modules } = page.build;
  return button(`${groups[group].title}, by import() in ${modules[home].path}`, () => page.choose({ group }));
}

function moduleList(page, group) {
  const list = new Rows(`Modules in the chunks of ${group.title}`);
  list.show(group.chunks.flatMap((chunk) => chunk.modules.map((number) => moduleRow(page, group, chunk, page.build.modules[number]))));
  list.fit(MOST_ROWS);
  return list.element;
}

function moduleRow(page, group, chunk, module) {
  const choose = () => page.choose({ module, chunk, group: group.number });
  return { key: `c${chunk.index} m${module.number}`, name: module.path, note: `${chunk.title}, ${bytes(module.size)}`, choose };
}
