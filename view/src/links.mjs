// A short list of buttons under a heading; of a long one the beginning, and how many more there are.
import { element } from './elements.mjs';
import { whole } from './sizes.mjs';

const MOST = 12;

export function links(heading, things, link) {
  if (things.length === 0) return [];
  const shown = things.slice(0, MOST).map((thing) => element('li', {}, link(thing)));
  if (things.length > MOST) shown.push(element('li', {}, `and ${whole(things.length - MOST)} more`));
  return [element('h3', {}, heading), element('ul', { className: 'links' }, ...shown)];
}
