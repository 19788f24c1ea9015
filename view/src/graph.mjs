// The graph of loads. Arrow keys go along loads and up and down, Enter chooses. A load history that is lit has numbers and thick
// lines, so that it doesn't rest on colour.
import { drawn, element } from './elements.mjs';
import { BOX, columnsOf, drawnGroups, extentOf, lineOf, middleOf, placesOf } from './graph_layout.mjs';
import { bytes, count, listed, whole } from './sizes.mjs';

const MOST_GROUPS = 150;
const MOST_LINES = 500;
const MOST_NAMES = 40;
const HELP = 'Arrow keys move along loads, Enter shows details. Lines are named by the module whose import() loads.';

export class Graph {
  constructor(build, loads, choose) {
    this.build = build;
    this.loads = loads;
    this.choose = choose;
    this.columns = columnsOf(build, loads);
    this.history = [];
    this.current = null;
    this.drawing = drawn('svg', { class: 'graph', role: 'application', tabindex: 0, 'aria-label': `Groups and their loads. ${HELP}` });
    this.status = element('p', { className: 'status', role: 'status' }, HELP);
    this.frame = element('div', { className: 'frame scroll' }, this.drawing);
    this.element = element('div', { className: 'picture' }, this.frame, this.status);
    this.drawing.addEventListener('keydown', (event) => this.press(event));
    this.drawing.addEventListener('click', (event) => this.click(event));
    this.draw();
  }

  light(history) {
    this.history = history;
    this.current = history[history.length - 1] ?? this.current;
    this.draw();
    this.showLit();
  }

  // Scrolls to the last group of what is lit.
  showLit() {
    const place = this.places.get(this.history[this.history.length - 1]);
    if (!place) return;
    const { frame } = this;
    const isSeen = (at, length, from, size) => at >= from && at + length <= from + size;
    if (!isSeen(place.x, BOX.width, frame.scrollLeft, frame.clientWidth)) frame.scrollLeft = place.x - 60;
    if (!isSeen(place.y, BOX.height, frame.scrollTop, frame.clientHeight)) frame.scrollTop = place.y - 60;
  }

  draw() {
    const groups = drawnGroups(this.columns, this.history, MOST_GROUPS);
    this.places = placesOf(groups, this.columns, this.loads);
    const { width, height } = extentOf(this.places);
    this.drawing.setAttribute('width', width);
    this.drawing.setAttribute('height', height);
    const links = this.linksAmong(groups);
    const lines = links.map((link) => this.line(link));
    const names = links.filter((link) => link.isLit || links.length <= MOST_NAMES).map((link) => this.lineName(link));
    this.drawing.replaceChildren(arrowHeads(), ...lines, ...names, ...groups.map((group) => this.box(group)));
    const left = this.build.groups.length - groups.length;
    if (left > 0) this.status.textContent = `${count(groups.length, 'group')} drawn; the list has ${whole(left)} more. ${HELP}`;
  }

  linksAmong(groups) {
    const links = groups.flatMap((from) => this.loads.later[from].map(({ group: to, home }) => ({ from, to, home, isLit: this.isStep(from, to) })))
      .filter(({ to }) => this.places.has(to));
    links.sort((one, other) => Number(other.isLit) - Number(one.isLit));
    // What is lit is drawn last, above the others.
    return links.slice(0, MOST_LINES).reverse();
  }

  isStep(from, to) {
    return this.history.some((group, at) => at > 0 && group === to && this.history[at - 1] === from);
  }

  line({ from, to, home, isLit }) {
    const told = `${this.build.groups[from].title} loads ${this.build.groups[to].title} by import() in ${this.build.modules[home].path}`;
    const [start, end] = [this.places.get(from), this.places.get(to)];
    const kinds = ['line', isLit ? 'lit' : '', end.column > start.column ? '' : 'back'];
    const head = `url(#${isLit ? 'lit' : 'plain'}-head)`;
    return drawn('path', { d: lineOf(start, end), class: kinds.join(' '), 'marker-end': head }, drawn('title', {}, told));
  }

  lineName({ from, to, home, isLit }) {
    const { x, y } = middleOf(this.places.get(from), this.places.get(to));
    return drawn('text', { x, y, class: isLit ? 'line-name lit' : 'line-name' }, shortened(this.build.modules[home].path.split('/').pop(), 11));
  }

  box(number) {
    const group = this.build.groups[number];
    const { x, y } = this.places.get(number);
    const at = this.history.indexOf(number);
    const kinds = ['box', group.entry ? 'entry' : 'demand', at >= 0 ? 'lit' : '', number === this.current ? 'current' : ''];
    const first = `first: ${count(group.chunks.length, 'chunk')}, ${bytes(group.size)}`;
    const later = this.loads.later[number].length;
    const kind = group.entry ? 'entry' : 'on demand';
    const box = drawn('g', { class: kinds.join(' '), transform: `translate(${x} ${y})`, 'data-group': number }, drawn('title', {}, this.told(number)),
      drawn('rect', { width: BOX.width, height: BOX.height, rx: group.entry ? 3 : 14 }),
      drawn('text', { x: 12, y: 20, class: 'box-name' }, shortened(this.build.titleOf(group), 20)),
      drawn('text', { x: 12, y: 38, class: 'box-note' }, first),
      drawn('text', { x: 12, y: 54, class: 'box-note' }, `${kind}; later: ${later === 0 ? 'none' : count(later, 'group')}`));
    if (at >= 0 && this.history.length > 1) box.append(...badge(at + 1));
    return box;
  }

  told(number) {
    const group = this.build.groups[number];
    const later = this.loads.later[number].map((link) => this.build.groups[link.group].title);
    const first = `first ${count(group.chunks.length, 'chunk')}, ${bytes(group.size)}`;
    return `${group.title}, ${group.entry ? 'entry' : 'on demand'}: ${first}; later ${listed(later) || 'nothing'}`;
  }

  click(event) {
    const box = event.target.closest('[data-group]');
    if (box) this.choose(Number(box.getAttribute('data-group')));
  }

  press(event) {
    if (event.key === 'Enter' && this.current !== null) this.choose(this.current);
    else if (event.key.startsWith('Arrow')) this.step(event.key.slice(5));
    else return;
    event.preventDefault();
  }

  step(direction) {
    const next = this.current === null ? [...this.places.keys()][0] : this.neighbour(direction);
    if (next === undefined) return;
    this.current = next;
    this.status.textContent = this.told(next);
    for (const box of this.drawing.querySelectorAll('.box')) box.classList.toggle('current', Number(box.getAttribute('data-group')) === next);
    this.drawing.querySelector('.box.current')?.scrollIntoView({ block: 'nearest', inline: 'nearest' });
  }

  neighbour(direction) {
    if (direction === 'Right') return this.loads.later[this.current].map((link) => link.group).find((group) => this.places.has(group));
    if (direction === 'Left') return this.loads.loaders[this.current].find((group) => this.places.has(group));
    const { column, row } = this.places.get(this.current);
    const wanted = row + (direction === 'Down' ? 1 : -1);
    return [...this.places].find(([, place]) => place.column === column && place.row === wanted)?.[0];
  }
}

function arrowHeads() {
  const size = { markerWidth: 9, markerHeight: 8, refX: 5, refY: 4, orient: 'auto', markerUnits: 'userSpaceOnUse' };
  const head = (kind) => drawn('marker', { id: `${kind}-head`, class: `head ${kind}`, ...size }, drawn('path', { d: 'M0 0L9 4L0 8z' }));
  return drawn('defs', {}, head('plain'), head('lit'));
}

function badge(number) {
  return [drawn('circle', { cx: 0, cy: 0, r: 11, class: 'badge' }), drawn('text', { x: 0, y: 4, class: 'badge-number' }, String(number))];
}

// The end of a path tells more than its beginning.
function shortened(text, most) {
  return text.length > most ? `…${text.slice(1 - most)}` : text;
}
