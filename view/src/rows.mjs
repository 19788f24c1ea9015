// A list of any length with a few dozen elements: only the rows in sight are made. A row is `{ name, note, level, key, choose }`;
// arrow keys, Page, Home and End move, and Enter or a click chooses. A `note` may be a getter, which is asked when the row is made.
import { element } from './elements.mjs';

const HEIGHT = 26;
const MARGIN = 6;
let lists = 0;

export class Rows {
  constructor(label) {
    this.id = `rows${++lists}`;
    this.rows = [];
    this.current = -1;
    this.space = element('div', { className: 'rows-space', role: 'presentation' });
    this.element = element('div', { className: 'rows', role: 'listbox', tabIndex: 0, 'aria-label': label }, this.space);
    this.element.addEventListener('scroll', () => this.draw());
    this.element.addEventListener('keydown', (event) => this.press(event));
    this.element.addEventListener('click', (event) => this.click(event));
    new ResizeObserver(() => this.draw()).observe(this.element);
  }

  show(rows) {
    this.rows = rows;
    this.current = -1;
    this.element.scrollTop = 0;
    this.space.style.height = `${Math.max(rows.length, 1) * HEIGHT}px`;
    this.draw();
  }

  // Takes no more room than so many rows need.
  fit(most) {
    this.element.style.height = `${Math.min(Math.max(this.rows.length, 1), most) * HEIGHT + 2}px`;
  }

  // Makes the row of this key the current one, without choosing it.
  mark(key) {
    const at = this.rows.findIndex((row) => row.key === key);
    if (at >= 0 && at !== this.current) this.move(at);
  }

  move(at) {
    if (this.rows.length === 0) return;
    this.current = Math.min(Math.max(at, 0), this.rows.length - 1);
    const top = this.current * HEIGHT;
    const { scrollTop, clientHeight } = this.element;
    if (top < scrollTop) this.element.scrollTop = top;
    else if (top + HEIGHT > scrollTop + clientHeight) this.element.scrollTop = top + HEIGHT - clientHeight;
    this.draw();
  }

  press(event) {
    const page = Math.max(Math.floor(this.element.clientHeight / HEIGHT) - 1, 1);
    const steps = { ArrowDown: 1, ArrowUp: -1, PageDown: page, PageUp: -page, Home: -Infinity, End: Infinity };
    if (event.key in steps) this.move(this.current + steps[event.key]);
    else if (event.key === 'Enter' || event.key === ' ') this.rows[this.current]?.choose?.();
    else return;
    event.preventDefault();
  }

  click(event) {
    const row = event.target.closest('[role=option]');
    if (!row) return;
    this.move(Number(row.dataset.at));
    this.rows[this.current].choose?.();
  }

  draw() {
    const first = Math.max(Math.floor(this.element.scrollTop / HEIGHT) - MARGIN, 0);
    const last = Math.min(first + Math.ceil(this.element.clientHeight / HEIGHT) + 2 * MARGIN, this.rows.length);
    const shown = this.rows.slice(first, last).map((row, at) => this.rowElement(row, first + at));
    if (this.rows.length === 0) shown.push(element('p', { className: 'none' }, 'Nothing to list.'));
    this.space.replaceChildren(...shown);
    this.element.setAttribute('aria-activedescendant', this.current < 0 ? '' : `${this.id}-${this.current}`);
  }

  rowElement(row, at) {
    const { name, note = '', level = 0, choose } = row;
    const properties = {
      id: `${this.id}-${at}`, role: 'option', className: `row level${level}${choose ? '' : ' still'}`, title: `${name} ${note}`,
      'aria-selected': String(at === this.current), 'aria-posinset': at + 1, 'aria-setsize': this.rows.length,
    };
    const made = element('div', properties, element('span', { className: 'name' }, name), element('span', { className: 'note' }, note));
    made.dataset.at = at;
    made.style.top = `${at * HEIGHT}px`;
    return made;
  }
}
