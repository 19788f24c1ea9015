// Tabs, each with a panel that is made when it is first opened. Arrow keys go from tab to tab.
import { button, element } from './elements.mjs';
import { whole } from './sizes.mjs';

export class Tabs {
  constructor(tabs) {
    this.tabs = tabs;
    this.panels = new Map();
    this.buttons = new Map(Object.entries(tabs).map(([name, { count }]) => [name, this.tabButton(name, count)]));
    this.list = element('div', { className: 'tabs', role: 'tablist', 'aria-label': 'Ways to look at the build' }, ...this.buttons.values());
    this.place = element('section', { className: 'panel', role: 'tabpanel' });
    this.list.addEventListener('keydown', (event) => this.press(event));
  }

  tabButton(name, count) {
    return button(`${name} (${whole(count)})`, () => this.open(name), { role: 'tab' });
  }

  press(event) {
    const names = [...this.buttons.keys()];
    const step = { ArrowRight: 1, ArrowLeft: -1 }[event.key];
    if (!step) return;
    const at = (names.indexOf(this.name) + step + names.length) % names.length;
    this.open(names[at]);
    this.buttons.get(names[at]).focus();
    event.preventDefault();
  }

  async open(name) {
    this.name = name;
    for (const [other, tab] of this.buttons) {
      tab.setAttribute('aria-selected', String(other === name));
      tab.tabIndex = other === name ? 0 : -1;
    }
    const panel = await this.panel(name);
    // Another tab may have been opened while this one's part was loaded.
    if (this.name !== name) return;
    this.place.setAttribute('aria-label', name);
    if (this.place.firstChild !== panel.element) this.place.replaceChildren(panel.element);
    panel.shown?.();
  }

  async panel(name) {
    if (!this.panels.has(name)) {
      try {
        const made = await this.tabs[name].make();
        if (!this.panels.has(name)) this.panels.set(name, made);
      } catch (error) {
        return { element: element('p', { className: 'none' }, `This part of the page can’t be loaded (${error.message}).`) };
      }
    }
    return this.panels.get(name);
  }

  tell(what) {
    for (const panel of this.panels.values()) what(panel);
  }
}
