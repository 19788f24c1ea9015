// The page: its head with search and file picker, a tab for each way to look at the build, and what is chosen.
import { Build } from './build.mjs';
import { ChunksPanel } from './chunks_panel.mjs';
import { Comparison } from './comparison.mjs';
import { Details } from './details.mjs';
import { button, element } from './elements.mjs';
import { NotesPanel } from './notes_panel.mjs';
import { SharedPanel } from './shared_panel.mjs';
import { bytes, count, whole } from './sizes.mjs';
import { SplitsPanel } from './splits_panel.mjs';
import { Tabs } from './tabs.mjs';

export class Page {
  constructor(root, { pick, compare }) {
    this.build = null;
    this.comparison = null;
    this.query = '';
    this.summary = element('p', { className: 'summary' });
    this.problem = element('p', { className: 'problem', role: 'alert', hidden: true });
    this.found = element('output', { className: 'found' });
    this.search = element('input', { type: 'search', placeholder: 'Search modules', 'aria-label': 'Search modules by path', disabled: true });
    this.search.addEventListener('input', () => this.find(this.search.value));
    this.body = element('main');
    root.append(this.head(pick, compare), this.problem, this.body);
  }

  head(pick, compare) {
    const [file, open] = picker('Open stats…', 'stats.json of a build', pick);
    const [other, against] = picker('Compare with…', 'stats.json of an earlier build', compare);
    this.against = against;
    against.disabled = true;
    return element('header', {}, element('h1', {}, 'Chunkpack build'), this.summary, this.search, this.found, open, against, file, other);
  }

  showProblem(sentence) {
    this.problem.textContent = sentence;
    this.problem.hidden = false;
    if (!this.build) this.body.replaceChildren(invitation());
  }

  showStats(stats) {
    const build = new Build(stats);
    this.build = build;
    this.comparison = null;
    this.loads = null;
    this.against.disabled = false;
    this.problem.hidden = true;
    this.search.disabled = false;
    this.search.value = '';
    this.query = '';
    this.found.textContent = '';
    this.choice = null;
    const counts = ['module', 'chunk', 'group', 'split'].map((word) => count(build[`${word}s`].length, word));
    this.summary.textContent = [...counts, bytes(build.size)].join(' · ');
    this.showTabs('Chunks');
  }

  // Compares the build that is shown with an earlier one, of this name.
  compareWith(stats, name) {
    this.comparison = new Comparison(new Build(stats), this.build, name);
    this.earlier = null;
    this.problem.hidden = true;
    this.choice = null;
    this.showTabs('Compared');
  }

  showTabs(name) {
    this.details = new Details(this);
    this.tabs = new Tabs(this.tabList());
    this.body.replaceChildren(this.tabs.list, element('div', { className: 'below' }, this.tabs.place, this.details.element));
    this.tabs.open(name);
  }

  tabList() {
    const { build, comparison } = this;
    const makeCompared = async () => new (await this.comparedPart()).ComparedPanel(this);
    return {
      ...(comparison && { Compared: { count: comparison.modules.length, make: makeCompared } }),
      Chunks: { count: build.chunks.length, make: () => new ChunksPanel(this) },
      Loads: { count: build.groups.length, make: async () => new (await this.loadsPart()).LoadsPanel(this) },
      Splits: { count: build.splits.length, make: () => new SplitsPanel(this) },
      'In several chunks': { count: build.shared.length, make: () => new SharedPanel(this) },
      Notes: { count: build.notes.length, make: () => new NotesPanel(this) },
    };
  }

  // What tells loads and reasons is loaded when it is first asked for.
  async loadsPart() {
    const part = await import(/* webpackChunkName: "loads" */ './loads_part.mjs');
    this.loads ??= new part.Loads(this.build);
    return part;
  }

  // The loads of both builds tell why a module has moved.
  async comparedPart() {
    const part = await import(/* webpackChunkName: "compared" */ './compared_part.mjs');
    this.loads ??= new part.Loads(this.build);
    this.earlierLoads = () => (this.earlier ??= new part.Loads(this.comparison.earlier));
    return part;
  }

  find(text) {
    this.query = text.trim().toLowerCase();
    const found = this.query === '' ? [] : this.build.modules.filter((module) => this.matches(module));
    const size = found.reduce((sum, module) => sum + module.size, 0);
    this.found.textContent = this.query === '' ? '' : `${count(found.length, 'module')} of ${whole(this.build.modules.length)}, ${bytes(size)}`;
    this.tabs.tell((panel) => panel.find?.());
  }

  matches(module) {
    return module.path.toLowerCase().includes(this.query);
  }

  // The test of a search, where there is one.
  matcher() {
    return this.query === '' ? null : (module) => this.matches(module);
  }

  // Chooses a module, perhaps in a chunk or a group, or a chunk, a group or a split alone.
  choose(choice) {
    this.choice = choice;
    this.details.show(choice);
    this.tabs.tell((panel) => panel.mark?.(choice));
  }

  // Lights a load history in the graph of loads.
  async light(history, group) {
    this.history = history;
    this.choice = { ...this.choice, group };
    await this.tabs.open('Loads');
    this.tabs.tell((panel) => panel.light?.(history));
  }
}

// A field for a file, and the button that stands for it.
function picker(text, label, take) {
  const file = element('input', { type: 'file', accept: '.json,application/json', className: 'unseen', tabIndex: -1 });
  file.setAttribute('aria-label', label);
  file.addEventListener('change', () => {
    if (file.files.length > 0) take(file.files[0]);
    file.value = '';
  });
  return [file, button(text, () => file.click())];
}

export function invitation() {
  return element('section', { className: 'invitation' },
    element('h2', {}, 'No build is shown'),
    element('p', {}, 'Choose the stats.json of a build with “Open stats…”, or drop the file here. Chunkpack writes it into dist.'));
}
