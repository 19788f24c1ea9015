// A treemap on a canvas, so that many thousands of boxes need no elements. Arrow keys go from box to box, Enter chooses, `+` and a
// click on a heading go into a chunk or folder, `-` and Escape go out again.
import { Brush } from './brush.mjs';
import { titleOf } from './chunk_tree.mjs';
import { button, element } from './elements.mjs';
import { layOut, nextLeaf, nodeAt } from './treemap_layout.mjs';

const HELP = 'Arrow keys move, Enter shows details, + goes into a chunk or folder, - goes out.';

export class Treemap {
  constructor(tree, { label, choose, matches }) {
    this.tree = tree;
    this.choose = choose;
    this.matches = matches;
    this.path = [tree];
    this.current = null;
    this.chosen = null;
    this.canvas = element('canvas', { tabIndex: 0, role: 'application', 'aria-label': `${label}. ${HELP}` });
    this.trail = element('nav', { className: 'trail', 'aria-label': 'Where the picture is' });
    this.status = element('p', { className: 'status', role: 'status' }, HELP);
    this.frame = element('div', { className: 'frame' }, this.canvas);
    this.element = element('div', { className: 'picture' }, this.trail, this.frame, this.status);
    this.listen();
  }

  listen() {
    this.canvas.addEventListener('keydown', (event) => this.press(event));
    this.canvas.addEventListener('mousemove', (event) => this.hover(event));
    this.canvas.addEventListener('mouseleave', () => this.hover(null));
    this.canvas.addEventListener('click', (event) => this.click(event));
    this.canvas.addEventListener('focus', () => this.draw());
    this.canvas.addEventListener('blur', () => this.draw());
    new ResizeObserver(() => this.resize()).observe(this.frame);
    matchMedia('(prefers-color-scheme: dark)').addEventListener('change', () => this.draw());
  }

  get root() {
    return this.path[this.path.length - 1];
  }

  resize() {
    const { clientWidth: width, clientHeight: height } = this.frame;
    if (width === 0 || height === 0) return;
    this.canvas.width = width * devicePixelRatio;
    this.canvas.height = height * devicePixelRatio;
    this.canvas.style.width = `${width}px`;
    this.canvas.style.height = `${height}px`;
    this.box = { x: 0, y: 0, width, height };
    this.arrange();
  }

  arrange() {
    if (!this.box) return;
    this.leaves = layOut(this.root, this.box);
    this.showTrail();
    this.draw();
  }

  draw() {
    if (!this.box) return;
    const brush = new Brush(this.canvas, this.matches());
    brush.clear(this.box);
    brush.paint(this.root);
    const isCurrent = this.current?.box && document.activeElement === this.canvas;
    for (const leaf of this.leaves.filter((one) => this.isChosen(one))) brush.frame(leaf.box, 'chosen');
    if (isCurrent) brush.frame(this.current.box, 'current');
    performance.mark('picture');
  }

  isChosen(leaf) {
    return this.chosen !== null && leaf.module?.number === this.chosen;
  }

  // Marks the boxes of a module.
  mark(module) {
    this.chosen = module;
    this.current = this.leaves?.find((leaf) => this.isChosen(leaf)) ?? this.current;
    this.draw();
  }

  showTrail() {
    const last = this.path.length - 1;
    this.trail.replaceChildren(...this.path.map((node, at) => button(node.label, () => this.goOut(at), { disabled: at === last })));
  }

  goOut(at) {
    if (at < 0 || at >= this.path.length - 1) return;
    this.path.length = at + 1;
    this.arrange();
  }

  // Goes into the chunk or folder in the picture that has the current box.
  goIn(node) {
    const inner = node && this.root.inner.find((one) => one === node || holds(one, node));
    if (!inner?.inner) return;
    this.path.push(inner);
    this.arrange();
  }

  tell(node) {
    this.status.textContent = node ? titleOf(node) : HELP;
  }

  hover(event) {
    const node = event && nodeAt(this.root, event.offsetX, event.offsetY);
    this.tell(node && node !== this.root ? node : this.current);
    this.canvas.style.cursor = node && node !== this.root ? 'pointer' : 'default';
  }

  click(event) {
    const node = nodeAt(this.root, event.offsetX, event.offsetY);
    if (!node || node === this.root) return;
    if (node.inner) {
      this.goIn(node);
      if (node.chunk) this.choose({ chunk: node.chunk });
    } else {
      this.take(node);
    }
  }

  take(leaf) {
    this.current = leaf;
    this.tell(leaf);
    if (leaf.module) this.choose({ module: leaf.module, chunk: leaf.chunk });
    else this.goIn(leaf);
    this.draw();
  }

  press(event) {
    if (event.ctrlKey || event.metaKey || event.altKey) return;
    if (event.key.startsWith('Arrow')) this.step(event.key.slice(5));
    else if (event.key === 'Enter' && this.current) this.take(this.current);
    else if (event.key === '+') this.goIn(this.current);
    else if (event.key === '-' || event.key === 'Escape') this.goOut(this.path.length - 2);
    else return;
    event.preventDefault();
  }

  step(direction) {
    this.current = nextLeaf(this.leaves, this.current, direction) ?? this.current;
    this.tell(this.current);
    this.draw();
  }
}

function holds(node, wanted) {
  return (node.inner ?? []).some((inner) => inner === wanted || holds(inner, wanted));
}
