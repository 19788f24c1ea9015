// Paints boxes of a treemap in the colours of the page's style. Marks don't rest on colour alone: what is searched for has stripes and
// an edge, what lies in several chunks a folded corner, and what is chosen a double frame.
const LETTERS = { heading: 7.4, plain: 6.4 };
const TURN = 137.5;
const SMALLEST_STRIPES = 12;

export class Brush {
  constructor(canvas, matches) {
    const style = getComputedStyle(canvas);
    const colour = (name) => style.getPropertyValue(name).trim();
    this.colours = { ground: colour('--ground'), ink: colour('--ink'), veil: colour('--veil'), found: colour('--found') };
    this.fonts = { heading: `600 12px ${style.fontFamily}`, plain: `11px ${style.fontFamily}` };
    this.matches = matches;
    this.isDark = matchMedia('(prefers-color-scheme: dark)').matches;
    this.tints = new Map();
    this.context = canvas.getContext('2d');
    this.context.setTransform(devicePixelRatio, 0, 0, devicePixelRatio, 0, 0);
    this.context.textBaseline = 'middle';
    this.context.lineJoin = 'round';
  }

  clear({ width, height }) {
    this.context.fillStyle = this.colours.ground;
    this.context.fillRect(0, 0, width, height);
  }

  // A colour for each chunk, paler ones for what is deeper in it, and the palest for modules.
  tint(node) {
    const number = node.chunk?.index ?? node.module?.number ?? 0;
    const step = node.inner ? Math.min(node.depth, 4) : 5;
    const key = 6 * number + step;
    if (!this.tints.has(key)) this.tints.set(key, this.mixed((number * TURN + 210) % 360, step));
    return this.tints.get(key);
  }

  mixed(hue, step) {
    if (this.isDark) return `hsl(${hue} 30% ${step === 5 ? 33 : 13 + 3 * step}%)`;
    return `hsl(${hue} 55% ${step === 5 ? 91 : 66 + 4 * step}%)`;
  }

  paint(node) {
    const { box } = node;
    if (box.width < 1 || box.height < 1) return;
    if (node.depth !== 0) this.fill(node);
    if (!node.isOpen) {
      this.paintClosed(node);
      return;
    }
    if (node.heading > 0) this.write(node.label, { ...box, height: node.heading + 4 }, node.depth === 1 ? 'heading' : 'plain');
    for (const inner of node.inner) this.paint(inner);
  }

  fill(node) {
    const { x, y, width, height } = node.box;
    const gap = width > 5 && height > 5 ? 1 : 0;
    this.context.fillStyle = this.tint(node);
    this.context.fillRect(x, y, width - gap, height - gap);
  }

  paintClosed(node) {
    const isFound = this.matches !== null && node.module !== undefined && this.matches(node.module);
    if (isFound) this.stripe(node.box);
    else if (this.matches) this.veil(node.box);
    if (node.chunk && node.module?.chunks.length > 1) this.fold(node.box);
    this.write(node.label, node.box, 'plain', isFound ? this.tint(node) : null);
  }

  // A text in a box, on a halo where something is drawn below it.
  write(text, { x, y, width, height }, font, halo = null) {
    if (height < 13 || width < 28) return;
    const most = Math.floor((width - 8) / LETTERS[font]);
    const shown = text.length > most ? `${text.slice(0, most - 1)}…` : text;
    const place = [x + 4, y + Math.min(height / 2, 12)];
    this.context.font = this.fonts[font];
    if (halo) {
      this.context.strokeStyle = halo;
      this.context.lineWidth = 5;
      this.context.strokeText(shown, ...place);
    }
    this.context.fillStyle = this.colours.ink;
    this.context.fillText(shown, ...place);
  }

  veil({ x, y, width, height }) {
    this.context.fillStyle = this.colours.veil;
    this.context.fillRect(x, y, width, height);
  }

  stripe(box) {
    const { x, y, width, height } = box;
    const { context } = this;
    context.strokeStyle = this.colours.found;
    if (width > SMALLEST_STRIPES && height > SMALLEST_STRIPES) this.hatch(box);
    context.lineWidth = width > 6 && height > 6 ? 2 : 1;
    context.strokeRect(x + 1, y + 1, Math.max(width - 3, 1), Math.max(height - 3, 1));
  }

  hatch({ x, y, width, height }) {
    const { context } = this;
    context.save();
    context.beginPath();
    context.rect(x, y, width - 1, height - 1);
    context.clip();
    context.beginPath();
    context.globalAlpha = 0.45;
    context.lineWidth = 1.5;
    for (let at = -height; at < width; at += 9) {
      context.moveTo(x + at, y + height);
      context.lineTo(x + at + height, y);
    }
    context.stroke();
    context.restore();
  }

  fold({ x, y, width, height }) {
    const size = Math.min(9, width / 2, height / 2);
    if (size < 3) return;
    this.context.fillStyle = this.colours.ink;
    this.context.beginPath();
    this.context.moveTo(x + width - 1 - size, y);
    this.context.lineTo(x + width - 1, y);
    this.context.lineTo(x + width - 1, y + size);
    this.context.fill();
  }

  frame({ x, y, width, height }, kind) {
    const { context } = this;
    context.setLineDash(kind === 'current' ? [5, 3] : []);
    context.lineWidth = 3;
    context.strokeStyle = this.colours.ground;
    context.strokeRect(x + 2, y + 2, Math.max(width - 5, 1), Math.max(height - 5, 1));
    context.lineWidth = 2;
    context.strokeStyle = this.colours.ink;
    context.strokeRect(x, y, Math.max(width - 1, 1), Math.max(height - 1, 1));
    context.setLineDash([]);
  }
}
