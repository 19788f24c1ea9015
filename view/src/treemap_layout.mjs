// Boxes for the nodes of a tree, what lies at a point, and which box is next in a direction.
import { squares } from './squares.mjs';

const HEADING = { 0: 0, 1: 20 };
const FOLDER_HEADING = 16;
const EDGE = 2;
const SMALLEST = 4;

// Gives each node its box, and collects those that are drawn as one: modules, and folders too small to be opened.
export function layOut(root, box) {
  const leaves = [];
  place(root, box, leaves, 0);
  return leaves;
}

function place(node, box, leaves, level) {
  node.box = box;
  const inner = node.inner && innerBox(node, box, level);
  node.isOpen = Boolean(inner);
  if (!inner) {
    if (box.width >= 1 && box.height >= 1) leaves.push(node);
    return;
  }
  const boxes = squares(node.inner.map((one) => one.weight), inner);
  node.inner.forEach((one, at) => place(one, boxes[at], leaves, level + 1));
}

function innerBox(node, box, level) {
  const heading = level === 0 ? 0 : HEADING[node.depth] ?? FOLDER_HEADING;
  node.heading = box.height > 2 * heading + EDGE && box.width > 36 ? heading : 0;
  const edge = level === 0 ? 0 : EDGE;
  const width = box.width - 2 * edge;
  const height = box.height - 2 * edge - node.heading;
  if (width < SMALLEST || height < SMALLEST) return null;
  return { x: box.x + edge, y: box.y + edge + node.heading, width, height };
}

function hasPoint(box, x, y) {
  return x >= box.x && y >= box.y && x < box.x + box.width && y < box.y + box.height;
}

export function nodeAt(node, x, y) {
  if (!node.box || !hasPoint(node.box, x, y)) return null;
  const inner = node.isOpen ? node.inner.find((one) => hasPoint(one.box, x, y)) : null;
  return inner ? nodeAt(inner, x, y) : node;
}

const AXES = { Right: ['x', 'y', 1], Left: ['x', 'y', -1], Down: ['y', 'x', 1], Up: ['y', 'x', -1] };

function middle(box) {
  return { x: box.x + box.width / 2, y: box.y + box.height / 2 };
}

// The nearest box whose middle lies in the direction; what lies aside counts thrice.
export function nextLeaf(leaves, current, direction) {
  if (!current || !leaves.includes(current)) return leaves[0] ?? null;
  const [along, aside, sign] = AXES[direction];
  const from = middle(current.box);
  let best = null;
  let least = Infinity;
  for (const leaf of leaves) {
    const to = middle(leaf.box);
    const ahead = (to[along] - from[along]) * sign;
    const distance = ahead + 3 * Math.abs(to[aside] - from[aside]);
    if (leaf === current || ahead <= 0.5 || distance >= least) continue;
    best = leaf;
    least = distance;
  }
  return best;
}
