// The trees that treemaps show: chunks, their folders and their modules by size. A node is `{ label, weight, inner, .. }`; a leaf
// has a module in place of `inner`. Thousands of nodes are told of seldom, so their titles are made when they are asked for.
import { kindOf } from './build.mjs';
import { bytes, count } from './sizes.mjs';

export function treeOfChunks(build) {
  const chunks = build.chunks.map((chunk) => chunkNode(build, chunk));
  return treeOf('All chunks', chunks);
}

// Each module that lies in several chunks, weighed by what its copies add.
export function treeOfShared(build) {
  const added = (module) => Math.max(module.size, 1) * (module.chunks.length - 1);
  const leaves = build.shared.map((module) => ({ ...leaf(module, null, module.path.split('/').pop()), weight: added(module) }));
  return treeOf('Modules in several chunks', leaves);
}

function treeOf(label, inner) {
  return weighed({ label, depth: 0, inner });
}

function chunkNode(build, chunk) {
  const folder = newFolder('');
  for (const number of chunk.modules) file(folder, build.modules[number], chunk);
  const label = `${chunk.title} · ${kindOf(chunk)} · ${bytes(chunk.size)}`;
  return weighed({ label, chunk, depth: 1, inner: innerOf(folder, chunk, 2, '') });
}

function newFolder(name) {
  return { name, folders: new Map(), leaves: [] };
}

function file(folder, module, chunk) {
  const parts = module.path.split('/');
  const name = parts.pop();
  let place = folder;
  for (const part of parts) {
    if (!place.folders.has(part)) place.folders.set(part, newFolder(part));
    place = place.folders.get(part);
  }
  place.leaves.push(leaf(module, chunk, name));
}

function leaf(module, chunk, label) {
  return { label, module, chunk, weight: Math.max(module.size, 1), inner: null };
}

function innerOf(folder, chunk, depth, path) {
  const folders = [...folder.folders.values()].map((inner) => folderNode(inner, chunk, depth, path));
  return [...folders, ...folder.leaves];
}

// A folder that has nothing but one folder is one with it.
function folderNode(folder, chunk, depth, path) {
  let last = folder;
  let name = folder.name;
  while (last.leaves.length === 0 && last.folders.size === 1) {
    [last] = last.folders.values();
    name += `/${last.name}`;
  }
  const whole = `${path}${name}/`;
  return weighed({ label: `${name}/`, folder: whole, chunk, depth, inner: innerOf(last, chunk, depth + 1, whole) });
}

function weighed(node) {
  node.inner.sort((one, other) => other.weight - one.weight);
  node.weight = node.inner.reduce((sum, inner) => sum + inner.weight, 0);
  return node;
}

export function titleOf({ label, module, chunk, folder, weight }) {
  if (module) return `${module.path}, ${bytes(module.size)}${module.chunks.length > 1 ? `, in ${module.chunks.length} chunks` : ''}`;
  if (folder) return `folder ${folder}, ${bytes(weight)}, in chunk ${chunk.title}`;
  return chunk ? `chunk ${chunk.title} (${kindOf(chunk)}), ${count(chunk.modules.length, 'module')}, ${bytes(chunk.size)}` : label;
}
