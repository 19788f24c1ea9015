// Why a module is placed in a group: the shortest list of groups that a page may load one after another, that ends with the
// group, and of which none before it reaches the module; of equally short ones the least. There is none exactly where the
// module isn't placed in the group.
export function whyPlaced(loads, group, module, reaches = loads.groupsThatReach(module)) {
  if (!reaches[group]) return null;
  const layers = layersBefore(loads, group, reaches);
  const entries = layers[layers.length - 1].filter((number) => loads.build.groups[number].entry);
  return entries.length === 0 ? null : leastHistory(loads, layers, Math.min(...entries));
}

// Groups by how many loads lead from them to the group, up to the first layer with an entry.
function layersBefore(loads, group, reaches) {
  const seen = new Set([group]);
  const layers = [[group]];
  for (let layer = layers[0]; layer.length > 0 && !layer.some((number) => loads.build.groups[number].entry);) {
    const before = layer.flatMap((number) => loads.loaders[number]).filter((number) => !reaches[number] && !seen.has(number));
    layer = [...new Set(before)];
    layer.forEach((number) => seen.add(number));
    layers.push(layer);
  }
  return layers;
}

// From the entry down, each time the least group of the next layer that may follow.
function leastHistory(loads, layers, entry) {
  const history = [entry];
  for (let at = layers.length - 2; at >= 0; at--) {
    const layer = new Set(layers[at]);
    history.push(loads.later[history[history.length - 1]].find((link) => layer.has(link.group)).group);
  }
  return history;
}
