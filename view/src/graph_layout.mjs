// Places for the groups of a graph of loads: columns by how many loads lead to a group, entries first, and in a column near the groups
// that load it.
const WIDTH = 164;
const HEIGHT = 66;
const ACROSS = 68;
const DOWN = 20;
const MARGIN = 14;

export const BOX = { width: WIDTH, height: HEIGHT };

// The column of each group that loads lead to from an entry; the others stand in the first.
export function columnsOf(build, loads) {
  const columns = new Int32Array(build.groups.length).fill(-1);
  const work = build.groups.filter((group) => group.entry).map((group) => group.number);
  for (const group of work) columns[group] = 0;
  for (const group of work) {
    for (const link of loads.later[group]) {
      if (columns[link.group] >= 0) continue;
      columns[link.group] = columns[group] + 1;
      work.push(link.group);
    }
  }
  return columns.map((column) => Math.max(column, 0));
}

// The groups that are drawn: those that have to be, and then the first columns, up to a number.
export function drawnGroups(columns, wanted, most) {
  const order = [...columns.keys()].sort((one, other) => columns[one] - columns[other] || one - other);
  return [...new Set([...wanted, ...order])].slice(0, Math.max(most, wanted.length));
}

export function placesOf(groups, columns, loads) {
  const byColumn = new Map();
  for (const group of [...groups].sort((one, other) => columns[one] - columns[other] || one - other)) {
    if (!byColumn.has(columns[group])) byColumn.set(columns[group], []);
    byColumn.get(columns[group]).push(group);
  }
  const places = new Map();
  [...byColumn.values()].forEach((column, at) => placeColumn(column, at, places, loads));
  return places;
}

function placeColumn(column, at, places, loads) {
  const height = (group) => {
    const rows = loads.loaders[group].map((loader) => places.get(loader)?.row).filter((row) => row !== undefined);
    return rows.length === 0 ? Infinity : rows.reduce((sum, row) => sum + row, 0) / rows.length;
  };
  const heights = new Map(column.map((group) => [group, height(group)]));
  const ordered = [...column].sort((one, other) => compare(heights.get(one), heights.get(other)) || one - other);
  ordered.forEach((group, row) => places.set(group, { column: at, row, x: MARGIN + at * (WIDTH + ACROSS), y: MARGIN + row * (HEIGHT + DOWN) }));
}

function compare(one, other) {
  if (one === other) return 0;
  return one < other ? -1 : 1;
}

export function extentOf(places) {
  const all = [...places.values()];
  return {
    width: Math.max(...all.map((place) => place.x + WIDTH), 0) + MARGIN,
    height: Math.max(...all.map((place) => place.y + HEIGHT), 0) + MARGIN + DOWN,
  };
}

// The line of a load: from right to left between columns, and round below where it leads back.
export function lineOf(from, to) {
  const start = { x: from.x + WIDTH, y: from.y + HEIGHT / 2 };
  const end = { x: to.x, y: to.y + HEIGHT / 2 };
  if (to.column > from.column) {
    const bend = (end.x - start.x) / 2;
    return `M${start.x} ${start.y}C${start.x + bend} ${start.y} ${end.x - bend} ${end.y} ${end.x - 4} ${end.y}`;
  }
  const low = Math.max(from.y, to.y) + HEIGHT + DOWN;
  return `M${start.x} ${start.y}C${start.x + 50} ${low} ${end.x - 50} ${low} ${end.x - 4} ${end.y}`;
}

export function middleOf(from, to) {
  return { x: (from.x + WIDTH + to.x) / 2, y: (from.y + to.y + HEIGHT) / 2 - 4 };
}
