// Draws the figures of figures.json as bars: `node bench/chart/chart.mjs` writes light.svg and dark.svg beside it. Each bar has its name and
// its number, so that nothing rests on colour; one that is longer than its panel is cut, with a gap.
import fs from 'node:fs';

const WIDTH = 820;
const PANELS = [
  { name: 'Time by the clock', unit: 's', at: 0, left: 150, most: 1.5 },
  { name: 'Peak of memory', unit: 'MB', at: 1, left: 500, most: 450 },
];
const LENGTH = 250;
const ROW = 19;
const SCHEMES = {
  light: { ground: '#ffffff', ink: '#1b2330', soft: '#596475', chunkpack: '#0b5cad', esbuild: '#8c96a4', rollup: '#c3c9d1' },
  dark: { ground: '#0d1117', ink: '#e8ecf2', soft: '#a5b0bf', chunkpack: '#7bb8ff', esbuild: '#6b7686', rollup: '#465060' },
};

function text(x, y, words, colour, more = '') {
  return `<text x="${x}" y="${y}" fill="${colour}" ${more}>${words}</text>`;
}

function bar(panel, y, figure, fill, colours) {
  const isCut = figure > panel.most;
  const length = isCut ? LENGTH : Math.max((LENGTH * figure) / panel.most, 2);
  const gap = isCut ? `<path d="M${panel.left + LENGTH - 26} ${y + 14}l8 -14h6l-8 14z" fill="${colours.ground}"/>` : '';
  return `<rect x="${panel.left}" y="${y + 1}" width="${length.toFixed(1)}" height="12" fill="${fill}"/>${gap}`
    + text((panel.left + length + 5).toFixed(1), y + 11, `${figure} ${panel.unit}`, colours.ink);
}

// A tree's bars below one another, and where the next tree begins.
function treePart(tree, programs, y, colours) {
  const shown = Object.keys(programs).filter((program) => program in tree);
  const rows = shown.map((program, at) => {
    const top = y + 8 + at * ROW;
    const bars = PANELS.map((panel) => bar(panel, top, tree[program][panel.at], colours[program], colours));
    return text(144, top + 11, programs[program], colours.soft, 'text-anchor="end"') + bars.join('');
  });
  return { drawn: text(10, y, tree.name, colours.ink, 'font-weight="600"') + rows.join('\n'), next: y + 34 + shown.length * ROW };
}

export function chart({ measured, programs, trees }, colours) {
  const parts = PANELS.map((panel) => text(panel.left, 20, panel.name, colours.ink, 'font-weight="600"'));
  let y = 46;
  for (const tree of trees) {
    const { drawn, next } = treePart(tree, programs, y, colours);
    parts.push(drawn);
    y = next;
  }
  parts.push(text(10, y - 4, `${measured}.`, colours.soft));
  const head = `<svg xmlns="http://www.w3.org/2000/svg" width="${WIDTH}" height="${y + 10}" viewBox="0 0 ${WIDTH} ${y + 10}" role="img" `
    + 'font-family="system-ui, Segoe UI, Noto Sans, DejaVu Sans, sans-serif" font-size="12">';
  return [head, `<title>${PANELS.map((panel) => panel.name).join(' and ')} of builds</title>`,
    `<rect width="100%" height="100%" fill="${colours.ground}"/>`, ...parts, '</svg>', ''].join('\n');
}

// The texts of the pictures by their names.
export function charts() {
  const figures = JSON.parse(fs.readFileSync(new URL('figures.json', import.meta.url), 'utf8'));
  return Object.fromEntries(Object.entries(SCHEMES).map(([scheme, colours]) => [`${scheme}.svg`, chart(figures, colours)]));
}

if (process.argv[1] === new URL(import.meta.url).pathname) {
  for (const [name, drawn] of Object.entries(charts())) fs.writeFileSync(new URL(name, import.meta.url), drawn);
}
