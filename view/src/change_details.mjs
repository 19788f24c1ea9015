// What has changed with a module or a chunk, in words: its sizes, where it lay and lies, and why its place is another.
import { button, element } from './elements.mjs';
import { links } from './links.mjs';
import { Standing, whyMoved } from './moves.mjs';
import { bytes, count, signed } from './sizes.mjs';

export function changeDetails(page, change) {
  return change.chunk ? chunkDetails(page, change) : moduleDetails(page, change);
}

const BEGINNINGS = { came: 'It is new', went: 'It is gone', moved: 'It lies in other chunks', grew: 'It has grown', shrank: 'It has shrunk' };

function moduleDetails(page, change) {
  const { path, kind, before, after } = change;
  const sizes = before && after && before.size !== after.size ? `${bytes(before.size)} before, ${bytes(after.size)} now` : bytes((after ?? before).size);
  const importers = (build, module) => module.importers.map((number) => build.modules[number].path).map((one) => element('span', {}, one));
  const { earlier, now } = page.comparison;
  const from = after ? importers(now, after) : importers(earlier, before);
  return [path, element('p', {}, `${BEGINNINGS[kind]}: ${sizes}.`),
    ...whySection(page, change),
    ...links('It lay in', before?.chunks ?? [], (chunk) => element('span', {}, chunk.title)),
    ...links('It lies in', after?.chunks ?? [], (chunk) => button(chunk.title, () => page.choose({ chunk }))),
    ...links(after ? 'Imported by' : 'It was imported by', from, (one) => one),
    ...(after ? [button('Show the module in this build', () => page.choose({ module: after }), { className: 'light' })] : [])];
}

function whySection(page, { kind, before, after }) {
  if (kind !== 'moved') return [];
  const { earlier, now } = page.comparison;
  const standings = [{ build: earlier, loads: page.earlierLoads(), module: before }, { build: now, loads: page.loads, module: after }];
  const told = whyMoved(...standings.map((one) => new Standing(one)));
  return [element('h3', {}, 'Why has it moved?'), element('div', { className: 'reason' }, ...told.map((sentence) => element('p', {}, sentence)))];
}

function chunkDetails(page, { chunk, before, after, size, came, went }) {
  const sizes = before && after ? `${bytes(before.size)} before, ${bytes(after.size)} now (${signed(size)})` : bytes(chunk.size);
  const changed = after ? 'It has changed' : 'It is gone';
  const state = before ? changed : 'It is new';
  const rows = (paths) => paths.map((path) => element('span', {}, path));
  return [`Chunk ${chunk.title}`, element('p', {}, `${state}: ${sizes}.`),
    ...links(`${count(came.length, 'module')} came into it`, rows(came), (one) => one),
    ...links(`${count(went.length, 'module')} left it`, rows(went), (one) => one),
    ...(after ? [button('Show the chunk in this build', () => page.choose({ chunk: after }), { className: 'light' })] : [])];
}
