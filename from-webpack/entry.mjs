// `entry`: a request, a list, an object of these, or a function that gives one.
import path from 'node:path';
import { isNormalPath, isRelative } from './place.mjs';
import { cannot, differs, dropped, tellMembers } from './told.mjs';

const rules = {
  dependOn: differs('each entry brings all that it needs, and in one page each module runs once: for a chunk of its own write a cache group with chunks "all"'),
  runtime: differs('the runtime stands in each entry\'s chunk: leave out the script of the runtime', false),
  filename: differs('output.filename names all entries: name the entry so that [name] gives the file'),
  publicPath: cannot('there is one output.publicPath for all'),
  library: cannot('an entry exports nothing: assign to self what other scripts need'),
  layer: cannot('there are no layers'),
  chunkLoading: cannot('chunks are loaded by script elements', 'jsonp'),
  asyncChunks: cannot('write webpackMode "eager" in its import() calls', true),
  wasmLoading: dropped('WebAssembly is not read'),
  baseUri: dropped('import.meta is not read'),
};

export async function entryOf(value, place, told) {
  const given = typeof value === 'function' ? await value() : value;
  if (given === undefined) return requestOf('entry', './src', place, told);
  if (typeof given === 'string' || Array.isArray(given)) return requestsOf('entry', given, place, told);
  const entries = [];
  for (const [name, one] of Object.entries(given)) {
    const requests = isNormalPath(name) ? namedEntry(`entry.${name}`, one, place, told) : undefined;
    if (!isNormalPath(name)) told.cannot(`entry.${name}`, 'the name is no path as a/b: give it another');
    if (requests !== undefined) entries.push([name, requests]);
  }
  if (entries.length > 0) return Object.fromEntries(entries);
  told.cannot('entry', 'no entry is left: without one ./src/index.js is built');
  return undefined;
}

function namedEntry(option, value, place, told) {
  if (typeof value === 'string' || Array.isArray(value)) return requestsOf(option, value, place, told);
  const { import: requests, ...rest } = value;
  tellMembers(`${option}.`, rest, rules, told);
  return requestsOf(option, requests, place, told);
}

function requestsOf(option, value, place, told) {
  if (typeof value === 'string') return requestOf(option, value, place, told);
  const requests = value.map((request) => requestOf(option, request, place, told)).filter((request) => request !== undefined);
  return requests.length > 0 ? requests : undefined;
}

function requestOf(option, request, place, told) {
  const because = refusal(request);
  if (because) {
    told.cannot(option, `${because}: ${request}`);
    return undefined;
  }
  if (!path.isAbsolute(request) && !isRelative(request)) {
    if (place.context !== place.root) told.differs(option, `${request} is looked up from the folder in which the program is started, not from context`);
    return request;
  }
  if (place.context === place.root && isRelative(request)) return request;
  const below = place.below(path.resolve(place.context, request));
  if (below !== undefined) return `./${below}${request.endsWith('/') ? '/' : ''}`;
  told.cannot(option, `${request} lies outside the folder in which the program is started: start it higher up`);
  return undefined;
}

function refusal(request) {
  if (request.includes('!')) return 'loaders are not run, so compile it first';
  if (request.includes('?')) return 'a query is not read, so take it out';
  if (/^[a-z]{2,}:/.test(request)) return 'only files are read';
  return undefined;
}
