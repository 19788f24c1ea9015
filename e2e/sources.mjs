// Reads a project's sources by itself, without the bundler: which modules the entry leads to, what each imports, and the
// order in which ECMA-262 evaluates them.
import fs from 'node:fs';
import path from 'node:path';

const STATEMENT = /import "([^"]*)";\n?/y;

function requestsOf(text) {
  const requests = [];
  STATEMENT.lastIndex = 0;
  while (STATEMENT.lastIndex < text.length) {
    const found = STATEMENT.exec(text);
    if (!found) throw new Error(`no import statement: ${JSON.stringify(text)}`);
    requests.push(found[1]);
  }
  return requests;
}

function readModule(folder, name) {
  const bytes = fs.readFileSync(path.join(folder, name));
  const targets = requestsOf(bytes.toString()).map((request) => path.posix.join(path.posix.dirname(name), request));
  return { name, size: bytes.length, targets };
}

// The modules by path, in the order in which they are found.
function readAll(folder, entry) {
  const modules = new Map([[entry, readModule(folder, entry)]]);
  for (const { targets } of modules.values()) {
    for (const name of targets) {
      if (!modules.has(name)) modules.set(name, readModule(folder, name));
    }
  }
  return modules;
}

// ECMA-262, InnerModuleEvaluation: the requested modules in their order, each once, and then the module itself; one that is
// already being evaluated isn't entered again. Kept on a list of its own, since a chain may be longer than the stack.
function evaluationOrder(modules, entry) {
  const entered = new Set([entry]);
  const order = [];
  const open = [{ name: entry, next: 0 }];
  while (open.length > 0) {
    const top = open[open.length - 1];
    const target = modules.get(top.name).targets[top.next++];
    if (target === undefined) {
      order.push(top.name);
      open.pop();
    } else if (!entered.has(target)) {
      entered.add(target);
      open.push({ name: target, next: 0 });
    }
  }
  return order;
}

function inByteOrder(names) {
  return [...names].sort((one, other) => Buffer.compare(Buffer.from(one), Buffer.from(other)));
}

// The project as numbers: a module's number is its place among the paths in byte order.
export function readProject(folder, config) {
  const { entry } = JSON.parse(fs.readFileSync(path.join(folder, config)));
  const root = path.posix.normalize(entry);
  const modules = readAll(folder, root);
  const names = inByteOrder(modules.keys());
  const number = new Map(names.map((name, at) => [name, at]));
  return {
    root: number.get(root),
    order: evaluationOrder(modules, root).map((name) => number.get(name)),
    modules: names.map((name, id) => {
      const { size, targets } = modules.get(name);
      return { id, path: name, size, sync: targets.map((target) => number.get(target)) };
    }),
  };
}
