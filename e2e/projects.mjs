// The projects that are built and run: one of the repository's examples, and some that are written here.
import path from 'node:path';
import { copyOf, projectOf, repository } from './command.mjs';

function statements(...requests) {
  return requests.map((request) => `import "${request}";\n`).join('');
}

function first() {
  return copyOf(path.join(repository, 'examples', 'first'));
}

// Cycles of one module, of two, and through the entry.
function cycles() {
  return projectOf({
    'c.json': '{"entry":"./src/index.js"}',
    'src/index.js': statements('./one.js', './self.js'),
    'src/one.js': statements('./two.js'),
    'src/two.js': statements('./one.js', './index.js', './leaf.js'),
    'src/self.js': statements('./self.js', './leaf.js'),
    'src/leaf.js': '',
  });
}

// Folders, spellings of one path, a module that is imported twice, no ends of lines, and files that nothing imports.
function spellings() {
  return projectOf({
    'c.json': '{"entry":"./web/App.main.js"}',
    'web/App.main.js': 'import "./.././lib//B_1.js";import "../lib/a-2.js";\nimport "../lib/../lib/B_1.js";',
    'lib/B_1.js': statements('./_.js', '../top.js'),
    'lib/a-2.js': statements('../lib/deep/0/x.js'),
    'lib/_.js': '',
    'lib/deep/0/x.js': statements('../../../top.js'),
    'top.js': '',
    'lib/unused.js': 'let unread = 1;\n',
    'notes.txt': 'no module\n',
  });
}

// A chain of modules that ends in one of no bytes.
function chain(length) {
  const files = { 'c.json': '{"entry":"./src/0.js"}' };
  for (let at = 0; at < length - 1; at++) files[`src/${at}.js`] = statements(`./${at + 1}.js`);
  return projectOf({ ...files, [`src/${length - 1}.js`]: '' });
}

export const projects = [
  { name: 'examples/first', make: first },
  { name: 'cycles', make: cycles },
  { name: 'spellings of paths', make: spellings },
  { name: 'a chain of 200', make: () => chain(200) },
];
