// Starts the page: takes the stats that `bin/view` wrote beside it, or a file that is picked or dropped. A second file that is dropped is
// compared with the build that is shown.
import { invitation, Page } from './page.mjs';
import { readStats } from './reading.mjs';
import { Unreadable } from './unreadable.mjs';

const NO_STATS = 'The folder has no stats.json: a build that ends with faults writes none. Build first, or choose another file.';

const page = new Page(document.getElementById('page'), { pick: (file) => take(file, show), compare: (file) => take(file, compare) });

function show(stats, name) {
  page.showStats(stats);
  document.title = `${name} · Chunkpack build`;
}

function compare(stats, name) {
  page.compareWith(stats, name);
}

// Reads a text of stats for what is to be done with it.
function read(text, name, what) {
  try {
    what(readStats(text), name);
  } catch (error) {
    if (!(error instanceof Unreadable)) throw error;
    page.showProblem(`${name}: ${error.message}`);
  }
}

async function take(file, what) {
  try {
    read(await file.text(), file.name, what);
  } catch (error) {
    page.showProblem(`${file.name} can’t be read (${error.message}).`);
    throw error;
  }
}

function listenForFiles() {
  addEventListener('dragover', (event) => {
    event.preventDefault();
    document.body.classList.add('dragged');
  });
  addEventListener('dragleave', (event) => {
    if (event.relatedTarget === null) document.body.classList.remove('dragged');
  });
  addEventListener('drop', (event) => {
    event.preventDefault();
    document.body.classList.remove('dragged');
    const [file] = event.dataTransfer.files;
    if (file) take(file, page.build ? compare : show);
    else page.showProblem('What was dropped is no file: drop a stats.json.');
  });
}

// `stats.js` sets `chunkpackStats`: a text, or null where the folder had no stats; and `chunkpackOther` where it is compared.
function start() {
  listenForFiles();
  const { chunkpackStats: handed, chunkpackOther: other } = self;
  if (handed) read(handed.text, handed.name, show);
  else if (handed === null) page.showProblem(NO_STATS);
  else page.body.replaceChildren(invitation());
  if (other && page.build) read(other.text, other.name, compare);
}

start();
