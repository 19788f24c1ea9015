// Tells of each change below a folder. Each folder has a watch of its own: on Linux the recursive watch of Node isn't there before
// version 19, and the later one passes over files of a folder that is new. The folder `dist` and those that begin with `.` are
// passed over, as are links, which aren't there for a build.
import fs from 'node:fs';
import path from 'node:path';

const OUTPUT = 'dist';
// Files that editors keep beside one that is open.
const EDITORS = /^\.(#.*|.*\.sw[a-p])$/;
// The system's queue of events has room for some 16,000; after so many at once it may have lost some.
const MANY_EVENTS = 4_000;

export class Folders {
  constructor(root, change) {
    this.root = root;
    this.change = change;
    this.watches = new Map();
    this.refused = [];
    this.events = 0;
    this.add('');
  }

  get count() {
    return this.watches.size;
  }

  // Watched before it is read, so that nothing comes between.
  add(folder) {
    if (!this.watch(folder)) return;
    for (const entry of this.entries(folder)) {
      const place = placeOf(folder, entry.name);
      if (entry.isDirectory() && !isAside(place, true)) this.add(place);
    }
  }

  watch(folder) {
    try {
      const watch = fs.watch(path.join(this.root, folder), (kind, name) => this.see(folder, kind, name));
      watch.on('error', () => this.drop(folder));
      this.watches.set(folder, watch);
      return true;
    } catch (error) {
      // A folder that is gone again is told of by the one above it.
      if (error.code !== 'ENOENT') this.refused.push({ folder, error });
      return false;
    }
  }

  entries(folder) {
    try {
      return fs.readdirSync(path.join(this.root, folder), { withFileTypes: true });
    } catch {
      return [];
    }
  }

  see(folder, kind, name) {
    this.events++;
    const place = name === null ? folder : placeOf(folder, name);
    const isFolder = this.isFolder(place);
    if (isAside(place, isFolder)) return;
    if (kind === 'rename' && name !== null) this.renew(place, isFolder);
    this.change();
  }

  // A name that came, went, or now names something else: an old watch would stay with the old folder.
  renew(place, isFolder) {
    this.drop(place);
    if (isFolder) this.add(place);
  }

  isFolder(place) {
    return fs.lstatSync(path.join(this.root, place), { throwIfNoEntry: false })?.isDirectory() ?? false;
  }

  drop(place) {
    if (!this.watches.has(place)) return;
    for (const [folder, watch] of this.watches) {
      if (folder !== place && !folder.startsWith(`${place}/`)) continue;
      watch.close();
      this.watches.delete(folder);
    }
  }

  // Before a build: where events may have been lost, all folders are looked at again.
  settle() {
    if (this.events > MANY_EVENTS) {
      this.close();
      this.add('');
    }
    this.events = 0;
  }

  close() {
    for (const watch of this.watches.values()) watch.close();
    this.watches.clear();
  }
}

function placeOf(folder, name) {
  return folder === '' ? name : `${folder}/${name}`;
}

function isAside(place, isFolder) {
  const name = path.basename(place);
  return place === OUTPUT || (isFolder && name.startsWith('.')) || EDITORS.test(name);
}
