// The notes of a build, in words.
import { element } from './elements.mjs';
import { Rows } from './rows.mjs';

const WORDS = {
  N1: (detail) => `require("${detail}") names no file and stays as it is written`,
  N2: () => 'require without one text stays as it is written',
  N3: (detail) => `the magic comment’s key “${detail}” is not known`,
  N4: () => 'the magic comment can’t be read',
};

export class NotesPanel {
  constructor(page) {
    this.page = page;
    this.list = new Rows('Notes');
    this.element = element('div', { className: 'alone' }, this.list.element);
    this.find();
  }

  find() {
    const { notes, byPath } = this.page.build;
    const shown = notes.filter((note) => note.path.toLowerCase().includes(this.page.query));
    this.list.show(shown.map((note) => {
      const module = byPath.get(note.path);
      const choose = module && (() => this.page.choose({ module }));
      return { key: `${note.path} ${note.at}`, name: `${note.path}, byte ${note.at}`, note: textOf(note), choose };
    }));
  }
}

function textOf({ kind, detail }) {
  return WORDS[kind] ? `${kind}: ${WORDS[kind](detail)}` : `${kind} ${detail}`;
}
