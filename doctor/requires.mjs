// Calls of `require`: those that a build takes for its own though a parameter has the name, and those that it leaves as they are.
import { isBuiltin } from 'node:module';

const TAKE_OUT = 'take it out';

export class Requires {
  constructor({ syntax, notes }) {
    this.syntax = syntax;
    this.notes = notes;
    this.uses = syntax.uses('require');
    this.owners = syntax.functionsWith('require');
    this.hasOwn = this.uses.some((at) => syntax.isDeclared(at));
    this.noted = new Set(notes.map((note) => note.place));
  }

  ownerOf(at) {
    return this.owners.find(({ body }) => body[0] <= at && at <= body[1]);
  }

  // Whether the build has put a module in the place of this call.
  isTaken(at) {
    const { tokens } = this.syntax;
    const isTextCall = this.syntax.is(at + 1, '(') && tokens[at + 2]?.kind === 'text' && this.syntax.is(at + 3, ')');
    return isTextCall && !this.noted.has(tokens[at].start) && !this.noted.has(tokens[at + 2].start);
  }

  findings() {
    return [...this.parameters(), ...this.asked(), ...this.members()];
  }

  // A page has no `define`, so what stands in its call isn't run where the module asks for it first.
  isForDefine({ from }) {
    const call = this.syntax.within[from];
    return this.syntax.isAsked('define') && call > 0 && this.syntax.is(call - 1, 'define');
  }

  parameters() {
    return this.owners.filter((owner) => !this.isForDefine(owner)).flatMap((owner) => {
      const taken = this.uses.filter((at) => this.ownerOf(at) === owner && this.isTaken(at));
      if (taken.length === 0) return [];
      const first = this.syntax.tokens[taken[0] + 2].text;
      return [{ at: this.syntax.tokens[owner.parameter].start,
        told: `require is a parameter here, and require(${first}) loads the module of the build all the same: give the parameter another name` }];
    });
  }

  asked() {
    const taken = this.uses.find((at) => !this.ownerOf(at) && this.isTaken(at));
    const asked = this.uses.find((at) => this.syntax.isTypeof(at) && !this.ownerOf(at));
    if (asked === undefined || taken === undefined) return [];
    return [{ at: this.syntax.tokens[asked].start,
      told: `typeof require is "undefined" in a page, so require(${this.syntax.tokens[taken + 2].text}) may not be reached: `
        + 'name the package\'s ES or CommonJS build by resolve.alias' }];
  }

  members() {
    const { syntax } = this;
    const shown = this.uses.filter((at) => syntax.is(at + 1, '.') && ['context', 'ensure', 'resolve'].includes(syntax.tokens[at + 2]?.text));
    return shown.filter((at) => !this.isElsewhere(at)).map((at) => ({ at: syntax.tokens[at].start,
      told: `require.${syntax.tokens[at + 2].text} isn't there in a page: write import() or require of each file, or ${TAKE_OUT}` }));
  }

  // Whether another `require` is meant, or none is reached.
  isElsewhere(at) {
    return this.hasOwn || this.ownerOf(at) !== undefined || this.isGuarded(at);
  }

  // `typeof require` before it in the same function is false in a page.
  isGuarded(at) {
    const [from] = this.syntax.bodyOf(at);
    return this.uses.some((asked) => from <= asked && asked < at && this.syntax.isTypeof(asked));
  }

  // What to do about a note of a `require`, or nothing where a page doesn't come to it.
  remedyOf({ kind, place, detail }) {
    const token = this.syntax.tokenAt(place);
    const call = kind === 'N1' ? token - 2 : token;
    if (this.isElsewhere(call)) return null;
    if (kind === 'N2') return this.argumentRemedy(call);
    if (this.syntax.isTried(call)) return null;
    const instead = isBuiltin(detail) ? 'put a package for pages in its place by resolve.alias' : 'install it, or mend the name';
    return `${instead}, or ${TAKE_OUT}`;
  }

  argumentRemedy(call) {
    const { syntax } = this;
    const given = syntax.tokens.slice(call + 2, syntax.partner.get(call + 1));
    const [first] = given;
    if (given.length === 1 && first.kind === 'template' && !first.text.includes('${')) return 'write the text in quotes';
    if (given.length === 1 && first.kind === 'text') return 'write the text without a backslash';
    if (first?.kind === 'text' && given[1]?.text === ',') return 'give it one text and nothing besides';
    const isSum = given.length > 1 && given.every(({ kind, text }, at) => (at % 2 === 0 ? kind === 'text' : text === '+'));
    if (isSum) return 'write the sum as one text';
    return 'write a table of the files that may be meant, as { a: () => require("./a.js") }';
  }
}
