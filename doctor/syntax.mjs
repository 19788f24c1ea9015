// What the tokens of a module tell of its brackets, functions and names. No tree is made: a name counts as declared where a declaration,
// a list of parameters or an import has it, anywhere in the module.
import { tokensOf } from './tokens.mjs';

const CONTROL = new Set(['if', 'while', 'for', 'with', 'switch', 'await']);
const DECLARES = new Set(['var', 'let', 'const', 'function', 'class', 'import', 'as']);
const BEFORE_PARAMETER = new Set(['(', ',', '{', '[', '...', ':']);
const ENDS = { '(': ')', '[': ']', '{': '}' };

export class Syntax {
  constructor(text) {
    const all = tokensOf(text);
    this.comments = all.filter((token) => token.kind === 'comment');
    this.tokens = all.filter((token) => token.kind !== 'comment');
    this.findPairs();
    this.functions = this.findFunctions();
    this.tries = this.ranges((at) => this.is(at, '{') && this.is(at - 1, 'try'));
  }

  // For each bracket its partner, and for each token the bracket that it stands in.
  findPairs() {
    const open = [];
    this.partner = new Map();
    this.within = new Int32Array(this.tokens.length).fill(-1);
    for (const [at, token] of this.tokens.entries()) {
      if (token.kind === 'sign' && ')]}'.includes(token.text) && open.length > 0) this.join(open.pop(), at);
      this.within[at] = open[open.length - 1] ?? -1;
      if (token.kind === 'sign' && token.text in ENDS) open.push(at);
    }
  }

  join(from, to) {
    this.partner.set(from, to);
    this.partner.set(to, from);
  }

  is(at, text) {
    const token = this.tokens[at];
    return token !== undefined && token.text === text && token.kind !== 'text';
  }

  ranges(begins) {
    return [...this.tokens.keys()].filter(begins).map((from) => [from, this.partner.get(from) ?? this.tokens.length]);
  }

  // Each list of parameters in brackets with its body, and each single parameter of an arrow.
  findFunctions() {
    const functions = [];
    for (const [from, to] of this.partner) {
      if (to < from || !this.is(from, '(')) continue;
      const isBody = this.is(to + 1, '{') && !CONTROL.has(this.tokens[from - 1]?.text);
      if (isBody || this.is(to + 1, '=>')) functions.push({ from, to, body: this.bodyAt(this.is(to + 1, '=>') ? to + 2 : to + 1) });
    }
    for (const [at] of this.tokens.entries()) {
      if (this.is(at + 1, '=>') && this.tokens[at].kind === 'word') functions.push({ from: at - 1, to: at + 1, single: at, body: this.bodyAt(at + 2) });
    }
    return functions;
  }

  // A body in brackets, or an expression up to where what is around it goes on.
  bodyAt(from) {
    if (this.is(from, '{')) return [from, this.partner.get(from) ?? this.tokens.length];
    let at = from;
    while (at < this.tokens.length && !(this.tokens[at].kind === 'sign' && ',;)]}'.includes(this.tokens[at].text))) {
      at = (this.partner.get(at) ?? at) + 1;
    }
    return [from, at];
  }

  // The places of a word that names a value, and no member or key.
  uses(name) {
    return [...this.tokens.keys()].filter((at) => this.tokens[at].kind === 'word' && this.tokens[at].text === name && this.isValue(at));
  }

  isValue(at) {
    if (this.is(at - 1, '.') || this.is(at - 1, '?.') || this.is(at - 1, 'as')) return false;
    return !(this.is(at + 1, ':') && (this.is(at - 1, '{') || this.is(at - 1, ',')));
  }

  isAsked(name) {
    return this.uses(name).some((at) => this.isTypeof(at));
  }

  isTypeof(at) {
    return this.is(at - 1, 'typeof') || (this.is(at - 1, '(') && this.is(at - 2, 'typeof'));
  }

  isAssigned(at) {
    const isPlain = this.is(at, '=') && !this.is(at + 1, '=');
    return isPlain || (['|', '?'].some((sign) => this.is(at, sign) && this.is(at + 1, sign)) && this.is(at + 2, '='));
  }

  declares(name) {
    return this.tokens.some((token, at) => token.kind === 'word' && token.text === name && (this.isDeclared(at) || this.functionWith(at) !== undefined));
  }

  isDeclared(at) {
    if (this.is(at - 1, '.') || this.is(at - 1, '?.')) return false;
    if (DECLARES.has(this.tokens[at - 1]?.text) || this.isAssigned(at + 1)) return true;
    const outer = this.outermost(at);
    return this.isPattern(outer) || (this.is(at - 1, ',') && this.isInList(at));
  }

  // The first bracket of those around a name that a declaration or an import stands before.
  outermost(at) {
    let bracket = this.within[at];
    while (bracket >= 0 && !this.isPattern(bracket) && (this.is(bracket, '{') || this.is(bracket, '['))) bracket = this.within[bracket];
    return bracket;
  }

  isPattern(bracket) {
    if (bracket < 0 || this.is(bracket, '(')) return false;
    return ['var', 'let', 'const', 'import'].includes(this.tokens[bracket - 1]?.text) || (this.is(bracket - 1, ',') && this.is(bracket - 3, 'import'));
  }

  // Whether the names before this one in a list begin with a declaration.
  isInList(at) {
    for (let before = at - 1; before >= 0; before--) {
      const { kind, text } = this.tokens[before];
      if (['var', 'let', 'const'].includes(text) && kind === 'word') return true;
      if (kind === 'sign' && ')]}'.includes(text)) before = this.partner.get(before) ?? before;
      else if (kind === 'sign' && ';([{'.includes(text)) return false;
    }
    return false;
  }

  // The function that has the token as a parameter.
  functionWith(at) {
    if (this.is(at - 1, '.') || this.is(at - 1, '?.')) return undefined;
    return this.functions.find(({ from, to, single }) => (single === undefined
      ? from < at && at < to && BEFORE_PARAMETER.has(this.tokens[at - 1].text) : single === at));
  }

  // The functions with a parameter of this name.
  functionsWith(name) {
    const places = [...this.tokens.keys()].filter((at) => this.tokens[at].kind === 'word' && this.tokens[at].text === name);
    return places.map((parameter) => ({ parameter, ...this.functionWith(parameter) })).filter(({ body }) => body !== undefined);
  }

  // The innermost body that a token lies in, as a range.
  bodyOf(at) {
    const bodies = this.functions.map(({ body }) => body).filter(([from, to]) => from <= at && at <= to);
    return bodies.reduce((least, body) => (body[1] - body[0] < least[1] - least[0] ? body : least), [0, this.tokens.length]);
  }

  isTried(at) {
    return this.tries.some(([from, to]) => from < at && at < to);
  }

  // The first token at or behind a place in the text.
  tokenAt(place) {
    return this.tokens.findIndex((token) => token.start >= place);
  }
}
