// The tokens of a module's text, with comments, which a build has read already: so each is well formed. A token is
// `{ kind, start, end, text }`, of the kinds `word`, `text`, `template`, `number`, `regex`, `sign` and `comment`. A template is one
// token with all that is in it; what stands in its `${..}` is told as tokens behind it.
const SHAPES = [
  ['comment', /\/\/[^\n\r\u2028\u2029]*|\/\*[^]*?\*\/|#![^\n]*/y],
  ['word', /#?[\p{ID_Start}$_\\][\p{ID_Continue}$\u200c\u200d\\]*/uy],
  ['number', /\.?\d(?:[\w.]|(?<=e)[+-])*/iy],
  ['text', /"(?:\\[^]|[^"\\])*"|'(?:\\[^]|[^'\\])*'/y],
  ['sign', /\.\.\.|=>|\?\.(?!\d)|[{}()[\];,<>+\-*/%&|^!~?:=.@#]/y],
];
const SPACE = /\s+/y;
const REGEX = /\/(?:\\.|\[(?:\\.|[^\]\\])*\]|[^/[\\])+\/[\w$]*/y;
// Words behind which a value begins.
const BEFORE_VALUE = new Set(['await', 'case', 'default', 'delete', 'do', 'else', 'in', 'instanceof', 'new', 'of', 'return', 'throw', 'typeof', 'void',
  'yield']);
const BEFORE_HEAD = new Set(['if', 'while', 'for', 'with']);

export function tokensOf(text) {
  return new Reader(text).all();
}

class Reader {
  constructor(text, at = 0, tokens = []) {
    this.text = text;
    this.at = at;
    this.tokens = tokens;
    this.open = [];
    this.last = null;
  }

  all() {
    while (this.skipSpace() < this.text.length) this.read();
    return this.tokens;
  }

  // What stands in a template's `${..}`, up to the bracket that ends it.
  readHole() {
    while (this.skipSpace() < this.text.length && !(this.text[this.at] === '}' && this.open.length === 0)) this.read();
    return this.at + 1;
  }

  skipSpace() {
    SPACE.lastIndex = this.at;
    if (SPACE.test(this.text)) this.at = SPACE.lastIndex;
    return this.at;
  }

  read() {
    const sign = this.text[this.at];
    if (sign === '`') return this.readTemplate();
    if (sign === '/' && !'/*'.includes(this.text[this.at + 1]) && this.beginsValue() && this.match('regex', REGEX)) return null;
    for (const [kind, shape] of SHAPES) {
      if (this.match(kind, shape)) return null;
    }
    // What isn't known here is passed over.
    this.at++;
    return null;
  }

  match(kind, shape) {
    shape.lastIndex = this.at;
    if (!shape.test(this.text)) return false;
    this.push(kind, shape.lastIndex);
    return true;
  }

  push(kind, end) {
    const token = { kind, start: this.at, end, text: this.text.slice(this.at, end) };
    this.tokens.push(token);
    this.at = end;
    if (kind === 'comment') return;
    this.pair(token);
    this.last = token;
  }

  readTemplate() {
    const { text } = this;
    const token = { kind: 'template', start: this.at };
    this.tokens.push(token);
    let at = this.at + 1;
    while (at < text.length && text[at] !== '`') {
      if (text[at] === '\\') at += 2;
      else if (text.startsWith('${', at)) at = new Reader(text, at + 2, this.tokens).readHole();
      else at++;
    }
    this.at = Math.min(at + 1, text.length);
    this.last = Object.assign(token, { end: this.at, text: text.slice(token.start, this.at) });
  }

  // Whether a head's bracket or a block ends decides what a `/` behind it is.
  pair(token) {
    if (token.kind !== 'sign') return;
    if ('([{'.includes(token.text)) this.open.push({ isHead: BEFORE_HEAD.has(this.last?.text), isBlock: this.beginsBlock() });
    else if (')]}'.includes(token.text)) token.opened = this.open.pop();
  }

  beginsBlock() {
    const { last } = this;
    return !last || last.text === ')' || last.text === '=>' || [';', '{', '}'].includes(last.text) || ['else', 'do', 'try', 'finally'].includes(last.text);
  }

  beginsValue() {
    const { last } = this;
    if (!last) return true;
    if (last.kind === 'word') return BEFORE_VALUE.has(last.text);
    if (last.kind !== 'sign') return false;
    if (last.text === ')') return last.opened?.isHead ?? false;
    if (last.text === '}') return last.opened?.isBlock ?? true;
    return last.text !== ']';
  }
}
