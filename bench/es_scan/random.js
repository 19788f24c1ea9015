// Random texts of tokens that are known, as lines for the program of worked examples, and what our own scanner of peer.js
// gives for each. `node random.js COUNT SEED INPUT OUTPUT` writes both files.
'use strict';
const fs = require('fs');
const { scan, finish, shown, escaped, KEYWORDS } = require('./peer.js');

let state = Number(process.argv[3]) >>> 0;
const below = (n) => { state = (Math.imul(state, 1664525) + 1013904223) >>> 0; return Math.floor((state / 4294967296) * n); };
const pick = (list) => list[below(list.length)];

const STR = ['"x"', "'./y'", '""', '"a\\\\n"', '"é"'];
const NAMES = ['a', 'b', 'c', 'from', 'as', 'async', 'let', 'require', 'ü', 'of'];
const name = () => pick(NAMES);
const idName = () => pick([...NAMES, 'default', 'import', 'export', 'function', 'class']);
const specifier = (l, r) => (below(3) ? [pick([l, r])()] : [l(), 'as', r()]);
function named(l, r) {
  const out = ['{'];
  const count = below(4);
  for (let i = 0; i < count; i++) { if (i) out.push(','); out.push(...specifier(l, r)); }
  if (count && below(2)) out.push(',');
  return [...out, '}'];
}
const from = () => ['from', pick(STR), ...(below(5) ? [] : ['with', '{', 'type', ':', '"json"', '}'])];
const call = () => ['import', '(', MAGIC, pick(STR), ...(below(3) ? [] : [',']), ')'];
const MAGIC = null;
const value = () => pick([['1'], ['a'], ['(', 'a', ',', 'b', ')'], ['this'], ['`t`'], ['{', '}'], ['[', 'a', ']'], ['a', '++'], ['/r/'], ['a', '.', 'default'], ['"s"'], call()]);
function variables() {
  const out = [pick(['var', 'let', 'const'])];
  const count = 1 + below(3);
  for (let i = 0; i < count; i++) { if (i) out.push(','); out.push(name()); if (below(3)) out.push('=', ...value()); }
  return out;
}
const FORMS = [
  () => ['import', pick(STR), ...(below(4) ? [] : ['with', '{', 'a', ':', '"b"', '}'])],
  () => ['import', name(), ...from()],
  () => ['import', '*', 'as', name(), ...from()],
  () => ['import', ...named(idName, name), ...from()],
  () => ['import', name(), ',', '*', 'as', name(), ...from()],
  () => ['import', name(), ',', ...named(idName, name), ...from()],
  () => ['export', '*', ...from()],
  () => ['export', '*', 'as', idName(), ...from()],
  () => ['export', ...named(idName, idName), ...from()],
  () => ['export', ...named(name, idName)],
  () => ['export', 'default', ...pick([['function', name()], ['function', '(', ')'], ['async', 'function', '*', name()], ['async', 'function', '('  , ')'], ['class', '{', '}'], ['class', name()], value()])],
  () => ['export', ...variables()],
  () => ['export', ...pick([['function'], ['function', '*'], ['async', 'function'], ['async', 'function', '*'], ['class']]), name()],
  call,
  () => ['require', '(', pick(STR), ')'],
  () => [name(), pick(['.', '?.', ';', '=', '+']), ...call()],
  () => ['function', 'require', '(', ')'],
  () => [pick(['{', '(', '[']), ...call(), pick(['}', ')', ']'])],
  () => ['import', '.', 'meta'],
  () => ['import', '(', MAGIC, name(), ')', ...(below(2) ? ['{', '}'] : [])],
  () => ['`a${', ...call(), '}b`'],
  () => value(),
];
const ANY = [...STR, ...NAMES, 'import', 'export', 'default', 'function', 'class', 'in', 'instanceof', 'this', '*', ',', ';', '(', ')', '{', '}', '.', '?.', '=', '++', 'with', '1', 'var', '`t`', '#p', '\\\\u0061'];

const BLANKS = ['', ' ', '\n', '\u2028', ' // webpackX: 1\n', '/* c\n*/'];
const KEYS = ['webpackChunkName', 'webpackMode', 'webpackIgnore', 'webpackPrefetch', 'x', 'true'];
const VALUES = ['"n"', "'a/b'", '""', '"../n"', '"lazy"', '"eager"', "'weak'", 'true', 'false', '1', '1a', '"q\\\\n"', 'x', '/r/', '"http://a//b"'];
function magic() {
  const blank = () => pick(['', ' ', '\n', '\u00a0', '\ufeff', '\u2029']);
  const pair = () => blank() + (below(12) ? pick(KEYS) : pick(VALUES)) + blank() + (below(12) ? ':' : '') + blank() + pick(VALUES) + blank();
  const pairs = [];
  for (let i = 1 + below(3); i > 0; i--) pairs.push(pair());
  let content = pairs.join(below(15) ? ',' : ',,') + (below(15) ? '' : ',') + (below(20) ? '' : ' // c');
  if (!content.trimStart().startsWith('webpack') && below(4)) content = 'webpackMode: "eager",' + content;
  return below(8) ? `/*${content}*/` : `//${content.replace(/[\n\u2028\u2029]/g, '')}\n`;
}

function classOf(token) {
  if (/^["']/.test(token)) return 'Str';
  if (token === '`t`') return 'Template';
  if (token === '`a${') return 'Head';
  if (token === '}b`') return 'Tail';
  if (token === '/r/') return 'Regex';
  if (token.startsWith('#')) return 'PrivateName';
  if (/^[0-9]/.test(token)) return 'Number';
  if (KEYWORDS.has(token)) return 'Keyword';
  if (/^[A-Za-z\u00c0-\u00ff\\]/.test(token)) return 'Name';
  return 'Punct';
}

function one() {
  let list = [];
  for (let i = 1 + below(5); i > 0; i--) { list.push(...pick(FORMS)()); if (below(3)) list.push(';'); }
  for (let i = below(3); i > 0; i--) {
    const k = below(list.length + 1);
    const what = below(3);
    if (what === 0) list.splice(k, 1); else if (what === 1) list.splice(k, 0, pick(ANY)); else if (k < list.length) list[k] = pick(ANY);
  }
  let text = below(20) ? '' : '#!/a b\n';
  const tokens = [];
  let gap = 0;
  for (const token of list) {
    if (token === MAGIC) { for (let i = below(3); i > 0; i--) text += pick(BLANKS) + magic(); continue; }
    // `/` must begin a regular expression here, and two names must stand apart
    if (token === '/r/' && !(tokens.length && ['=', '(', ',', '{', ';', '['].includes(tokens[tokens.length - 1].text))) continue;
    text += below(3) ? ' ' : pick(BLANKS.slice(1));
    text += below(6) ? '' : pick(BLANKS);
    const start = text.length;
    const plain = token.replace(/\\\\/g, '\\');
    text += plain;
    tokens.push({ cls: classOf(plain), start, end: text.length, text: plain });
    gap = text.length;
  }
  text += pick(BLANKS);
  const open = [];
  for (const t of tokens) {
    if (t.cls === 'Head' || ['(', '[', '{'].includes(t.text)) open.push(t.cls === 'Head' ? '}b`' : { '(': ')', '[': ']', '{': '}' }[t.text]);
    else if (t.cls === 'Tail' || [')', ']', '}'].includes(t.text)) { if (open.pop() !== t.text) return null; }
    if (t.text.startsWith('\\')) t.cls = 'Name';
  }
  if (open.length) return null;
  return { text, tokens: finish(text, tokens) };
}

if (require.main === module) {
  const input = [], output = [];
  while (input.length < Number(process.argv[2])) {
    const made = one();
    if (!made) continue;
    input.push('all\t' + escaped(made.text));
    output.push(escaped(shown(scan(made.text, made.tokens), Buffer.from(made.text, 'utf8'))));
  }
  fs.writeFileSync(process.argv[4], input.join('\n') + '\n');
  fs.writeFileSync(process.argv[5], output.join('\n') + '\n');
}
