// A scanner of our own over the tokens of acorn, which Node carries: for each file of a list it prints one line with all
// that the forms of its text give. It shares no code with es_scan and matches forms by hand, where es_scan has a table.
'use strict';
const fs = require('fs');

const KEYWORDS = new Set(('await break case catch class const continue debugger default delete do else enum export extends false ' +
  'finally for function if import in instanceof new null return super switch this throw true try typeof var void while with yield').split(' '));

// ---- tokens, from acorn's, with our classes and byte offsets

function acornTokens(acorn, text) {
  for (const sourceType of ['module', 'script']) {
    const tokens = [];
    try {
      acorn.parse(text, {
        ecmaVersion: 'latest', sourceType, allowHashBang: true, allowReturnOutsideFunction: true, allowAwaitOutsideFunction: true,
        allowImportExportEverywhere: true, allowSuperOutsideMethod: true, checkPrivateFields: false, onToken: (t) => tokens.push(t),
      });
      return tokens.filter((t) => t.type.label !== 'eof');
    } catch (error) { /* the other goal, or none */ }
  }
  return null;
}

function ourTokens(text, raw) {
  const out = [];
  for (let i = 0; i < raw.length; i++) {
    const t = raw[i];
    const label = t.type.label;
    let end = t.end;
    let cls = 'Punct';
    if (label === '`' || (label === '}' && i + 1 < raw.length && raw[i + 1].type.label === 'template')) {
      const last = raw[i + 2];
      end = last.end;
      const opens = label === '`';
      const closes = last.type.label === '`';
      cls = opens ? (closes ? 'Template' : 'Head') : (closes ? 'Tail' : 'Middle');
      i += 2;
    } else if (label === 'name' || t.type.keyword) {
      cls = KEYWORDS.has(text.slice(t.start, t.end)) ? 'Keyword' : (t.type.keyword && /^\W/.test(text[t.start]) ? 'Punct' : 'Name');
    } else if (label === 'privateId') cls = 'PrivateName';
    else if (label === 'num') cls = 'Number';
    else if (label === 'string') cls = 'Str';
    else if (label === 'regexp') cls = 'Regex';
    out.push({ cls, start: t.start, end, text: text.slice(t.start, end) });
  }
  return out;
}

function finish(text, tokens) {
  const open = [];
  let behind = 0;
  tokens.forEach((t, i) => {
    t.newLine = /[\n\r\u2028\u2029]/.test(text.slice(behind, t.start));
    behind = t.end;
    t.depth = open.length;
    t.mate = i;
    if (t.cls === 'Head' || (t.cls === 'Punct' && '([{'.includes(t.text))) open.push(i);
    else if (t.cls === 'Tail' || (t.cls === 'Punct' && ')]}'.includes(t.text))) {
      const from = open.pop();
      if (from === undefined) throw new Error('brackets');
      t.mate = from; tokens[from].mate = i;
    }
  });
  return tokens;
}

// ---- forms

function scan(text, tokens) {
  const byte = offsets(text);
  const at = (i) => tokens[i] || { cls: 'None', text: '', depth: 1, start: 0, end: 0, mate: 0, newLine: false };
  const punct = (i, s) => at(i).cls === 'Punct' && at(i).text === s;
  const word = (i, s) => (at(i).cls === 'Name' || at(i).cls === 'Keyword') && at(i).text === s;
  const name = (i) => at(i).cls === 'Name' && !at(i).text.includes('\\');
  const idName = (i) => at(i).cls === 'Keyword' || name(i);
  const str = (i) => at(i).cls === 'Str' && !at(i).text.includes('\\');
  const inner = (i) => at(i).text.slice(1, -1);
  const out = { items: [], binds: [], exports: [], stars: [], edits: [], notes: [], faults: [], es: false };
  const hash = /^#![^\n\r\u2028\u2029]*/.exec(text);
  if (hash) out.edits.push({ from: 0, to: hash[0].length, put: '' });

  // `{ a, b as c }`: [names, the token behind], or null
  function named(i, leftOk, rightOk) {
    if (!punct(i, '{')) return null;
    const names = [];
    let k = i + 1;
    while (!punct(k, '}')) {
      if (word(k + 1, 'as')) {
        if (!leftOk(k) || !rightOk(k + 2)) return null;
        names.push([at(k).text, at(k + 2).text]);
        k += 3;
      } else {
        if (!leftOk(k) || !rightOk(k)) return null;
        names.push([at(k).text, at(k).text]);
        k += 1;
      }
      if (punct(k, ',')) k += 1; else if (!punct(k, '}')) return null;
    }
    return [names, k + 1];
  }
  function attributes(i) {
    if (!word(i, 'with') || !punct(i + 1, '{')) return i;
    const mate = at(i + 1).mate;
    for (let k = i + 2; k < mate; k++) if (at(k).cls === 'Head' || at(k).cls === 'Tail' || (at(k).cls === 'Punct' && '()[]{}'.includes(at(k).text))) return i;
    return mate + 1;
  }
  function from(i) { return word(i, 'from') && str(i + 1) ? { request: i + 1, end: attributes(i + 2) } : null; }

  function importAt(i) {
    const best = [];
    if (str(i + 1)) best.push({ request: i + 1, end: attributes(i + 2), binds: [] });
    const tails = [];                                        // [token of `from`, binds]
    if (name(i + 1)) {
      const first = [[at(i + 1).text, 'default']];
      tails.push([i + 2, first]);
      if (punct(i + 2, ',')) {
        if (punct(i + 3, '*') && word(i + 4, 'as') && name(i + 5)) tails.push([i + 6, [...first, [at(i + 5).text, null]]]);
        const more = named(i + 3, idName, name);
        if (more) tails.push([more[1], [...first, ...more[0].map(([l, r]) => [r, l])]]);
      }
    }
    if (punct(i + 1, '*') && word(i + 2, 'as') && name(i + 3)) tails.push([i + 4, [[at(i + 3).text, null]]]);
    const only = named(i + 1, idName, name);
    if (only) tails.push([only[1], only[0].map(([l, r]) => [r, l])]);
    for (const [k, binds] of tails) { const f = from(k); if (f) best.push({ ...f, binds }); }
    best.sort((a, b) => b.end - a.end);
    return best[0] || null;
  }
  const BEFORE = new Set([')', ']', '}', '++', '--']);
  const VALUES = new Set(['this', 'super', 'null', 'true', 'false']);
  function lineEnd(i) {
    const t = at(i), b = at(i - 1);
    const begins = ['Name', 'Number', 'Str', 'PrivateName'].includes(t.cls) || (t.cls === 'Keyword' && t.text !== 'in' && t.text !== 'instanceof') ||
      (t.cls === 'Punct' && ['{', '++', '--'].includes(t.text));
    const ends = ['Name', 'Number', 'Str', 'Regex', 'Template', 'Tail'].includes(b.cls) || (b.cls === 'Punct' && BEFORE.has(b.text)) ||
      (b.cls === 'Keyword' && VALUES.has(b.text));
    return t.newLine && begins && ends;
  }
  function variables(i) {
    const names = [];
    let k = i, wanted = true;
    for (; k < tokens.length; k++) {
      if (wanted) {
        if (k !== i && at(k).depth === 0 && punct(k, ';')) return null;
        if (!name(k)) return null;
        names.push(at(k).text); wanted = false; continue;
      }
      if (at(k).depth !== 0) continue;
      if (punct(k, ';') || lineEnd(k)) break;
      if (punct(k, ',')) wanted = true;
    }
    return wanted ? null : [names, k];
  }
  function exportAt(i) {
    const all = [];
    if (punct(i + 1, '*')) {
      const plain = from(i + 2);
      if (plain) all.push({ ...plain, kind: 'star' });
      if (word(i + 2, 'as') && idName(i + 3)) { const f = from(i + 4); if (f) all.push({ ...f, kind: 'space', name: at(i + 3).text }); }
    }
    const any = named(i + 1, idName, idName);
    if (any) { const f = from(any[1]); if (f) all.push({ ...f, kind: 'names from', names: any[0] }); }
    const own = named(i + 1, name, idName);
    if (own) all.push({ end: own[1], kind: 'names', names: own[0] });
    if (word(i + 1, 'default')) all.push({ end: i + 2, kind: 'default' });
    if (word(i + 1, 'var') || word(i + 1, 'let') || word(i + 1, 'const')) {
      const v = variables(i + 2);
      if (v) all.push({ end: v[1], kind: 'own', names: v[0] });
    }
    let k = i + 1;
    if (at(k).cls === 'Name' && at(k).text === 'async' && word(k + 1, 'function')) k += 1;
    if (word(k, 'function')) { const n = punct(k + 1, '*') ? k + 2 : k + 1; if (name(n)) all.push({ end: n + 1, kind: 'own', names: [at(n).text] }); }
    if (word(i + 1, 'class') && name(i + 2)) all.push({ end: i + 3, kind: 'own', names: [at(i + 2).text] });
    all.sort((a, b) => b.end - a.end);
    return all[0] || null;
  }

  function magicAt(i) {                                       // i is the `(`
    const said = { name: null, eager: false, ignored: false, notes: [] };
    const base = at(i).end;
    const gap = text.slice(base, at(i + 1).start);
    const comment = /\/\*([^]*?)\*\/|\/\/[^\n\r\u2028\u2029]*/g;
    for (let m; (m = comment.exec(gap));) {
      if (m[1] === undefined) continue;
      const S = '[\\t\\v\\f \\u00a0\\u1680\\u2000-\\u200a\\u202f\\u205f\\u3000\\ufeff\\n\\r\\u2028\\u2029]*';
      const content = m[1].replace(new RegExp('^' + S), '').replace(new RegExp(S + '$'), '');
      if (!content.startsWith('webpack')) continue;
      const note = (kind, detail) => said.notes.push([byte(base + m.index), kind, detail]);
      const pair = `${S}([A-Za-z]+)${S}:${S}("[^"\\\\\\n\\r]*"|'[^'\\\\\\n\\r]*'|true|false|[0-9]+)${S}`;
      if (!new RegExp(`^${pair}(?:,${pair})*$`).test(content)) { note('N4', ''); continue; }
      for (const [, key, value] of content.matchAll(new RegExp(`(?:^|,)${pair}`, 'gy'))) {
        const quoted = /^["']/.test(value) ? value.slice(1, -1) : null;
        if (key === 'webpackChunkName') {
          if (quoted === null) note('N4', '');
          else if (quoted === '') said.name = null;
          else if (isNormal(quoted)) said.name = quoted;
          else { said.name = null; note('N4', ''); }
        } else if (key === 'webpackMode') {
          if (quoted === 'lazy') said.eager = false; else if (quoted === 'eager') said.eager = true; else note('N4', '');
        } else if (key === 'webpackIgnore') {
          if (value === 'true') said.ignored = true; else if (value === 'false') said.ignored = false; else note('N4', '');
        } else note('N3', key);
      }
    }
    return said;
  }

  const place = (i) => byte(at(i).start);
  const item = (kind, i, request, end, chunk) => {
    out.items.push({ kind, from: place(i), to: byte(at(end - 1).end), at: place(request), request: inner(request), chunk });
    return out.items.length - 1;
  };
  const edit = (from, to, put) => out.edits.push({ from: byte(from), to: byte(to), put });
  const fault = (i, kind, detail = '') => out.faults.push([place(i), kind, detail]);
  const exported = new Set(), bound = new Set();

  tokens.forEach((t, i) => {
    if (i > 0 && at(i - 1).cls === 'Punct' && (at(i - 1).text === '.' || at(i - 1).text === '?.')) return;
    const outside = t.depth === 0;
    const gives = [], declares = [];
    if (t.cls === 'Keyword' && t.text === 'import') {
      const form = outside ? importAt(i) : null;
      if (form) {
        out.es = true;
        const n = item('Import', i, form.request, form.end, null);
        for (const [local, of] of form.binds) { declares.push(local); out.binds.push([local, n, of]); }
        edit(t.start, at(form.end - 1).end, ';');
      } else if (punct(i + 1, '(')) {
        const said = magicAt(i + 1);
        out.notes.push(...said.notes);
        const end = str(i + 2) ? (punct(i + 3, ')') ? i + 4 : (punct(i + 3, ',') && punct(i + 4, ')') ? i + 5 : 0)) : 0;
        if (end && !said.ignored) {
          const n = item(said.eager ? 'Eager' : 'Lazy', i, i + 2, end, said.eager ? null : said.name);
          edit(t.start, at(end - 1).end, n);
        } else if (!end && !said.ignored && !punct(at(i + 1).mate + 1, '{')) fault(i, 'B8');
      } else if (outside || punct(i + 1, '.')) fault(i, 'B7');
    } else if (t.cls === 'Keyword' && t.text === 'export') {
      const form = outside ? exportAt(i) : null;
      if (!form) { if (outside) fault(i, 'B7'); return; }
      out.es = true;
      const n = form.request === undefined ? null : item('ExportFrom', i, form.request, form.end, null);
      const give = (name, from) => { gives.push(name); out.exports.push([name, from]); };
      if (form.kind === 'star') out.stars.push(n);
      if (form.kind === 'space') give(form.name, [n, null]);
      if (form.kind === 'names from') for (const [l, r] of form.names) give(r, [n, l]);
      if (form.kind === 'names') for (const [l, r] of form.names) give(r, l);
      if (form.kind === 'own') for (const l of form.names) give(l, l);
      if (n !== null || form.kind === 'names') edit(t.start, at(form.end - 1).end, ';');
      else if (form.kind === 'own') edit(t.start, t.end, '');
      else {
        let k = i + 2;
        if (at(k).cls === 'Name' && at(k).text === 'async' && word(k + 1, 'function') && !at(k + 1).newLine) k += 1;
        if (word(k, 'function') || (k === i + 2 && word(k, 'class'))) {
          if (word(k, 'function') && punct(k + 1, '*')) k += 1;
          edit(t.start, at(i + 1).end, '');
          if (name(k + 1)) give('default', at(k + 1).text);
          else { give('default', '__cp_default'); edit(at(k).end, at(k).end, ' __cp_default'); }
        } else { edit(t.start, at(i + 1).end, 'const __cp_default='); give('default', '__cp_default'); }
      }
    } else if (t.cls === 'Name' && t.text === 'require' && punct(i + 1, '(')) {
      if (str(i + 2) && punct(i + 3, ')')) edit(t.start, at(i + 3).end, item('Require', i, i + 2, i + 4, null));
      else if (!word(i - 1, 'function')) out.notes.push([place(i), 'N2', '']);
    }
    for (const n of gives) { if (exported.has(n)) fault(i, 'B16', n); exported.add(n); }
    for (const n of declares) { if (bound.has(n)) fault(i, 'B16', n); bound.add(n); }
  });
  return out;
}

function isNormal(path) {
  return path.split('/').every((s) => s !== '' && s !== '.' && s !== '..') && !/[\u0000-\u001f\u007f]/.test(path);
}

function offsets(text) {
  if (/^[\u0000-\u007f]*$/.test(text)) return (i) => i;
  const table = new Uint32Array(text.length + 1);
  let n = 0;
  for (let i = 0; i < text.length; i++) {
    table[i] = n;
    const c = text.charCodeAt(i);
    if (c < 0x80) n += 1; else if (c < 0x800) n += 2; else if (c >= 0xd800 && c < 0xdc00) { n += 4; table[++i] = n; } else n += 3;
  }
  table[text.length] = n;
  return (i) => table[i];
}

// ---- one line

function placed(bytes, offset) {
  let line = 1, from = 0;
  for (let i = 0; i < offset; i++) if (bytes[i] === 10) { line += 1; from = i + 1; }
  return `${line}:${offset - from + 1}`;
}

function shown(out, bytes) {
  const parts = [];
  const behind = (text) => (text === '' ? '' : ' ' + text);
  for (const i of out.items) parts.push(`${i.kind} ${i.from}..${i.to} at ${i.at}${behind(i.request)}${i.chunk === null ? '' : ' as ' + i.chunk}`);
  for (const [local, n, of] of out.binds) parts.push(`bind ${local}=${n}:${of === null ? '*' : of}`);
  for (const [name, from] of out.exports) parts.push(`export ${name}=${Array.isArray(from) ? from[0] + ':' + (from[1] === null ? '*' : from[1]) : from}`);
  for (const n of out.stars) parts.push(`star ${n}`);
  for (const e of out.edits) parts.push(`edit ${e.from}..${e.to}${behind(typeof e.put === 'number' ? '{' + e.put + '}' : e.put)}`);
  for (const [at, kind, detail] of out.notes) parts.push(`note ${at} ${kind}${behind(detail)}`);
  for (const [at, kind, detail] of out.faults) parts.push(`fault ${placed(bytes, at)} ${kind}${behind(detail)}`);
  if (out.es) parts.push('es');
  return parts.join('; ');
}

function escaped(text) {
  let out = '';
  for (const b of Buffer.from(text, 'utf8')) out += b === 92 ? '\\\\' : (b < 32 || b > 126 ? '\\x' + b.toString(16).toUpperCase().padStart(2, '0') : String.fromCharCode(b));
  return out;
}

module.exports = { scan, finish, ourTokens, acornTokens, shown, escaped, KEYWORDS };

// `node --expose-internals peer.js FILES TEXTS`: prints a line for each file, and writes its text as a line for the program
if (require.main === module) {
  const acorn = require('internal/deps/acorn/acorn/dist/acorn');
  const texts = fs.openSync(process.argv[3], 'w');
  let bytes = 0, time = 0n;
  for (const file of fs.readFileSync(process.argv[2], 'utf8').split('\n').filter(Boolean)) {
    const data = fs.readFileSync(file);
    const text = data.toString('utf8');
    const whole = data.length <= 4194304 && Buffer.from(text, 'utf8').equals(data) && !text.startsWith('\ufeff');
    const raw = whole ? acornTokens(acorn, text) : null;
    console.log(raw ? escaped(shown(scan(text, finish(text, ourTokens(text, raw))), data)) : 'passed over');
    fs.writeSync(texts, 'all\t' + (raw ? escaped(text) : '') + '\n');
    if (!raw) continue;
    let best = null;
    for (let pass = 0; pass < 5; pass++) {
      const start = process.hrtime.bigint();
      try { for (const token of acorn.tokenizer(text, { ecmaVersion: 'latest', sourceType: 'module', allowHashBang: true })) void token; } catch (error) { break; }
      const took = process.hrtime.bigint() - start;
      if (best === null || took < best) best = took;
    }
    if (best !== null) { bytes += data.length; time += best; }
  }
  console.error(`acorn's tokenizer: ${(bytes / (Number(time) / 1e9) / 1e6).toFixed(1)} MB/s over ${bytes} bytes`);
}
