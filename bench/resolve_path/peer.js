// Compares resolution with enhanced-resolve over the requests of real packages.
// usage: node peer.js make FOLDER, which writes stdin.txt for runs_modules, and node peer.js compare FOLDER ANSWERS
// Debian's enhanced-resolve asks for two variables of Debian's own Node.
Object.defineProperty(process, 'config', { value: { variables: { node_relative_path: 'none', node_prefix: '/none' } } });
const fs = require('fs'), path = require('path');
const er = require('/usr/share/nodejs/enhanced-resolve');
const [,, mode, root, answers] = process.argv;
const files = [];
(function walk(dir) {
  for (const entry of fs.readdirSync(path.join(root, dir), { withFileTypes: true })) {
    const name = dir ? dir + '/' + entry.name : entry.name;
    if (entry.isDirectory()) walk(name); else if (entry.isFile()) files.push(name);
  }
})('');
files.sort();
const wanted = [];
const FORM = /(?:\brequire\s*\(\s*|\bimport\s*\(\s*|\bfrom\s*|\bimport\s+)(["'])([^"'\\\n|]+)\1/g;
const seen = new Set();
for (const file of files) {
  if (!/\.[cm]?js$/.test(file)) continue;
  const text = fs.readFileSync(path.join(root, file), 'utf8');
  for (const match of text.matchAll(FORM)) {
    const kind = match[0].startsWith('require') ? 'Q' : 'I';
    const folder = path.posix.dirname(file) === '.' ? '' : path.posix.dirname(file);
    const key = kind + ' ' + folder + '|' + match[2];
    if (!seen.has(key)) { seen.add(key); wanted.push({ kind, folder, request: match[2], key }); }
  }
}
// each package by its name and each of its exports' keys, from the root, both ways
for (const file of files.filter((f) => /^node_modules\/(?:@[^/]+\/)?[^/]+\/package\.json$/.test(f))) {
  let manifest; try { manifest = JSON.parse(fs.readFileSync(path.join(root, file), 'utf8')); } catch { continue; }
  const name = file.slice('node_modules/'.length, -'/package.json'.length);
  const subs = ['', '/package.json', '/index', '/lib', '/index.js'];
  if (manifest.exports && typeof manifest.exports === 'object') for (const key of Object.keys(manifest.exports)) if (key.startsWith('.')) subs.push(key.slice(1));
  for (const sub of subs) for (const kind of ['I', 'Q']) wanted.push({ kind, folder: '', request: name + sub, key: kind + ' |' + name + sub });
}
if (mode === 'make') {
  const out = ['T'];
  for (const file of files) {
    let text = '';
    if (file.endsWith('package.json')) { try { text = JSON.stringify(JSON.parse(fs.readFileSync(path.join(root, file), 'utf8'))); } catch { text = 'x'; } }
    if (/[^\x20-\x7e]/.test(text)) text = text.replace(/[^\x20-\x7e]/g, '?');
    if (!/[^\x20-\x7e]/.test(file)) out.push(`F ${file}|${text.replaceAll('\\', '\\\\')}`);
  }
  for (const w of wanted) out.push(w.key);
  fs.writeFileSync('stdin.txt', out.join('\n') + '\n');
  console.error(files.length, 'files', wanted.length, 'requests');
} else {
  const given = fs.readFileSync(answers, 'utf8').split('\n');
  const make = (kind) => er.ResolverFactory.createResolver({ fileSystem: new er.CachedInputFileSystem(fs, 60000), useSyncFileSystemCalls: true, extensions: ['.js', '.json'], mainFields: ['browser', 'module', 'main'], mainFiles: ['index'], modules: ['node_modules'], conditionNames: ['webpack', 'browser', 'module', kind], symlinks: false, aliasFields: [], exportsFields: ['exports'], importsFields: [], preferRelative: false, roots: [] });
  const by = { I: make('import'), Q: make('require') };
  const abs = path.resolve(root);
  let same = 0; const differs = {};
  wanted.forEach((w, i) => {
    let told; try { told = by[w.kind].resolveSync({}, path.join(abs, w.folder), w.request); told = told === false ? 'false' : path.relative(abs, told.split('?')[0]); } catch (e) { told = 'none'; }
    const ours = given[i]; const none = /^(Unresolved|NotExported|BadTarget|BadManifest)/.test(ours);
    if ((none && told === 'none') || ours === told) same++; else (differs[(none ? ours.split(' ')[0] : 'File') + ' / ' + (told === 'none' ? 'none' : 'file')] ??= []).push(`${w.key} -> ${ours} | ${told}`);
  });
  console.log(wanted.length, 'requests', same, 'same');
  for (const [k, v] of Object.entries(differs)) { console.log(k, v.length); for (const l of v.slice(0, 8)) console.log('   ', l); }
}
