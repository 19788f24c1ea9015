// What the packages of a project ask for that a build doesn't read: the names of those with a `browser` object, with `sideEffects`
// and with links in their place.
import fs from 'node:fs';
import path from 'node:path';

export function packagesOf(root) {
  const found = { links: [], browser: [], flagged: [] };
  const own = manifestOf(root);
  if (own) note(own, 'package.json', found);
  lookInto(path.join(root, 'node_modules'), found);
  return found;
}

function lookInto(folder, found) {
  for (const member of listed(folder)) {
    const place = path.join(folder, member.name);
    if (member.isSymbolicLink()) found.links.push(member.name);
    else if (member.name.startsWith('@')) lookInto(place, found);
    else if (member.isDirectory()) lookAt(place, member.name, found);
  }
}

function lookAt(place, name, found) {
  const manifest = manifestOf(place);
  if (manifest) note(manifest, manifest.name ?? name, found);
  lookInto(path.join(place, 'node_modules'), found);
}

function note(manifest, name, found) {
  if (manifest.browser !== null && typeof manifest.browser === 'object') found.browser.push(name);
  if (manifest.sideEffects !== undefined && manifest.sideEffects !== true) found.flagged.push(name);
}

// Folders of tools, as .bin, are no packages.
function listed(folder) {
  try {
    return fs.readdirSync(folder, { withFileTypes: true }).filter((member) => !member.name.startsWith('.'));
  } catch {
    return [];
  }
}

function manifestOf(folder) {
  try {
    const manifest = JSON.parse(fs.readFileSync(path.join(folder, 'package.json'), 'utf8'));
    return manifest !== null && typeof manifest === 'object' ? manifest : undefined;
  } catch {
    return undefined;
  }
}
