// Where a webpack configuration's paths lie, seen from the folder in which the program is started.
import path from 'node:path';

export class Place {
  constructor(root, context = root) {
    this.root = root;
    this.context = path.resolve(root, context);
  }

  // The path from the root of an absolute one that lies below it: empty for the root itself, undefined outside.
  below(absolute) {
    const from = path.relative(this.root, absolute);
    return from === '..' || from.startsWith('../') || path.isAbsolute(from) ? undefined : from;
  }
}

export function isRelative(request) {
  return request === '.' || request === '..' || request.startsWith('./') || request.startsWith('../');
}

export function isNormalPath(text) {
  return text.split('/').every((part) => part !== '' && part !== '.' && part !== '..') && !/[\u0000-\u001f\u007f]/.test(text);
}
