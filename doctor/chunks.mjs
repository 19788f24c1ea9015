// Whether each chunk in dist is JavaScript to this Node. Nothing of it is run.
import fs from 'node:fs';
import vm from 'node:vm';

const MEMBER = /^(?:(\d+)|("(?:\\.|[^"\\])*")):function\(/;

export function chunkFindings(stats) {
  return stats.assets.flatMap(({ name }) => {
    const path = `dist/${name}`;
    if (!fs.existsSync(path)) return [{ path, line: 1, column: 1, told: "the chunk isn't there: build again" }];
    const text = fs.readFileSync(path, 'utf8');
    const problem = problemOf(path, text);
    return problem ? [{ path, ...problem, told: `the chunk doesn't parse (${problem.message})${moduleAt(stats, text, problem.line)}: `
      + `mend that module, or compile what Node ${process.versions.node} doesn't know` }] : [];
  });
}

function problemOf(path, text) {
  try {
    new vm.Script(text, { filename: path });
    return null;
  } catch (error) {
    const [head, , marks = ''] = (error.stack ?? '').split('\n');
    return { line: Number(/:(\d+)$/.exec(head)?.[1] ?? 1), column: marks.indexOf('^') + 1 || 1, message: error.message };
  }
}

// The member of the chunk that has the line, by its number or its name.
function moduleAt(stats, text, line) {
  const heads = text.split('\n').slice(0, line).map((one) => MEMBER.exec(one)).filter(Boolean);
  const [, number, name] = heads[heads.length - 1] ?? [];
  const path = number === undefined ? name && JSON.parse(name).replace(/^\.\//, '') : stats.modules[Number(number)]?.path;
  return path ? ` in ${path}` : '';
}
