// The sample tree of a number of modules, from its rules and apart from the program: files by path.
const LIBRARIES = 7;
const LIBRARY = `//${'x'.repeat(24_997)}\n`;

const name = (number) => `m${String(number).padStart(5, '0')}.js`;

function moduleText(number, count) {
  const lines = number % 12 === 3 ? [`import "lib${number % LIBRARIES}";\n`] : [];
  for (const target of [3 * number + 1, 3 * number + 2]) {
    if (target < count) lines.push(`import "./${name(target)}";\n`);
  }
  const third = 3 * number + 3;
  if (third < count) lines.push(number % 4 === 0 ? `import("./${name(third)}");\n` : `import "./${name(third)}";\n`);
  return lines.join('');
}

export function sampleTree(count) {
  const files = {};
  for (let number = 0; number < LIBRARIES; number++) files[`node_modules/lib${number}/index.js`] = LIBRARY;
  for (let number = 0; number < count; number++) files[`src/${name(number)}`] = moduleText(number, count);
  return files;
}
