// Names that a page doesn't have, in modules that don't ask for them by `typeof` first, where no module of the build sets them.
const PLACES = ['globalThis', 'self', 'window', 'global'];
const SHOWN = {
  process: {
    is: (syntax, at) => (syntax.is(at + 1, '.') || syntax.is(at + 1, '?.')) && syntax.is(at + 2, 'env'),
    value: '{ env: { NODE_ENV: "production" } }',
  },
  global: { is: () => true, value: 'globalThis' },
};

// The names that a module sets for all, as `globalThis.process = ..`.
export function setIn(syntax) {
  return Object.keys(SHOWN).filter((name) => syntax.tokens.some((token, at) => token.kind === 'word' && token.text === name
    && syntax.is(at - 1, '.') && PLACES.includes(syntax.tokens[at - 2]?.text) && syntax.isAssigned(at + 1)));
}

export function missingNames(syntax, isSet) {
  return Object.keys(SHOWN).filter((name) => !isSet.has(name) && !syntax.isAsked(name) && !syntax.declares(name)).flatMap((name) => {
    const uses = syntax.uses(name).filter((at) => SHOWN[name].is(syntax, at) && !syntax.isTried(at) && !isLastResort(syntax, at));
    return uses.length === 0 ? [] : [{ at: syntax.tokens[uses[0]].start, told: toldOf(syntax, name, uses) }];
  });
}

// As in `typeof self !== "undefined" ? self : global`, where a page has found another before.
function isLastResort(syntax, at) {
  const isOther = syntax.is(at - 1, ':') || syntax.is(at - 1, '|') || (syntax.is(at - 1, '?') && syntax.is(at - 2, '?'));
  const [from] = syntax.bodyOf(at);
  return isOther && syntax.tokens.slice(from, at).some(({ kind, text }) => kind === 'word' && ['window', 'self', 'globalThis'].includes(text));
}

function toldOf(syntax, name, uses) {
  const often = uses.length > 1 ? `, ${uses.length} times in this module` : '';
  return `${name === 'process' ? 'process.env' : name} is read${often}, and nothing sets ${name}, which a page doesn't have: `
    + `begin the entry with an import of a module that says globalThis.${name} ??= ${SHOWN[name].value};`;
}
