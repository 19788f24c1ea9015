// What is told of options that aren't translated as they stand. `lost` says whether one of them changes what is built.
export class Told {
  lines = [];
  lost = false;

  // It has no effect on what is built.
  dropped(option, why) {
    this.lines.push(`dropped: ${option}: ${why}`);
  }

  // What is built is another, in a way that may be lived with.
  differs(option, what) {
    this.lost = true;
    this.lines.push(`differs: ${option}: ${what}`);
  }

  // What the option asks for isn't built.
  cannot(option, what) {
    this.lost = true;
    this.lines.push(`can't: ${option}: ${what}`);
  }
}

export const dropped = (why) => (option, value, told) => told.dropped(option, why);
export const differs = (what, ...same) => (option, value, told) => {
  if (isOneOf(value, same)) told.dropped(option, 'it is so here');
  else told.differs(option, what);
};
export const cannot = (what, ...same) => (option, value, told) => {
  if (isOneOf(value, same)) told.dropped(option, 'it is so here');
  else told.cannot(option, what);
};

function isOneOf(value, same) {
  return same.some((one) => JSON.stringify(one) === JSON.stringify(value));
}

// Tells each member of an object that has a rule. A member that nothing is known of is told too.
export function tellMembers(prefix, object, rules, told) {
  for (const [key, value] of Object.entries(object)) {
    if (value === undefined) continue;
    const rule = Object.hasOwn(rules, key) ? rules[key] : cannot('it is not known here: see docs/USING.md for what there is');
    rule(prefix + key, value, told);
  }
}
