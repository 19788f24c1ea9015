// Numbers as people read them.
const WRITTEN = new Intl.NumberFormat('en');
const STEPS = [[1e9, 'GB'], [1e6, 'MB'], [1e3, 'kB']];

export function whole(number) {
  return WRITTEN.format(number);
}

export function bytes(size) {
  const [step, unit] = STEPS.find(([step]) => size >= step) ?? [1, 'bytes'];
  const value = size / step;
  return `${unit === 'bytes' || value >= 100 ? whole(Math.round(value)) : value.toFixed(1)} ${unit}`;
}

// A difference, with its sign.
export function signed(size) {
  if (size === 0) return 'as before';
  return `${size > 0 ? '+' : '−'}${bytes(Math.abs(size))}`;
}

// A number with its word, as `1 chunk` and `3 chunks`.
export function count(number, word) {
  return `${whole(number)} ${number === 1 ? word : `${word}s`}`;
}

// Names in a sentence: `a, b and c`, or the first of them and how many more there are.
export function listed(names, most = 6) {
  if (names.length > most) return `${names.slice(0, most - 1).join(', ')} and ${names.length - most + 1} more`;
  if (names.length < 2) return names.join('');
  return `${names.slice(0, -1).join(', ')} and ${names[names.length - 1]}`;
}
