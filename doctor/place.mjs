// Places in a text as the program tells them: lines and columns from 1, columns in bytes.
export function placeAt(text, at) {
  const before = text.slice(0, at);
  const lineStart = before.lastIndexOf('\n') + 1;
  return { line: before.split('\n').length, column: Buffer.byteLength(before.slice(lineStart)) + 1 };
}

// The place in the text of a number of bytes.
export function placeOfByte(text, byte) {
  return Buffer.from(text).subarray(0, byte).toString().length;
}
