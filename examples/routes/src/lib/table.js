export const table = (cells) => cells.join(" | ");
