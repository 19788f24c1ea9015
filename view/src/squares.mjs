// A box cut into boxes in proportion to weights, each as near to a square as rows of them come (the squarified treemap of
// Bruls, Huizing and van Wijk). Weights come in falling order.
export function squares(weights, box) {
  const total = weights.reduce((sum, weight) => sum + weight, 0);
  const scale = total > 0 ? (box.width * box.height) / total : 0;
  const boxes = [];
  let left = box;
  for (let from = 0; from < weights.length;) {
    const side = Math.min(left.width, left.height);
    const to = rowEnd(weights, from, scale, side);
    left = layRow(weights.slice(from, to).map((weight) => weight * scale), left, boxes);
    from = to;
  }
  return boxes;
}

// The row grows as long as its worst box gets no longer and thinner.
function rowEnd(weights, from, scale, side) {
  const most = weights[from] * scale;
  let area = most;
  let worst = worstRatio(most, most, area, side);
  for (let at = from + 1; at < weights.length; at++) {
    const next = weights[at] * scale;
    const ratio = worstRatio(most, next, area + next, side);
    if (ratio > worst) return at;
    area += next;
    worst = ratio;
  }
  return weights.length;
}

function worstRatio(most, least, area, side) {
  const square = side * side;
  const whole = area * area;
  return Math.max((square * most) / whole, whole / (square * least));
}

// Lays the areas along the shorter side, and gives what is left of the box.
function layRow(areas, box, boxes) {
  const isUpright = box.width >= box.height;
  const side = isUpright ? box.height : box.width;
  const depth = side > 0 ? areas.reduce((sum, area) => sum + area, 0) / side : 0;
  let along = isUpright ? box.y : box.x;
  for (const area of areas) {
    const length = depth > 0 ? area / depth : 0;
    boxes.push(isUpright ? { x: box.x, y: along, width: depth, height: length } : { x: along, y: box.y, width: length, height: depth });
    along += length;
  }
  return isUpright
    ? { x: box.x + depth, y: box.y, width: Math.max(box.width - depth, 0), height: box.height }
    : { x: box.x, y: box.y + depth, width: box.width, height: Math.max(box.height - depth, 0) };
}
