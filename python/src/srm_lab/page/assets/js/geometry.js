// Places and distances on a canvas.

/** The distance of a point from a line between two others. */
function distanceToLine([x, y], [ax, ay], [bx, by]) {
  const [dx, dy] = [bx - ax, by - ay];
  const length = dx * dx + dy * dy;
  const part = length ? Math.max(0, Math.min(1, ((x - ax) * dx + (y - ay) * dy) / length)) : 0;
  return Math.hypot(x - ax - part * dx, y - ay - part * dy);
}

/** Of some items the one for which `far` is least, if that is within reach, or else null. */
function nearestOf(items, far, reach) {
  let best = null;
  let least = reach;
  for (const item of items) {
    const distance = far(item);
    if (distance > least || (best !== null && distance === least)) continue;
    best = item;
    least = distance;
  }
  return best;
}

/** The least distance between two of some points; at most so much is looked for. */
function spacingOf(points, most) {
  const tree = d3.quadtree();
  let least = most;
  for (const [x, y] of points) {
    const near = tree.find(x, y, least);
    if (near) least = Math.min(least, Math.hypot(near[0] - x, near[1] - y));
    tree.add([x, y]);
  }
  return least;
}

/** Lanes beside each other: 0, 1, -1, 2, -2 and so on, and then again. */
function laneOffset(lane) {
  const at = lane % 7;
  return at % 2 === 1 ? (at + 1) / 2 : -at / 2;
}
