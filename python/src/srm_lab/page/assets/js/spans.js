// Spans of ticks.

/** Spans of ticks, apart from each other and rising, that cover some spans. */
function united(spans) {
  const sorted = spans.slice().sort((one, other) => one[0] - other[0]);
  const found = [];
  for (const [begin, end] of sorted) {
    const last = found[found.length - 1];
    if (last && begin <= last[1]) last[1] = Math.max(last[1], end);
    else found.push([begin, end]);
  }
  return found;
}

/** Times, each from a tick up to below another. */
class Times {
  constructor(spans) {
    this.spans = united(spans);
  }

  /** Whether a tick between `begin` and `end`, or one of these two, is among them. */
  meet(begin, end = begin) {
    const last = d3.bisector(([from]) => from).right(this.spans, end) - 1;
    return last >= 0 && begin < this.spans[last][1];
  }
}
