// A member's operations as lanes over time: when each was lacked, its timers and its rests.

const MOST_LANES = 14;
const LANE_HEIGHT = 26;
const LANES_WIDTH = 560;
const LANES_LEFT = 76;

/** Draws a member's lanes as SVG, with a line at the present tick. */
class Lanes {
  constructor(model, member, tick, onPick) {
    Object.assign(this, { model, member, tick, onPick });
    const of = (lists) => lists.get(member) ?? [];
    const { lossesOf, timersOf, restsOf } = model.history;
    [this.losses, this.timers, this.rests] = [of(lossesOf), of(timersOf), of(restsOf)];
    const all = Array.from(new Set([...this.losses, ...this.timers, ...this.rests].map((it) => it.name)));
    this.names = this._nearest(all);
    this.left = all.length - this.names.length;
  }

  /** Where they are too many, the names whose lanes are nearest to the present tick. */
  _nearest(names) {
    if (names.length <= MOST_LANES) return names;
    const far = new Map(names.map((name) => [name, Infinity]));
    for (const { name, set } of this.timers) {
      far.set(name, Math.min(far.get(name), Math.abs(this.model.trace.time[set] - this.tick)));
    }
    const ranked = names.slice().sort((one, other) => far.get(one) - far.get(other));
    const kept = new Set(ranked.slice(0, MOST_LANES));
    return names.filter((name) => kept.has(name));
  }

  /** The SVG element, or null where there is nothing to show. */
  element() {
    if (!this.names.length) return null;
    const height = this.names.length * LANE_HEIGHT + 24;
    const svg = d3.create("svg").attr("viewBox", `0 0 ${LANES_WIDTH} ${height}`).attr("role", "img")
      .attr("aria-label", `Losses, timers and rests of member ${this.member} over time`);
    this.x = d3.scaleLinear().domain(this._extent()).range([LANES_LEFT, LANES_WIDTH - 14]);
    this._axis(svg, height);
    this.names.forEach((name, at) => this._lane(svg, name, at * LANE_HEIGHT + LANE_HEIGHT / 2));
    this._now(svg, height);
    return svg.node();
  }

  /** The tick of a row, or the run's end where there is none. */
  _tickOf(row) {
    return row >= 0 ? this.model.trace.time[row] : this.model.moments.end;
  }

  /** From the first to the last tick of the lanes. */
  _extent() {
    const { moments } = this.model;
    const names = new Set(this.names);
    const shown = (items) => items.filter((it) => names.has(it.name));
    const [begin, end] = d3.extent([
      ...shown(this.losses).map((loss) => this._tickOf(loss.detected)),
      ...shown(this.timers).flatMap((timer) => [this._tickOf(timer.set), this._tickOf(timer.end)]),
      ...shown(this.rests).flatMap((rest) => [rest.from, Math.min(rest.to, moments.end)]),
    ]);
    const margin = Math.max(1, (end - begin) * 0.04);
    return [Math.max(moments.begin, begin - margin), end + margin];
  }

  _axis(svg, height) {
    const axis = svg.append("g");
    for (const tick of this.x.ticks(5).filter(Number.isInteger)) {
      this._upright(axis, tick, height - 18, "var(--faint)");
      axis.append("text").attr("class", "soft").attr("x", this.x(tick)).attr("y", height - 5)
        .attr("text-anchor", "middle").text(grouping(tick));
    }
  }

  /** An upright line at a tick. */
  _upright(parent, tick, bottom, colour) {
    return parent.append("line").attr("x1", this.x(tick)).attr("x2", this.x(tick)).attr("y1", 0).attr("y2", bottom)
      .attr("stroke", colour);
  }

  _lane(svg, name, y) {
    const lane = svg.append("g");
    const of = (items) => items.filter((it) => it.name === name);
    lane.append("text").attr("x", LANES_LEFT - 8).attr("y", y + 4).attr("text-anchor", "end")
      .text(this.model.trace.nameText(name));
    for (const loss of of(this.losses)) this._loss(lane, loss, y);
    for (const rest of of(this.rests)) this._rest(lane, rest, y);
    for (const timer of of(this.timers)) this._timer(lane, timer, y);
    for (const timer of of(this.timers)) if (timer.end >= 0) this._end(lane, timer, y);
  }

  /** A bar from a tick to another, clipped to the lane. */
  _bar(lane, [from, to], [top, tall], told) {
    const [begin, end] = this.x.domain();
    const left = this.x(Math.max(begin, from));
    const bar = lane.append("rect").attr("x", left).attr("width", Math.max(1, this.x(Math.min(end, to)) - left))
      .attr("y", top).attr("height", tall);
    bar.append("title").text(told);
    return bar;
  }

  _clickable(mark, selection) {
    mark.style("cursor", "pointer").on("click", () => this.onPick(selection));
  }

  _loss(lane, loss, y) {
    const from = this._tickOf(loss.detected);
    const to = this._tickOf(this.model.history.endOf(loss));
    const open = loss.left >= 0 ? `open as it left at ${grouping(to)}` : "open at the end";
    const how = loss.recovered >= 0 ? `recovered at ${grouping(to)}` : open;
    const bar = this._bar(lane, [from, to], [y - 10, 20], `lacked from ${grouping(from)}, ${how}`)
      .attr("fill", "var(--lost)").attr("opacity", 0.32);
    this._clickable(bar, { kind: "loss", name: loss.name, member: this.member });
  }

  _rest(lane, rest, y) {
    const to = rest.cut >= 0 ? Math.min(rest.to, this._tickOf(rest.cut)) : rest.to;
    this._bar(lane, [rest.from, to], [y - 4, 8], `rests from ${grouping(rest.from)} up to ${grouping(rest.to)}`)
      .attr("fill", "none").attr("stroke", "var(--repair)").attr("stroke-dasharray", "3 2");
  }

  /** A timer: a thin band where it may have expired, a line while it was pending, marks where it was set and ended. */
  _timer(lane, timer, y) {
    const { history } = this.model;
    const [set, end] = [this._tickOf(timer.set), this._tickOf(timer.end)];
    const colour = `var(--${KINDS[timer.kind]})`;
    const told = timerInWords(history, timer);
    this._bar(lane, [set + timer.least, set + timer.most], [y + 7, 4], told).attr("fill", colour).attr("opacity", 0.45);
    const ignore = timer.kind === KIND.request ? history.ignoreUntil(timer) : null;
    if (ignore !== null && ignore > set) {
      this._bar(lane, [set, Math.min(ignore, end)], [y - 9, 3], `requests are ignored up to ${grouping(ignore)}`)
        .attr("fill", "var(--soft)");
    }
    lane.append("line").attr("x1", this.x(set)).attr("x2", this.x(end)).attr("y1", y).attr("y2", y)
      .attr("stroke", colour).attr("stroke-width", 2.4).append("title").text(told);
    const ring = lane.append("circle").attr("cx", this.x(set)).attr("cy", y).attr("r", 3.4)
      .attr("fill", "var(--paper)").attr("stroke", colour).attr("stroke-width", 1.6);
    this._clickable(ring, { kind: "row", row: timer.set });
  }

  _end(lane, timer, y) {
    const tick = this._tickOf(timer.end);
    const x = this.x(tick);
    const mark = timer.how === "expired"
      ? lane.append("circle").attr("cx", x).attr("cy", y).attr("r", 4.4)
      : lane.append("rect").attr("x", x - 1.2).attr("width", 2.4).attr("y", y - 6).attr("height", 12);
    mark.attr("fill", `var(--${KINDS[timer.kind]})`).append("title").text(`${timer.how} at ${grouping(tick)}`);
    this._clickable(mark, { kind: "row", row: timer.end });
  }

  _now(svg, height) {
    const [begin, end] = this.x.domain();
    if (this.tick < begin || this.tick > end) return;
    this._upright(svg, this.tick, height - 16, "var(--accent)").attr("stroke-width", 1.6);
  }
}

/** A timer in one line. */
function timerInWords(history, timer) {
  const { trace } = history;
  const expiry = history.expiryOf(timer);
  return [
    `${KINDS[timer.kind]} timer of ${trace.nameText(timer.name)}: set at ${grouping(trace.time[timer.set])}`,
    `drawn from ${spanText(timer.least, timer.most)} ticks`,
    expiry === null ? "" : `due at ${grouping(expiry)}`,
    timer.end >= 0 ? `${timer.how} at ${grouping(trace.time[timer.end])}` : "pending at the end",
  ].filter(Boolean).join(", ");
}
