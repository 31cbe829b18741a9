// Time down, members across: packets, losses and timers.

const TOP_MARGIN = 44;
// below this width what is shown is told in two lines
const NARROW = 560;
const LEFT_MARGIN = 74;
const RIGHT_MARGIN = 24;
const WIDEST_COLUMN = 150;
const LEAST_COLUMN = 11;
const TOLD_TALL = 13;

/** Draws the sequence of a run. */
class SequenceView {
  constructor(canvas, model, theme, filters, onPick) {
    Object.assign(this, { model, theme, filters, onPick });
    this.trace = model.trace;
    this.network = model.network;
    this.selection = null;
    this.scope = new SequenceScope(model, filters);
    this.surface = new Surface(canvas, () => this.redrawAll());
    const { begin, end } = model.moments;
    this.base = d3.scaleLinear().domain([begin, Math.max(end, begin + 1)]);
    this.transform = d3.zoomIdentity;
    this.zoom = zoomOn(this.surface, [1, 1e6], (transform) => this._zoomed(transform), (place) => this.onPick(this.at(place)));
    this.isPlaced = false;
  }

  _zoomed(transform) {
    this.transform = transform;
    this.redrawAll();
  }

  /** Zooms to the selected loss, or to what a large run begins with: once there is room, and when another is selected. */
  _place() {
    if (this.isPlaced) return;
    this.isPlaced = true;
    const [begin, end] = this.scope.extent(this.selection);
    if (end !== undefined) this._zoomTo(begin, end);
  }

  _zoomTo(begin, end) {
    const [first, last] = this.base.domain();
    const [top] = this.base.range();
    const margin = Math.max(1, 0.08 * (end - begin));
    const from = Math.max(first, begin - margin);
    const k = (last - first) / (Math.min(last, end + margin) - from);
    this.transform = d3.zoomIdentity.translate(0, top - k * this.base(from)).scale(k);
    this.surface.canvas.__zoom = this.transform;
  }

  /** Takes the box's size. */
  resize() {
    this.surface.fit();
    this.redrawAll();
  }

  redrawAll() {
    this.picture = null;
    this.draw();
  }

  draw() {
    if (this.surface.isHidden) return;
    if (!this.picture) this._drawPicture();
    this.surface.cleared(this.theme.paper);
    this.surface.paste(this.picture);
    this._now(this.surface.context);
  }

  /** The scales for the present size, zoom and members. */
  _scales() {
    const { width, height } = this.surface;
    this.isNarrow = width < NARROW;
    this.top = TOP_MARGIN + (this.isNarrow ? TOLD_TALL : 0);
    this.base.range([this.top + 14, height - 20]);
    this._place();
    this.y = this.transform.rescaleY(this.base);
    [this.from, this.to] = [this.y.invert(this.top), this.y.invert(height)];
    const room = width - LEFT_MARGIN - RIGHT_MARGIN;
    this.scope.choose(this.from, this.to, Math.max(1, Math.min(MOST_COLUMNS, Math.floor(room / LEAST_COLUMN))));
    const { columns } = this.scope;
    this.place = new Map(columns.map((member, at) => [member, at]));
    this.step = Math.min(room / Math.max(1, columns.length), WIDEST_COLUMN);
    const left = LEFT_MARGIN + (room - this.step * columns.length) / 2;
    this.x = (member) => left + this.step * (this.place.get(member) + 0.5);
  }

  _drawPicture() {
    const { canvas, context } = this.surface.copy(this.theme.paper);
    this._drawRun(context);
    this.picture = canvas;
    this._describe();
  }

  /** Draws the view onto another context. */
  drawOn(context) {
    this._drawRun(context);
    this._now(context);
  }

  _drawRun(context) {
    this._scales();
    this.hits = [];
    context.save();
    context.beginPath();
    context.rect(0, this.top, this.surface.width, this.surface.height - this.top);
    context.clip();
    this._ticks(context);
    this._outages(context);
    this._lifelines(context);
    this._losses(context);
    new SequencePackets(this, context).draw();
    this._timers(context);
    context.restore();
    this._heads(context);
  }

  // ---- ticks, outages, members' lines -------------------------------------------------

  _ticks(context) {
    context.strokeStyle = this.theme.faint;
    context.fillStyle = this.theme.soft;
    context.lineWidth = 1;
    context.font = `11px ${TEXT_FONT}`;
    context.textAlign = "right";
    context.textBaseline = "middle";
    context.beginPath();
    for (const tick of this.y.ticks(Math.max(3, Math.floor(this.surface.height / 60))).filter(Number.isInteger)) {
      const y = Math.round(this.y(tick)) + 0.5;
      context.moveTo(LEFT_MARGIN - 4, y);
      context.lineTo(this.surface.width - 8, y);
      if (y > this.top + 8) context.fillText(grouping(tick), LEFT_MARGIN - 8, y);
    }
    context.stroke();
  }

  _outages(context) {
    const rows = new Map();
    for (const { link, from, to } of this.network.outages) {
      if (to < this.from || from > this.to) continue;
      const [top, bottom] = [this.y(from), this.y(to)];
      context.fillStyle = this.theme.cross;
      context.globalAlpha = 0.12;
      context.fillRect(LEFT_MARGIN - 4, top, this.surface.width, Math.max(2, bottom - top));
      context.globalAlpha = 1;
      context.font = `11px ${TEXT_FONT}`;
      context.textAlign = "left";
      const row = rows.get(from) ?? 0;
      rows.set(from, row + 1);
      if (row < 4) context.fillText(`link ${link} out`, LEFT_MARGIN + 2, Math.max(top, this.top) + 9 + 12 * row);
    }
  }

  /** A member's line: dotted before its join, ended by a cross at its leave. */
  _lifelines(context) {
    const { joined, left } = this.model.history;
    const bottom = this.surface.height;
    const yOf = (row) => (row >= 0 ? this.y(this.trace.time[row]) : bottom);
    for (const member of this.scope.columns) {
      const x = this.x(member);
      const [top, end] = [yOf(joined[member]), yOf(left[member])];
      strokeLine(context, [[x, this.top], [x, top]], this.theme.node, 1, [2, 4]);
      strokeLine(context, [[x, top], [x, end]], this.theme.node, 1.2, []);
      if (left[member] < 0) continue;
      cross(context, x, end, 5, this.theme.ink, 2);
      this.hits.push({ x, y: end, row: left[member] });
    }
  }

  // ---- losses and timers ----------------------------------------------------------------

  _losses(context) {
    const { history } = this.model;
    const wide = Math.min(16, this.step - 3);
    for (const loss of history.losses) {
      if (!this.place.has(loss.member) || !this.scope.tellsName(loss.name)) continue;
      const [begin, end] = [this.trace.time[loss.detected], this._endOf(history.endOf(loss))];
      if (end < this.from || begin > this.to) continue;
      const isChosen = this.selection?.kind === "loss" && this.selection.name === loss.name;
      const tall = Math.max(2, this.y(end) - this.y(begin));
      lossBar(context, this.theme, this.x(loss.member) - wide / 2, this.y(begin), wide, tall, isChosen);
    }
  }

  /** The tick of a row in which something ended, or the end of what is in sight. */
  _endOf(row) {
    return row >= 0 ? this.trace.time[row] : this.to;
  }

  /** Timers along their members' lines: set at a ring, expired at a dot, ended otherwise at a bar. */
  _timers(context) {
    const shown = this.model.history.timers.filter((timer) => this._showsTimer(timer));
    const y = (row) => this.y(this._endOf(row));
    for (const { member, set, end, kind } of shown) {
      const x = this.x(member);
      strokeLine(context, [[x, y(set)], [x, y(end)]], this.theme.kinds[kind], 2.4, []);
    }
    for (const timer of shown) this._timerMark(timer.set, timer, (x, at) => timerSetMark(context, this.theme, timer.kind, x, at));
    for (const timer of shown.filter(({ end }) => end >= 0)) {
      this._timerMark(timer.end, timer, (x, at) => timerEndMark(context, this.theme, timer.kind, timer.how, x, at));
    }
  }

  _timerMark(row, timer, draw) {
    const [x, y] = [this.x(timer.member), this.y(this.trace.time[row])];
    draw(x, y);
    this.hits.push({ x, y, row, timer });
  }

  _showsTimer(timer) {
    if (!this.place.has(timer.member) || !this.scope.tellsName(timer.name) || !this.filters.kinds[timer.kind]) return false;
    return this._endOf(timer.end) >= this.from && this.trace.time[timer.set] <= this.to;
  }

  // ---- heads, the present tick -----------------------------------------------------------

  /** The members' names, on a band that stays above. */
  _heads(context) {
    context.fillStyle = this.theme.paper;
    context.fillRect(0, 0, this.surface.width, this.top);
    context.fillStyle = this.theme.soft;
    context.font = `11px ${TEXT_FONT}`;
    context.textAlign = "left";
    context.textBaseline = "middle";
    const lines = this.isNarrow ? this.scope.told() : [this.scope.told().join("; ")];
    lines.forEach((line, at) => context.fillText(line, 10, 8 + TOLD_TALL * at, this.surface.width - 20));
    context.textAlign = "right";
    context.fillText("tick", LEFT_MARGIN - 8, this.top - 14);
    for (const member of this.scope.columns) {
      if (this.step < 24) this._steepHead(context, member);
      else this._head(context, member);
    }
    strokeLine(context, [[0, this.top - 0.5], [this.surface.width, this.top - 0.5]], this.theme.line, 1, []);
  }

  _isPicked(member) {
    return this.selection?.kind === "member" && this.selection.member === member;
  }

  _head(context, member) {
    const x = this.x(member);
    const colour = this._isPicked(member) ? this.theme.accent : this.theme.holds;
    context.beginPath();
    roleOutline(context, this.network.members[member].role, x, this.top - 15, Math.min(11, this.step * 0.45));
    context.fillStyle = colour;
    context.fill();
    context.strokeStyle = this.theme.ink;
    context.lineWidth = 1;
    context.stroke();
    context.fillStyle = textOn(colour);
    context.font = `600 11px ${TEXT_FONT}`;
    context.textAlign = "center";
    context.fillText(member, x, this.top - 14);
  }

  /** A member's number upwards, where columns are narrow. */
  _steepHead(context, member) {
    context.save();
    context.translate(this.x(member), this.top - 4);
    context.rotate(-Math.PI / 2);
    context.fillStyle = this._isPicked(member) ? this.theme.accent : this.theme.ink;
    context.font = `600 10px ${TEXT_FONT}`;
    context.textAlign = "left";
    context.fillText(member, 0, 0);
    context.restore();
  }

  /** The line of the present tick. */
  _now(context) {
    const { tick } = this.model.states;
    const y = this.y(tick);
    if (y < this.top - 1 || y > this.surface.height + 1) return;
    strokeLine(context, [[LEFT_MARGIN - 4, y], [this.surface.width, y]], this.theme.accent, 1.6, []);
    context.font = `bold 11px ${TEXT_FONT}`;
    const text = grouping(Math.floor(tick));
    const wide = context.measureText(text).width + 8;
    context.fillStyle = this.theme.accent;
    context.fillRect(LEFT_MARGIN - 4 - wide, y - 8, wide, 16);
    context.fillStyle = textOn(this.theme.accent);
    context.textAlign = "right";
    context.textBaseline = "middle";
    context.fillText(text, LEFT_MARGIN - 8, y + 0.5);
  }

  /** What is seen, in words, for those who do not see it. */
  _describe() {
    const [from, to] = [Math.max(0, Math.floor(this.from)), Math.ceil(this.to)];
    this.surface.canvas.setAttribute("aria-label", `Sequence from tick ${from} to ${to}: time down. ${this.scope.told().join("; ")}.`);
  }

  // ---- zoom, selection -----------------------------------------------------------------------

  /** Shows the present moment, and keeps it in sight where the view is zoomed. */
  follow() {
    this.draw();
    if (this.transform.k === 1 || !this.y || this.surface.isHidden) return;
    const y = this.y(this.model.states.tick);
    if (y >= this.top + 10 && y <= this.surface.height - 30) return;
    d3.select(this.surface.canvas).call(this.zoom.translateBy, 0, (this.surface.height * 0.4 - y) / this.transform.k);
  }

  /** Zooms about the present tick, where it is in sight. */
  zoomBy(factor) {
    const { width, height } = this.surface;
    const y = this.y(this.model.states.tick);
    const centre = [width / 2, y > this.top && y < height ? y : height / 2];
    d3.select(this.surface.canvas).call(this.zoom.scaleBy, factor, centre);
  }

  zoomAll() {
    d3.select(this.surface.canvas).call(this.zoom.transform, d3.zoomIdentity);
  }

  /** Shows what is selected. A loss that was not looked at before is zoomed to. */
  select(selection) {
    this.selection = selection;
    if (selection?.kind === "loss" && this.scope.focusOn(selection)) this.isPlaced = false;
    this.redrawAll();
  }

  /** The event, packet or member at a place. */
  at([x, y]) {
    if (y < this.top) {
      const member = this.scope.columns.find((it) => Math.abs(this.x(it) - x) < this.step / 2);
      return member === undefined ? null : { kind: "member", member };
    }
    const far = (hit) => (hit.packet
      ? distanceToLine([x, y], [hit.ax, hit.ay], [hit.x, hit.y]) + 1.5
      : Math.hypot(hit.x - x, hit.y - y));
    const hit = nearestOf(this.hits ?? [], far, 7);
    if (!hit) return null;
    const kind = hit.link === undefined && hit.row >= 0 ? "row" : "packet";
    return { kind, row: hit.row, packet: hit.packet?.id, link: hit.link, timer: hit.timer, isEnd: hit.isEnd };
  }
}
