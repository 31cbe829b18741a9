// The network, in which packets move along links.

const MOST_RADIUS = 17;
const READABLE_RADIUS = 9;
const LEAST_RADIUS = 1.6;
const MOST_SPACING = 120;
const MOST_PICKED_LABELS = 12;
// parts of the way along a link
const LINK_LABEL_PLACES = [0.3, 0.5, 0.7];

/** Draws the network at a moment. */
class NetworkView {
  constructor(canvas, model, theme, filters, onPick) {
    Object.assign(this, { model, theme, filters });
    this.network = model.network;
    this.layout = new Layout(this.network, this.network.memberNodes[model.source] ?? 0);
    this.transform = d3.zoomIdentity;
    this.selection = null;
    this.picked = [];
    this.surface = new Surface(canvas, () => this.resize());
    this.zoom = zoomOn(this.surface, [0.5, 60], (transform) => this._zoomed(transform), (place) => onPick(this.at(place)));
    this.sprites = new Sprites(this.surface);
    this.smallMembers = new SmallMembers(this);
    this.packets = new NetworkPackets(this);
    this.resize();
  }

  _zoomed(transform) {
    this.transform = transform;
    this._place();
    this.draw();
  }

  /** Takes the box's size. */
  resize() {
    this.surface.fit();
    const { width, height } = this.surface;
    this.fitted = this.layout.fitted(width, height);
    const points = Array.from(this.fitted.x, (x, node) => [x, this.fitted.y[node]]);
    this.spacing = spacingOf(points, MOST_SPACING);
    this.memberSpacing = spacingOf(this.network.memberNodes.map((node) => points[node]), MOST_SPACING);
    this._spacePicked();
    this._place();
    this.draw();
  }

  _spacePicked() {
    const nodes = this.picked.map((member) => this.network.memberNodes[member]);
    this.pickedSpacing = spacingOf(nodes.map((node) => [this.fitted.x[node], this.fitted.y[node]]), MOST_SPACING);
  }

  /** The nodes' places on the canvas. Members that are few among many nodes are drawn larger than there is room for nodes. */
  _place() {
    const { x, y, k } = this.transform;
    this.x = this.fitted.x.map((it) => it * k + x);
    this.y = this.fitted.y.map((it) => it * k + y);
    this.room = 0.36 * this.spacing * k;
    const most = Math.max(this.room, READABLE_RADIUS);
    this.radius = Math.max(LEAST_RADIUS, Math.min(MOST_RADIUS, most, 0.36 * this.memberSpacing * k));
    this.background = null;
    this.sprites.clear();
  }

  /** Whether members are too small for their numbers. */
  get isSmall() {
    return this.radius < 5;
  }

  zoomBy(factor) {
    d3.select(this.surface.canvas).call(this.zoom.scaleBy, factor);
  }

  zoomAll() {
    d3.select(this.surface.canvas).call(this.zoom.transform, d3.zoomIdentity);
  }

  /** Shows the present moment. */
  follow() {
    this.draw();
  }

  redrawAll() {
    this.background = null;
    this.sprites.clear();
    this.draw();
  }

  draw() {
    if (this.surface.isHidden) return;
    const context = this.surface.cleared(this.theme.paper);
    this.surface.paste(this._background());
    this._drawMoment(context);
  }

  /** Draws the view onto another context. */
  drawOn(context) {
    this._drawStill(context);
    this._drawMoment(context);
  }

  _drawMoment(context) {
    this.labels.restart();
    this._selectedLink(context);
    this._outages(context);
    if (this.isSmall) {
      this.packets.draw(context);
      this.smallMembers.draw(context);
    } else this._members(context);
    if (!this.hasHalos) this._rings(context);
    if (!this.isSmall) this.packets.draw(context);
    this._pickedNumbers(context);
    this.labels.draw(context, this.theme);
    if (this.hasNumbers) this._numbers(context);
  }

  // ---- links and nodes ----------------------------------------------------------------

  /** Links and what else stays as it is, drawn once for a place. */
  _background() {
    if (this.background) return this.background;
    const { canvas, context } = this.surface.copy(this.theme.paper);
    this._drawStill(context);
    this.background = canvas;
    return canvas;
  }

  _drawStill(context) {
    if (this.hasHalos) this._halos(context);
    context.strokeStyle = this.theme.node;
    context.lineWidth = Math.max(0.6, Math.min(2, this.room / 4));
    context.beginPath();
    for (const { a, b } of this.network.links) {
      context.moveTo(this.x[a], this.y[a]);
      context.lineTo(this.x[b], this.y[b]);
    }
    context.stroke();
    this._emptyNodes(context);
    this._placeLinkNumbers(context);
    if (this.isSmall) this.smallMembers.drawPlaces(context);
  }

  get _emptyRadius() {
    return Math.max(1, Math.min(MOST_RADIUS, this.room) * 0.3);
  }

  _emptyNodes(context) {
    const r = this._emptyRadius;
    context.fillStyle = this.theme.node;
    context.beginPath();
    for (let node = 0; node < this.network.nodes; node++) {
      if (this.network.memberAt[node] >= 0) continue;
      context.moveTo(this.x[node] + r, this.y[node]);
      context.arc(this.x[node], this.y[node], r, 0, 2 * Math.PI);
    }
    context.fill();
  }

  /** Whether a link runs rather down than across. */
  isSteep(a, b) {
    return Math.abs(this.y[a] - this.y[b]) > Math.abs(this.x[a] - this.x[b]);
  }

  /** Finds places for the links' numbers, where there is room, off the nodes. */
  _placeLinkNumbers(context) {
    this.labels = new Labels(this.surface.width, this.surface.height);
    if (!this.isSmall) for (const node of this.network.memberNodes) this._avoid(node, this.radius);
    if (this.room < READABLE_RADIUS) return;
    for (const node of d3.range(this.network.nodes)) this._avoid(node, this._emptyRadius);
    const style = { font: `11px ${TEXT_FONT}`, colour: this.theme.soft };
    this.network.links.forEach(({ a, b }, link) => {
      const places = LINK_LABEL_PLACES.flatMap((part) => [1, -1].map((side) => this._placeBeside(a, b, part, side)));
      if (places.some((place) => this._isInSight(place))) this.labels.add(context, `link ${link}`, places, style);
    });
    this.labels.keep();
  }

  /** Keeps labels off a node. */
  _avoid(node, r) {
    const place = [this.x[node], this.y[node]];
    if (this._isInSight(place)) this.labels.avoid(...place, r);
  }

  _isInSight([x, y]) {
    const { width, height } = this.surface;
    return x > -MOST_RADIUS && y > -MOST_RADIUS && x < width + MOST_RADIUS && y < height + MOST_RADIUS;
  }

  /** A place for a label part of the way along a link: below or right of it (1), or above or left (-1). */
  _placeBeside(a, b, part, side) {
    const [dx, dy] = [this.x[b] - this.x[a], this.y[b] - this.y[a]];
    if (this.isSteep(a, b)) return [this.x[a] + part * dx + 6 * side, this.y[a] + part * dy, side];
    const slope = Math.abs(dy) / (Math.hypot(dx, dy) || 1);
    return [...this.beside(a, b, part, (14 + 14 * slope) * side), 0];
  }

  /** A place a part of the way along a link, so far beside it. */
  beside(from, to, part, aside) {
    const dx = this.x[to] - this.x[from];
    const dy = this.y[to] - this.y[from];
    const length = Math.hypot(dx, dy) || 1;
    const side = (aside / length) * (dx < 0 || (dx === 0 && dy > 0) ? -1 : 1);
    return [this.x[from] + part * dx - side * dy, this.y[from] + part * dy + side * dx];
  }

  /** Links that are out now: broken, with a word beside them. */
  _outages(context) {
    const tick = Math.floor(this.model.states.tick);
    for (const { link, from, to } of this.network.outages) {
      if (tick < from || tick >= to) continue;
      const { a, b } = this.network.links[link];
      this._line(context, a, b, this.theme.paper, 6, []);
      this._line(context, a, b, this.theme.cross, 3, [6, 5]);
      if (this.radius >= 4) this.note(context, a, b, -1, `out to ${grouping(to)}`);
    }
  }

  _line(context, from, to, colour, width, dash) {
    strokeLine(context, [[this.x[from], this.y[from]], [this.x[to], this.y[to]]], colour, width, dash);
  }

  _selectedLink(context) {
    if (this.selection?.kind !== "link") return;
    const { a, b } = this.network.links[this.selection.link];
    this._line(context, a, b, this.theme.accent, 7, []);
  }

  /** A word at the middle of a link: below or right of it (1), or above or left (-1), clear of a cross there. */
  note(context, from, to, side, text) {
    const middle = [(this.x[from] + this.x[to]) / 2, (this.y[from] + this.y[to]) / 2];
    const places = placesAround(middle, this.isSteep(from, to), side, 17);
    this.labels.add(context, text, places, { font: `bold 12px ${TEXT_FONT}`, colour: this.theme.cross });
  }

  // ---- members --------------------------------------------------------------------------

  _members(context) {
    const { states } = this.model;
    this.network.members.forEach(({ node, role }, member) =>
      drawMember(context, this.theme, role, states.of(member), this.x[node], this.y[node], this.radius));
  }

  /** Rings around the members that the selection concerns. */
  _rings(context) {
    context.strokeStyle = this.theme.accent;
    context.lineWidth = 2.5;
    for (const member of this.picked) {
      const { node } = this.network.members[member];
      context.beginPath();
      context.arc(this.x[node], this.y[node], this.radius + 5, 0, 2 * Math.PI);
      context.stroke();
    }
  }

  /** Whether rings around the picked members would meet: these then have halos, below the marks. */
  get hasHalos() {
    return this.pickedSpacing * this.transform.k < 2 * (this.radius + 7);
  }

  _halos(context) {
    this._discs(context, this.theme.accent, this.radius + 4.5);
    this._discs(context, this.theme.select, this.radius + 3.5);
  }

  /** Fills discs around the picked members. */
  _discs(context, colour, r) {
    context.beginPath();
    for (const member of this.picked) {
      const { node } = this.network.members[member];
      outline(context, "circle", this.x[node], this.y[node], r);
    }
    context.fillStyle = colour;
    context.fill();
  }

  /** Whether members' numbers stand inside their marks. */
  get hasNumbers() {
    return this.radius >= 8;
  }

  _numbers(context) {
    context.textAlign = "center";
    context.textBaseline = "middle";
    context.font = `600 ${Math.min(13, this.radius + 1)}px ${TEXT_FONT}`;
    this.network.members.forEach(({ node, role }, member) => {
      context.fillStyle = textOn(stateStyle(this.theme, this.model.states.of(member)).fill);
      context.fillText(member, this.x[node], this.y[node] + (role === "late" ? 1.5 : 0.5));
    });
  }

  /** The numbers of the picked members, where marks are too small for them. */
  _pickedNumbers(context) {
    if (this.hasNumbers || this.picked.length > MOST_PICKED_LABELS) return;
    const style = { font: `600 12px ${TEXT_FONT}`, colour: this.theme.ink, isNeeded: true };
    for (const member of this.picked) {
      const { node } = this.network.members[member];
      this.labels.add(context, `${member}`, placesAround([this.x[node], this.y[node]], false, -1, this.radius + 7), style);
    }
  }

  // ---- selection ----------------------------------------------------------------------------

  /** What is seen, in words, for those who do not see it. */
  describe() {
    const { states } = this.model;
    const told = states.census().map((count, state) => count && `${count} ${STATE_WORDS[STATES[state]]}`).filter(Boolean).join("; ");
    this.surface.canvas.setAttribute("aria-label", `The network at tick ${Math.floor(states.tick)}. Members: ${told || "none"}.`);
  }

  /** Shows what is selected, and the members that it concerns. */
  select(selection, members) {
    this.selection = selection;
    this.picked = members;
    this._spacePicked();
    this.background = null;
    this.draw();
  }

  /** What is at a place: a member, or a link. */
  at([x, y]) {
    const { members, links } = this.network;
    const place = (node) => [this.x[node], this.y[node]];
    const near = nearestOf(members, ({ node }) => Math.hypot(this.x[node] - x, this.y[node] - y), Math.max(this.radius + 3, 7));
    if (near) return { kind: "member", member: this.network.memberAt[near.node] };
    const link = nearestOf(links, ({ a, b }) => distanceToLine([x, y], place(a), place(b)), 5);
    return link && { kind: "link", link: links.indexOf(link) };
  }
}

/** Places for a label so far from a point: above (-1) or below it, or left (-1) or right of it; then on the other side. */
function placesAround([x, y], isAcross, side, far) {
  return [far, far + LABEL_TALL, -far, -far - LABEL_TALL].map((by) =>
    (isAcross ? [x + side * by, y, side * Math.sign(by)] : [x, y + side * (by + (Math.sign(by) * LABEL_TALL) / 2), 0]));
}
