// The packets of the network's picture: those that are on a link, those that a link took out, and where scopes end.

const MOST_LABELLED_PACKETS = 8;
const MOST_EDGED = 150;

/** Draws packets at the present moment onto a network's view. */
class NetworkPackets {
  constructor(view) {
    this.view = view;
    this.network = view.network;
    this.packets = view.model.trace.packets;
    this.times = Float64Array.from(this.packets, (packet) => packet.time);
    this.lanes = lanesOf(this.packets);
    this.fates = new Map();
    const senders = Array.from(new Set(this.packets.map((packet) => packet.sender)));
    this.farthest = d3.max(senders, (sender) => this.network.routeOf(sender).longest) ?? 0;
    this.slowest = d3.max(this.network.links, (link) => Math.max(link.delay, link.back)) ?? 1;
  }

  /** Packets that are on a link now, and drops that happened within a link's delay. */
  draw(context) {
    const { view } = this;
    const { states } = view.model;
    const from = d3.bisectLeft(this.times, states.tick - this.farthest - this.slowest);
    this.places = KINDS.map(() => []);
    this.labels = [];
    for (let id = from; id < this.packets.length && this.times[id] <= states.tick; id++) {
      const packet = this.packets[id];
      if (view.filters.shows(packet) && packet.row < states.rows) this._follow(context, packet);
    }
    this.places.forEach((places, kind) => this._drawKind(context, kind, places, this.radius));
    if (this.labels.length <= MOST_LABELLED_PACKETS && view.hasNumbers) this._addLabels(context);
  }

  get radius() {
    return Math.max(2.2, Math.min(6.5, this.view.radius * 0.55));
  }

  /** Packets of one kind: where they are many, without an edge. */
  _drawKind(context, kind, places, r) {
    const { theme } = this.view;
    const draw = places.length <= MOST_EDGED
      ? (to, x, y) => drawPacket(to, theme, kind, x, y, r)
      : (to, x, y) => fillPacket(to, theme, kind, x, y, r);
    const key = `packet ${kind} ${r} ${places.length <= MOST_EDGED}`;
    this.view.sprites.copyTo(context, places, { key, reach: 1.3 * r + 2, draw });
  }

  _fateOf(packet) {
    if (!this.fates.has(packet.id)) this.fates.set(packet.id, this.network.fateOf(packet));
    return this.fates.get(packet.id);
  }

  /** Keeps where a packet is, and draws where it was dropped. */
  _follow(context, packet) {
    const { link, begin, end, longest } = this.network.routeOf(packet.sender);
    const age = this.view.model.states.tick - packet.time;
    if (age > longest + this.slowest) return;
    const fate = this._fateOf(packet);
    for (let at = 0; at < link.length; at++) {
      const isOn = age >= begin[at] && age < end[at];
      if (isOn && (!fate || fate.crossed[at])) this._move(packet, at, (age - begin[at]) / (end[at] - begin[at]));
    }
    for (const at of fate?.dropped ?? []) this._dropped(context, packet, at, age);
    for (const at of fate?.ended ?? []) this._ended(context, packet, at, age, at === fate.ended[0]);
  }

  /** Where a packet is, a part of the way along a place of its route: from rim to rim, so that it hides no number. */
  _on(packet, at, part) {
    const { view } = this;
    const route = this.network.routeOf(packet.sender);
    const [near, far] = [route.near[at], route.far[at]];
    const length = Math.hypot(view.x[far] - view.x[near], view.y[far] - view.y[near]);
    const [first, last] = [this._rim(near), this._rim(far)].map((rim) => Math.min(0.45, rim / length));
    const aside = laneOffset(this.lanes[packet.id]) * Math.max(4, view.radius * 0.7);
    return view.beside(near, far, first + part * (1 - first - last), aside);
  }

  /** How far from a node's middle packets are clear of its number. */
  _rim(node) {
    return this.view.hasNumbers && this.network.memberAt[node] >= 0 ? this.view.radius + this.radius : 0;
  }

  _move(packet, at, part) {
    const place = this._on(packet, at, part);
    this.places[packet.kind].push(place);
    if (this.labels.length > MOST_LABELLED_PACKETS) return;
    const { near, far } = this.network.routeOf(packet.sender);
    this.labels.push({ packet, place, isSteep: this.view.isSteep(near[at], far[at]) });
  }

  /** A packet that came to the link that takes it out: it stops in the middle, at a cross. */
  _dropped(context, packet, at, age) {
    const { view } = this;
    const { near, far, begin, end } = this.network.routeOf(packet.sender);
    const since = age - begin[at];
    if (since < 0 || since > Math.max(end[at] - begin[at], 1)) return;
    const [x, y] = this._on(packet, at, 0.5);
    const r = Math.max(4, Math.min(9, view.radius * 0.7));
    drawPacket(context, view.theme, packet.kind, x, y, r);
    cross(context, x, y, r + 3, view.theme.cross, 3);
    if (view.radius >= 4 && this.lanes[packet.id] === 0) view.note(context, near[at], far[at], 1, "dropped");
  }

  /** A packet that goes no further: a bar across the link that it does not take, beside the node to which it came. */
  _ended(context, packet, at, age, isFirst) {
    const { view } = this;
    const { near, far, begin, end } = this.network.routeOf(packet.sender);
    const since = age - begin[at];
    if (since < 0 || since > Math.max(end[at] - begin[at], 1)) return;
    const turn = Math.atan2(view.y[far[at]] - view.y[near[at]], view.x[far[at]] - view.x[near[at]]);
    const r = Math.max(4, Math.min(9, view.radius * 0.7));
    const place = this._on(packet, at, 0);
    endBar(context, view.theme, packet.kind, place, turn, r);
    if (!isFirst || view.radius < 4) return;
    const style = { font: `bold 12px ${TEXT_FONT}`, colour: view.theme.kinds[packet.kind] };
    view.labels.add(context, "scope ends", placesAround(place, view.isSteep(near[at], far[at]), 1, 2 * r), style);
  }

  /** The operations that packets are about, above them, or left of them on steep links; where several meet, once. */
  _addLabels(context) {
    const { view } = this;
    const labelled = new Set();
    const style = { font: `11px ${TEXT_FONT}`, colour: view.theme.ink };
    for (const { packet, place: [x, y], isSteep } of this.labels) {
      const text = packet.name >= 0 ? view.model.trace.nameText(packet.name) : "session";
      const key = `${text} ${Math.round(x / 8)} ${Math.round(y / 8)}`;
      if (!labelled.has(key)) view.labels.add(context, text, placesAround([x, y], isSteep, -1, this.radius + 3), style);
      labelled.add(key);
    }
  }
}

/** For each packet how many packets its sender sent before it in the same tick. */
function lanesOf(packets) {
  const counts = new Map();
  return Int32Array.from(packets, ({ sender, time }) => {
    const key = `${sender}@${time}`;
    const lane = counts.get(key) ?? 0;
    counts.set(key, lane + 1);
    return lane;
  });
}
