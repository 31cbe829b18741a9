// The packets of the sequence: lines from member to member along their ways.

const LANE = 4;

/** Draws packets into a sequence, and keeps where they are for the pointer. */
class SequencePackets {
  constructor(view, context) {
    this.view = view;
    this.context = context;
    this.network = view.network;
    this.trace = view.trace;
    this.used = new Map();
    this.left = MOST_PACKET_LINES;
  }

  /** Draws the packets in sight. */
  draw() {
    const { scope, from, to } = this.view;
    for (const packet of this.trace.packets) {
      if (packet.time > to || this.left <= 0) return;
      const route = this.network.routeOf(packet.sender);
      if (packet.time + route.longest >= from && scope.tellsPacket(packet)) this._packet(packet, route);
    }
  }

  _packet(packet, route) {
    const { view } = this;
    const behind = this._lastShown(packet, route);
    for (const row of this.trace.hearersOf(packet)) {
      const member = this.trace.member[row];
      const near = view.place.has(member) ? behind.before.get(this.network.memberNodes[member]) : null;
      if (near === null || near === undefined) continue;
      const way = this._way(packet, route, near, member);
      if (way.y1 < view.top - 40 || way.y0 > view.surface.height) continue;
      this._line(packet, way, this._shift(near, member, way.begin), row);
    }
    const fate = this.network.fateOf(packet);
    for (const at of fate?.dropped ?? []) this._dropped(packet, route, at, behind);
    for (const at of fate?.ended ?? []) this._ended(packet, route, at, behind);
  }

  /** For each node of the route the last shown member before it (`before`), and up to it (`upTo`), or null. */
  _lastShown(packet, route) {
    const { place } = this.view;
    const { memberAt } = this.network;
    const upTo = new Map([[route.root, place.has(packet.sender) ? packet.sender : null]]);
    const before = new Map([[route.root, null]]);
    for (let edge = 0; edge < route.link.length; edge++) {
      const node = route.far[edge];
      const last = upTo.get(route.near[edge]);
      before.set(node, last);
      upTo.set(node, place.has(memberAt[node]) ? memberAt[node] : last);
    }
    return { before, upTo };
  }

  /** A packet's line from a member to another, and when it begins and ends. */
  _way(packet, route, near, member) {
    const { view } = this;
    const begin = packet.time + route.distance[this.network.memberNodes[near]];
    const end = packet.time + route.distance[this.network.memberNodes[member]];
    return { begin, end, x0: view.x(near), y0: view.y(begin), x1: view.x(member), y1: view.y(end) };
  }

  /** How far below its line a packet is drawn, so that packets of one tick stand side by side. */
  _shift(near, member, begin) {
    const key = `${near}>${member}@${begin}`;
    const lane = this.used.get(key) ?? 0;
    this.used.set(key, lane + 1);
    return laneOffset(lane) * LANE;
  }

  _line(packet, { x0, y0, x1, y1 }, shift, row) {
    const { view, context } = this;
    const { theme, selection } = view;
    const isChosen = selection?.kind === "packet" && selection.packet === packet.id;
    const ends = [[x0, y0 + shift], [x1, y1 + shift]];
    strokeLine(context, ends, theme.kinds[packet.kind], isChosen ? 3.4 : 1.6, DASHES[packet.kind]);
    if (view.step >= 14) this._head(ends, theme.kinds[packet.kind]);
    view.hits.push({ ax: x0, ay: y0 + shift, x: x1, y: y1 + shift, row, packet });
    this.left--;
  }

  /** An arrow's head at the end of a packet's line. */
  _head([[x0, y0], [x1, y1]], colour) {
    const turn = Math.atan2(y1 - y0, x1 - x0);
    const corner = (by) => [x1 - 7 * Math.cos(turn + by), y1 - 7 * Math.sin(turn + by)];
    this.context.beginPath();
    polygon(this.context, [[x1, y1], corner(0.39), corner(-0.39)]);
    this.context.fillStyle = colour;
    this.context.fill();
  }

  /** A packet that a link took out: its line to the middle of the link, and a cross. */
  _dropped(packet, route, at, behind) {
    const { view, context } = this;
    const before = behind.upTo.get(route.near[at]);
    const nearest = this._nearestBehind(route, at);
    if (before === null || nearest === null) return;
    const way = this._way(packet, route, before, nearest);
    const gone = packet.time + (route.begin[at] + route.end[at]) / 2;
    const part = way.end > way.begin ? Math.max(0.1, (gone - way.begin) / (way.end - way.begin)) : 0.5;
    const shift = this._shift(before, nearest, way.begin);
    const x = way.x0 + part * (way.x1 - way.x0);
    const y = way.y0 + part * (way.y1 - way.y0) + shift;
    const ends = [[way.x0, way.y0 + shift], [x, y]];
    strokeLine(context, ends, view.theme.kinds[packet.kind], 1.6, DASHES[packet.kind]);
    cross(context, x, y, 5, view.theme.cross, 2.5);
    view.hits.push({ ax: way.x0, ay: way.y0 + shift, x, y, row: packet.row, packet, link: route.link[at] });
    this.left--;
  }

  /** A packet that goes no further: its line to where its scope ends, and a bar across it. */
  _ended(packet, route, at, behind) {
    const { view, context } = this;
    const before = behind.upTo.get(route.near[at]);
    const nearest = this._nearestBehind(route, at);
    if (before === null || nearest === null) return;
    const way = this._way(packet, route, before, nearest);
    if (way.y1 < view.top - 40 || way.y0 > view.surface.height) return;
    const part = Math.max((packet.time + route.begin[at] - way.begin) / (way.end - way.begin), Math.min(0.3, 14 / view.step));
    const shift = this._shift(before, nearest, way.begin);
    const [x, y] = [way.x0 + part * (way.x1 - way.x0), way.y0 + part * (way.y1 - way.y0) + shift];
    strokeLine(context, [[way.x0, way.y0 + shift], [x, y]], view.theme.kinds[packet.kind], 1.6, DASHES[packet.kind]);
    endBar(context, view.theme, packet.kind, [x, y], Math.atan2(way.y1 - way.y0, way.x1 - way.x0), 5);
    view.hits.push({ ax: way.x0, ay: way.y0 + shift, x, y, row: packet.row, packet, isEnd: true });
    this.left--;
  }

  /** Of the shown members behind a place of a route the nearest, or null. */
  _nearestBehind(route, at) {
    const { memberNodes } = this.network;
    const behind = this.view.scope.columns.filter((member) => this._isBehind(route, at, memberNodes[member]));
    return behind.length ? behind[d3.scan(behind, (one, other) =>
      route.distance[memberNodes[one]] - route.distance[memberNodes[other]])] : null;
  }

  _isBehind(route, at, node) {
    for (let edge = route.edgeTo[node]; edge >= 0; edge = route.edgeTo[route.near[edge]]) if (edge === at) return true;
    return false;
  }
}
