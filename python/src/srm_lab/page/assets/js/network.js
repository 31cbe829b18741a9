// The tree of nodes and links, the ways of packets through it, and where packets are lost.

/** The links by which a packet of one node goes to the members, nearest first, with the ticks from its sending. */
class Route {
  constructor(network, root) {
    this.root = root;
    this.distance = new Float64Array(network.nodes).fill(Infinity);
    this.hops = new Int32Array(network.nodes);
    this.edgeTo = new Int32Array(network.nodes).fill(-1);
    const edges = this._walk(network, root);
    this._keep(edges, network);
  }

  /** All links away from the root, breadth first. */
  _walk(network, root) {
    const edges = [];
    const order = [root];
    this.distance[root] = 0;
    for (const near of order) {
      for (const { node: far, link, delay } of network.near[near]) {
        if (this.distance[far] < Infinity) continue;
        this.distance[far] = this.distance[near] + delay;
        this.hops[far] = this.hops[near] + 1;
        edges.push({ near, far, link });
        order.push(far);
      }
    }
    return edges;
  }

  /** Keeps the links that lead to a member. */
  _keep(edges, network) {
    const leads = new Uint8Array(network.nodes);
    for (const node of network.memberNodes) leads[node] = 1;
    for (let at = edges.length - 1; at >= 0; at--) leads[edges[at].near] |= leads[edges[at].far];
    const kept = edges.filter((edge) => leads[edge.far]);
    this.near = Int32Array.from(kept, (edge) => edge.near);
    this.far = Int32Array.from(kept, (edge) => edge.far);
    this.link = Int32Array.from(kept, (edge) => edge.link);
    this.begin = Float64Array.from(kept, (edge) => this.distance[edge.near]);
    this.end = Float64Array.from(kept, (edge) => this.distance[edge.far]);
    kept.forEach((edge, at) => { this.edgeTo[edge.far] = at; });
    this.longest = this.end.reduce((most, end) => Math.max(most, end), 0);
    this.deepest = this.far.reduce((most, node) => Math.max(most, this.hops[node]), 0);
  }
}

/** A scenario's network, with its members. */
class Network {
  constructor(about) {
    this.kind = about.kind;
    this.nodes = about.nodes;
    this.links = about.links.map(([a, b, delay, back]) => ({ a, b, delay, back }));
    this.members = about.members.map(([node, role, stream, join, leave, pages]) =>
      ({ node, role, stream, join, leave, pages }));
    this.memberNodes = this.members.map((member) => member.node);
    this.memberAt = new Int32Array(this.nodes).fill(-1);
    this.memberNodes.forEach((node, member) => { this.memberAt[node] = member; });
    this.near = Array.from({ length: this.nodes }, () => []);
    this.links.forEach(({ a, b, delay, back }, link) => {
      this.near[a].push({ node: b, link, delay });
      this.near[b].push({ node: a, link, delay: back });
    });
    this.routes = new Map();
    this.trips = new Map();
    this.drops = new Map();
    for (const [link, sender, count] of about.drops) this._drop(`${sender}:${count}`, link);
    this._outages(about.outages.map(([link, from, to]) => ({ link, from, to })));
    this.losses = new RandomLosses(about.losses, about.seed);
  }

  _outages(outages) {
    const times = (some) => new Times(some.map(({ from, to }) => [from, to]));
    this.outages = outages;
    this.outagesByLink = grouped(outages, (it) => it.link);
    this.timesOut = new Map(Array.from(this.outagesByLink, ([link, some]) => [link, times(some)]));
    this.timesOfOutages = times(outages);
  }

  _drop(packet, link) {
    if (!this.drops.has(packet)) this.drops.set(packet, new Set());
    this.drops.get(packet).add(link);
  }

  /** The ways from a member to all others. */
  routeOf(member) {
    const node = this.memberNodes[member];
    if (!this.routes.has(node)) this.routes.set(node, new Route(this, node));
    return this.routes.get(node);
  }

  /** The distance from a member to another, in ticks. */
  distance(from, to) {
    return this.routeOf(from).distance[this.memberNodes[to]];
  }

  /** How many links are between a member that sends something and another. */
  hops(from, to) {
    return this.routeOf(from).hops[this.memberNodes[to]];
  }

  /** How long a packet takes from a member to another and another one back. */
  roundTrip(member, other) {
    const node = this.memberNodes[other];
    if (!this.trips.has(node)) this.trips.set(node, this._tripsFrom(node));
    return this.trips.get(node)[this.memberNodes[member]];
  }

  /** For each node its round trip from a root. */
  _tripsFrom(root) {
    const trips = new Float64Array(this.nodes).fill(Infinity);
    trips[root] = 0;
    const order = [root];
    for (const near of order) {
      for (const { node, link } of this.near[near]) {
        if (trips[node] < Infinity) continue;
        trips[node] = trips[near] + this.links[link].delay + this.links[link].back;
        order.push(node);
      }
    }
    return trips;
  }

  /** Half the round trip, rounded down: what timers and rests go by. */
  half(member, other) {
    return Math.floor(this.roundTrip(member, other) / 2);
  }

  /** A link's outages. */
  outagesOf(link) {
    return this.outagesByLink.get(link) ?? [];
  }

  /** Whether anything may take a packet out that is on its way from a tick to another, but for what is listed of it. */
  isLossy(begin, end) {
    return this.timesOfOutages.meet(begin, end) || this.losses.times.meet(begin, end);
  }

  /** Whether a link is out at a tick. */
  isOut(link, tick) {
    return this.timesOut.get(link)?.meet(tick) ?? false;
  }

  /** The links that took a packet out. */
  linksThatTookOut(packet) {
    const route = this.routeOf(packet.sender);
    return (this.fateOf(packet)?.dropped ?? []).map((at) => route.link[at]);
  }

  /**
   * What became of a packet on its way: null where it came to all; else `dropped`, the route's places at which a link took
   * it out, `ended`, those before which its scope ended, and `crossed`, which has a 1 for each place that it crossed.
   */
  fateOf(packet) {
    const drops = this.drops.get(`${packet.sender}:${packet.count}`);
    const route = this.routeOf(packet.sender);
    if (!drops && packet.scope >= route.deepest && !this.isLossy(packet.time, packet.time + route.longest)) return null;
    const crossed = new Uint8Array(route.link.length);
    const dropped = [];
    const ended = [];
    for (let at = 0; at < route.link.length; at++) {
      const before = route.edgeTo[route.near[at]];
      if (before >= 0 && !crossed[before]) continue;
      const [link, tick] = [route.link[at], packet.time + route.begin[at]];
      if (route.hops[route.near[at]] >= packet.scope) ended.push(at);
      else if (drops?.has(link) || this.isOut(link, tick) || this.losses.take(link, packet, tick)) dropped.push(at);
      else crossed[at] = 1;
    }
    return dropped.length || ended.length ? { dropped, ended, crossed } : null;
  }
}

/** Lists of items by key. */
function grouped(items, keyOf) {
  const lists = new Map();
  items.forEach((item, at) => {
    const key = keyOf(item, at);
    if (!lists.has(key)) lists.set(key, []);
    lists.get(key).push(item);
  });
  return lists;
}
