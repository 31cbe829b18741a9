// Where the nodes of a network stand: by its kind.

const MOST_IN_A_LINE = 14;
const MOST_LAYERED_LEAVES = 36;
const MOST_ON_A_RING = 160;
const INNERMOST_RING = 0.3;
const MOST_MOVED_APART = 5000;
const MOVES_APART = 10;
// how much of a layer's distance from the root goes by the nodes up to it, the rest by its depth
const SHARE_BY_NODES = 0.5;
// how far apart nodes are at least, as a part of the distance at which they would fill the disc
const SHARE_OF_ROOM = 0.6;
// a larger network needs all the room that there is, so that its rings become ellipses
const MOST_ROUND = 100;
// margins in pixels, and in parts of a small box; of a large network for the largest mark with its ring
const MARGIN = { most: 46, part: 0.08 };
const LARGE_MARGIN = { most: 24, part: 0.06 };

/** Positions of nodes, in units of their own, and whether they may be stretched to fill a box. */
class Layout {
  constructor(network, root) {
    this.x = new Float64Array(network.nodes);
    this.y = new Float64Array(network.nodes);
    this.isLarge = network.nodes > MOST_ROUND;
    this.isStretched = this.isLarge;
    const degrees = network.near.map((near) => near.length);
    const hub = degrees.indexOf(network.nodes - 1);
    if (network.nodes > 1 && degrees.every((degree) => degree <= 2)) this._chain(network, degrees);
    else if (network.nodes > 3 && hub >= 0) this._star(network, hub);
    else this._tree(network, root);
  }

  _place(node, x, y) {
    this.x[node] = x;
    this.y[node] = y;
  }

  /** A line, or rows that run to and fro. */
  _chain(network, degrees) {
    const order = [];
    for (let node = degrees.findIndex((degree) => degree < 2), last = -1; node !== undefined;) {
      order.push(node);
      const next = network.near[node].map((it) => it.node).find((other) => other !== last);
      [last, node] = [node, next];
    }
    if (order[0] > order[order.length - 1]) order.reverse();
    const across = order.length <= MOST_IN_A_LINE ? order.length : Math.ceil(Math.sqrt(order.length * 1.5));
    order.forEach((node, at) => {
      const row = Math.floor(at / across);
      const place = row % 2 === 0 ? at % across : across - 1 - (at % across);
      this._place(node, place, row);
    });
    this.isStretched = true;
  }

  _placeAround(node, angle, radius) {
    this._place(node, radius * Math.sin(angle), -radius * Math.cos(angle));
  }

  /** The hub within a ring, or within rings as far apart as the nodes on them. */
  _star(network, hub) {
    const leaves = network.near[hub].map((it) => it.node).sort((one, other) => one - other);
    let placed = 0;
    for (const { radius, count } of ringsFor(leaves.length)) {
      for (let at = 0; at < count; at++) this._placeAround(leaves[placed++], (2 * Math.PI * at) / count, radius);
    }
    this._place(hub, 0, 0);
  }

  /** Layers below the root, or around it where there are many leaves. */
  _tree(network, root) {
    const hierarchy = d3.hierarchy({ node: root, from: -1 }, ({ node, from }) =>
      network.near[node].filter((it) => it.node !== from).map((it) => ({ node: it.node, from: node })));
    const leaves = hierarchy.leaves().length;
    if (leaves <= MOST_LAYERED_LEAVES) {
      d3.tree().nodeSize([1, 1])(hierarchy);
      hierarchy.each((it) => this._place(it.data.node, it.x, it.y));
      this.isStretched = true;
      return;
    }
    const separation = (one, other) => (one.parent === other.parent ? 1 : 1.6) / Math.max(1, one.depth);
    d3.tree().size([2 * Math.PI, 1]).separation(separation)(hierarchy);
    this._layers(hierarchy);
    if (network.nodes <= MOST_MOVED_APART) this._moveApart();
  }

  /** Moves nodes apart that stand too close to be told apart. */
  _moveApart() {
    const places = Array.from(this.x, (x, node) => ({ x, y: this.y[node] }));
    const reach = (SHARE_OF_ROOM * Math.sqrt(Math.PI / places.length)) / 2;
    d3.forceSimulation(places).force("apart", d3.forceCollide(reach).iterations(2)).stop().tick(MOVES_APART);
    places.forEach(({ x, y }, node) => this._place(node, x, y));
  }

  /** Layers around the root, as wide as their nodes need; nodes of a crowded layer stand on several rings in turn. */
  _layers(hierarchy) {
    const layers = Array.from(grouped(hierarchy.descendants(), (it) => it.depth).values());
    const crowds = layers.map(crowdOf);
    let inner = 0;
    layers.forEach((layer, depth) => {
      const share = Math.sqrt(d3.sum(crowds.slice(0, depth + 1)) / d3.sum(crowds));
      const outer = depth && (1 - SHARE_BY_NODES) * (depth / hierarchy.height) + SHARE_BY_NODES * share;
      const gap = outer - inner;
      const rings = Math.max(1, Math.floor(Math.sqrt((crowds[depth] * gap) / (2 * Math.PI * outer || 1))));
      layer.forEach(({ data, x }, at) => this._placeAround(data.node, x, outer - (gap * (at % rings)) / rings));
      inner = outer;
    });
  }

  /** Each node's place in a box of this size, within a margin. */
  fitted(width, height) {
    const { most, part } = this.isLarge ? LARGE_MARGIN : MARGIN;
    const margin = Math.min(most, part * Math.min(width, height));
    const [left, right] = d3.extent(this.x);
    const [top, bottom] = d3.extent(this.y);
    const across = Math.max(right - left, 1e-9);
    const down = Math.max(bottom - top, 1e-9);
    let scaleX = (width - 2 * margin) / across;
    let scaleY = (height - 2 * margin) / down;
    if (!this.isStretched) scaleX = scaleY = Math.min(scaleX, scaleY);
    scaleX = Math.min(scaleX, 1e6);
    const xs = this.x.map((x) => width / 2 + (x - (left + right) / 2) * (across > 1e-6 ? scaleX : 0));
    const ys = this.y.map((y) => height / 2 + (y - (top + bottom) / 2) * (down > 1e-6 ? scaleY : 0));
    return { x: xs, y: ys };
  }
}

/** Rings with room for so many nodes, the outermost first: their radii, and how many nodes each has. */
function ringsFor(nodes) {
  if (nodes <= MOST_ON_A_RING) return [{ radius: 1, count: nodes }];
  const width = 1 - INNERMOST_RING;
  const number = Math.round(width / Math.sqrt((Math.PI * (1 - INNERMOST_RING ** 2)) / nodes));
  const radii = d3.range(number).map((ring) => 1 - (width * ring) / (number - 1));
  const upTo = (ring) => Math.round((nodes * d3.sum(radii.slice(0, ring))) / d3.sum(radii));
  return radii.map((radius, ring) => ({ radius, count: upTo(ring + 1) - upTo(ring) }));
}

/** How many nodes a layer would have if all around it they stood as close as most of its nodes do. */
function crowdOf(layer) {
  const turns = d3.pairs(layer, (one, other) => other.x - one.x);
  return layer.length > 2 ? (2 * Math.PI) / d3.quantile(turns.sort(d3.ascending), 0.25) : layer.length;
}
