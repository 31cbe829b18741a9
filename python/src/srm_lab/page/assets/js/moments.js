// When a run is busy: from where to where packets travel or events are handled.

/** A run's first and last tick, and the spans in which something happens. */
class Moments {
  constructor(trace, network, about) {
    const flights = trace.packets.map((packet) => [packet.time, packet.time + this._flight(packet, network)]);
    const ticks = trace.time.filter((time, row) => row === 0 || time !== trace.time[row - 1]);
    const limit = Math.min(about.until, about.cut.to ?? Infinity);
    this.begin = about.cut.from;
    this.busy = united([...flights, ...Array.from(ticks, (time) => [time, time])])
      .map(([begin, end]) => [Math.max(begin, this.begin), Math.min(end, limit)])
      .filter(([begin, end]) => begin <= end);
    const last = this.busy[this.busy.length - 1];
    this.end = Math.max(last ? last[1] : 0, this.begin);
  }

  /** How long a packet travels, to the farthest member or to the last link that takes it out. */
  _flight(packet, network) {
    const route = network.routeOf(packet.sender);
    const fate = network.fateOf(packet);
    if (!fate) return route.longest;
    const dropped = new Set(fate.dropped);
    return route.end.reduce((most, end, at) => (fate.crossed[at] || dropped.has(at) ? Math.max(most, end) : most), 0);
  }

  /** The ticks in which something happens, in all. */
  get length() {
    return this.busy.reduce((sum, [begin, end]) => sum + end - begin, 0);
  }

  /** The beginning of the next busy span after a tick, or null where the tick is in one, or after the last. */
  nextAfter(tick) {
    const at = d3.bisector(([begin]) => begin).right(this.busy, tick);
    if (at > 0 && tick <= this.busy[at - 1][1]) return null;
    return at < this.busy.length ? this.busy[at][0] : null;
  }
}
