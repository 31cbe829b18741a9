// The run, and what is derived from it.

/** What the page shows. */
class Model {
  constructor(data) {
    this.about = data.about;
    this.network = new Network(data.about);
    this.trace = new Trace(data);
    this.history = new History(this.trace, this.network, data.about, data.columns.timerLength);
    this.states = new States(this.history);
    this.moments = new Moments(this.trace, this.network, data.about);
    this.reasons = new Map();
    this.tables = {
      members: memberTable(this.history),
      losses: lossTable(this.history),
      links: linkTable(this.history),
    };
  }

  /** What became of an operation; kept, since it is looked up at each move. */
  reasonsOf(name) {
    if (!this.reasons.has(name)) this.reasons.set(name, new Reasons(this.history, name));
    return this.reasons.get(name);
  }

  /** The member whose operations are looked at: the first that sends data, or else the first. */
  get source() {
    return this.trace.packets.find((packet) => packet.kind === KIND.data)?.sender ?? 0;
  }

  /** Whether some request or repair goes a number of links only. */
  get isLocal() {
    return this.trace.packets.some((packet) => packet.scope < Infinity);
  }

  /** A table's text as the program writes it. */
  csv(name) {
    switch (name) {
      case "members": return csvOf(MEMBER_COLUMNS, this.tables.members);
      case "losses": return csvOf(LOSS_COLUMNS, this.tables.losses.map((item) => item.values));
      case "links": return csvOf(LINK_COLUMNS, this.tables.links);
      default: return csvOf(TRACE_COLUMNS, Array.from(this.trace.time, (_, row) => this.trace.fields(row)));
    }
  }
}
