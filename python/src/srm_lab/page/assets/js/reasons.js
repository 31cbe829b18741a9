// Why a loss went as it did: who lost an operation, who asked, who was held back, who repaired.

/** What became of one operation. Rows are places in the trace. */
class Reasons {
  constructor(history, name) {
    this.history = history;
    this.trace = history.trace;
    this.name = name;
    this.losses = (history.lossesOfName.get(name) ?? []).slice().sort((one, other) => one.detected - other.detected);
    const packets = this.trace.packets.filter((packet) => packet.name === name);
    const ofKind = (kind) => packets.filter((packet) => packet.kind === kind);
    this.drawn = ofKind(KIND.data)[0] ?? null;
    this.requests = ofKind(KIND.request).map((packet) => this._request(packet));
    this.repairs = ofKind(KIND.repair).map((packet) => this._repair(packet));
    this.plans = history.timers.filter((timer) => timer.kind === KIND.repair && timer.name === name);
  }

  /**
   * A request: whom it suppressed, who backed off (those and others that had asked before), who ignored it, whom it made
   * plan a repair, and who planned already or rested.
   */
  _request(packet) {
    const heard = Array.from(this.trace.hearersOf(packet));
    const membersWith = (result) => heard.filter((row) => this.trace.result[row] === result)
      .map((row) => this.trace.member[row]);
    const asked = new Set(this._askedBefore(heard));
    return {
      packet,
      suppressed: membersWith(RESULT.back).filter((member) => !asked.has(member)),
      backedOff: membersWith(RESULT.back),
      ignored: membersWith(RESULT.hold),
      planned: membersWith(RESULT.plan),
      busy: membersWith(RESULT.busy),
      resting: membersWith(RESULT.rest),
      heard: heard.length,
      droppedAt: this.droppedAt(packet),
    };
  }

  /** The members of some rows that asked for the operation themselves before these. */
  _askedBefore(rows) {
    const { trace } = this;
    const own = this.losses.filter((loss) => loss.requests > 0);
    const first = new Map(own.map((loss) => [loss.member, loss.timers.find((timer) => timer.how === "expired").end]));
    return rows.filter((row) => first.get(trace.member[row]) < row).map((row) => trace.member[row]);
  }

  /** A repair: who took the operation from it, and whose repair timer it ended. */
  _repair(packet) {
    const heard = Array.from(this.trace.hearersOf(packet));
    const fixed = heard.filter((row) => this.trace.result[row] === RESULT.fixed).map((row) => this.trace.member[row]);
    const rows = new Set(heard);
    const stopped = this.history.timers
      .filter((timer) => timer.kind === KIND.repair && timer.name === this.name && rows.has(timer.end))
      .map((timer) => timer.member);
    return { packet, fixed, stopped, heard: heard.length, duplicates: heard.length - fixed.length,
      step: stepOf(packet, this.history.steps), droppedAt: this.droppedAt(packet) };
  }

  /** Whether some request or repair went a number of links only. */
  get isLocal() {
    return [...this.requests, ...this.repairs].some(({ packet }) => packet.scope < Infinity);
  }

  /** The members that heard packets. */
  hearersOf(packets) {
    return new Set(packets.flatMap(({ packet }) => Array.from(this.trace.hearersOf(packet), (row) => this.trace.member[row])));
  }

  /** The links at which a packet was dropped. */
  droppedAt(packet) {
    return this.history.network.linksThatTookOut(packet);
  }

  /** Where a packet of the operation, or what it carries, first came into being: its source. */
  get source() {
    return this.trace.names[this.name][0];
  }

  /** By what a member found a loss. */
  found(loss) {
    const { trace } = this;
    const row = loss.detected;
    const packet = trace.packets[trace.packet[row]];
    if (trace.cause[row] === CAUSE.session) return `session of ${packet.sender}`;
    if (trace.cause[row] === CAUSE.request) return `request of ${packet.sender}`;
    return `gap before ${trace.nameText(trace.name[row])}`;
  }

  /** When a loser would have asked, by its first timer: a tick, or the interval it was drawn from. */
  wouldAsk(loss) {
    const timer = loss.timers[0];
    const expiry = this.history.expiryOf(timer);
    if (expiry !== null) return grouping(expiry);
    const set = this.trace.time[timer.set];
    return spanText(set + timer.least, set + timer.most);
  }

  /** A loss's delay in round trips to the source, or null while it is open. */
  delay(loss) {
    if (loss.recovered < 0) return null;
    const ticks = this.trace.time[loss.recovered] - this.trace.time[loss.detected];
    const trip = this.history.network.roundTrip(loss.member, this.source);
    return { ticks, trip, trips: ticks / trip };
  }

  /** The members that the loss concerns: source, losers, requesters, and those that planned or sent repairs. */
  members() {
    const found = new Set([this.source]);
    for (const loss of this.losses) found.add(loss.member);
    for (const { packet } of [...this.requests, ...this.repairs]) found.add(packet.sender);
    for (const plan of this.plans) found.add(plan.member);
    return found;
  }
}
