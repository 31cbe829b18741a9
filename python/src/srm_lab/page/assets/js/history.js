// What happened in a run: who got, lacked and asked for what, with all timers and rests, from the rows in order.

const MOST_BACKOFFS = 10;

/**
 * The losses, timers and rests of a run, and in which rows a member gained an operation (`gains` is 1). Rows are numbers in
 * the page's trace; -1 stands for none.
 */
class History {
  constructor(trace, network, about, lengths) {
    this.trace = trace;
    this.network = network;
    this.constants = about.constants;
    this.steps = about.steps;
    this.lengths = about.timers ? lengths : null;
    this.nextLength = 0;
    this.losses = [];
    this.timers = [];
    this.rests = [];
    this.gains = new Uint8Array(trace.length);
    // of each member by name: the row that brought the operation, its loss, its pending repair timer, its last rest
    const byName = () => network.members.map(() => new Map());
    this.got = byName();
    this.lossAt = byName();
    this.repairAt = byName();
    this.restAt = byName();
    this.joined = new Int32Array(network.members.length).fill(-1);
    this.left = new Int32Array(network.members.length).fill(-1);
    for (let row = 0; row < trace.length; row++) this._take(row);
    this.lossesOf = grouped(this.losses, (loss) => loss.member);
    this.lossesOfName = grouped(this.losses, (loss) => loss.name);
    this.timersOf = grouped(this.timers, (timer) => timer.member);
    this.restsOf = grouped(this.rests, (rest) => rest.member);
  }

  _take(row) {
    const { trace } = this;
    const member = trace.member[row];
    for (const name of trace.lostIn(row)) this._lose(row, member, name);
    const cause = trace.cause[row];
    if (cause === CAUSE.join) this.joined[member] = row;
    else if (cause === CAUSE.leave) this._leave(row, member);
    else if (trace.tells(trace.name[row])) this._follow(row, member, trace.name[row]);
  }

  _lose(row, member, name) {
    const loss = { member, name, detected: row, recovered: -1, left: -1, asked: -1, requests: 0, timers: [] };
    this.lossAt[member].set(name, loss);
    this.losses.push(loss);
    this._ask(row, loss);
  }

  /** What a row about a name changes beside its losses. */
  _follow(row, member, name) {
    const cause = this.trace.cause[row];
    const result = this.trace.result[row];
    const isSent = result === RESULT.sent;
    if (result === RESULT.fixed) this._recover(row, member, name);
    if (result === RESULT.fresh || result === RESULT.fixed || (cause === CAUSE.draw && isSent)) this._gain(row, member, name);
    if (result === RESULT.back) this._backOff(row, member, name, "backed off");
    if (result === RESULT.plan) this._plan(row, member, name, this._asked(row));
    if (result === RESULT.busy) this._takeOver(row, member, name);
    if (cause === CAUSE.ask && isSent) this._backOff(row, member, name, "expired");
    if (cause === CAUSE.answer && isSent) this._answer(row, member, name);
    if (cause === CAUSE.repair && result !== RESULT.skip) this._hearRepair(row, member, name);
  }

  /** Who asks in a row that hears a request, and how far. */
  _asked(row) {
    const { sender, scope } = this.trace.packets[this.trace.packet[row]];
    return { requester: sender, width: scope };
  }

  _gain(row, member, name) {
    this.got[member].set(name, row);
    this.gains[row] = 1;
  }

  _recover(row, member, name) {
    const loss = this.lossAt[member].get(name);
    loss.recovered = row;
    this._end(loss.timers[loss.timers.length - 1], row, "stopped");
  }

  _backOff(row, member, name, how) {
    const loss = this.lossAt[member].get(name);
    if (loss.asked < 0) loss.asked = row;
    if (how === "expired") loss.requests++;
    this._end(loss.timers[loss.timers.length - 1], row, how);
    this._ask(row, loss);
  }

  /** Sets a request timer. */
  _ask(row, loss) {
    const backoffs = Math.min(loss.timers.length, MOST_BACKOFFS);
    const [c1, c2] = this.constants;
    const half = this.network.half(loss.member, this.trace.names[loss.name][0]);
    const timer = this._timer(row, loss.member, loss.name, KIND.request);
    timer.backoffs = backoffs;
    [timer.least, timer.most] = spanOf(2 ** backoffs * half, c1, c2);
    loss.timers.push(timer);
  }

  /** Sets a repair timer for a request; as a second step for one of the member's own. */
  _plan(row, member, name, asked) {
    const [, , d1, d2] = this.constants;
    const timer = this._timer(row, member, name, KIND.repair);
    Object.assign(timer, asked, { isSecond: asked.requester === member });
    [timer.least, timer.most] = spanOf(this.network.half(member, asked.requester), d1, d2);
    this.repairAt[member].set(name, timer);
  }

  /** A wider request takes over a repair timer that is pending for a narrower one. */
  _takeOver(row, member, name) {
    const timer = this.repairAt[member].get(name);
    const asked = this._asked(row);
    if (!timer || timer.isSecond || asked.width <= timer.width) return;
    timer.takenOver.push({ row, requester: timer.requester, width: timer.width });
    Object.assign(timer, asked);
  }

  _timer(row, member, name, kind) {
    const length = this.lengths ? this.lengths[this.nextLength++] : null;
    const timer = {
      member, name, kind, set: row, length, least: 0, most: 0, end: -1, how: "pending", backoffs: 0, requester: -1,
      width: Infinity, isSecond: false, takenOver: [],
    };
    this.timers.push(timer);
    return timer;
  }

  _end(timer, row, how) {
    timer.end = row;
    timer.how = how;
  }

  /** A member repairs: its timer ends, and it rests. */
  _answer(row, member, name) {
    const timer = this.repairAt[member].get(name);
    if (timer) this._end(timer, row, "expired");
    this.repairAt[member].delete(name);
    this._rest(row, name, timer, this.trace.packets[this.trace.sent[row]]);
  }

  /** A repair is heard: the member rests, a timer for a request that it serves ends, and the member may send it on. */
  _hearRepair(row, member, name) {
    if (this.network.members[member].role === "listener") return;
    const packet = this.trace.packets[this.trace.packet[row]];
    const timer = this.repairAt[member].get(name);
    const before = this.restAt[member].get(name);
    const rest = this._rest(row, name, timer, packet);
    if (timer && serves(this.network, rest.mark, member, timer)) {
      this._end(timer, row, "stopped");
      this.repairAt[member].delete(name);
    }
    if (this.steps === 2 && packet.scope < Infinity && packet.requester === member && !this.repairAt[member].has(name)
      && !this.isAtRest(before, row, packet)) this._plan(row, member, name, { requester: member, width: packet.width });
  }

  /** Whether a member is at rest for a request, by a rest that was on as a row came. */
  isAtRest(rest, row, asked) {
    return rest !== undefined && this.trace.time[row] < rest.to && serves(this.network, rest.mark, rest.member, asked);
  }

  /** A member rests: after a repair that it sent or heard, and as its timer, if one was pending, has it. */
  _rest(row, name, timer, packet) {
    const member = this.trace.member[row];
    const source = this.trace.names[name][0];
    const other = member !== source ? source : timer?.requester ?? packet.sender;
    const last = this.restAt[member].get(name);
    if (last) last.cut = row;
    const from = this.trace.time[row];
    const to = from + 3 * this.network.half(member, other);
    const rest = { member, name, begin: row, from, to, cut: -1, mark: markOf(this.network, packet, member) };
    this.restAt[member].set(name, rest);
    this.rests.push(rest);
    return rest;
  }

  /** A member leaves: its losses, timers and rests end with it. */
  _leave(row, member) {
    this.left[member] = row;
    for (const loss of this.lossAt[member].values()) {
      if (loss.recovered >= 0) continue;
      loss.left = row;
      this._end(loss.timers[loss.timers.length - 1], row, "left");
    }
    for (const timer of this.repairAt[member].values()) this._end(timer, row, "left");
    for (const rest of this.restAt[member].values()) rest.cut = row;
  }

  /** The row at which a loss ended, by recovery or leave, or -1. */
  endOf(loss) {
    return loss.recovered >= 0 ? loss.recovered : loss.left;
  }

  /** The tick before which a request makes a timer back off no further: null where it is not known. */
  ignoreUntil(timer) {
    const set = this.trace.time[timer.set];
    if (timer.backoffs === 0) return set;
    return timer.length === null ? null : set + Math.floor(timer.length / 2);
  }

  /** The tick at which a timer expires, or would have: null where it is not known. */
  expiryOf(timer) {
    return timer.length === null ? null : this.trace.time[timer.set] + timer.length;
  }
}

/** The least and the greatest length of a timer, of a scaled distance and two constants in thousandths. */
function spanOf(scaled, least, more) {
  return [Math.max(1, Math.floor((scaled * least) / 1000)), Math.max(1, Math.floor((scaled * (least + more)) / 1000))];
}
