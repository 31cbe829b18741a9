// A member, explained: what it holds and lacks, its timers and rests, and all that over time.

const MOST_LACKED = 12;
const ROLE_WORDS = {
  sender: "sender: draws, and is else as a receiver",
  receiver: "receiver: finds its losses, asks and answers",
  late: "late: asks for earlier operations on the pages that it wants only",
  listener: "listener: takes in data and repairs, and nothing else",
};
const LANES_WORDS = "Shaded: lacked. Ring: a timer is set, dot: it expires, bar: it is stopped or set anew. "
  + "Band below: the interval from which it was drawn. Line above: requests are ignored. Dashed box: rest.";

/** Explains members at the present moment. */
class WhyMember {
  constructor(model, refs, onPick) {
    Object.assign(this, { model, refs, onPick });
  }

  parts(member) {
    const { network, states, history } = this.model;
    const { node, role, join, leave } = network.members[member];
    return [
      listOf([
        ["role", ROLE_WORDS[role]],
        ["node", `${node}`],
        ["state", STATE_WORDS[STATES[states.of(member)]]],
        ["there", `from tick ${grouping(join)}${leave === null ? " on" : ` to ${grouping(leave)}`}`],
        ...this._holds(member),
      ]),
      ...this._timers(member),
      ...this._rests(member),
      element("h3", {}, "Over time"),
      ...this._lanes(member, role),
      history.timersOf.get(member) ? element("p", { class: "soft" }, LANES_WORDS) : null,
    ];
  }

  /** What a member holds and lacks now, by source and page. */
  _holds(member) {
    const { history, states, trace } = this.model;
    const held = new Map();
    for (const [name, row] of history.got[member]) if (row < states.rows) this._addTo(held, trace.names[name]);
    const lacked = (history.lossesOf.get(member) ?? []).filter((loss) => this._isLacked(loss)).map((loss) => loss.name);
    const pages = Array.from(held, ([page, numbers]) => element("div", {}, `${page}/`, ranges(numbers)));
    const names = lacked.slice(0, MOST_LACKED).flatMap((name, at) => [at ? ", " : "", this.refs.name(name)]);
    const more = lacked.length - MOST_LACKED;
    const isGone = states.of(member) === STATE.left;
    return [
      [isGone ? "held" : "holds", ...(pages.length ? pages : ["nothing"])],
      [isGone ? "lacked" : "lacks", ...(names.length ? names : ["nothing"]), more > 0 ? ` and ${more} more` : ""],
    ];
  }

  _addTo(pages, [source, page, number]) {
    const key = `${source}/${page}`;
    if (!pages.has(key)) pages.set(key, []);
    pages.get(key).push(number);
  }

  /** Whether a loss is open now, or was open as its member left. */
  _isLacked(loss) {
    const { rows } = this.model.states;
    return loss.detected < rows && (loss.recovered < 0 || loss.recovered >= rows);
  }

  /** Timers that are pending now. */
  _timers(member) {
    const { history, states } = this.model;
    const pending = (history.timersOf.get(member) ?? [])
      .filter((timer) => timer.set < states.rows && (timer.end < 0 || timer.end >= states.rows));
    if (!pending.length) return [];
    const heads = ["operation", "to", "set at", "drawn from", "due at", "backoffs", "ignores to"];
    return [element("h3", {}, "Timers pending now"), smallTable(heads, pending.map((timer) => this._timer(timer)))];
  }

  _timer(timer) {
    const { refs } = this;
    const { history } = this.model;
    const isRequest = timer.kind === KIND.request;
    const known = (tick) => (tick === null ? "unknown" : grouping(tick));
    return [
      refs.name(timer.name),
      isRequest ? "ask" : timer.isSecond ? "send the repair on" : ["repair for ", refs.member(timer.requester)],
      refs.row(timer.set),
      spanText(timer.least, timer.most),
      known(history.expiryOf(timer)),
      isRequest ? `${timer.backoffs}` : "",
      isRequest ? known(history.ignoreUntil(timer)) : "",
    ];
  }

  /** Rests that are on. */
  _rests(member) {
    const { history, states } = this.model;
    const rests = (history.restsOf.get(member) ?? []).filter((rest) => rest.begin < states.rows
      && states.tick < rest.to && (rest.cut < 0 || rest.cut >= states.rows));
    if (!rests.length) return [];
    const heads = ["operation", "since", "answers no request before", "but such as"];
    const lines = rests.map((rest) => [this.refs.name(rest.name), this.refs.row(rest.begin), grouping(rest.to),
      this._unserved(rest)]);
    return [element("h3", {}, "Rests"), smallTable(heads, lines)];
  }

  /** Which requests a member answers in spite of a rest. */
  _unserved({ mark, member }) {
    if (mark.left === Infinity) return "";
    const own = mark.requester === member ? "" : `, unless they are of member ${mark.requester} and at most `
      + `${counted(mark.width, "link")} wide`;
    return `go beyond ${counted(mark.left, "link")} from here${own}`;
  }

  _lanes(member, role) {
    const lanes = new Lanes(this.model, member, this.model.states.tick, this.onPick);
    const none = role === "listener" ? "A listener keeps no timers." : "It lost nothing, and set no timer.";
    const left = `${lanes.left} more operations are left out: these are the ones nearest to this tick.`;
    return [
      lanes.element() ?? element("p", { class: "soft" }, none),
      lanes.left > 0 ? element("p", { class: "soft" }, left) : null,
    ];
  }
}
