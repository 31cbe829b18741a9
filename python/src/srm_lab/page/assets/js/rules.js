// The rule of docs/MODEL.md that a row followed, in words.

const MOST_NAMED = 4;

/** Tells rows in words. */
class Rules {
  constructor(history) {
    this.history = history;
    this.trace = history.trace;
    this.network = history.network;
  }

  /** What happened in a row, in one line. */
  headline(row) {
    const { trace } = this;
    const member = `Member ${trace.member[row]}`;
    const name = trace.nameText(trace.name[row]);
    const packet = trace.packet[row] >= 0 ? trace.packets[trace.packet[row]] : null;
    switch (trace.cause[row]) {
      case CAUSE.join: return `${member} joins`;
      case CAUSE.leave: return `${member} leaves`;
      case CAUSE.draw:
        return trace.result[row] === RESULT.sent ? `${member} draws ${name}` : `${member} is to draw, and draws nothing`;
      case CAUSE.report: return `${member} sends a session message`;
      case CAUSE.ask: return `${member} asks for ${name}`;
      case CAUSE.answer: return `${member} repairs ${name}`;
      case CAUSE.session: return `${member} hears a session message of member ${packet.sender}`;
      case CAUSE.request: return `${member} hears member ${packet.sender} ask for ${name}`;
      case CAUSE.repair: return `${member} hears a repair of ${name} by member ${packet.sender}`;
      default: return `${member} hears ${name} of its source`;
    }
  }

  /** The rule that a row followed: sentences. */
  rule(row) {
    const { trace } = this;
    const sentences = this._case(row);
    if (trace.lost[row] > 0) sentences.push(this._losses(row));
    if (trace.cause[row] === CAUSE.repair && trace.result[row] !== RESULT.skip) sentences.push(...this._heardRepair(row));
    if (trace.sent[row] >= 0) sentences.push(this._sent(row));
    return sentences;
  }

  _case(row) {
    const { trace } = this;
    const name = trace.nameText(trace.name[row]);
    switch (trace.result[row]) {
      case RESULT.in:
        return ["From its join on a member hears packets, and does what the scenario has it draw and report."];
      case RESULT.out: return ["A member that leaves takes its timers and its open losses with it."];
      case RESULT.fresh: return this._fresh(row, name);
      case RESULT.fixed: return [`It was missing ${name}. It takes the operation in, and its request timer ends.`];
      case RESULT.again: return [`It has ${name} already.`];
      case RESULT.told: return ["It learns the highest number that the sender knows of, page by page."];
      case RESULT.skip: return [this._skip(row, name)];
      case RESULT.rest: return [this._rest(row, name)];
      case RESULT.busy: return [this._busy(row, name)];
      case RESULT.plan:
        return [`It holds ${name}, ${this._noRest(row)}, and no repair timer is pending: it sets one for the requester.`,
          this._timer(row, KIND.repair)];
      case RESULT.hold: return [this._hold(row, name)];
      case RESULT.back:
        return [`It lacks ${name} too, and its ignore time is over: it backs off, so that its request timer is set anew.`,
          this._timer(row, KIND.request)];
      default: return this._sentCase(row, name);
    }
  }

  _isListener(row) {
    return this.network.members[this.trace.member[row]].role === "listener";
  }

  _fresh(row, name) {
    if (this._isListener(row)) return [`A listener takes in what it does not hold: ${name}.`];
    return [`${name} is at or above the first number of its page that the member had not heard of: it takes the `
      + "operation in."];
  }

  _skip(row, name) {
    const cause = this.trace.cause[row];
    if (this._isListener(row)) return "A listener skips all but data and repairs.";
    if (cause === CAUSE.draw) return "The page has its 4,096 operations, so nothing is drawn.";
    if (isArrival(cause)) {
      return `${name} is from before the first thing that this late member heard of the page, so it does not concern it.`;
    }
    return "There is no such timer.";
  }

  _rest(row, name) {
    const rest = this._restAt(row);
    const until = rest ? ` until tick ${grouping(rest.to)}` : "";
    return `It holds ${name}, but sent or heard a repair of it a short while ago: the name rests${until}, and the request `
      + `goes unanswered.${rest ? this._serving(rest, this._asked(row)) : ""}`;
  }

  /** Why no rest keeps a member from planning a repair. */
  _noRest(row) {
    const rest = this._restAt(row);
    if (!rest || this.trace.time[row] >= rest.to) return "no rest is on";
    const to = scopeInWords(this._asked(row).width);
    return `its rest up to ${grouping(rest.to)} does not count, since the repair that it comes from may not reach all who heard `
      + `this request, which goes ${to}`;
  }

  /** Who asks in a row that hears a request, and how far. */
  _asked(row) {
    const { sender, scope } = this.trace.packets[this.trace.packet[row]];
    return { requester: sender, width: scope };
  }

  /** How the repair that a rest comes from serves a request; nothing where it went to all. */
  _serving(rest, asked) {
    const { mark, member } = rest;
    if (mark.left === Infinity) return "";
    const repair = `repair ${this.trace.packetText(mark.packet)}`;
    return covers(this.network, mark, member, asked) ? ` The ${repair} reaches all who may have heard this request.`
      : ` The ${repair} was meant for a request of member ${asked.requester} that went at least as far.`;
  }

  _busy(row, name) {
    const timer = this._timerAt(row, KIND.repair);
    const told = timer
      ? ` It was set at ${grouping(this.trace.time[timer.set])} for member ${this._firstAsked(timer)}${this._due(timer)}.` : "";
    const isTaken = timer?.takenOver.some((it) => it.row === row);
    if (!isTaken) return `It holds ${name}, and its repair timer is pending already, which stays as it is.${told}`;
    return `It holds ${name}, and its repair timer is pending already. This request goes further, `
      + `${scopeInWords(this._asked(row).width)}: the timer now answers it, and is due as before.${told}`;
  }

  /** For whom a repair timer was set. */
  _firstAsked(timer) {
    return timer.takenOver.length ? timer.takenOver[0].requester : timer.requester;
  }

  _hold(row, name) {
    const timer = this._timerAt(row, KIND.request);
    const until = timer ? this.history.ignoreUntil(timer) : null;
    const at = until === null ? "" : `, tick ${grouping(until)},`;
    return `It lacks ${name} too, but backed off a short while ago: before its ignore time${at} a request makes it back off `
      + "no further.";
  }

  _sentCase(row, name) {
    switch (this.trace.cause[row]) {
      case CAUSE.ask:
        return [`Its request timer expired, and it still lacks ${name}: it asks ${this._whom(row)}, and backs off.`,
          this._timer(row, KIND.request)];
      case CAUSE.answer: return [`Its repair timer expired: ${this._answer(row, name)} ${this._restBegins(row)}`];
      case CAUSE.draw: return ["It draws the next operation of its page, holds it, and sends it as data."];
      default: return ["It tells of each page that it knows the highest number."];
    }
  }

  /** Whom a request asks. */
  _whom(row) {
    const { scope } = this.trace.packets[this.trace.sent[row]];
    return scope === Infinity ? "all members" : `those within ${counted(scope, "link")}`;
  }

  /** How far a repair goes, and why. */
  _answer(row, name) {
    const { scope, requester, width, sender } = this.trace.packets[this.trace.sent[row]];
    const asked = `the request of member ${requester}, which went ${scopeInWords(width)}`;
    switch (stepOf(this.trace.packets[this.trace.sent[row]], this.history.steps)) {
      case STEP.all: return `it sends ${name} to all.`;
      case STEP.one:
        return `it sends ${name} ${scopeInWords(scope)}, which is as far as ${asked}, and the `
          + `${counted(scope - width, "link")} between both.`;
      case STEP.first: return `it sends ${name} ${scopeInWords(scope)}, as far as ${asked}; that one sends it on.`;
      default: return `it sends on ${name}, which it asked for, ${scopeInWords(scope)}, as far as its request went: the second step.`;
    }
  }

  _losses(row) {
    const { trace, history } = this;
    const names = Array.from(trace.lostIn(row));
    const told = names.slice(0, MOST_NAMED).map((name) => trace.nameText(name)).join(", ");
    const more = trace.lost[row] - Math.min(names.length, MOST_NAMED);
    const rest = more > 0 ? ` and ${more} more` : "";
    const found = `By that it finds ${counted(trace.lost[row], "operation")} missing: ${told}${rest}.`;
    if (names.length !== 1) return `${found} Each gets a request timer.`;
    return `${found} ${this._timerText(history.lossAt[trace.member[row]].get(names[0]).timers[0])}`;
  }

  _heardRepair(row) {
    if (this._isListener(row)) return [];
    const timers = this._timersOf(row, KIND.repair);
    const ended = timers.some((timer) => timer.end === row);
    const stays = timers.find((timer) => timer.set < row && (timer.end < 0 || timer.end > row));
    return [
      `${this._restBegins(row)}${ended ? " Its own repair timer ends: the repair is sent already." : ""}`,
      stays && !stays.isSecond ? "Its own repair timer stays: this repair may not reach all who heard the request of member "
        + `${stays.requester}.` : "",
      stays?.isSecond ? "It sends the repair on itself already: its second step stays." : "",
      timers.some((timer) => timer.set === row && timer.isSecond)
        ? "The repair answers its own request: a tick later it sends it on, as far as the request went." : "",
    ];
  }

  _restBegins(row) {
    const rest = this._restsOf(row).find((it) => it.begin === row);
    if (!rest) return "";
    const ticks = counted(rest.to - rest.from, "tick");
    const which = rest.mark.left === Infinity ? "requests for it" : "requests for it that this repair serves";
    return `The name rests for ${ticks}, up to ${grouping(rest.to)}: ${which} go unanswered.`;
  }

  _sent(row) {
    const packet = this.trace.packets[this.trace.sent[row]];
    const links = this.network.linksThatTookOut(packet);
    const dropped = links.length ? ` It is dropped at ${links.length > 1 ? "links" : "link"} ${ranges(links)}.` : "";
    const far = packet.scope === Infinity ? "to all members" : scopeInWords(packet.scope);
    return `It sends its packet ${this.trace.packetText(packet)} ${far}.${dropped}`;
  }

  /** The timer that a row set. */
  _timer(row, kind) {
    const timer = this._timersOf(row, kind).filter((it) => it.set === row).pop();
    return timer ? this._timerText(timer) : "";
  }

  /** A timer in words: from where it was drawn, and when it ends. */
  _timerText(timer) {
    const kind = timer.kind === KIND.request ? "request" : "repair";
    const after = timer.backoffs ? ` after ${counted(timer.backoffs, "backoff")}` : "";
    return `The ${kind} timer is drawn from ${spanText(timer.least, timer.most)} ticks${after}${this._due(timer)}.`;
  }

  _due(timer) {
    const expiry = this.history.expiryOf(timer);
    return expiry === null ? "" : `, and is due at tick ${grouping(expiry)}`;
  }

  _timersOf(row, kind) {
    const { trace, history } = this;
    const timers = history.timersOf.get(trace.member[row]) ?? [];
    return timers.filter((timer) => timer.kind === kind && timer.name === trace.name[row]);
  }

  /** The timer that is pending as a row comes. */
  _timerAt(row, kind) {
    return this._timersOf(row, kind).filter((timer) => timer.set < row && (timer.end < 0 || timer.end >= row)).pop();
  }

  _restsOf(row) {
    const rests = this.history.restsOf.get(this.trace.member[row]) ?? [];
    return rests.filter((rest) => rest.name === this.trace.name[row]);
  }

  _restAt(row) {
    return this._restsOf(row).filter((rest) => rest.begin < row).pop();
  }
}
