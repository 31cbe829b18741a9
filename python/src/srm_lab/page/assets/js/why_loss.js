// A loss, explained: who lost an operation, who asked and held back whom, who planned repairs and who answered.

/** Explains what became of operations. */
class WhyLoss {
  constructor(model, refs) {
    Object.assign(this, { model, refs });
  }

  /** What became of an operation; the loss of `member`, if it is one, comes first. */
  parts(name, member) {
    const reasons = this.model.reasonsOf(name);
    return [
      this._drawn(reasons),
      element("p", { class: "rule" }, storyOf(reasons).join(" ")),
      ...this._losers(reasons, member),
      ...this._requests(reasons),
      ...this._plans(reasons),
      ...this._repairs(reasons),
    ];
  }

  _drawn(reasons) {
    const { refs } = this;
    const { drawn } = reasons;
    if (!drawn) return element("p", { class: "soft" }, "The row in which it is drawn is not on this page.");
    const links = reasons.droppedAt(drawn);
    const fate = links.length ? [". Dropped at ", ...refs.links(links)] : [". No link dropped it"];
    return element("p", {}, "Drawn by member ", refs.member(drawn.sender), " at tick ", refs.sendingOf(drawn),
      ", sent as packet ", refs.packet(drawn), ...fate, ".");
  }

  _losers(reasons, member) {
    const { refs } = this;
    const losses = reasons.losses.slice().sort((one, other) => (other.member === member) - (one.member === member));
    if (!losses.length) return [];
    const lines = losses.map((loss) => [
      refs.member(loss.member),
      [refs.row(loss.detected), `, ${reasons.found(loss)}`],
      reasons.wouldAsk(loss),
      loss.requests ? `${loss.requests}×` : "no",
      loss.recovered >= 0 ? refs.row(loss.recovered) : loss.left >= 0 ? "left" : "open",
      this._delay(reasons.delay(loss)),
    ]);
    const heads = ["member", "found", "would ask", "asked", "recovered", "round trips"];
    return [element("h3", {}, `Who lost it: ${counted(losses.length, "member")}`), smallTable(heads, lines)];
  }

  /** A delay in round trips, and as the table of losses has it. */
  _delay(delay) {
    return delay ? `${tripsText(delay.trips)} (${delay.ticks}/${delay.trip})` : "";
  }

  _requests(reasons) {
    const { refs } = this;
    const { requests } = reasons;
    if (!requests.length) return [];
    const heads = ["tick", "member", "packet", "links far", "heard by", "suppressed", "backed off", "ignored by", "made plan",
      "plan already", "rested", "dropped at"];
    const lines = requests.map((request) => [
      refs.sendingOf(request.packet), refs.member(request.packet.sender), refs.packet(request.packet),
      ...this._reach(reasons, request),
      ...[request.suppressed, request.backedOff.filter((member) => !request.suppressed.includes(member)), request.ignored,
        request.planned, request.busy, request.resting].map((it) => refs.members(it)),
      refs.links(request.droppedAt),
    ]);
    return [element("h3", {}, `Who asked: ${counted(requests.length, "request")}`), smallTable(heads, lines)];
  }

  /** How many links a packet went, and how many members heard it; of an operation all of whose packets went to all, nothing. */
  _reach(reasons, { packet, heard }) {
    if (!reasons.isLocal) return ["", ""];
    return [packet.scope === Infinity ? "to all" : grouping(packet.scope), counted(heard, "member")];
  }

  _plans(reasons) {
    const { refs } = this;
    const { plans } = reasons;
    if (!plans.length) return [];
    const heads = ["member", "set at", "for", "drawn from", "due at", "then"];
    const lines = plans.map((plan) => {
      const expiry = this.model.history.expiryOf(plan);
      const how = plan.how === "expired" ? "answered at " : `${plan.how} at `;
      const end = plan.end < 0 ? "pending at the end" : [how, refs.row(plan.end)];
      return [refs.member(plan.member), refs.row(plan.set), this._answered(plan),
        spanText(plan.least, plan.most), expiry === null ? "unknown" : grouping(expiry), end];
    });
    return [element("h3", {}, `Who planned a repair: ${counted(plans.length, "timer")}`), smallTable(heads, lines)];
  }

  /** For whom a repair was planned: in a second step for all who heard the request, or for one after the other. */
  _answered(plan) {
    const { refs } = this;
    if (plan.isSecond) return "second step";
    const before = plan.takenOver.flatMap(({ requester }) => [refs.member(requester), ", then "]);
    return [...before, refs.member(plan.requester)];
  }

  _repairs(reasons) {
    const { refs } = this;
    const { repairs } = reasons;
    if (!repairs.length) return [];
    const heads = ["tick", "member", "packet", "how", "links far", "heard by", "recovered", "stopped the timers of", "heard in vain",
      "dropped at"];
    const lines = repairs.map((repair) => [
      refs.sendingOf(repair.packet), refs.member(repair.packet.sender), refs.packet(repair.packet),
      reasons.isLocal ? STEPS[repair.step] : "", ...this._reach(reasons, repair),
      refs.members(repair.fixed), refs.members(repair.stopped), counted(repair.duplicates, "member"),
      refs.links(repair.droppedAt),
    ]);
    return [element("h3", {}, `Who answered: ${counted(repairs.length, "repair")}`), smallTable(heads, lines)];
  }
}
