// What is selected, explained: a row, a packet or a link here, a member and a loss in files of their own.

const MOST_LISTED = 20;

/** The panel that explains what is selected. */
class Why {
  constructor(box, model, onPick) {
    Object.assign(this, { box, model, onPick });
    this.rules = new Rules(model.history);
    this.refs = new References(model.trace, onPick);
    this.ofMember = new WhyMember(model, this.refs, onPick);
    this.ofLoss = new WhyLoss(model, this.refs);
  }

  /** Explains a selection at the present moment. */
  show(selection) {
    const top = this.box.scrollTop;
    const shown = JSON.stringify(selection);
    const isSame = shown === this.shown;
    this.shown = shown;
    this.box.replaceChildren(...this._parts(selection).filter(Boolean));
    this.box.scrollTop = isSame ? top : 0;
  }

  _parts(selection) {
    const close = () => this.onPick(null);
    switch (selection?.kind) {
      case "member": return [headOf(`Member ${selection.member}`, close), ...this.ofMember.parts(selection.member)];
      case "loss":
        return [headOf(`Operation ${this.model.trace.nameText(selection.name)}`, close),
          ...this.ofLoss.parts(selection.name, selection.member)];
      case "row": return [headOf(this.rules.headline(selection.row), close), ...this._row(selection.row)];
      case "packet": return this._packet(this.model.trace.packets[selection.packet], close);
      case "link": return [headOf(`Link ${selection.link}`, close), this._link(selection.link)];
      default: return this._lastEvent();
    }
  }

  /** Where nothing is selected: the last event. */
  _lastEvent() {
    const { rows } = this.model.states;
    const hint = element("p", { class: "soft" }, "Select a member, a link, a packet, a line of a table or a mark to see why.");
    if (rows === 0) return [headOf("Nothing has happened yet"), hint];
    return [headOf(`Last event: ${this.rules.headline(rows - 1)}`), ...this._row(rows - 1), hint];
  }

  _row(row) {
    const { refs } = this;
    const { trace } = this.model;
    const packet = trace.packet[row] >= 0 ? trace.packets[trace.packet[row]] : null;
    const sentences = this.rules.rule(row).filter(Boolean).map((sentence) => element("p", {}, sentence));
    return [
      listOf([
        ["tick", grouping(trace.time[row])],
        ["member", refs.member(trace.member[row])],
        trace.name[row] >= 0 ? ["operation", refs.name(trace.name[row])] : null,
        packet && ["packet", refs.packet(packet), ", sent at tick ", refs.sendingOf(packet), " by member ",
          refs.member(packet.sender)],
        trace.sent[row] >= 0 ? ["sent", refs.packet(trace.packets[trace.sent[row]])] : null,
      ]),
      element("p", {}, "Row ", element("code", {}, trace.fields(row).join(","))),
      element("div", { class: "rule" }, ...sentences),
    ];
  }

  _packet(packet, close) {
    const { refs } = this;
    const { trace, network } = this.model;
    const links = network.linksThatTookOut(packet);
    const hearers = Array.from(trace.hearersOf(packet));
    const results = Array.from(grouped(hearers, (row) => RESULTS[trace.result[row]]));
    return [
      headOf(`Packet ${trace.packetText(packet)}: ${KINDS[packet.kind]}`, close),
      listOf([
        ["sent", "at tick ", refs.sendingOf(packet), " by member ", refs.member(packet.sender)],
        packet.name >= 0 ? ["operation", refs.name(packet.name)] : null,
        packet.scope < Infinity ? ["goes", this._reach(packet)] : null,
        ["dropped", ...(links.length ? ["at ", ...refs.links(links)] : ["nowhere"])],
        ["heard by", counted(hearers.length, "member")],
        ...results.map(([result, rows]) => [result, refs.members(rows.map((row) => trace.member[row]))]),
      ]),
    ];
  }

  /** How far a packet goes, and as which step of a recovery. */
  _reach(packet) {
    const step = stepOf(packet, this.model.history.steps);
    return scopeInWords(packet.scope) + (packet.kind === KIND.repair ? `, ${STEPS[step]}` : "");
  }

  _link(link) {
    const { network, tables } = this.model;
    const { a, b, delay, back } = network.links[link];
    const [, data, requests, repairs, sessions, dropped] = tables.links[link];
    const outages = network.outagesOf(link).map(({ from, to }) => `${grouping(from)} to ${grouping(to)}`);
    const losses = network.losses.of(link).map((loss) => loss.told);
    const drops = Array.from(network.drops).filter(([, links]) => links.has(link)).map(([packet]) => packet);
    return listOf([
      ["joins", `nodes ${a} and ${b}`],
      ["delay", delay === back ? counted(delay, "tick")
        : `${grouping(delay)} from ${a} to ${b}, ${grouping(back)} from ${b} to ${a}`],
      ["crossed by", [counted(data, "data packet"), counted(requests, "request"), counted(repairs, "repair"),
        counted(sessions, "session message")].join(", ")],
      ["dropped", counted(dropped, "packet")],
      drops.length ? ["is to drop", firstOf(drops)] : null,
      outages.length ? ["out", firstOf(outages)] : null,
      losses.length ? ["loses at random", firstOf(losses)] : null,
    ]);
  }
}

/** The first of some texts, and how many more there are. */
function firstOf(texts) {
  const more = texts.length - MOST_LISTED;
  return `${texts.slice(0, MOST_LISTED).join(", ")}${more > 0 ? ` and ${more} more` : ""}`;
}
