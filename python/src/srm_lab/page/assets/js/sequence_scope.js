// Which members, operations and packets the sequence shows, where all would be too many.

const MOST_COLUMNS = 50;
const MOST_PACKET_LINES = 12000;
const FIRST_PACKETS = 200;

/**
 * What the sequence shows. With many members these are the ones that one loss concerns; with many members, or many
 * packets in sight, only the packets of that loss's operation and those by which it was found. The loss is the one that
 * was selected last, or else the run's first.
 */
class SequenceScope {
  constructor(model, filters) {
    Object.assign(this, { model, filters });
    this.trace = model.trace;
    this.most = MOST_COLUMNS;
    this.isDense = false;
    this.focus = null;
    if (model.history.losses.length) this.focusOn({ name: model.history.losses[0].name });
    this.order = this._order();
    this.columns = this.order;
  }

  /** Members by their distance from the source. */
  _order() {
    const { network, source } = this.model;
    const members = network.members.map((_, member) => member);
    const far = members.map((member) => network.distance(source, member));
    return members.sort((one, other) => far[one] - far[other] || one - other);
  }

  /** Takes the loss of an operation, or that of one member, as the one that is looked at; whether it is another. */
  focusOn({ name, member }) {
    if (name === this.focus?.name && member === this.focus.member) return false;
    const losses = this.model.history.lossesOfName.get(name) ?? [];
    this.focus = { name, member, finders: new Set(losses.map((loss) => this.trace.packet[loss.detected])) };
    return true;
  }

  /** Whether there are more members than there is room for. */
  get isManyMembers() {
    return this.order.length > this.most;
  }

  /** Chooses at most so many members, for a part of the run from one tick to another. */
  choose(from, to, most) {
    this.most = most;
    const { members } = this.filters;
    let wanted = this.order;
    if (members) wanted = wanted.filter((member) => members.has(member));
    else if (this.isManyMembers) wanted = this._concerned(wanted);
    this.isCut = wanted.length > most;
    this.columns = this.isCut ? this._nearest(wanted) : wanted;
    this.isDense = this._countIn(from, to) * this.columns.length > MOST_PACKET_LINES;
  }

  /** The operation whose members are shown, or null. */
  get subject() {
    return this.filters.name >= 0 ? this.filters.name : this.focus?.name ?? null;
  }

  /** The members that the loss concerns, or where there is none the nearest to the source. */
  _concerned(wanted) {
    if (this.subject === null) return wanted.slice(0, this.most);
    const concerned = this.model.reasonsOf(this.subject).members();
    return wanted.filter((member) => concerned.has(member));
  }

  /** Of too many members those that sent something, then the rest, nearest first. */
  _nearest(wanted) {
    const about = this.trace.packets.filter((packet) => this.filters.showsName(packet.name));
    const senders = new Set(about.map((packet) => packet.sender));
    const ranked = wanted.slice().sort((one, other) => senders.has(other) - senders.has(one));
    const kept = new Set(ranked.slice(0, this.most));
    return wanted.filter((member) => kept.has(member));
  }

  /** How many packets that the filters show are sent from one tick to another. */
  _countIn(from, to) {
    const { packets } = this.trace;
    const time = d3.bisector((packet) => packet.time);
    let count = 0;
    for (let id = time.left(packets, from); id < packets.length && packets[id].time <= to; id++) {
      if (this.filters.shows(packets[id])) count++;
    }
    return count;
  }

  /** Whether only the loss's packets are shown. */
  get isFocused() {
    return this.filters.name < 0 && this.focus !== null && (this.isManyMembers || this.isDense);
  }

  tellsName(name) {
    return this.filters.showsName(name) && (!this.isFocused || name === this.focus.name);
  }

  tellsPacket(packet) {
    if (!this.filters.shows(packet)) return false;
    return !this.isFocused || packet.name === this.focus.name || this.focus.finders.has(packet.id);
  }

  /** Whether a run is too large to be shown from its beginning to its end. */
  get isLarge() {
    return this.isManyMembers || this.trace.packets.length * this.columns.length > MOST_PACKET_LINES;
  }

  /**
   * The first and the last tick to show: from a selected loss's detection to its end; else in a large run those of its
   * first loss's operation, or the first packets; else none, for all.
   */
  extent(selection) {
    const { packets } = this.trace;
    const span = selection?.kind === "loss" ? this._spanOf(selection) : [];
    if (span.length || !this.isLarge) return d3.extent(span);
    if (!this.focus) return d3.extent(packets.slice(0, FIRST_PACKETS), (packet) => packet.time);
    const sent = packets.filter((packet) => packet.name === this.focus.name).map((packet) => packet.time);
    return d3.extent([...sent, ...this._spanOf(this.focus)]);
  }

  /** The ticks at which an operation's losses, or one member's, are found and end; a loss that stays ends with the run. */
  _spanOf({ name, member = -1 }) {
    const { history, moments } = this.model;
    const all = history.lossesOfName.get(name) ?? [];
    const losses = member < 0 ? all : all.filter((loss) => loss.member === member);
    const tick = (row) => (row < 0 ? moments.end : this.trace.time[row]);
    return losses.flatMap((loss) => [tick(loss.detected), tick(history.endOf(loss))]);
  }

  /** What is shown, in one or two phrases. */
  told() {
    const all = this.model.network.members.length;
    const name = this.subject === null ? "" : this.trace.nameText(this.subject);
    const parts = [this.columns.length === all ? "Members by their distance from the source" : this._toldMembers(all, name)];
    if (this.isFocused) parts.push(`only packets of ${name}${this.isManyMembers ? "" : ": zoom in to see all"}`);
    else if (this.isDense) parts.push("not all packets: zoom in to see all");
    return parts;
  }

  _toldMembers(all, name) {
    const loss = name ? `that the loss of ${name} concerns` : "nearest to the source";
    const which = this.filters.members ? "of the filter" : loss;
    return `${this.columns.length} of ${grouping(all)} members: ${this.isCut ? "some of those" : "those"} ${which}`;
  }
}
