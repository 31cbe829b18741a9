// Pieces of the panel that explains: words that lead to a member, a row, a packet; lists; tables.

const MOST_LINES = 40;
const MOST_REFS = 16;

/** Words that select what they name when they are clicked. */
class References {
  constructor(trace, onPick) {
    this.trace = trace;
    this.onPick = onPick;
  }

  _to(selection, text) {
    return element("button", { type: "button", class: "ref", click: () => this.onPick(selection) }, text);
  }

  member(member) {
    return this._to({ kind: "member", member }, `${member}`);
  }

  name(name) {
    return this._to({ kind: "loss", name, member: -1 }, this.trace.nameText(name));
  }

  /** A row by its tick. */
  row(row) {
    return this._to({ kind: "row", row }, grouping(this.trace.time[row]));
  }

  packet(packet) {
    return this._to({ kind: "packet", packet: packet.id }, this.trace.packetText(packet));
  }

  /** The tick at which a packet was sent; it leads to the row, where the page has it. */
  sendingOf(packet) {
    return packet.row >= 0 ? this.row(packet.row) : grouping(packet.time);
  }

  /** Members one after the other; of many only the first. */
  members(members) {
    const sorted = members.slice().sort((one, other) => one - other);
    return this._first(sorted, (member) => this.member(member));
  }

  links(links) {
    return this._first(links, (link) => this._to({ kind: "link", link }, `link ${link}`));
  }

  _first(items, made) {
    const shown = items.slice(0, MOST_REFS).flatMap((item, at) => [at ? ", " : "", made(item)]);
    return items.length > MOST_REFS ? [...shown, ` and ${items.length - MOST_REFS} more`] : shown;
  }
}

/** The panel's head. With `onClose` it has a button that selects nothing. */
function headOf(text, onClose = null) {
  const close = onClose && element("button",
    { type: "button", title: "Select nothing (Esc)", "aria-label": "Select nothing", click: onClose }, "×");
  return element("header", {}, element("h2", {}, text), close);
}

/** Terms with what is said of them; a pair that is null is left out. */
function listOf(pairs) {
  return element("dl", {}, pairs.filter(Boolean).flatMap(([term, ...told]) => [
    element("dt", {}, term), element("dd", {}, ...told)]));
}

/** A table; columns that have nothing in any line are left out, and lines beyond the first many. */
function smallTable(heads, lines) {
  const isThere = heads.map((_, at) => lines.some((cells) => [cells[at]].flat().some((part) => part !== "")));
  const kept = (cells) => cells.filter((_, at) => isThere[at]);
  const head = element("tr", {}, kept(heads).map((text) => element("th", { scope: "col" }, text)));
  const body = lines.slice(0, MOST_LINES).map((cells) => element("tr", {},
    kept(cells).map((cell) => element("td", {}, ...[cell].flat()))));
  const more = lines.length - MOST_LINES;
  return element("div", { class: "wide" },
    element("table", {}, element("thead", {}, head), element("tbody", {}, body)),
    more > 0 ? element("p", { class: "soft" }, `and ${more} more`) : null);
}

/** A number, or two that it lies between. */
function spanText(least, most) {
  return least === most ? grouping(least) : `${grouping(least)} to ${grouping(most)}`;
}
