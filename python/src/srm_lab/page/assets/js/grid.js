// Tables of which only the lines in sight are made.

const LINE = 24;
const LINES_BEYOND = 4;

/**
 * A table with sortable columns. A column has `title`, `value(item)`, `isNumber`, and may have `key(item)` to sort by and
 * `width` as in grid-template-columns.
 */
class Grid {
  constructor(box, { label, columns, items, onPick, isPicked, classOf = () => "", none, minimum = 0 }) {
    Object.assign(this, { columns, items, onPick, isPicked, classOf });
    this.sorted = { column: -1, isFalling: false };
    this.order = items.map((_, at) => at);
    this.focused = 0;
    this.widths = `grid-template-columns:${columns.map((column) => column.width ?? "minmax(0,1fr)").join(" ")}`;
    this.heads = columns.map((column, at) => this._headButton(column, at));
    const size = `height:${items.length * LINE}px;min-width:${minimum}px`;
    this.body = element("div", { class: "body", role: "rowgroup", style: size });
    this.scroller = element("div", {
      class: "grid", role: "grid", tabindex: "0", "aria-label": label, "aria-rowcount": items.length + 1,
      scroll: () => this.draw(), keydown: (event) => this._key(event),
    }, this._head(minimum), this.body, items.length ? null : element("p", { class: "none" }, none));
    box.replaceChildren(this.scroller);
    new ResizeObserver(() => this.draw()).observe(this.scroller);
  }

  _headButton(column, at) {
    const title = `Sort by ${column.title}`;
    return element("button", { type: "button", class: classOfColumn(column), title, click: () => this.sortBy(at) }, column.title);
  }

  _head(minimum) {
    const cells = this.heads.map((button) =>
      element("span", { role: "columnheader", class: button.className, "aria-sort": "none" }, button));
    const line = element("div", { class: "line", role: "row", "aria-rowindex": 1, style: this.widths }, cells);
    return element("div", { class: "head", role: "rowgroup", style: `min-width:${minimum}px` }, line);
  }

  /** Sorts by a column: rising, or falling where it is rising already. */
  sortBy(column, isFalling = this.sorted.column === column && !this.sorted.isFalling) {
    this.sorted = { column, isFalling };
    const values = this.items.map(this.columns[column].key ?? this.columns[column].value);
    const sign = isFalling ? -1 : 1;
    this.order.sort((one, other) => sign * compared(values[one], values[other]) || one - other);
    this.heads.forEach((head, at) => {
      const isSorted = at === column;
      head.textContent = `${this.columns[at].title}${isSorted ? (isFalling ? " ▾" : " ▴") : ""}`;
      head.parentElement.setAttribute("aria-sort", !isSorted ? "none" : isFalling ? "descending" : "ascending");
    });
    this.draw();
  }

  /** Makes the lines in sight. */
  draw() {
    const { scrollTop, clientHeight } = this.scroller;
    const first = Math.max(0, Math.floor(scrollTop / LINE) - LINES_BEYOND);
    const last = Math.min(this.items.length, first + Math.ceil(clientHeight / LINE) + 2 * LINES_BEYOND);
    this.body.replaceChildren(...d3.range(first, last).map((at) => this._line(at)));
    this.scroller.setAttribute("aria-activedescendant", this.body.querySelector("[aria-selected=true]")?.id ?? "");
  }

  _line(at) {
    const item = this.items[this.order[at]];
    const cells = this.columns.map((column) =>
      element("span", { role: "gridcell", class: classOfColumn(column) }, String(column.value(item))));
    return element("div", {
      class: `line ${this.classOf(item)}`, role: "row", id: `line-${at}`, "aria-rowindex": at + 2,
      "aria-selected": String(this.isPicked(item)), style: `${this.widths};top:${at * LINE}px`,
      click: () => { this.focused = at; this.onPick(item); },
    }, cells);
  }

  /** Brings an item into sight. */
  show(place) {
    const at = this.sorted.column < 0 ? place : this.order.indexOf(place);
    if (at < 0) return;
    this.focused = at;
    const { scroller } = this;
    const top = at * LINE;
    const room = scroller.clientHeight - LINE - 4;
    if (top < scroller.scrollTop) scroller.scrollTop = top;
    else if (top + LINE > scroller.scrollTop + room) scroller.scrollTop = top + LINE - room;
    this.draw();
  }

  _key(event) {
    if (event.target !== this.scroller) return;
    const by = { ArrowDown: 1, ArrowUp: -1, PageDown: 10, PageUp: -10 }[event.key];
    if (!by || !this.items.length) return;
    event.preventDefault();
    event.stopPropagation();
    const at = Math.max(0, Math.min(this.items.length - 1, this.focused + by));
    this.onPick(this.items[this.order[at]]);
    this.show(this.order[at]);
  }
}

function classOfColumn({ isNumber }) {
  return isNumber ? "number" : "";
}

/** Numbers by size and before texts, texts by letters. */
function compared(one, other) {
  if (typeof one === "number" && typeof other === "number") return one - other;
  if (typeof one !== typeof other) return typeof one === "number" ? -1 : 1;
  return one < other ? -1 : one > other ? 1 : 0;
}
