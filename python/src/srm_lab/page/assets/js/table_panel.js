// The tables beside the pictures: rows of the trace, members, losses, links.

const TABLE_NAMES = ["rows", "members", "losses", "links"];
const ROW_WIDTHS = ["1fr", "1.1fr", "1fr", "1.1fr", "0.8fr", "0.6fr", "0.9fr"];
const LOSS_WIDTHS = ["1fr", "0.9fr", "0.7fr", "0.95fr", "1.1fr", "1.2fr", "1.2fr"];
const MEMBERS_WIDTH = 900;
const LOSS_DELAY = LOSS_COLUMNS.indexOf("delay");

/** The panel that shows one table at a time. `current()` is what is selected. */
class TablePanel {
  constructor(model, player, { current, onPick, onShow }) {
    Object.assign(this, { model, player, current, onPick });
    byId("tables").append(...TABLE_NAMES.map((name) => element("button",
      { type: "button", role: "tab", id: `table-${name}`, "aria-controls": "grid", click: () => onShow(name) },
      name[0].toUpperCase() + name.slice(1))));
  }

  /** Shows a table. */
  show(name) {
    this.name = name;
    for (const other of TABLE_NAMES) byId(`table-${other}`).setAttribute("aria-selected", String(other === name));
    this.grid = new Grid(byId("grid"), this._content());
    this.reveal();
  }

  /** Brings what is selected, or the present row, into sight. */
  reveal() {
    if (!this.grid) return;
    const at = this.name === "rows" ? this._rowToShow() : this.grid.items.findIndex((item) => this.grid.isPicked(item));
    if (at >= 0) this.grid.show(at);
    else this.grid.draw();
  }

  _rowToShow() {
    const selection = this.current();
    return selection?.kind === "row" ? selection.row : this.player.rows - 1;
  }

  _content() {
    switch (this.name) {
      case "members": return this._members();
      case "losses": return this._losses();
      case "links": return this._links();
      default: return this._rows();
    }
  }

  _rows() {
    const { trace } = this.model;
    return {
      label: "Rows of the trace",
      none: "No event.",
      items: Array.from(trace.time, (_, row) => row),
      columns: TRACE_COLUMNS.map((title, at) => ({
        title, value: (row) => trace.fields(row)[at], isNumber: [0, 1, 5].includes(at), width: ROW_WIDTHS[at],
      })),
      onPick: (row) => this.onPick({ kind: "row", row }),
      isPicked: (row) => this._isSelected("row", row),
      classOf: (row) => (row === this.player.rows - 1 ? "now" : row >= this.player.rows ? "later" : ""),
    };
  }

  _members() {
    return {
      label: "Members",
      none: "No member.",
      minimum: MEMBERS_WIDTH,
      items: this.model.tables.members,
      columns: MEMBER_COLUMNS.map((title, at) => ({
        title, value: (item) => item[at], isNumber: at !== 1, width: at <= 1 ? "82px" : "minmax(0,1fr)",
      })),
      onPick: ([member]) => this.onPick({ kind: "member", member }),
      isPicked: ([member]) => this._isSelected("member", member),
    };
  }

  _losses() {
    return {
      label: "Losses",
      none: "Nobody lost anything.",
      items: this.model.tables.losses,
      columns: LOSS_COLUMNS.map((title, at) => ({
        title, value: ({ values }) => values[at], isNumber: true, width: LOSS_WIDTHS[at],
        key: at === LOSS_DELAY ? ({ values }) => ratioIn(values[at]) : undefined,
      })),
      onPick: ({ loss }) => this.onPick({ kind: "loss", name: loss.name, member: loss.member }),
      isPicked: ({ loss }) => this._isSelected("name", loss.name) && [-1, loss.member].includes(this.current().member),
    };
  }

  _links() {
    return {
      label: "Links",
      none: "No link.",
      items: this.model.tables.links,
      columns: LINK_COLUMNS.map((title, at) => ({ title, value: (item) => item[at], isNumber: true })),
      onPick: ([link]) => this.onPick({ kind: "link", link }),
      isPicked: ([link]) => this._isSelected("link", link),
    };
  }

  _isSelected(key, value) {
    const selection = this.current();
    return selection !== null && selection[key] === value && selection.kind === (key === "name" ? "loss" : key);
  }

  /** Saves the shown table as the program writes it. */
  save() {
    const name = this.name === "rows" ? "trace" : this.name;
    save(new Blob([this.model.csv(this.name)], { type: "text/csv" }), `${this.model.about.title}.${name}.csv`);
  }
}

/** The number that a ratio such as 5/4 is; what is none stays. */
function ratioIn(text) {
  const [ticks, trip] = String(text).split("/").map(Number);
  return trip ? ticks / trip : text;
}
