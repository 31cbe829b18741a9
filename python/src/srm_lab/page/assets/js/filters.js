// What is shown: kinds of packets, operations, members.

const MOST_OFFERED = 500;
const KIND_WORDS = KINDS.map((kind) => (kind === "session" ? "session message" : kind));

/** The reader's choice of what the pictures show. */
class Filters {
  constructor(form, trace, network, theme, onChange) {
    this.form = form;
    this.trace = trace;
    this.network = network;
    this.onChange = onChange;
    this.kinds = KINDS.map(() => true);
    this.name = -1;
    this.members = null;
    this.numberOf = new Map(trace.names.map((name, number) => [name.join("/"), number]));
    this._build(theme);
  }

  _build(theme) {
    this.boxes = KINDS.map((kind) => element("input",
      { type: "checkbox", checked: true, id: `kind-${kind}`, change: () => this._readKinds() }));
    this.kindsBox = element("fieldset", {});
    this.nameBox = this._textBox("filter-name", () => this._readName(), "names");
    this.memberBox = this._textBox("filter-members", () => this._readMembers());
    const options = this.trace.names.slice(0, MOST_OFFERED).map((name) => element("option", { value: name.join("/") }));
    this.form.addEventListener("submit", (event) => event.preventDefault());
    this.form.append(
      this.kindsBox,
      element("label", { title: "An operation: source/page/number" }, "Operation", this.nameBox),
      element("datalist", { id: "names" }, options),
      element("label", { title: "Members of the sequence view, as in 0, 3-7" }, "Members", this.memberBox),
      element("button", { type: "button", id: "filter-all", click: () => this.clear() }, "Show all"),
    );
    this.recolour(theme);
  }

  _textBox(id, input, list = null) {
    return element("input", { type: "text", id, list, input, placeholder: "all", spellcheck: "false", autocomplete: "off" });
  }

  /** Draws the legend of packets anew. */
  recolour(theme) {
    const labels = KINDS.map((kind, number) => element("label", {}, this.boxes[number],
      swatch((context, x, y) => packetKey(context, theme, number, x, y)), KIND_WORDS[number]));
    this.kindsBox.replaceChildren(element("legend", { class: "hidden" }, "Packets"), ...labels);
  }

  _readKinds() {
    this.kinds = this.boxes.map((box) => box.checked);
    this.onChange();
  }

  _readName() {
    const text = this.nameBox.value.trim();
    const number = this.numberOf.get(text);
    this.nameBox.setAttribute("aria-invalid", String(text !== "" && number === undefined));
    this.name = number ?? -1;
    this.onChange();
  }

  _readMembers() {
    const text = this.memberBox.value.trim();
    const members = numbersIn(text, this.network.members.length);
    this.memberBox.setAttribute("aria-invalid", String(members === null));
    this.members = members && members.size ? members : null;
    this.onChange();
  }

  clear() {
    this.set({});
    this.onChange();
  }

  /** Whether a packet is shown. */
  shows(packet) {
    return this.kinds[packet.kind] && (this.name < 0 || packet.name === this.name);
  }

  /** Whether timers and losses of a name are shown. */
  showsName(name) {
    return this.name < 0 || name === this.name;
  }

  /** The parts of the address. */
  get parts() {
    const hidden = KINDS.filter((kind, number) => !this.kinds[number]).join(",");
    return { hide: hidden, name: this.nameBox.value.trim(), members: this.memberBox.value.trim() };
  }

  /** Takes the address's parts. */
  set({ hide = "", name = "", members = "" }) {
    const hidden = new Set(hide.split(","));
    this.boxes.forEach((box, number) => { box.checked = !hidden.has(KINDS[number]); });
    this.kinds = this.boxes.map((box) => box.checked);
    this.nameBox.value = name;
    this.memberBox.value = members;
    const onChange = this.onChange;
    this.onChange = () => {};
    this._readName();
    this._readMembers();
    this.onChange = onChange;
  }
}
