// The page put together.

// milliseconds between two drawings of the texts while it plays
const PANEL_INTERVAL = 250;
const ZOOM = 1.6;

/** The page. */
class App {
  constructor(model) {
    this.model = model;
    this.selection = null;
    this.theme = new Theme(() => this._recolour());
    this.player = new Player(model.trace, model.moments, this.theme, () => this._moved());
    this.filters = new Filters(byId("filters"), model.trace, model.network, this.theme, () => this._filtered());
    const pick = (what) => this.pick(what);
    this.why = new Why(byId("why"), model, pick);
    this.views = {
      network: new NetworkView(byId("network"), model, this.theme, this.filters, pick),
      sequence: new SequenceView(byId("sequence"), model, this.theme, this.filters, pick),
    };
    this.slider = new Slider(byId("slider"), model, this.player, this.theme);
    this.controls = new Controls(byId("controls"), this.player, (by) => this.stepLoss(by));
    this.tables = new TablePanel(model, this.player,
      { current: () => this.selection, onPick: pick, onShow: (name) => this.showTable(name) });
    this.tips = new Tips(byId("stage"), byId("tip"), this.views, (what) => tipText(what, model, this.why.rules));
    this.address = new Address((parts) => this._go(parts));
    this._head();
    this._buttons();
    listenToKeys(this._keys());
    this._go(this.address.read());
    this._recolour();
  }

  _head() {
    byId("facts").textContent = factsOf(this.model);
    byId("notice").textContent = noticeOf(this.model);
    byId("notice").hidden = byId("notice").textContent === "";
  }

  _buttons() {
    const clicks = {
      about: () => this._dialog(aboutOf(this.model)),
      help: () => this._help(),
      theme: () => this.theme.toggle(),
      link: () => this._copyLink(),
      csv: () => this.tables.save(),
      svg: () => this.savePicture("svg"),
      png: () => this.savePicture("png"),
      "zoom-in": () => this._zoom(ZOOM),
      "zoom-out": () => this._zoom(1 / ZOOM),
      "zoom-all": () => this.views[this.view].zoomAll(),
      "tab-network": () => this.showView("network"),
      "tab-sequence": () => this.showView("sequence"),
    };
    for (const [id, click] of Object.entries(clicks)) byId(id).addEventListener("click", click);
  }

  _keys() {
    const { player } = this;
    return {
      " ": () => player.toggle(),
      ArrowRight: () => player.stepEvent(1),
      ArrowLeft: () => player.stepEvent(-1),
      "Shift ArrowRight": () => player.stepTick(1),
      "Shift ArrowLeft": () => player.stepTick(-1),
      Home: () => player.seek(-Infinity),
      End: () => player.seek(Infinity),
      "+": () => player.changeSpeed(1),
      "=": () => player.changeSpeed(1),
      "-": () => player.changeSpeed(-1),
      s: () => player.setSkips(!player.skips),
      n: () => this.stepLoss(1),
      p: () => this.stepLoss(-1),
      1: () => this.showView("network"),
      2: () => this.showView("sequence"),
      i: () => this._zoom(ZOOM),
      o: () => this._zoom(1 / ZOOM),
      0: () => this.views[this.view].zoomAll(),
      m: () => this.showTable("members"),
      u: () => this.showTable("losses"),
      k: () => this.showTable("links"),
      r: () => this.showTable("rows"),
      f: () => byId("filter-name").focus(),
      l: () => this._copyLink(),
      d: () => this.theme.toggle(),
      v: () => this.savePicture("svg"),
      b: () => this.savePicture("png"),
      Escape: () => { document.activeElement?.blur(); this.pick(null); },
      "?": () => this._help(),
    };
  }

  _zoom(factor) {
    this.views[this.view].zoomBy(factor);
  }

  _help() {
    this._dialog([element("h2", {}, "Keys"), keyHelp()]);
  }

  _dialog(children) {
    const dialog = byId("dialog");
    const close = element("form", { method: "dialog" }, element("button", {}, "Close"));
    dialog.replaceChildren(...children.filter(Boolean), close);
    dialog.showModal();
  }

  async _copyLink() {
    this.address.writeNow(this._parts());
    try {
      await navigator.clipboard.writeText(location.href);
      this.tell("The address of this moment is copied.");
    } catch {
      this.tell("The address of this moment stands in the address bar.");
    }
  }

  // ---- views and tables ----------------------------------------------------------------

  showView(view) {
    this.view = view;
    for (const name of Object.keys(this.views)) {
      byId(`${name}-panel`).hidden = name !== view;
      byId(`tab-${name}`).setAttribute("aria-selected", String(name === view));
    }
    this._legend();
    this.views[view].resize();
    this._write();
  }

  showTable(name) {
    this.tables.show(name);
    this._write();
  }

  get table() {
    return this.tables.name;
  }

  _legend() {
    showLegend(byId("legend"), this._legendEntries(), this.model.states);
  }

  _legendEntries() {
    const { network, isLocal } = this.model;
    return this.view === "sequence" ? sequenceLegend(this.theme, isLocal) : networkLegend(this.theme, network, isLocal);
  }

  /** Saves the shown view as a picture, `svg` or `png`. */
  async savePicture(format) {
    const { theme, model, player, filters } = this;
    const legend = pictureLegend(theme, this._legendEntries(), filters, model.states);
    const title = `${model.about.title}, tick ${grouping(Math.floor(player.tick))}`;
    const name = `${model.about.title}.${this.view}.${format}`;
    save(await new Picture(this.views[this.view], theme, title, legend)[format](), name);
    this.tell(`The picture is saved as ${name}.`);
  }

  // ---- what is selected ----------------------------------------------------------------

  /** Selects something, or nothing. A row is gone to as well. */
  pick(what) {
    const wanted = what ? selected(what) : null;
    if (wanted?.kind === "row") {
      this.player.pause();
      this.player.seekRow(wanted.row + 1);
    }
    this.selection = wanted;
    this._showSelection();
  }

  _showSelection() {
    this._markSelection();
    this.why.show(this.selection);
    this.tables.reveal();
    this._write();
  }

  _markSelection() {
    const { selection, model } = this;
    this.views.network.select(selection, membersOf(selection, model));
    this.views.sequence.select(selection);
  }

  /** To the next or the previous tick at which a loss is found, which is selected. */
  stepLoss(by) {
    const { losses } = this.model.history;
    const rows = losses.map((loss) => loss.detected);
    const before = d3.bisectLeft(rows, Math.max(0, this.player.rows - 1)) - 1;
    const at = by > 0 ? d3.bisectLeft(rows, this.player.rows) : before;
    if (!losses[at]) {
      this.tell(by > 0 ? "No loss after this tick." : "No loss before this tick.");
      return;
    }
    this.player.pause();
    this.player.seekRow(losses[at].detected + 1);
    this.pick({ kind: "loss", name: losses[at].name, member: losses[at].member });
  }

  // ---- moves ------------------------------------------------------------------------------

  /** The moment changed: pictures follow at once, texts a few times a second while it plays. */
  _moved() {
    const { player, model } = this;
    model.states.moveTo(player.tick, player.rows);
    if (!this.view) return;
    this._leaveRow();
    this.views[this.view].follow();
    this.slider.draw();
    const now = performance.now();
    if (!player.isPlaying || now - (this.lastPanels ?? 0) >= PANEL_INTERVAL) {
      this.lastPanels = now;
      this._panels();
    }
    this.controls.show();
  }

  /** A row that is no more the present one is selected no longer. */
  _leaveRow() {
    if (this.selection?.kind !== "row" || this.selection.row === this.player.rows - 1) return;
    this.selection = null;
    this._markSelection();
  }

  _panels() {
    if (this.table === "rows") this.tables.reveal();
    this.why.show(this.selection);
    showCensus(byId("legend"), this.model.states);
    if (this.player.isPlaying) return;
    this.tell(this._inWords());
    this.views.network.describe();
    this._write();
  }

  /** The moment in words, for those who do not see it. */
  _inWords() {
    const { rows, tick } = this.player;
    const event = rows > 0 ? `${this.why.rules.headline(rows - 1)}.` : "Nothing has happened yet.";
    return `Tick ${Math.floor(tick)}. ${event}`;
  }

  /** Says something to those who do not see the page. */
  tell(text) {
    setText(byId("told"), text);
  }

  _filtered() {
    this.views.network.draw();
    this.views.sequence.redrawAll();
    this._write();
  }

  _recolour() {
    if (!this.view) return;
    byId("theme").textContent = this.theme.name === "dark" ? "Light" : "Dark";
    this.filters.recolour(this.theme);
    this._legend();
    this.views.network.redrawAll();
    this.views.sequence.redrawAll();
    this.slider.redrawAll();
    this._write();
  }

  // ---- address -----------------------------------------------------------------------------

  /** What the address keeps. */
  _parts() {
    const { player, model } = this;
    const isWhole = model.trace.rowsUpTo(player.tick) === player.rows;
    return {
      tick: String(Math.floor(player.tick * 1000) / 1000),
      rows: isWhole ? "" : String(player.rows),
      view: this.view === "network" ? "" : this.view,
      table: this.table === "rows" ? "" : this.table,
      ...this.filters.parts,
      select: selectionText(this.selection, model),
      theme: this.theme.choice ?? "",
    };
  }

  _write() {
    if (this.isReady && !this.player.isPlaying) this.address.write(this._parts());
  }

  /** Shows what an address's parts say. */
  _go(parts) {
    this.isReady = false;
    if (parts.theme === "dark" || parts.theme === "light") this.theme.choose(parts.theme);
    this.filters.set(parts);
    this.player.isPlaying = false;
    if (/^\d+$/.test(parts.rows ?? "")) this.player.seekRow(Number(parts.rows));
    else this.player.seek(Number(parts.tick ?? this.model.moments.begin) || 0);
    this.showView(parts.view === "sequence" ? "sequence" : "network");
    this.tables.show(TABLE_NAMES.includes(parts.table) ? parts.table : "rows");
    this.selection = selectionOf(parts.select, this.model);
    this._showSelection();
    this.controls.show();
    this.isReady = true;
  }
}

/** Opens the page; `window.srmPage` is there when it is ready. */
async function open() {
  try {
    window.srmPage = new App(new Model(await decode(byId("data").textContent)));
    document.body.dataset.ready = "yes";
  } catch (fault) {
    byId("notice").hidden = false;
    byId("notice").textContent = `The page cannot be shown: ${fault.message}. It needs a browser of 2023 or later.`;
    throw fault;
  }
}

open();
