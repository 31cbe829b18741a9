// The run from its first tick to its last, with marks at losses, drops and outages: a slider.

const BINS = 400;

/** A slider over the run. */
class Slider {
  constructor(box, model, player, theme) {
    Object.assign(this, { box, model, player, theme });
    this.surface = new Surface(box.querySelector("canvas"), () => this.redrawAll());
    this.scale = d3.scaleLinear().domain([player.moments.begin, Math.max(player.moments.end, player.moments.begin + 1)]);
    this._activity();
    d3.select(box).call(d3.drag().container(box).on("start drag", () => this._seek(d3.event.x)));
    box.addEventListener("keydown", (event) => this._key(event));
  }

  /** How many rows and how many losses each part of the run has. */
  _activity() {
    const { trace, history } = this.model;
    const [begin, end] = this.scale.domain();
    this.rows = new Float64Array(BINS);
    this.losses = new Float64Array(BINS);
    const bin = (time) => Math.max(0, Math.min(BINS - 1, Math.floor((BINS * (time - begin)) / (end - begin))));
    for (let row = 0; row < trace.length; row++) this.rows[bin(trace.time[row])]++;
    for (const loss of history.losses) this.losses[bin(trace.time[loss.detected])]++;
  }

  _seek(x) {
    this.player.pause();
    this.player.seek(Math.round(this.scale.range([0, this.surface.width]).clamp(true).invert(x)));
    this.box.focus({ preventScroll: true });
  }

  _key(event) {
    const [begin, end] = this.scale.domain();
    const far = { PageUp: 0.05, PageDown: -0.05 }[event.key];
    if (!far) return;
    event.preventDefault();
    event.stopPropagation();
    this.player.pause();
    this.player.seek(Math.round(this.player.tick + far * (end - begin)));
  }

  redrawAll() {
    this.background = null;
    this.draw();
  }

  draw() {
    const { width, height } = this.surface;
    this.scale.range([0, width]);
    if (!this.background) this._drawBackground(width, height);
    this.surface.cleared(this.theme.panel);
    this.surface.paste(this.background);
    this._now(this.surface.context, height);
    this._tell();
  }

  _drawBackground(width, height) {
    const { canvas, context } = this.surface.copy();
    context.fillStyle = this.theme.panel;
    context.fillRect(0, 0, width, height);
    const bottom = height - 18;
    this._outages(context, bottom);
    this._bars(context, width, bottom);
    this._lossMarks(context, bottom);
    this._axis(context, width, bottom);
    this.background = canvas;
  }

  _outages(context, bottom) {
    for (const { from, to } of this.model.network.outages) {
      const [left, right] = [this.scale(from), this.scale(to)];
      context.fillStyle = this.theme.cross;
      context.globalAlpha = 0.16;
      context.fillRect(left, 8, Math.max(2, right - left), bottom - 8);
      context.globalAlpha = 1;
      context.fillRect(left, bottom - 3, Math.max(2, right - left), 3);
    }
  }

  _bars(context, width, bottom) {
    const most = d3.max(this.rows) || 1;
    const bar = width / BINS;
    context.fillStyle = this.theme.node;
    for (let bin = 0; bin < BINS; bin++) {
      if (!this.rows[bin]) continue;
      const tall = Math.max(2, ((bottom - 16) * Math.sqrt(this.rows[bin])) / Math.sqrt(most));
      context.fillRect(bin * bar, bottom - tall, Math.max(1.5, bar - 0.5), tall);
    }
  }

  /** A triangle where losses are found, taller where more are. */
  _lossMarks(context, bottom) {
    const most = d3.max(this.losses) || 1;
    const bar = this.surface.width / BINS;
    for (let bin = 0; bin < BINS; bin++) {
      if (!this.losses[bin]) continue;
      const tall = 7 + (5 * this.losses[bin]) / most;
      context.beginPath();
      polygon(context, [[(bin + 0.5) * bar - 4.5, 1], [(bin + 0.5) * bar + 4.5, 1], [(bin + 0.5) * bar, 1 + tall]]);
      context.fillStyle = this.theme.lacks;
      context.fill();
      context.fillRect((bin + 0.5) * bar - 0.5, 1, 1, bottom - 1);
    }
  }

  _axis(context, width, bottom) {
    context.strokeStyle = this.theme.soft;
    context.fillStyle = this.theme.soft;
    context.lineWidth = 1;
    context.font = `11px ${TEXT_FONT}`;
    context.textBaseline = "top";
    context.beginPath();
    context.moveTo(0, bottom + 0.5);
    context.lineTo(width, bottom + 0.5);
    for (const tick of this.scale.ticks(Math.max(2, Math.floor(width / 110))).filter(Number.isInteger)) {
      const x = this.scale(tick);
      context.moveTo(x, bottom);
      context.lineTo(x, bottom + 4);
      context.textAlign = x < 20 ? "left" : x > width - 20 ? "right" : "center";
      context.fillText(grouping(tick), x, bottom + 5);
    }
    context.stroke();
  }

  _now(context, height) {
    const x = this.scale(this.player.tick);
    context.strokeStyle = this.theme.paper;
    context.lineWidth = 4;
    context.beginPath();
    context.moveTo(x, 0);
    context.lineTo(x, height - 14);
    context.stroke();
    context.strokeStyle = context.fillStyle = this.theme.accent;
    context.lineWidth = 2;
    context.stroke();
    context.beginPath();
    context.arc(x, height - 18, 6, 0, 2 * Math.PI);
    context.fill();
  }

  _tell() {
    const [begin, end] = this.scale.domain();
    this.box.setAttribute("aria-valuemin", begin);
    this.box.setAttribute("aria-valuemax", end);
    this.box.setAttribute("aria-valuenow", Math.floor(this.player.tick));
    this.box.setAttribute("aria-valuetext", `tick ${Math.floor(this.player.tick)} of ${end}`);
  }
}
