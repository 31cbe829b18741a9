// A canvas context, as far as the pictures need one, that makes SVG.

const CONTEXT_STATE = ["fillStyle", "strokeStyle", "lineWidth", "globalAlpha", "font", "textAlign", "textBaseline", "dash",
  "parent"];

/** Appends an SVG element for each mark that is drawn; each has its style in its own attributes. */
class VectorContext {
  constructor(svg) {
    this.parent = this.svg = svg;
    this.saved = [];
    this.clips = 0;
    this.ruler = document.createElement("canvas").getContext("2d");
    Object.assign(this, { lineWidth: 1, globalAlpha: 1, textAlign: "left", textBaseline: "alphabetic", dash: [] });
    this.beginPath();
  }

  save() {
    this.saved.push(Object.fromEntries(CONTEXT_STATE.map((name) => [name, this[name]])));
  }

  restore() {
    Object.assign(this, this.saved.pop());
  }

  translate(x, y) {
    this._group("transform", `translate(${round(x)} ${round(y)})`);
  }

  rotate(angle) {
    this._group("transform", `rotate(${round((angle * 180) / Math.PI)})`);
  }

  clip() {
    const id = `clip${this.clips++}`;
    this.parent.append("clipPath").attr("id", id).append("path").attr("d", this.path);
    this._group("clip-path", `url(#${id})`);
  }

  /** What is drawn from now on, up to `restore`, stands in a group. */
  _group(attribute, value) {
    this.parent = this.parent.append("g").attr(attribute, value);
  }

  beginPath() {
    this.path = d3.path();
  }

  closePath() {
    this.path.closePath();
  }

  moveTo(x, y) {
    this.path.moveTo(round(x), round(y));
  }

  lineTo(x, y) {
    this.path.lineTo(round(x), round(y));
  }

  arc(x, y, r, from, to) {
    this.path.arc(round(x), round(y), round(r), from, to);
  }

  rect(x, y, width, height) {
    this.path.rect(round(x), round(y), round(width), round(height));
  }

  setLineDash(dash) {
    this.dash = dash;
  }

  fill() {
    this._filled("path").attr("d", this.path);
  }

  stroke() {
    this._mark("path").attr("d", this.path).attr("fill", "none").attr("stroke", this.strokeStyle)
      .attr("stroke-width", round(this.lineWidth)).attr("stroke-dasharray", this.dash.length ? this.dash.join(" ") : null);
  }

  fillRect(x, y, width, height) {
    this._filled("rect").attr("x", round(x)).attr("y", round(y)).attr("width", round(width)).attr("height", round(height));
  }

  measureText(text) {
    Object.assign(this.ruler, { font: this.font, textBaseline: this.textBaseline });
    return this.ruler.measureText(text);
  }

  /** A text, drawn together where it is wider than it may be. */
  fillText(text, x, y, most = Infinity) {
    const [, weight, size, family] = /^(?:(\S+) )?(\d+(?:\.\d+)?)px (.*)$/.exec(this.font);
    const anchor = { left: "start", center: "middle", right: "end" }[this.textAlign];
    const { width, alphabeticBaseline } = this.measureText(text);
    const mark = this._filled("text").attr("x", round(x)).attr("y", round(y - alphabeticBaseline)).attr("text-anchor", anchor)
      .attr("font-family", family).attr("font-size", size).attr("font-weight", weight ?? null).text(text);
    if (width > most) mark.attr("textLength", round(most)).attr("lengthAdjust", "spacingAndGlyphs");
  }

  _filled(tag) {
    return this._mark(tag).attr("fill", this.fillStyle);
  }

  _mark(tag) {
    return this.parent.append(tag).attr("opacity", this.globalAlpha < 1 ? this.globalAlpha : null);
  }
}

/** A length with two decimals. */
function round(number) {
  return Math.round(number * 100) / 100;
}
