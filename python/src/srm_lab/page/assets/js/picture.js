// The shown view as a picture of its own, with its title above and its legend below: as SVG or as PNG.

const PICTURE_MARGIN = 12;
const TITLE_TALL = 28;
const LEGEND_LINE = 18;
const LEGEND_GAP = 16;
const MARK_WIDE = 16;
const PNG_SCALE = 2;

/** A picture of a view; `legend` has the entries below it. */
class Picture {
  constructor(view, theme, title, legend) {
    Object.assign(this, { view, theme, title, legend });
    this.width = view.surface.width;
    this.places = this._flow(document.createElement("canvas").getContext("2d"));
    this.legendTop = TITLE_TALL + view.surface.height + PICTURE_MARGIN;
    this.height = this.legendTop + (this.places[this.places.length - 1].line + 1) * LEGEND_LINE + PICTURE_MARGIN;
  }

  get _legendFont() {
    return `12px ${TEXT_FONT}`;
  }

  /** For each entry of the legend its line and where it begins there. */
  _flow(context) {
    context.font = this._legendFont;
    let [line, left] = [0, PICTURE_MARGIN];
    return this.legend.map(({ told, draw }) => {
      const wide = (draw ? MARK_WIDE + 4 : 0) + context.measureText(told).width;
      if (left > PICTURE_MARGIN && left + wide > this.width - PICTURE_MARGIN) [line, left] = [line + 1, PICTURE_MARGIN];
      const place = { line, left };
      left += wide + LEGEND_GAP;
      return place;
    });
  }

  /** Draws the whole picture. */
  _drawOn(context) {
    const { theme, view, width } = this;
    context.fillStyle = theme.paper;
    context.fillRect(0, 0, width, this.height);
    this._text(context, this.title, PICTURE_MARGIN, TITLE_TALL / 2, `600 13px ${TEXT_FONT}`, theme.ink);
    context.save();
    context.translate(0, TITLE_TALL);
    context.beginPath();
    context.rect(0, 0, width, view.surface.height);
    context.clip();
    view.drawOn(context);
    context.restore();
    this.legend.forEach((entry, at) => this._legendEntry(context, entry, this.places[at]));
  }

  _text(context, text, x, y, font, colour) {
    Object.assign(context, { font, fillStyle: colour, textAlign: "left", textBaseline: "middle" });
    context.fillText(text, x, y, this.width - x - PICTURE_MARGIN);
  }

  _legendEntry(context, { draw, told }, { line, left }) {
    const top = this.legendTop + line * LEGEND_LINE;
    if (draw) {
      context.save();
      context.translate(left, top);
      draw(context, MARK_WIDE / 2, 7);
      context.restore();
    }
    this._text(context, told, left + (draw ? MARK_WIDE + 4 : 0), top + 7, this._legendFont, this.theme.soft);
  }

  /** The picture as an SVG file. */
  svg() {
    const svg = d3.create("svg").attr("viewBox", `0 0 ${this.width} ${this.height}`).attr("width", this.width)
      .attr("height", this.height).attr("role", "img");
    svg.append("title").text(this.title);
    svg.append("desc").text(this.view.surface.canvas.getAttribute("aria-label"));
    this._drawOn(new VectorContext(svg));
    return new Blob([new XMLSerializer().serializeToString(svg.node())], { type: "image/svg+xml" });
  }

  /** The picture as a PNG file, to come. */
  png() {
    const canvas = document.createElement("canvas");
    canvas.width = this.width * PNG_SCALE;
    canvas.height = this.height * PNG_SCALE;
    const context = canvas.getContext("2d", { alpha: false });
    context.scale(PNG_SCALE, PNG_SCALE);
    this._drawOn(context);
    return new Promise((done) => { canvas.toBlob(done, "image/png"); });
  }
}
