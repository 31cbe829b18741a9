// A canvas to draw on.

/** A canvas that keeps the size of its box, in device pixels. */
class Surface {
  constructor(canvas, onResize) {
    this.canvas = canvas;
    this.box = canvas.parentElement;
    this.context = canvas.getContext("2d", { alpha: false });
    this.width = this.height = 0;
    new ResizeObserver(() => { if (this.fit()) onResize(); }).observe(this.box);
    this.fit();
  }

  /** Takes the box's size; whether it changed. It makes the browser lay out the page, so it is not for every frame. */
  fit() {
    if (this.isHidden) return false;
    const box = this.box.getBoundingClientRect();
    const scale = window.devicePixelRatio || 1;
    const width = Math.max(1, Math.round(box.width));
    const height = Math.max(1, Math.round(box.height));
    if (width === this.width && height === this.height && scale === this.scale) return false;
    [this.width, this.height, this.scale] = [width, height, scale];
    this.canvas.width = Math.round(width * scale);
    this.canvas.height = Math.round(height * scale);
    return true;
  }

  /** Whether the box is a panel that is not shown. */
  get isHidden() {
    return this.box.hidden;
  }

  /** The context, with the canvas cleared to a colour and one unit a CSS pixel. */
  cleared(colour) {
    this._clear(this.context, colour);
    return this.context;
  }

  _clear(context, colour) {
    context.setTransform(this.scale, 0, 0, this.scale, 0, 0);
    context.fillStyle = colour;
    context.fillRect(0, 0, this.width, this.height);
  }

  /** A second canvas of the same size and of one colour, to draw on once and paste often. */
  copy(colour) {
    const canvas = document.createElement("canvas");
    canvas.width = this.canvas.width;
    canvas.height = this.canvas.height;
    const context = canvas.getContext("2d", { alpha: false });
    this._clear(context, colour);
    return { canvas, context };
  }

  /** Copies such a canvas, to this one or to a context of another. */
  paste(canvas, context = this.context) {
    context.setTransform(1, 0, 0, 1, 0, 0);
    context.drawImage(canvas, 0, 0);
    context.setTransform(this.scale, 0, 0, this.scale, 0, 0);
  }
}

/** Has a surface zoomed by the wheel and moved by dragging; other clicks are told with their places. */
function zoomOn(surface, extent, onZoom, onClick) {
  const { canvas } = surface;
  const zoom = d3.zoom().scaleExtent(extent).on("zoom", () => onZoom(d3.event.transform));
  d3.select(canvas).call(zoom).on("dblclick.zoom", null)
    .on("click", () => { if (!d3.event.defaultPrevented) onClick(d3.mouse(canvas)); });
  return zoom;
}
