// Small marks that are drawn once and copied often: a thousand copies are faster than a path of a thousand circles.

/** Marks by a key, for one size and one theme: `clear` forgets them. */
class Sprites {
  constructor(surface) {
    this.surface = surface;
    this.clear();
  }

  clear() {
    this.kept = new Map();
  }

  /**
   * Copies a mark to places. `draw(context, x, y)` draws it, within so many pixels of its middle; it is not copied to other
   * contexts than the surface's own.
   */
  copyTo(context, places, { key, reach, draw }) {
    if (context !== this.surface.context) {
      for (const [x, y] of places) draw(context, x, y);
      return;
    }
    if (!this.kept.has(key)) this.kept.set(key, this._made(reach, draw));
    const { canvas, half } = this.kept.get(key);
    for (const [x, y] of places) context.drawImage(canvas, x - half, y - half, 2 * half, 2 * half);
  }

  _made(reach, draw) {
    const { scale } = this.surface;
    const half = Math.ceil(reach);
    const canvas = document.createElement("canvas");
    canvas.width = canvas.height = Math.ceil(2 * half * scale);
    const context = canvas.getContext("2d");
    context.scale(scale, scale);
    draw(context, half, half);
    return { canvas, half };
  }
}
