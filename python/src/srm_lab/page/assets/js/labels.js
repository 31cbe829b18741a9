// Labels of a picture, each at the first of its places that is free of marks and of other labels.

const LABEL_TALL = 14;

/** Labels and the boxes that are taken. A place is a point and the side of it on which the label stands: -1, 0 or 1. */
class Labels {
  constructor(width, height) {
    Object.assign(this, { width, height });
    this.taken = [];
    this.items = [];
    this.keep();
  }

  /** Keeps labels off a mark. */
  avoid(x, y, r) {
    this.taken.push([x - r, y - r, x + r, y + r]);
  }

  /** Adds a label, unless no place is free. One that has to be there then stands at the first place. */
  add(context, text, places, { font, colour, isNeeded = false }) {
    context.font = font;
    const wide = context.measureText(text).width + 6;
    const boxes = places.map(([x, y, side]) => {
      const left = x + ((side - 1) * wide) / 2;
      return [left, y - LABEL_TALL / 2, left + wide, y + LABEL_TALL / 2];
    });
    const box = boxes.find((it) => this._isFree(it)) ?? (isNeeded ? boxes[0] : null);
    if (!box) return;
    this.taken.push(box);
    this.items.push({ text, box, font, colour });
  }

  _isFree([left, top, right, bottom]) {
    if (left < 0 || top < 0 || right > this.width || bottom > this.height) return false;
    return !this.taken.some((it) => it[0] < right && it[2] > left && it[1] < bottom && it[3] > top);
  }

  /** Keeps the labels and boxes that there are now; `restart` forgets those that came after. */
  keep() {
    this.kept = [this.taken.length, this.items.length];
  }

  restart() {
    [this.taken.length, this.items.length] = this.kept;
  }

  /** Draws the labels, each on a plate. */
  draw(context, theme) {
    context.textAlign = "center";
    context.textBaseline = "middle";
    for (const { text, box: [left, top, right, bottom], font, colour } of this.items) {
      context.globalAlpha = 0.85;
      context.fillStyle = theme.paper;
      context.fillRect(left, top, right - left, bottom - top);
      context.globalAlpha = 1;
      context.font = font;
      context.fillStyle = colour;
      context.fillText(text, (left + right) / 2, (top + bottom) / 2);
    }
  }
}
