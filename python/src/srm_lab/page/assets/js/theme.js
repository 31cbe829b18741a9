// Dark or light, and the colours for canvases.

const COLOURS = ["paper", "panel", "ink", "soft", "line", "faint", "accent", "data", "request", "repair", "session",
  "cross", "lost", "node", "edge", "select", "holds", "plans", "rests", "lacks", "asked"];
const TEXT_FONT = "system-ui, 'DejaVu Sans', 'Liberation Sans', sans-serif";

/** The theme: the reader's choice, or else that of the system; print is always light. */
class Theme {
  constructor(onChange) {
    this.choice = null;
    this.system = window.matchMedia("(prefers-color-scheme: dark)");
    this.motion = window.matchMedia("(prefers-reduced-motion: reduce)");
    this.onChange = onChange;
    this.system.addEventListener("change", () => this._apply());
    window.addEventListener("beforeprint", () => this._apply("light"));
    window.addEventListener("afterprint", () => this._apply());
    this._read(this.name);
  }

  /** `dark` or `light`. */
  get name() {
    return this.choice ?? (this.system.matches ? "dark" : "light");
  }

  /** Whether the reader wants little motion. */
  get isStill() {
    return this.motion.matches;
  }

  choose(name) {
    this.choice = name;
    this._apply();
  }

  toggle() {
    this.choose(this.name === "dark" ? "light" : "dark");
  }

  _apply(name = this.name) {
    this._read(name);
    this.onChange();
  }

  _read(name) {
    document.documentElement.dataset.theme = name;
    const styles = getComputedStyle(document.documentElement);
    for (const colour of COLOURS) this[colour] = styles.getPropertyValue(`--${colour}`).trim();
    this.kinds = KINDS.map((kind) => this[kind]);
  }
}
