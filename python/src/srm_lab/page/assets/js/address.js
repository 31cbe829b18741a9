// The page's address keeps what is looked at: tick, rows handled, view, table, filters, selection and theme, after `#`.

/** Reads and writes the address. Writing waits until nothing changed for a moment. */
class Address {
  constructor(onChange) {
    this.written = location.hash;
    window.addEventListener("hashchange", () => { if (location.hash !== this.written) onChange(this.read()); });
  }

  /** The address's parts by name. */
  read() {
    return Object.fromEntries(new URLSearchParams(location.hash.slice(1)));
  }

  /** Writes parts, without those that are empty. */
  write(parts) {
    clearTimeout(this.timer);
    this.timer = setTimeout(() => this.writeNow(parts), 250);
  }

  writeNow(parts) {
    const kept = Object.entries(parts).filter(([, value]) => value !== "");
    this.written = `#${kept.map(([key, value]) => `${key}=${readable(value)}`).join("&")}`;
    window.history.replaceState(null, "", this.written);
  }
}

/** A value of the address, in which `/`, `:` and `,` may stand as they are. */
function readable(value) {
  return encodeURIComponent(value).replace(/%(2F|3A|2C)/g, (code) => decodeURIComponent(code));
}
