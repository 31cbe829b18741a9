// The keyboard.

const KEY_HELP = [
  [["Space"], "play or pause"],
  [["→", "←"], "one event on or back"],
  [["Shift →", "Shift ←"], "to the next or the previous tick with events"],
  [["Home", "End"], "to the beginning or the end"],
  [["Page ↑", "Page ↓"], "a twentieth of the run on or back, at the slider"],
  [["+", "−"], "faster or slower"],
  [["S"], "skip empty time, or not"],
  [["N", "P"], "to the next or the previous loss"],
  [["1", "2"], "network or sequence"],
  [["I", "O", "0"], "zoom in, out, show all; a wheel or a drag does the same"],
  [["M", "U", "K", "R"], "table of members, losses (unrecovered and recovered), links, rows"],
  [["↑", "↓"], "through a table's lines"],
  [["F"], "to the filters"],
  [["L"], "copy the address of this moment"],
  [["D"], "dark or light"],
  [["V", "B"], "save the picture as SVG or PNG"],
  [["Esc"], "select nothing"],
  [["?"], "these keys"],
];

/** Whether a key press belongs to a field, a button or a dialog. */
function isTaken(event) {
  const { target } = event;
  if (event.ctrlKey || event.metaKey || event.altKey || document.querySelector("dialog[open]")) return true;
  if (target.matches("input[type=text], select, textarea")) return event.key !== "Escape";
  if (target.matches("input")) return ["ArrowLeft", "ArrowRight", "Home", "End", " "].includes(event.key);
  return target.matches("button") && (event.key === " " || event.key === "Enter");
}

/** Listens to keys; `actions` has a function for each key. */
function listenToKeys(actions) {
  document.addEventListener("keydown", (event) => {
    if (isTaken(event)) return;
    const action = actions[keyOf(event)];
    if (!action) return;
    event.preventDefault();
    action();
  });
}

/** The name of a key press in `actions`. */
function keyOf({ key, shiftKey }) {
  if (shiftKey && key.startsWith("Arrow")) return `Shift ${key}`;
  return key.length === 1 ? key.toLowerCase() : key;
}

/** The table of keys, as an element. */
function keyHelp() {
  const lines = KEY_HELP.map(([keys, told]) => element("tr", {},
    element("td", {}, keys.flatMap((key, at) => [at ? " " : "", element("kbd", {}, key)])), element("td", {}, told)));
  return element("table", {}, element("tbody", {}, lines));
}
