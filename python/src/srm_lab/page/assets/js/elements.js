// Making elements of the page.

/** An element with attributes (a function listens to the event of its name) and children (texts, elements, nothing). */
function element(tag, attributes = {}, ...children) {
  const made = document.createElement(tag);
  for (const [name, value] of Object.entries(attributes)) {
    if (typeof value === "function") made.addEventListener(name, value);
    else if (value !== null && value !== undefined && value !== false) made.setAttribute(name, value === true ? "" : value);
  }
  made.append(...children.flat(2).filter((child) => child !== null && child !== undefined && child !== false));
  return made;
}

/** Gives an element a text, if it has another: what stays the same need not be laid out anew. */
function setText(box, text) {
  if (box.textContent !== text) box.textContent = text;
}

/** The element of an id. */
function byId(id) {
  return document.getElementById(id);
}

/** Saves something as a file of this name. */
function save(blob, name) {
  const url = URL.createObjectURL(blob);
  element("a", { href: url, download: name }).click();
  setTimeout(() => URL.revokeObjectURL(url), 10000);
}

/** A number with commas between its thousands. */
const grouping = d3.format(",");

/** A count with its noun. */
function counted(count, noun, nouns = `${noun}s`) {
  return `${grouping(count)} ${count === 1 ? noun : nouns}`;
}

/** Numbers in one text, with runs of three or more drawn together, and at most so many parts. */
function ranges(numbers, most = 24) {
  const sorted = Array.from(new Set(numbers)).sort((one, other) => one - other);
  const runs = [];
  for (const number of sorted) {
    const last = runs[runs.length - 1];
    if (last && number === last[1] + 1) last[1] = number;
    else runs.push([number, number]);
  }
  const inWords = ([begin, end]) => (end > begin + 1 ? `${begin} to ${end}` : d3.range(begin, end + 1).join(", "));
  const parts = runs.map(inWords);
  const shown = parts.slice(0, most).join(", ");
  return parts.length > most ? `${shown} and more, ${sorted.length} in all` : shown;
}

/** The numbers in a text such as `0, 3-7`, or null where it is none. */
function numbersIn(text, limit) {
  const found = new Set();
  for (const part of text.split(",").map((it) => it.trim()).filter(Boolean)) {
    const match = /^(\d+)(?:\s*(?:-|to)\s*(\d+))?$/.exec(part);
    if (!match) return null;
    const last = Math.min(Number(match[2] ?? match[1]), limit - 1);
    if (Number(match[1]) >= limit) return null;
    for (let number = Number(match[1]); number <= last; number++) found.add(number);
  }
  return found;
}
