// The words of a trace, in the order in which the page's data numbers them.

const CAUSES = ["join", "data", "request", "repair", "session", "ask", "answer", "draw", "report", "leave"];
const RESULTS = ["in", "out", "fresh", "fixed", "again", "skip", "rest", "busy", "plan", "hold", "back", "told", "sent"];
const KINDS = ["data", "request", "repair", "session"];

/** From a list of words an object that has each word's number. */
function numbered(words) {
  return Object.freeze(Object.fromEntries(words.map((word, number) => [word, number])));
}

const CAUSE = numbered(CAUSES);
const RESULT = numbered(RESULTS);
const KIND = numbered(KINDS);

/** Whether a cause is the arrival of a packet. */
function isArrival(cause) {
  return cause >= CAUSE.data && cause <= CAUSE.session;
}
