// What the page says of the run as a whole, and of what it leaves out.

const NETWORK_WORDS = { chain: "chain", star: "star", tree: "tree of bounded degree", links: "tree of listed links",
  parents: "tree of listed parents" };

/** The run in figures. */
function factsOf({ about, network, moments, trace, history }) {
  return [
    counted(network.members.length, "member"),
    counted(network.nodes, "node"),
    counted(trace.length, "event"),
    counted(history.losses.length, "loss", "losses"),
    `ticks ${grouping(moments.begin)} to ${grouping(moments.end)}`,
    about.timers ? `seed ${about.seed}` : "",
  ].filter(Boolean).join(" · ");
}

/** What the page leaves out or does not know, in sentences; empty where there is nothing to say. */
function noticeOf({ about: { cut, timers }, moments }) {
  const told = [];
  if (cut.shown < cut.rows) {
    told.push(`This page has ${grouping(cut.shown)} of the trace's ${grouping(cut.rows)} rows${cutWords(cut, moments)}. `
      + "Its tables count these rows only.");
  }
  if (cut.tooMany) {
    told.push(`More than ${grouping(cut.most)} rows make a page slow: cut the run with --from TICK, --to TICK or `
      + "--name S/P/N, or say --rows N.");
  }
  if (!timers) {
    told.push("The trace is not that of this seed, so when timers were due is not known: make the page with the run's "
      + "--seed.");
  }
  return told.join(" ");
}

/** How the run was cut. */
function cutWords(cut, moments) {
  const parts = [];
  if (cut.from > 0) parts.push(`from tick ${grouping(cut.from)}, without what was settled before`);
  if (cut.to !== null) parts.push(`up to tick ${grouping(cut.to)}`);
  if (cut.names.length) parts.push(`about ${cut.names.map((name) => name.join("/")).join(", ")}`);
  if (cut.tooMany) parts.push(`the first up to tick ${grouping(moments.end)} of ${grouping(cut.last)}`);
  return parts.length ? `: ${parts.join(", ")}` : "";
}

/** The run's description, for a dialog. */
function aboutOf({ about, network, isLocal }) {
  const [c1, c2, d1, d2] = about.constants.map((constant) => constant / 1000);
  const told = about.comments.join(" ");
  return [
    element("h2", {}, about.title),
    told ? element("p", {}, told) : null,
    element("p", {}, `A ${NETWORK_WORDS[about.kind]} with ${counted(network.nodes, "node")} and `
      + `${counted(network.members.length, "member")}, run with seed ${about.seed} until tick ${grouping(about.until)}.`),
    element("p", {}, `Request timers are drawn from ${c1} to ${c1 + c2} times half the round trip to the source, repair `
      + `timers from ${d1} to ${d1 + d2} times half the round trip to the requester. Each backoff doubles a request `
      + "timer's interval."),
    isLocal ? element("p", {}, "Members recover locally: some requests and repairs go a number of links only, and repairs "
      + `answer them in ${about.steps === 1 ? "one step" : "two steps"}.`) : null,
    element("p", { class: "soft" }, "Made from a scenario and a trace of srm_lab, which simulates loss recovery in SRM "
      + "(Floyd, Jacobson, Liu, McCanne and Zhang, 1997). The page holds d3, whose licence stands in its source."),
  ];
}
