// What the marks of the two pictures mean.

/** Shows a legend: marks with their meanings, and of a state how many members are in it. */
function showLegend(box, entries, states) {
  const style = `min-width:${grouping(states.members).length}ch`;
  box.replaceChildren(...entries.map(({ draw, told, state }) => element("span", {}, draw && swatch(draw, 16), told,
    state !== undefined && element("b", { style, "data-state": String(state) }))));
  showCensus(box, states);
}

/** Shows in a legend how many members are in each state now. */
function showCensus(box, states) {
  const census = states.census();
  for (const count of box.querySelectorAll("[data-state]")) setText(count, grouping(census[count.dataset.state]));
}

/** The network's legend: the roles that the run has, the states, drops, and ends of scopes. */
function networkLegend(theme, network, isLocal) {
  const has = new Set(network.members.map((member) => member.role));
  const roles = ["sender", "receiver", "late", "listener"].filter((role) => has.has(role)).map((role) => ({
    told: role,
    draw: (context, x, y) => {
      context.beginPath();
      roleOutline(context, role, x, y, 5);
      context.strokeStyle = theme.ink;
      context.stroke();
    },
  }));
  const states = STATES.map((word, state) => ({
    told: STATE_WORDS[word], state, draw: (context, x, y) => drawMember(context, theme, "receiver", state, x, y, 5.5),
  }));
  return [...roles, ...states, { told: "packet dropped", draw: (context, x, y) => cross(context, x, y, 5, theme.cross) },
    ...scopeLegend(theme, isLocal)];
}

/** What stands in a legend for the end of a scope, where some packets have one. */
function scopeLegend(theme, isLocal) {
  return isLocal ? [{ told: "scope ends", draw: (context, x, y) => endBar(context, theme, KIND.repair, [x, y], 0, 5) }] : [];
}

/** The sequence's legend. */
function sequenceLegend(theme, isLocal) {
  return [
    { told: "lacked", draw: (context, x, y) => lossBar(context, theme, x - 5, 0, 10, 2 * y, false) },
    { told: "timer set", draw: (context, x, y) => timerSetMark(context, theme, KIND.request, x, y) },
    { told: "expired", draw: (context, x, y) => timerEndMark(context, theme, KIND.request, "expired", x, y) },
    { told: "stopped or set anew", draw: (context, x, y) => timerEndMark(context, theme, KIND.request, "stopped", x, y) },
    { told: "packet dropped", draw: (context, x, y) => cross(context, x, y, 4.5, theme.cross) },
    ...scopeLegend(theme, isLocal),
    { told: "left", draw: (context, x, y) => cross(context, x, y, 4.5, theme.ink, 2) },
    { told: "timers in the colour of what they send" },
  ];
}

/** The legend of a picture that stands alone: with the packets that it shows, and of the states those that members are in. */
function pictureLegend(theme, entries, filters, states) {
  const census = states.census();
  const packets = KIND_WORDS.map((told, kind) => ({ told, draw: (context, x, y) => packetKey(context, theme, kind, x, y) }));
  const counted = ({ told, draw, state }) => ({ told: `${told}: ${grouping(census[state])}`, draw });
  return [...packets.filter((_, kind) => filters.kinds[kind]),
    ...entries.filter(({ state }) => state === undefined || census[state] > 0)
      .map((entry) => (entry.state === undefined ? entry : counted(entry)))];
}
