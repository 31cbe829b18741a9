// The program's tables of members, losses and links, from the trace.

const MEMBER_COLUMNS = ["member", "role", "node", "joined", "left", "drawn", "heard", "lost", "fixed", "open", "requests",
  "repairs", "sessions"];
const LOSS_COLUMNS = ["member", "source", "page", "number", "detected", "recovered", "delay"];
const LINK_COLUMNS = ["link", "data", "requests", "repairs", "sessions", "dropped"];
const TRACE_COLUMNS = ["time", "member", "cause", "ref", "result", "lost", "sent"];

/** The table of members: an array of values for each. */
function memberTable(history) {
  const { trace, network } = history;
  const rows = network.members.map((member, number) => [number, member.role, member.node, "-", "-", 0, 0, 0, 0, 0, 0, 0, 0]);
  for (let row = 0; row < trace.length; row++) countMemberRow(rows[trace.member[row]], trace, row);
  for (const row of rows) row[9] = row[7] - row[8];
  return rows;
}

/** Adds a row of the trace to its member's row of the table. */
function countMemberRow(values, trace, row) {
  const cause = trace.cause[row];
  const sent = trace.result[row] === RESULT.sent ? 1 : 0;
  if (cause === CAUSE.join) values[3] = trace.time[row];
  if (cause === CAUSE.leave) values[4] = trace.time[row];
  if (cause === CAUSE.draw) values[5] += sent;
  if (isArrival(cause)) values[6]++;
  values[7] += trace.lost[row];
  if (trace.result[row] === RESULT.fixed) values[8]++;
  if (cause === CAUSE.ask) values[10] += sent;
  if (cause === CAUSE.answer) values[11] += sent;
  if (cause === CAUSE.report) values[12] += sent;
}

/** The table of losses, rising by member and name: for each its values and the loss. */
function lossTable(history) {
  const { trace } = history;
  const losses = history.losses.slice().sort((one, other) => one.member - other.member || one.name - other.name);
  return losses.map((loss) => ({ loss, values: lossValues(history, trace, loss) }));
}

function lossValues(history, trace, loss) {
  const [source, page, number] = trace.names[loss.name];
  const detected = trace.time[loss.detected];
  const front = [loss.member, source, page, number, detected];
  if (loss.recovered < 0) return [...front, "-", "-"];
  const recovered = trace.time[loss.recovered];
  return [...front, recovered, `${recovered - detected}/${history.network.roundTrip(loss.member, source)}`];
}

/** The table of links. Packets that no link took out are counted by sender and kind, and the others one by one. */
function linkTable(history) {
  const { network, trace } = history;
  const rows = network.links.map((_, link) => [link, 0, 0, 0, 0, 0]);
  const whole = new Map();
  for (const packet of trace.packets) {
    if (packet.row < 0) continue;
    const fate = network.fateOf(packet);
    const key = packet.sender * KINDS.length + packet.kind;
    if (fate) countFate(rows, network.routeOf(packet.sender), packet.kind, fate);
    else whole.set(key, 1 + (whole.get(key) ?? 0));
  }
  for (const [key, count] of whole) {
    const kind = key % KINDS.length;
    for (const link of network.routeOf(Math.floor(key / KINDS.length)).link) rows[link][1 + kind] += count;
  }
  return rows;
}

function countFate(rows, route, kind, fate) {
  fate.crossed.forEach((crossed, at) => { rows[route.link[at]][1 + kind] += crossed; });
  for (const at of fate.dropped) rows[route.link[at]][5]++;
}

/** A table as the program writes it. */
function csvOf(columns, rows) {
  return [columns, ...rows].map((values) => `${values.join(",")}\n`).join("");
}
