// What is selected: a member, a loss, a row, a packet or a link; and how the address has it.

/** Of what lies under a pointer, what is selected. */
function selected({ kind, member, name, row, packet, link }) {
  switch (kind) {
    case "member": return { kind, member };
    case "loss": return { kind, name, member: member ?? -1 };
    case "row": return { kind, row };
    case "packet": return { kind, packet };
    default: return { kind, link };
  }
}

/** A selection as the address has it. Rows go by their numbers in the whole trace. */
function selectionText(selection, { trace }) {
  switch (selection?.kind) {
    case "member": return `member:${selection.member}`;
    case "loss": return `loss:${trace.nameText(selection.name)}${selection.member >= 0 ? `:${selection.member}` : ""}`;
    case "row": return `row:${trace.number[selection.row]}`;
    case "packet": return `packet:${trace.packetText(trace.packets[selection.packet])}`;
    case "link": return `link:${selection.link}`;
    default: return "";
  }
}

/** The selection that a text of the address stands for, or null where the run has none. */
function selectionOf(text, { trace, network }) {
  const [kind, first, second] = (text ?? "").split(":");
  const number = numberIn(first);
  switch (kind) {
    case "member": return network.members[number] ? { kind, member: number } : null;
    case "link": return network.links[number] ? { kind, link: number } : null;
    case "row": return found(kind, "row", trace.number.indexOf(number));
    case "packet":
      return found(kind, "packet", trace.packets.findIndex((packet) => trace.packetText(packet) === `${first}:${second}`));
    case "loss": {
      const loss = found(kind, "name", trace.names.findIndex((name) => name.join("/") === first));
      return loss && { ...loss, member: network.members[numberIn(second)] ? numberIn(second) : -1 };
    }
    default: return null;
  }
}

function found(kind, key, at) {
  return at < 0 ? null : { kind, [key]: at };
}

/** The number that a text is, or -1. */
function numberIn(text) {
  return /^\d+$/.test(text ?? "") ? Number(text) : -1;
}

/** The members that a selection concerns; of an operation all that lost it, unless one of them is selected. */
function membersOf(selection, { trace, history }) {
  switch (selection?.kind) {
    case "member": return [selection.member];
    case "loss":
      if (selection.member >= 0) return [selection.member];
      return (history.lossesOfName.get(selection.name) ?? []).map((loss) => loss.member);
    case "row": return [trace.member[selection.row]];
    case "packet": return [trace.packets[selection.packet].sender];
    default: return [];
  }
}
