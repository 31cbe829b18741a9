// What lies under the pointer, in words.

const TIP_ROOM = 320;

/** The box that follows the pointer over the pictures. */
class Tips {
  constructor(stage, tip, views, textOf) {
    Object.assign(this, { stage, tip });
    for (const view of Object.values(views)) {
      const { canvas } = view.surface;
      canvas.addEventListener("pointermove", (event) => {
        const box = canvas.getBoundingClientRect();
        const what = view.at([event.clientX - box.left, event.clientY - box.top]);
        this._show(what && textOf(what), event);
      });
      canvas.addEventListener("pointerleave", () => this._show(null));
    }
  }

  _show(text, event) {
    const { tip } = this;
    tip.hidden = !text;
    if (!text) return;
    tip.textContent = text;
    const box = this.stage.getBoundingClientRect();
    const left = event.clientX - box.left;
    const isAtTheRight = left > box.width - TIP_ROOM;
    tip.style.left = isAtTheRight ? "" : `${left + 14}px`;
    tip.style.right = isAtTheRight ? `${box.width - left + 14}px` : "";
    tip.style.top = `${Math.min(event.clientY - box.top + 14, box.height - 70)}px`;
  }
}

/** What lies under a pointer: a member, a link, an event, a packet or a timer. */
function tipText({ kind, member, link, row, packet, timer, isEnd }, { states, network, trace, history }, rules) {
  if (kind === "member") {
    const { role, node } = network.members[member];
    return `Member ${member}, ${role} at node ${node}\n${STATE_WORDS[STATES[states.of(member)]]}`;
  }
  if (kind === "link") return `Link ${link}${network.isOut(link, Math.floor(states.tick)) ? ": out" : ""}`;
  if (timer) return timerInWords(history, timer);
  const event = row >= 0 ? `Tick ${grouping(trace.time[row])}: ${rules.headline(row)}` : "";
  if (packet === undefined) return event;
  const it = trace.packets[packet];
  const name = it.name >= 0 ? ` of ${trace.nameText(it.name)}` : "";
  const told = isEnd ? `goes no further: it is sent ${scopeInWords(it.scope)}` : link === undefined ? event : `dropped at link ${link}`;
  return `${KINDS[it.kind]}${name}, packet ${trace.packetText(it)}, sent at ${grouping(it.time)}\n${told}`;
}
