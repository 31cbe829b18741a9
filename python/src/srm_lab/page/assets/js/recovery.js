// Local recovery: which requests a repair serves. What goes to all has the scope, or the width, Infinity.

/** A repair as a member sees it that sent or heard it: whose request of which width it answers, and how many links further it goes. */
function markOf(network, packet, member) {
  const left = Math.max(0, packet.scope - network.hops(packet.sender, member));
  return { packet, requester: packet.requester, width: packet.width, left };
}

/** Whether a member sees that a repair was meant for a request: as a first step or in one step, for one no wider. */
function isMeantFor(mark, member, asked) {
  return mark.requester === asked.requester && asked.requester !== member && mark.width >= asked.width;
}

/** Whether a member sees that a repair comes to all whom a request may have reached. */
function covers(network, mark, member, asked) {
  return network.hops(asked.requester, member) + asked.width <= mark.left;
}

/** Whether a repair serves a request, as a member sees it. */
function serves(network, mark, member, asked) {
  return covers(network, mark, member, asked) || isMeantFor(mark, member, asked);
}

/** How a repair answers: to all, in one step, or in the first or the second of two. */
function stepOf(packet, steps) {
  if (packet.scope === Infinity) return STEP.all;
  if (packet.requester === packet.sender) return STEP.second;
  return steps === 1 ? STEP.one : STEP.first;
}

const STEPS = ["to all", "in one step", "first step", "second step"];
const STEP = Object.freeze({ all: 0, one: 1, first: 2, second: 3 });

/** How far something goes, in words. */
function scopeInWords(scope) {
  return scope === Infinity ? "to all" : `${counted(scope, "link")} far`;
}
