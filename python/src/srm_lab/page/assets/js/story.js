// What became of an operation, in a few sentences.

const MOST_IN_A_STORY = 4;

/** A delay in round trips, rounded for reading. */
const tripsText = d3.format(".3~f");

/** The story of an operation's loss: sentences. */
function storyOf(reasons) {
  if (!reasons.losses.length) return ["Nobody lost it."];
  return [lossSentence(reasons), requestSentence(reasons), repairSentence(reasons), secondStepSentence(reasons),
    recoverySentence(reasons), hearingSentence(reasons)].filter(Boolean);
}

function lossSentence({ losses, trace }) {
  const losers = membersInWords(losses.map((loss) => loss.member));
  return `${capital(losers)} lost it, and found out ${ticksInWords(losses.map((loss) => trace.time[loss.detected]))}.`;
}

function requestSentence({ requests }) {
  if (!requests.length) return "Nobody asked for it.";
  const [first] = requests;
  const { packet, suppressed } = first;
  const heldBack = suppressed.length ? `, which suppressed the request of ${membersInWords(suppressed)}` : "";
  const more = requests.length > 1 ? `; ${counted(requests.length - 1, "more request")} followed` : "";
  return `Member ${packet.sender} asked first, at tick ${grouping(packet.time)}${farInWords(packet)}${heldBack}${more}.`;
}

function repairSentence({ repairs, plans, requests }) {
  if (!repairs.length) return requests.length ? "Nobody answered." : "";
  const [{ packet }] = repairs;
  const planners = Array.from(new Set(plans.filter((plan) => !plan.isSecond).map((plan) => plan.member)));
  const planned = planners.length > 1 ? `${capital(membersInWords(planners))} planned a repair, and member` : "Member";
  const later = repairs.slice(1).filter(({ step }) => step !== STEP.second).length;
  const more = later ? `; ${counted(later, "more repair")} followed` : "";
  return `${planned} ${packet.sender} answered first, at tick ${grouping(packet.time)}${farInWords(packet)}${more}.`;
}

/** Who sent a repair on. */
function secondStepSentence({ repairs }) {
  const second = repairs.filter(({ step }) => step === STEP.second).map(({ packet }) => packet);
  if (!second.length) return "";
  const sender = membersInWords(Array.from(new Set(second.map((packet) => packet.sender))));
  return `In a second step ${sender} sent it on, ${ticksInWords(second.map((packet) => packet.time))}${farInWords(second[0])}.`;
}

/** How many members heard what the recovery took, where not all were to. */
function hearingSentence(reasons) {
  if (!reasons.isLocal) return "";
  const { requests, repairs, history } = reasons;
  const all = grouping(history.network.members.length);
  const asked = `${grouping(reasons.hearersOf(requests).size)} of ${all} members heard a request`;
  return repairs.length ? `${asked}, and ${grouping(reasons.hearersOf(repairs).size)} a repair.` : `${asked}.`;
}

/** How far a packet went that did not go to all. */
function farInWords({ scope }) {
  return scope === Infinity ? "" : `, ${scopeInWords(scope)}`;
}

function recoverySentence(reasons) {
  const { losses, trace } = reasons;
  const recovered = losses.filter((loss) => loss.recovered >= 0);
  const left = losses.filter((loss) => loss.recovered < 0 && loss.left >= 0).length;
  const open = losses.length - recovered.length - left;
  const others = [
    left ? `${counted(left, "member")} left without it` : "",
    open ? `${counted(open, "member")} ${open === 1 ? "lacks" : "lack"} it to the end` : "",
  ].filter(Boolean).join(", and ");
  if (!recovered.length) return `${capital(others)}.`;
  const last = grouping(d3.max(recovered, (loss) => trace.time[loss.recovered]));
  const [least, most] = d3.extent(recovered, (loss) => reasons.delay(loss).trips).map(tripsText);
  const delays = least === most ? least : `${least} to ${most}`;
  const one = `Member ${losses[0].member}`;
  const who = others ? `${recovered.length} of ${losses.length}` : losses.length === 1 ? one : "All of them";
  return `${who} had it by tick ${last}, ${delays} round trips to the source after finding out`
    + `${others ? `; ${others}` : ""}.`;
}

/** Some members in words: by their numbers where they are few. */
function membersInWords(members) {
  const sorted = members.slice().sort((one, other) => one - other);
  if (sorted.length > MOST_IN_A_STORY) return `${grouping(sorted.length)} members`;
  if (sorted.length === 1) return `member ${sorted[0]}`;
  return `members ${sorted.slice(0, -1).join(", ")} and ${sorted[sorted.length - 1]}`;
}

/** Some ticks in words: one, or the first and the last. */
function ticksInWords(ticks) {
  const [first, last] = d3.extent(ticks);
  return first === last ? `at tick ${grouping(first)}` : `at ticks ${grouping(first)} to ${grouping(last)}`;
}

function capital(text) {
  return text[0].toUpperCase() + text.slice(1);
}
