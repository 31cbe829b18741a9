// The marks that stand for members, packets and drops: each told apart by its shape, not by its colour alone.

// the corners of a plus around its middle, where its arms are 1.25 long
const PLUS = [[-0.45, -1.25], [0.45, -1.25], [0.45, -0.45], [1.25, -0.45], [1.25, 0.45], [0.45, 0.45],
  [0.45, 1.25], [-0.45, 1.25], [-0.45, 0.45], [-1.25, 0.45], [-1.25, -0.45], [-0.45, -0.45]];

/** Adds a shape to the path. */
function outline(context, shape, x, y, r) {
  switch (shape) {
    case "square": context.rect(x - 0.9 * r, y - 0.9 * r, 1.8 * r, 1.8 * r); break;
    case "triangle": polygon(context, [[x, y - 1.25 * r], [x + 1.15 * r, y + 0.85 * r], [x - 1.15 * r, y + 0.85 * r]]); break;
    case "diamond": polygon(context, [[x, y - 1.25 * r], [x + 1.25 * r, y], [x, y + 1.25 * r], [x - 1.25 * r, y]]); break;
    case "plus": polygon(context, PLUS.map(([across, down]) => [x + across * r, y + down * r])); break;
    default:
      context.moveTo(x + r, y);
      context.arc(x, y, r, 0, 2 * Math.PI);
  }
}

const ROLE_SHAPES = { sender: "square", receiver: "circle", late: "triangle", listener: "diamond" };
// a repair is of no member's shape, so that it is not taken for one that plans it
const KIND_SHAPES = ["circle", "triangle", "plus", "diamond"];

/** Adds a member's outline to the path. */
function roleOutline(context, role, x, y, r) {
  outline(context, ROLE_SHAPES[role], x, y, r);
}

/** Adds a packet's outline to the path. */
function packetOutline(context, kind, x, y, r) {
  outline(context, KIND_SHAPES[kind], x, y, r);
}

function polygon(context, points) {
  points.forEach(([x, y], at) => (at ? context.lineTo(x, y) : context.moveTo(x, y)));
  context.closePath();
}

/** Strokes a line through points. */
function strokeLine(context, points, colour, width, dash) {
  context.strokeStyle = colour;
  context.lineWidth = width;
  context.setLineDash(dash);
  context.beginPath();
  points.forEach(([x, y], at) => (at ? context.lineTo(x, y) : context.moveTo(x, y)));
  context.stroke();
  context.setLineDash([]);
}

/** Strokes a cross. */
function cross(context, x, y, r, colour, width = 2.5) {
  strokeLine(context, [[x - r, y - r], [x + r, y + r]], colour, width, []);
  strokeLine(context, [[x - r, y + r], [x + r, y - r]], colour, width, []);
}

/** A bar across a way, where a packet goes no further. */
function endBar(context, theme, kind, [x, y], turn, r) {
  const [across, down] = [-r * Math.sin(turn), r * Math.cos(turn)];
  const ends = [[x - across, y - down], [x + across, y + down]];
  strokeLine(context, ends, theme.paper, 6, []);
  strokeLine(context, ends, theme.kinds[kind], 3, []);
}

/** Fills a bar for the time in which an operation is lacked. */
function lossBar(context, theme, x, y, wide, tall, isChosen) {
  context.fillStyle = theme.lost;
  context.globalAlpha = isChosen ? 0.65 : 0.32;
  context.fillRect(x, y, wide, tall);
  context.globalAlpha = 1;
}

/** A ring where a timer is set. */
function timerSetMark(context, theme, kind, x, y) {
  context.beginPath();
  context.arc(x, y, 3, 0, 2 * Math.PI);
  context.fillStyle = theme.paper;
  context.fill();
  context.strokeStyle = theme.kinds[kind];
  context.lineWidth = 1.8;
  context.stroke();
}

/** A dot where a timer expires, a bar where it ends otherwise. */
function timerEndMark(context, theme, kind, how, x, y) {
  context.fillStyle = theme.kinds[kind];
  if (how !== "expired") {
    context.fillRect(x - 5, y - 1.2, 10, 2.4);
    return;
  }
  context.beginPath();
  context.arc(x, y, 4.2, 0, 2 * Math.PI);
  context.fill();
}

/** How packets of one kind are drawn as lines. */
const DASHES = [[], [7, 3], [2, 3], [1, 4]];

/** The mark of a legend for packets of one kind: on a line. */
function packetKey(context, theme, kind, x, y) {
  strokeLine(context, [[0, y], [2 * x, y]], theme.kinds[kind], 2, DASHES[kind]);
  drawPacket(context, theme, kind, x, y, 4.5);
}

/** A small canvas for a legend, on which something is drawn. */
function swatch(draw, width = 22, height = 14) {
  const style = `width:${width}px;height:${height}px`;
  const canvas = element("canvas", { class: "swatch", "aria-hidden": "true", style });
  const scale = window.devicePixelRatio || 1;
  canvas.width = width * scale;
  canvas.height = height * scale;
  const context = canvas.getContext("2d");
  context.scale(scale, scale);
  draw(context, width / 2, height / 2);
  return canvas;
}

/** How members of a state are drawn: filled with a colour, ringed, dashed, crossed out. */
function stateStyle(theme, state) {
  switch (STATES[state]) {
    case "absent": return { fill: theme.paper, ring: theme.soft, width: 1.2, dash: [2, 2] };
    case "holds": return { fill: theme.holds, ring: theme.ink, width: 1.2, dash: [] };
    case "plans": return { fill: theme.plans, ring: theme.plans, width: 1.2, dash: [] };
    case "rests": return { fill: theme.rests, ring: theme.repair, width: 1.6, dash: [3, 2] };
    case "lacks": return { fill: theme.lacks, ring: theme.ink, width: 1.2, dash: [] };
    case "asked": return { fill: theme.asked, ring: theme.lacks, width: 3, dash: [] };
    default: return { fill: theme.paper, ring: theme.soft, width: 1.2, dash: [], crossed: true };
  }
}

/** Draws a member. */
function drawMember(context, theme, role, state, x, y, r) {
  const style = stateStyle(theme, state);
  context.beginPath();
  roleOutline(context, role, x, y, r);
  context.fillStyle = style.fill;
  context.fill();
  context.setLineDash(r > 5 ? style.dash : []);
  context.lineWidth = Math.min(style.width, Math.max(1, r / 2.5));
  context.strokeStyle = style.ring;
  context.stroke();
  context.setLineDash([]);
  if (style.crossed) cross(context, x, y, 0.7 * r, theme.soft, 1.5);
}

/** Draws a member so small that its fill and the width of its rim have to tell its state. */
function drawSmallMember(context, theme, role, state, x, y, r) {
  const { fill, ring, width } = smallStyle(theme, state);
  context.beginPath();
  roleOutline(context, role, x, y, r - width / 2);
  context.fillStyle = fill;
  context.fill();
  context.lineWidth = Math.min(width, r / 3);
  context.strokeStyle = ring;
  context.stroke();
  if (state === STATE.left) cross(context, x, y, 0.8 * r, theme.soft, 1.2);
}

function smallStyle(theme, state) {
  switch (STATES[state]) {
    case "holds": return { fill: theme.edge, ring: theme.edge, width: 0.5 };
    case "plans": return { fill: theme.plans, ring: theme.plans, width: 1 };
    case "rests": return { fill: theme.paper, ring: theme.repair, width: 1.2 };
    case "lacks": return { fill: theme.lacks, ring: theme.lacks, width: 1 };
    case "asked": return { fill: theme.asked, ring: theme.lacks, width: 1.2 };
    default: return { fill: theme.paper, ring: theme.soft, width: 0.8 };
  }
}

/** Fills a packet's mark. */
function fillPacket(context, theme, kind, x, y, r) {
  context.beginPath();
  packetOutline(context, kind, x, y, r);
  context.fillStyle = theme.kinds[kind];
  context.fill();
}

/** Draws a packet, with an edge that sets it off from others. */
function drawPacket(context, theme, kind, x, y, r) {
  fillPacket(context, theme, kind, x, y, r);
  context.lineWidth = 1;
  context.strokeStyle = theme.paper;
  context.stroke();
}

/** The colour, black or white, in which text is best read on a colour. */
function textOn(colour) {
  const { r, g, b } = d3.rgb(colour);
  return 0.299 * r + 0.587 * g + 0.114 * b > 140 ? "#10151b" : "#ffffff";
}
