// Members where there is no room for their numbers.

// in the order in which they are drawn
const SMALL_STATES = [STATE.absent, STATE.left, STATE.rests, STATE.plans, STATE.lacks, STATE.asked];

/** Draws members as small marks: those that hold all once, on the background; those that lack something last, and large. */
class SmallMembers {
  constructor(view) {
    this.view = view;
    this.members = view.network.members;
  }

  draw(context) {
    const { states } = this.view.model;
    const places = STATES.map(() => new Map());
    this.members.forEach(({ node, role }, member) => {
      const state = states.of(member);
      if (state === STATE.holds) return;
      if (!places[state].has(role)) places[state].set(role, []);
      places[state].get(role).push([this.view.x[node], this.view.y[node]]);
    });
    for (const state of SMALL_STATES) {
      for (const [role, some] of places[state]) this.view.sprites.copyTo(context, some, this._mark(state, role));
    }
  }

  /** All members as if they held all, for the background. */
  drawPlaces(context) {
    const { x, y, theme } = this.view;
    for (const { node, role } of this.members) {
      drawSmallMember(context, theme, role, STATE.holds, x[node], y[node], this.sizeOf(STATE.holds, role));
    }
  }

  /** The radius of a mark: as large as the room between members lets it be. */
  sizeOf(state, role) {
    const { radius } = this.view;
    const size = isLacking(state) ? 1.3 * radius : radius;
    return role === "sender" ? Math.max(4, size) : size;
  }

  _mark(state, role) {
    const size = this.sizeOf(state, role);
    const draw = (context, x, y) => drawSmallMember(context, this.view.theme, role, state, x, y, size);
    return { key: `${state} ${role}`, reach: 1.3 * size + 2, draw };
  }
}
