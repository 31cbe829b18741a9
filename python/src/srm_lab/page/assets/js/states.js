// The state of each member at each moment of a run.

const COUNTS = ["held", "lacked", "asked", "planned", "resting"];
const COUNT = numbered(COUNTS);
const STATES = ["absent", "holds", "plans", "rests", "lacks", "asked", "left"];
const STATE = numbered(STATES);
const STATE_WORDS = {
  absent: "has not joined",
  holds: "holds all that it knows of",
  plans: "plans a repair",
  rests: "rests after a repair",
  lacks: "lacks, and waits to ask",
  asked: "lacks, and asked or heard a request",
  left: "left",
};

/** Changes of members' counts in order, each at a place (a row, or a tick) from which on it holds. */
class Changes {
  constructor() {
    this.items = [];
  }

  add(place, member, count, step) {
    this.items.push({ place, member, count, step });
  }

  /** To be called once, when all are added. */
  sort() {
    this.items.sort((one, other) => one.place - other.place);
    this.done = 0;
  }

  /** Applies or takes back changes, so that those at places up to `place` are applied. */
  moveTo(place, apply) {
    const { items } = this;
    while (this.done < items.length && items[this.done].place <= place) {
      const { member, count, step } = items[this.done++];
      apply(member, count, step);
    }
    while (this.done > 0 && items[this.done - 1].place > place) {
      const { member, count, step } = items[--this.done];
      apply(member, count, -step);
    }
  }
}

/** The members' counts at a moment: at a tick, with so many rows handled. */
class States {
  constructor(history) {
    this.history = history;
    this.members = history.network.members.length;
    this.counts = COUNTS.map(() => new Int32Array(this.members));
    this.byRow = new Changes();
    this.byTick = new Changes();
    this._losses();
    this._plans();
    this._rests();
    this.byRow.sort();
    this.byTick.sort();
    this.rows = 0;
    this.moveTo(0, 0);
  }

  _losses() {
    for (const loss of this.history.losses) {
      const end = this.history.endOf(loss);
      this._between(loss.detected, end, loss.member, COUNT.lacked);
      if (loss.asked >= 0) this._between(loss.asked, end, loss.member, COUNT.asked);
    }
  }

  _plans() {
    for (const timer of this.history.timers) {
      if (timer.kind === KIND.repair) this._between(timer.set, timer.end, timer.member, COUNT.planned);
    }
  }

  /** A rest ends at its tick, or with the row that renews it if that is earlier. */
  _rests() {
    const { time } = this.history.trace;
    for (const rest of this.history.rests) {
      this.byRow.add(rest.begin, rest.member, COUNT.resting, 1);
      if (rest.cut >= 0 && time[rest.cut] < rest.to) this.byRow.add(rest.cut, rest.member, COUNT.resting, -1);
      else this.byTick.add(rest.to, rest.member, COUNT.resting, -1);
    }
  }

  _between(begin, end, member, count) {
    this.byRow.add(begin, member, count, 1);
    if (end >= 0) this.byRow.add(end, member, count, -1);
  }

  /** Goes to a moment: `rows` rows were handled, and it is tick `tick`. */
  moveTo(tick, rows) {
    const apply = (member, count, step) => { this.counts[count][member] += step; };
    this._gain(rows);
    this.tick = tick;
    this.rows = rows;
    this.byRow.moveTo(rows - 1, apply);
    this.byTick.moveTo(Math.floor(tick), apply);
  }

  /** Counts what members hold, row by row on or back. */
  _gain(rows) {
    const { gains, trace } = this.history;
    const held = this.counts[COUNT.held];
    for (let row = this.rows; row < rows; row++) held[trace.member[row]] += gains[row];
    for (let row = rows; row < this.rows; row++) held[trace.member[row]] -= gains[row];
  }

  /** A member's count. */
  count(count, member) {
    return this.counts[count][member];
  }

  /** How many members are in each state. */
  census() {
    const found = STATES.map(() => 0);
    for (let member = 0; member < this.members; member++) found[this.of(member)]++;
    return found;
  }

  /** A member's state, a number of STATES. */
  of(member) {
    const { left, joined } = this.history;
    if (left[member] >= 0 && left[member] < this.rows) return STATE.left;
    if (joined[member] < 0 || joined[member] >= this.rows) return STATE.absent;
    const lacked = this.counts[COUNT.lacked][member];
    if (lacked > 0) return this.counts[COUNT.asked][member] < lacked ? STATE.lacks : STATE.asked;
    if (this.counts[COUNT.planned][member] > 0) return STATE.plans;
    return this.counts[COUNT.resting][member] > 0 ? STATE.rests : STATE.holds;
  }
}

/** Whether members of a state lack an operation. */
function isLacking(state) {
  return state === STATE.lacks || state === STATE.asked;
}
