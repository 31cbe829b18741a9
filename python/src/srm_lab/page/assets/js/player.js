// The clock of the page: a moment of the run, moved by play, steps and the slider.

// ticks a second
const SPEEDS = d3.range(-2, 9).flatMap((power) => [1, 2, 5].map((factor) => factor * 10 ** power));
const SECONDS_OF_A_RUN = 30;
const STEPS_A_SECOND = 2;

/** A moment is a tick and the count of rows handled; the rows of a tick may be handled one by one. */
class Player {
  constructor(trace, moments, theme, onMove) {
    this.trace = trace;
    this.moments = moments;
    this.theme = theme;
    this.onMove = onMove;
    this.isPlaying = false;
    this.skips = true;
    this.speed = this._usualSpeed();
    this.tick = moments.begin;
    this.rows = trace.rowsUpTo(moments.begin);
  }

  /** The speed at which the busy part of the run takes some half a minute. */
  _usualSpeed() {
    const wanted = Math.max(this.moments.length, 1) / SECONDS_OF_A_RUN;
    return SPEEDS.find((speed) => speed >= wanted) ?? SPEEDS[SPEEDS.length - 1];
  }

  toggle() {
    if (this.isPlaying) this.pause();
    else this.play();
  }

  play() {
    if (this.tick >= this.moments.end && this.rows >= this.trace.length) this.seek(this.moments.begin);
    this.isPlaying = true;
    this.last = null;
    requestAnimationFrame((now) => this._frame(now));
    this.onMove();
  }

  pause() {
    this.isPlaying = false;
    this.onMove();
  }

  /** Goes to a tick, with all its rows handled. */
  seek(tick) {
    const within = Math.max(this.moments.begin, Math.min(this.moments.end, tick));
    this._move(within, this.trace.rowsUpTo(within));
  }

  /** Goes to where so many rows are handled. */
  seekRow(rows) {
    const count = Math.max(0, Math.min(this.trace.length, rows));
    this._move(count > 0 ? Math.max(this.trace.time[count - 1], this.moments.begin) : this.moments.begin, count);
  }

  /** One event on (1) or back (-1). */
  stepEvent(by) {
    this.isPlaying = false;
    this.seekRow(this.rows + by);
  }

  /** To the next (1) or the previous (-1) tick that has events. */
  stepTick(by) {
    this.isPlaying = false;
    const { time } = this.trace;
    if (by > 0 && this.rows < this.trace.length) this.seek(time[this.rows]);
    if (by < 0) {
      const before = d3.bisectLeft(time, this.tick);
      this.seek(before > 0 ? time[before - 1] : this.moments.begin);
    }
  }

  /** Faster (1) or slower (-1). */
  changeSpeed(by) {
    const at = SPEEDS.findIndex((speed) => speed >= this.speed);
    this.setSpeed(SPEEDS[Math.max(0, Math.min(SPEEDS.length - 1, at + by))]);
  }

  setSpeed(speed) {
    this.speed = speed;
    this.onMove();
  }

  setSkips(skips) {
    this.skips = skips;
    this.onMove();
  }

  _move(tick, rows) {
    this.tick = tick;
    this.rows = rows;
    this.onMove();
  }

  _frame(now) {
    if (!this.isPlaying) return;
    if (this.theme.isStill) this._stepStill(now);
    else this._advance(now);
    if (this.tick >= this.moments.end) {
      this.tick = this.moments.end;
      this.rows = this.trace.length;
      this.isPlaying = false;
    }
    this.onMove();
    if (this.isPlaying) requestAnimationFrame((next) => this._frame(next));
  }

  /** With little motion: from tick with events to tick with events, some few a second. */
  _stepStill(now) {
    if (this.last !== null && now - this.last < 1000 / STEPS_A_SECOND) return;
    this.last = now;
    this.tick = this.rows < this.trace.length ? this.trace.time[this.rows] : this.moments.end;
    this.rows = this.trace.rowsUpTo(this.tick);
  }

  _advance(now) {
    const seconds = this.last === null ? 0 : Math.min(0.25, (now - this.last) / 1000);
    this.last = now;
    const gone = seconds * this.speed;
    this.tick = Math.min(this.moments.end, this.tick + gone);
    const next = this.skips ? this.moments.nextAfter(this.tick) : null;
    if (next !== null && next - this.tick > 0.3 * this.speed) this.tick = next;
    this.rows = this.trace.rowsUpTo(this.tick);
  }
}
