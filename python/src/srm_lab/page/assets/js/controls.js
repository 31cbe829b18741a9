// The buttons below the slider: play, steps, speed.

/** The player's buttons. */
class Controls {
  constructor(box, player, onLoss) {
    this.player = player;
    const button = (text, title, click) => element("button", { type: "button", title, "aria-label": title, click }, text);
    this.playButton = element("button", { type: "button", class: "play", id: "play", click: () => player.toggle() });
    this.tick = element("output", { class: "tick", id: "tick" });
    this.speed = element("output", { id: "speed" });
    this.skipBox = element("input", { type: "checkbox", id: "skip", change: () => player.setSkips(this.skipBox.checked) });
    box.append(
      button("|◂", "To the beginning (Home)", () => player.seek(-Infinity)),
      button("◂ Event", "One event back (←)", () => player.stepEvent(-1)),
      this.playButton,
      button("Event ▸", "One event on (→)", () => player.stepEvent(1)),
      button("▸|", "To the end (End)", () => player.seek(Infinity)),
      this.tick,
      button("◂ Loss", "To the previous loss (P)", () => onLoss(-1)),
      button("Loss ▸", "To the next loss (N)", () => onLoss(1)),
      element("span", { class: "push" }),
      button("−", "Slower (−)", () => player.changeSpeed(-1)),
      this.speed,
      button("+", "Faster (+)", () => player.changeSpeed(1)),
      element("label", { title: "Skip ticks in which nothing travels and nothing happens (S)" }, this.skipBox, "skip empty time"),
    );
  }

  /** Shows the player's moment, speed and choices. */
  show() {
    const { player } = this;
    const tick = Math.floor(player.tick);
    const events = `event ${grouping(player.rows)} of ${grouping(player.trace.length)}`;
    setText(this.tick, `Tick ${grouping(tick)} · ${events}`);
    setText(this.speed, `${d3.format(",~r")(player.speed)} ${player.speed === 1 ? "tick" : "ticks"}/s`);
    setText(this.playButton, player.isPlaying ? "❚❚ Pause" : "▶ Play");
    this.playButton.title = `${player.isPlaying ? "Pause" : "Play"} (space)`;
    this.skipBox.checked = player.skips;
  }
}
