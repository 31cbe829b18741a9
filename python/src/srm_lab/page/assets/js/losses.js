// Losses at random: which packets a link loses. Words of 64 bits are of type bigint.

const WHOLE_RATE = 1000000;
// stands for the sender of what comes in a burst
const NOBODY = 65535;

/** The output function of SplitMix64 (Steele, Lea and Flood 2014). */
function mixed(word) {
  const first = BigInt.asUintN(64, (word ^ (word >> 30n)) * 0xbf58476d1ce4e5b9n);
  const second = BigInt.asUintN(64, (first ^ (first >> 27n)) * 0x94d049bb133111ebn);
  return second ^ (second >> 31n);
}

/** A loss of a link, from a tick up to below another: it takes packets, or all in a burst, whose words are below a bound. */
class RandomLoss {
  constructor([link, rate, stream, from, to, burst], start) {
    Object.assign(this, { link, rate, from, to: to ?? Infinity, burst });
    this.bound = Number((BigInt(rate) << 32n) / BigInt(WHOLE_RATE));
    this.start = mixed(start ^ BigInt(stream));
    this.starts = new Map();
  }

  /** The word of a packet, of 32 bits. What all packets of its sender share is kept. */
  word({ sender, count }) {
    if (!this.starts.has(sender)) this.starts.set(sender, mixed(this.start ^ BigInt(this.link * 65536 + sender)));
    return Number(mixed(this.starts.get(sender) ^ BigInt(count)) >> 32n);
  }

  /** Whether it takes a packet that comes to the link at a tick. */
  takes(packet, tick) {
    const one = this.burst ? { sender: NOBODY, count: Math.floor(tick / this.burst) } : packet;
    return this.from <= tick && tick < this.to && this.word(one) < this.bound;
  }

  /** What it says, in words. */
  get told() {
    const to = this.to < Infinity ? ` to ${grouping(this.to)}` : "";
    const when = this.from > 0 || to ? `, from ${grouping(this.from)}${to}` : "";
    const bursts = this.burst ? ` in bursts of ${counted(this.burst, "tick")}` : "";
    return `${this.rate / (WHOLE_RATE / 100)} %${bursts}${when}`;
  }
}

/** The losses at random of a network, in the run of a seed. */
class RandomLosses {
  constructor(losses, seed) {
    const start = mixed(BigInt.asUintN(64, BigInt(seed) + 0x9e3779b97f4a7c15n));
    this.byLink = grouped(losses.map((it) => new RandomLoss(it, start)), (loss) => loss.link);
    this.times = new Times(Array.from(this.byLink.values()).flat().map(({ from, to }) => [from, to]));
  }

  /** A link's losses. */
  of(link) {
    return this.byLink.get(link) ?? [];
  }

  /** Whether a link takes a packet that comes to it at a tick. */
  take(link, packet, tick) {
    return this.of(link).some((loss) => loss.takes(packet, tick));
  }
}
