//! The lengths of timers: the words that they are drawn with, and the constants, which a member adapts where its
//! scenario leaves them room.

use crate::events::Time;

/// PCG XSH RR 64/32, the generator `Lcg64Xsh32` of the crate `rand_pcg`.
pub struct Words {
    state: u64,
    increment: u64,
}

impl Words {
    pub fn new(seed: u64, stream: u64) -> Words {
        let increment = stream << 1 | 1;
        let mut words = Words { state: seed.wrapping_add(increment), increment };
        words.advance();
        words
    }

    fn advance(&mut self) {
        self.state = self.state.wrapping_mul(6364136223846793005).wrapping_add(self.increment);
    }

    fn next(&mut self) -> u32 {
        let state = self.state;
        self.advance();
        (((state >> 18 ^ state) >> 27) as u32).rotate_right((state >> 59) as u32)
    }
}

/// A constant of timers in thousandths, with the least and the most that it may become.
#[derive(Clone, Copy)]
pub struct Constant {
    pub value: u64,
    pub least: u64,
    pub most: u64,
}

impl Constant {
    fn raise(&mut self, by: u64) {
        self.value = (self.value + by).min(self.most);
    }

    fn lower(&mut self, by: u64) {
        self.value = self.value.saturating_sub(by).max(self.least);
    }
}

const MOST_DUPLICATES: u64 = 1_000_000;

/// What timers of one kind are drawn from: `start` to `start + width` thousandths of a distance. A member adapts both to
/// the duplicates and the delays of its losses, period by period.
pub struct Interval {
    pub start: Constant,
    pub width: Constant,
    /// How many duplicates were heard in this period.
    duplicates: u64,
    /// Whether the member itself was the first to send in this period.
    sent_first: bool,
    /// Thousandths of a duplicate in a period, averaged.
    pub duplicates_average: Option<u64>,
    /// Thousandths of a round trip, averaged.
    pub delay_average: Option<u64>,
}

impl Interval {
    pub fn new(start: Constant, width: Constant) -> Interval {
        Interval { start, width, duplicates: 0, sent_first: false, duplicates_average: None, delay_average: None }
    }

    /// Ends a period, and adapts to it once a delay has been averaged.
    pub fn begin_period(&mut self) {
        if let Some(delay) = self.delay_average {
            let duplicates = average(self.duplicates_average, 1000 * self.duplicates);
            self.duplicates_average = Some(duplicates);
            self.adapt(duplicates, delay);
        }
        self.duplicates = 0;
        self.sent_first = false;
    }

    fn adapt(&mut self, duplicates: u64, delay: u64) {
        if self.sent_first {
            self.width.lower(100);
        } else if duplicates >= 1000 {
            self.start.raise(100);
            self.width.raise(500);
        } else if duplicates >= 900 {
            self.start.raise(50);
        } else {
            if duplicates < 250 {
                self.start.lower(50);
            }
            if delay > 1000 {
                self.width.lower(100);
            }
        }
    }

    /// A delay of so many ticks, where half a round trip takes `distance`.
    pub fn take_in_delay(&mut self, ticks: Time, distance: Time) {
        self.delay_average = Some(average(self.delay_average, 500 * ticks / distance.max(1)));
    }

    pub fn send_first(&mut self) {
        self.start.lower(50);
        self.sent_first = true;
    }

    pub fn hear_duplicate(&mut self) {
        self.duplicates = (self.duplicates + 1).min(MOST_DUPLICATES);
    }

    fn constants(&self) -> [u64; 2] {
        [self.start.value, self.width.value]
    }
}

/// The exponentially weighted average, in which a new value has a weight of a quarter.
fn average(before: Option<u64>, value: u64) -> u64 {
    before.map_or(value, |before| (3 * before + value) / 4)
}

/// By what a request timer grows each time that it backs off.
#[derive(Clone, Copy)]
pub enum Backoff {
    Doubles,
    Triples,
}

impl Backoff {
    fn factor(self, backoffs: u32) -> u64 {
        match self {
            Backoff::Doubles => 2u64.pow(backoffs.min(10)),
            Backoff::Triples => 3u64.pow(backoffs.min(6)),
        }
    }
}

/// What a scenario says of timers.
#[derive(Clone, Copy)]
pub struct Constants {
    pub c1: Constant,
    pub c2: Constant,
    pub d1: Constant,
    pub d2: Constant,
    pub backoff: Backoff,
}

/// What a member draws the lengths of its timers from.
pub struct Timers {
    words: Words,
    backoff: Backoff,
    pub requests: Interval,
    pub repairs: Interval,
    /// Half the round trip to each member.
    pub distances: Vec<Time>,
}

impl Timers {
    pub fn new(words: Words, constants: Constants, distances: Vec<Time>) -> Timers {
        let Constants { c1, c2, d1, d2, backoff } = constants;
        Timers { words, backoff, requests: Interval::new(c1, c2), repairs: Interval::new(d1, d2), distances }
    }

    pub fn distance(&self, other: u16) -> Time {
        self.distances[other as usize]
    }

    pub fn request(&mut self, backoffs: u32, source: u16) -> Time {
        self.length(self.backoff.factor(backoffs) * self.distance(source), self.requests.constants())
    }

    pub fn repair(&mut self, requester: u16) -> Time {
        self.length(self.distance(requester), self.repairs.constants())
    }

    fn length(&mut self, distance: Time, [start, width]: [u64; 2]) -> Time {
        let (low, high) = (thousandths(start, distance), thousandths(start + width, distance));
        let word = u128::from(self.words.next());
        let above = (word * u128::from(high - low + 1)) >> 32;
        (low + above as u64).max(1)
    }

    /// `c1`, `c2`, `d1` and `d2` as they are now.
    pub fn constants(&self) -> [u64; 4] {
        let ([c1, c2], [d1, d2]) = (self.requests.constants(), self.repairs.constants());
        [c1, c2, d1, d2]
    }

    /// The averages of duplicates and of delays of the requests, and of the repairs.
    pub fn averages(&self) -> [Option<u64>; 4] {
        let (requests, repairs) = (&self.requests, &self.repairs);
        [requests.duplicates_average, requests.delay_average, repairs.duplicates_average, repairs.delay_average]
    }
}

/// So many thousandths of a distance, whose product may have more than 64 bits.
fn thousandths(constant: u64, distance: Time) -> Time {
    match constant.checked_mul(distance) {
        Some(product) => product / 1000,
        None => (u128::from(constant) * u128::from(distance) / 1000) as u64,
    }
}
