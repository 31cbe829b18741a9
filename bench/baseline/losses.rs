//! Losses at random.

use crate::events::Time;
use crate::packets::PacketId;

/// Of the packets that come to a link in time it takes those whose words are below a bound.
pub struct Loss {
    pub stream: u64,
    pub bound: u64,
    pub from: Time,
    /// None: to the end.
    pub to: Option<Time>,
    /// How long slots are in each of which it takes all or nothing; none: it decides on each packet.
    pub burst: Option<Time>,
}

/// Stands in the word of a slot where that of a packet has its sender; no member has it.
const NO_MEMBER: u16 = u16::MAX;

impl Loss {
    /// Whether it takes a packet that comes to this link at this time, in the run of a seed.
    pub fn takes(&self, seed: u64, link: usize, id: PacketId, at: Time) -> bool {
        let id = self.burst.map_or(id, |slot| PacketId { sender: NO_MEMBER, count: at / slot });
        self.from <= at && self.to.map_or(true, |to| at < to) && word(seed, self.stream, link, id) < self.bound
    }
}

fn word(seed: u64, stream: u64, link: usize, PacketId { sender, count }: PacketId) -> u64 {
    let of_stream = mixed(mixed(seed.wrapping_add(0x9e37_79b9_7f4a_7c15)) ^ stream);
    mixed(mixed(of_stream ^ (link as u64 * 65_536 + u64::from(sender))) ^ count) >> 32
}

/// The output function of SplitMix64.
fn mixed(word: u64) -> u64 {
    let word = (word ^ (word >> 30)).wrapping_mul(0xbf58_476d_1ce4_e5b9);
    let word = (word ^ (word >> 27)).wrapping_mul(0x94d0_49bb_1331_11eb);
    word ^ (word >> 31)
}
