//! Local recovery: how far requests and repairs go, and which requests a repair serves.

use crate::events::Time;
use crate::packets::Local;

const WIDEST: u32 = 65_535;

/// What a scenario says of a member's requests and of repairs.
#[derive(Clone, Copy)]
pub struct Recovery {
    /// How many links a first request goes; 0: to all.
    pub first: u32,
    /// How many more for each backoff.
    pub widen: u32,
    /// After so many backoffs it goes to all.
    pub tries: u32,
    /// In how many steps a repair comes to all that heard its request.
    pub steps: u64,
}

/// Of a repair with a scope: whose request it answers, how far that went, and how far the repair goes on past the member.
#[derive(Clone, Copy)]
pub struct Mark {
    requester: u16,
    width: u32,
    left: u32,
}

/// Up to when a name rests, and the mark of the repair from which it does; none of one that went to all.
pub struct Rest {
    pub end: Time,
    pub mark: Option<Mark>,
}

/// How far a member's packets go.
pub struct Scopes {
    number: u16,
    recovery: Recovery,
    /// The links between it and each member; empty where no member has a scope.
    hops: Vec<u32>,
}

impl Scopes {
    pub fn new(number: u16, recovery: Recovery, hops: Vec<u32>) -> Scopes {
        Scopes { number, recovery, hops }
    }

    /// How far a request goes after so many backoffs.
    pub fn of_request(&self, backoffs: u32) -> Option<u32> {
        let Recovery { first, widen, tries, .. } = self.recovery;
        (first > 0 && backoffs < tries).then(|| (first + backoffs * widen).min(WIDEST))
    }

    /// What a repair says that answers a request of this width.
    pub fn of_repair(&self, requester: u16, width: Option<u32>) -> Option<Local> {
        let width = width?;
        let farther = if self.recovery.steps == 1 { self.hops[requester as usize] } else { 0 };
        Some(Local { scope: width + farther, requester, width })
    }

    pub fn mark(&self, repair: Option<Local>, sender: u16) -> Option<Mark> {
        repair.map(|Local { scope, requester, width }| {
            Mark { requester, width, left: scope.saturating_sub(self.hops[sender as usize]) }
        })
    }

    /// Whether who heard a request hears the repair of this mark.
    pub fn serves(&self, mark: Option<Mark>, requester: u16, width: Option<u32>) -> bool {
        let Some(mark) = mark else {
            return true;
        };
        width.is_some_and(|width| {
            let is_for_it = mark.requester == requester && requester != self.number && mark.width >= width;
            is_for_it || self.hops[requester as usize] + width <= mark.left
        })
    }

    /// Whether the member sends on a repair that answers a request of its own.
    pub fn sends_on(&self, repair: Local) -> bool {
        self.recovery.steps == 2 && repair.requester == self.number
    }
}
