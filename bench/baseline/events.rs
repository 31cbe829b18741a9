//! Pending events, the least of which is taken first.

use std::cmp::Reverse;
use std::collections::BinaryHeap;

use crate::packets::Name;

/// Ticks.
pub type Time = u64;

pub const JOIN: u8 = 0;
pub const ARRIVAL: u8 = 1;
pub const ASK: u8 = 2;
pub const ANSWER: u8 = 3;
pub const DRAW: u8 = 4;
pub const REPORT: u8 = 5;
pub const LEAVE: u8 = 6;

#[derive(Clone, Copy, PartialEq, Eq, PartialOrd, Ord)]
pub struct Key {
    pub time: Time,
    pub member: u16,
    pub rank: u8,
    pub a: u16,
    pub b: u16,
    pub c: u64,
}

impl Key {
    pub fn name(&self) -> Name {
        Name { source: self.a, page: self.b, number: self.c as u32 }
    }
}

/// An event and, of an arrival, the place of its packet among those that were sent.
#[derive(PartialEq, Eq, PartialOrd, Ord)]
pub struct Event {
    pub key: Key,
    pub packet: usize,
}

pub struct Events {
    heap: BinaryHeap<Reverse<Event>>,
    until: Time,
}

impl Events {
    pub fn new(until: Time) -> Events {
        Events { heap: BinaryHeap::new(), until }
    }

    pub fn push(&mut self, key: Key, packet: usize) {
        if key.time < self.until {
            self.heap.push(Reverse(Event { key, packet }));
        }
    }

    pub fn pop(&mut self) -> Option<Event> {
        self.heap.pop().map(|Reverse(event)| event)
    }

    pub fn set_timer(&mut self, time: Time, member: u16, rank: u8, name: Name) {
        let key = Key { time, member, rank, a: name.source, b: name.page, c: u64::from(name.number) };
        self.push(key, 0);
    }
}
