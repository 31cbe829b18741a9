//! A member: what it knows, and its answer to each event.

use std::collections::BTreeMap;

use crate::events::{Events, Time, ANSWER, ASK};
use crate::packets::{Body, Highest, Local, Name, Packet};
use crate::recovery::{Mark, Rest, Scopes};
use crate::timers::Timers;

#[derive(Clone, Copy, PartialEq, Eq)]
pub enum Role {
    Sender,
    Receiver,
    Late,
    Listener,
}

#[derive(Clone, Copy)]
struct Progress {
    floor: u32,
    next: u32,
}

struct Loss {
    detected: Time,
    expiry: Time,
    backoffs: u32,
    ignore: Time,
}

struct Plan {
    set: Time,
    expiry: Time,
    requester: u16,
    width: Option<u32>,
}

#[derive(Clone, Copy, PartialEq, Eq)]
pub enum Told {
    In,
    Out,
    Fresh,
    Fixed,
    Again,
    Skip,
    Rest,
    Busy,
    Plan,
    Hold,
    Back,
    Told,
    Sent,
}

pub const TOLD_WORDS: [&str; 13] =
    ["in", "out", "fresh", "fixed", "again", "skip", "rest", "busy", "plan", "hold", "back", "told", "sent"];

/// What came of an event: its result, the names that were lost in it, and what is to be sent.
pub struct Reaction {
    pub told: Told,
    pub lost: Vec<Name>,
    pub body: Option<Body>,
}

impl Reaction {
    pub fn of(told: Told) -> Reaction {
        Reaction { told, lost: Vec::new(), body: None }
    }

    fn sending(body: Body) -> Reaction {
        Reaction { told: Told::Sent, lost: Vec::new(), body: Some(body) }
    }
}

const OPERATIONS_ON_A_PAGE: u32 = 4096;
const MOST_BACKOFFS: u32 = 10;

pub struct Member {
    number: u16,
    pub role: Role,
    wanted: Vec<u16>,
    pub gone: bool,
    pub sent: u64,
    pub timers: Timers,
    scopes: Scopes,
    pages: BTreeMap<(u16, u16), Progress>,
    held: BTreeMap<Name, u32>,
    missing: BTreeMap<Name, Loss>,
    plans: BTreeMap<Name, Plan>,
    rests: BTreeMap<Name, Rest>,
}

impl Member {
    pub fn new(number: u16, role: Role, wanted: Vec<u16>, timers: Timers, scopes: Scopes) -> Member {
        Member {
            number,
            role,
            wanted,
            gone: false,
            sent: 0,
            timers,
            scopes,
            pages: BTreeMap::new(),
            held: BTreeMap::new(),
            missing: BTreeMap::new(),
            plans: BTreeMap::new(),
            rests: BTreeMap::new(),
        }
    }

    pub fn hear(&mut self, at: Time, packet: &Packet, events: &mut Events) -> Reaction {
        if self.role == Role::Listener {
            return self.listen(&packet.body);
        }
        match &packet.body {
            Body::Data { name, ink } => self.take_in(at, *name, *ink, events),
            Body::Repair { name, ink, local } => {
                self.average_delay(at, *name);
                let reaction = self.take_in(at, *name, *ink, events);
                if reaction.told != Told::Skip {
                    self.hear_repair(at, *name, packet.id.sender, *local, events);
                }
                reaction
            }
            Body::Request { name, scope } => self.hear_request(at, *name, packet.id.sender, *scope, events),
            Body::Session { heard } => self.hear_session(at, heard, events),
        }
    }

    fn listen(&mut self, body: &Body) -> Reaction {
        let (Body::Data { name, ink } | Body::Repair { name, ink, .. }) = body else {
            return Reaction::of(Told::Skip);
        };
        let before = self.held.insert(*name, *ink);
        Reaction::of(if before.is_some() { Told::Again } else { Told::Fresh })
    }

    fn take_in(&mut self, at: Time, name: Name, ink: u32, events: &mut Events) -> Reaction {
        let progress = self.meet(name.source, name.page, name.number);
        if name.number < progress.floor {
            return Reaction::of(Told::Skip);
        }
        if name.number >= progress.next {
            let mut reaction = Reaction::of(Told::Fresh);
            self.lose(at, name, name.number, &mut reaction.lost, events);
            self.held.insert(name, ink);
            return reaction;
        }
        if self.missing.remove(&name).is_some() {
            self.held.insert(name, ink);
            return Reaction::of(Told::Fixed);
        }
        Reaction::of(Told::Again)
    }

    fn hear_request(
        &mut self,
        at: Time,
        name: Name,
        requester: u16,
        width: Option<u32>,
        events: &mut Events,
    ) -> Reaction {
        let progress = self.meet(name.source, name.page, name.number + 1);
        if name.number < progress.floor {
            return Reaction::of(Told::Skip);
        }
        if self.held.contains_key(&name) {
            return Reaction::of(self.plan(at, name, requester, width, events));
        }
        let mut reaction = Reaction::of(Told::Back);
        if name.number >= progress.next {
            self.lose(at, name, name.number + 1, &mut reaction.lost, events);
        }
        if self.missing.get(&name).is_some_and(|loss| at < loss.ignore) {
            self.timers.requests.hear_duplicate();
            reaction.told = Told::Hold;
        } else {
            self.back_off(at, name, events);
        }
        reaction
    }

    fn hear_session(&mut self, at: Time, heard: &[Highest], events: &mut Events) -> Reaction {
        let mut reaction = Reaction::of(Told::Told);
        for &Highest { source, page, number } in heard {
            let progress = self.meet(source, page, number + 1);
            if number >= progress.next {
                let last = Name { source, page, number };
                self.lose(at, last, number + 1, &mut reaction.lost, events);
            }
        }
        reaction
    }

    /// The answer to a request for a name that is held.
    fn plan(&mut self, at: Time, name: Name, requester: u16, width: Option<u32>, events: &mut Events) -> Told {
        if self.is_at_rest(at, name, requester, width) {
            return Told::Rest;
        }
        if let Some(plan) = self.plans.get_mut(&name) {
            let is_wider = plan.width.is_some_and(|own| width.map_or(true, |width| width > own));
            if plan.requester != self.number && is_wider {
                (plan.requester, plan.width) = (requester, width);
            }
            return Told::Busy;
        }
        self.timers.repairs.begin_period();
        self.set_plan(at, name, requester, width, events);
        Told::Plan
    }

    fn set_plan(&mut self, at: Time, name: Name, requester: u16, width: Option<u32>, events: &mut Events) {
        let expiry = at + self.timers.repair(requester);
        self.plans.insert(name, Plan { set: at, expiry, requester, width });
        events.set_timer(expiry, self.number, ANSWER, name);
    }

    /// The name rests, its plan ends if it is answered, and what answers an own request is sent on a tick later.
    fn hear_repair(&mut self, at: Time, name: Name, sender: u16, local: Option<Local>, events: &mut Events) {
        let mark = self.scopes.mark(local, sender);
        let (requester, width) = local.map_or((self.number, None), |it| (it.requester, Some(it.width)));
        let was_at_rest = self.is_at_rest(at, name, requester, width);
        self.rest(at, name, mark, sender);
        match self.plans.get(&name).map(|plan| self.scopes.serves(mark, plan.requester, plan.width)) {
            Some(true) => self.end_plan(at, name),
            Some(false) => {}
            None if was_at_rest && local.map_or(true, |it| it.requester != sender) => {
                self.timers.repairs.hear_duplicate();
            }
            None => {}
        }
        let sends_on = local.is_some_and(|it| self.scopes.sends_on(it));
        if sends_on && !was_at_rest && !self.plans.contains_key(&name) {
            self.set_plan(at, name, self.number, width, events);
        }
    }

    /// The progress on a page. One that was not met before begins at 0, or, for a late joiner that does not want it, at
    /// `first`.
    fn meet(&mut self, source: u16, page: u16, first: u32) -> Progress {
        let unwanted = self.role == Role::Late && !self.wanted.contains(&page);
        let begin = if unwanted { first } else { 0 };
        *self.pages.entry((source, page)).or_insert(Progress { floor: begin, next: begin })
    }

    /// The member heard of `last`, on a page that it met: each number from next to below `end` is missing from now on, and
    /// told in `lost`. The first loss of an event begins a period.
    fn lose(&mut self, at: Time, last: Name, end: u32, lost: &mut Vec<Name>, events: &mut Events) {
        let progress = self.pages.get_mut(&(last.source, last.page)).expect("a page on which a name is lost was met");
        let next = std::mem::replace(&mut progress.next, last.number + 1);
        if lost.is_empty() && next < end {
            self.timers.requests.begin_period();
        }
        for number in next..end {
            let name = Name { number, ..last };
            let expiry = at + self.timers.request(0, name.source);
            self.missing.insert(name, Loss { detected: at, expiry, backoffs: 0, ignore: at });
            events.set_timer(expiry, self.number, ASK, name);
            lost.push(name);
        }
    }

    fn back_off(&mut self, at: Time, name: Name, events: &mut Events) {
        self.average_delay(at, name);
        let loss = self.missing.get_mut(&name).expect("a name that is backed off for is missing");
        loss.backoffs = (loss.backoffs + 1).min(MOST_BACKOFFS);
        let length = self.timers.request(loss.backoffs, name.source);
        loss.expiry = at + length;
        loss.ignore = at + length / 2;
        events.set_timer(loss.expiry, self.number, ASK, name);
    }

    /// A request, or a repair before any, ends the delay of a name that is missing.
    fn average_delay(&mut self, at: Time, name: Name) {
        if let Some(loss) = self.missing.get(&name).filter(|loss| loss.backoffs == 0) {
            let distance = self.timers.distance(name.source);
            self.timers.requests.take_in_delay(at - loss.detected, distance);
        }
    }

    fn is_at_rest(&self, at: Time, name: Name, requester: u16, width: Option<u32>) -> bool {
        self.rests.get(&name).is_some_and(|rest| at < rest.end && self.scopes.serves(rest.mark, requester, width))
    }

    fn rest(&mut self, at: Time, name: Name, mark: Option<Mark>, repairer: u16) {
        let other = match self.plans.get(&name) {
            _ if name.source != self.number => name.source,
            Some(plan) => plan.requester,
            None => repairer,
        };
        self.rests.insert(name, Rest { end: at + 3 * self.timers.distance(other), mark });
    }

    /// A repair ends the delay of the repair timer of its name, but not of one by which a repair is sent on.
    fn end_plan(&mut self, at: Time, name: Name) {
        if let Some(plan) = self.plans.remove(&name).filter(|plan| plan.requester != self.number) {
            let distance = self.timers.distance(plan.requester);
            self.timers.repairs.take_in_delay(at - plan.set, distance);
        }
    }

    /// A request timer expires; `None` where it was set anew or has ended.
    pub fn ask(&mut self, at: Time, name: Name, events: &mut Events) -> Option<Reaction> {
        let loss = self.missing.get(&name).filter(|loss| loss.expiry == at)?;
        let scope = self.scopes.of_request(loss.backoffs);
        if loss.backoffs == 0 {
            self.timers.requests.send_first();
        }
        self.back_off(at, name, events);
        Some(Reaction::sending(Body::Request { name, scope }))
    }

    /// A repair timer expires; `None` where it has ended.
    pub fn answer(&mut self, at: Time, name: Name) -> Option<Reaction> {
        let &Plan { requester, width, .. } = self.plans.get(&name).filter(|plan| plan.expiry == at)?;
        if requester != self.number {
            self.timers.repairs.send_first();
        }
        let local = self.scopes.of_repair(requester, width);
        self.rest(at, name, self.scopes.mark(local, self.number), self.number);
        self.end_plan(at, name);
        Some(Reaction::sending(Body::Repair { name, ink: self.held[&name], local }))
    }

    pub fn draw(&mut self, page: u16, ink: u32) -> Reaction {
        let progress = self.pages.entry((self.number, page)).or_insert(Progress { floor: 0, next: 0 });
        if self.role != Role::Sender || progress.next >= OPERATIONS_ON_A_PAGE {
            return Reaction::of(Told::Skip);
        }
        let name = Name { source: self.number, page, number: progress.next };
        progress.next += 1;
        self.held.insert(name, ink);
        Reaction::sending(Body::Data { name, ink })
    }

    pub fn report(&self) -> Reaction {
        let mut heard = Vec::with_capacity(self.pages.len());
        for (&(source, page), progress) in &self.pages {
            heard.push(Highest { source, page, number: progress.next - 1 });
        }
        Reaction::sending(Body::Session { heard })
    }
}
