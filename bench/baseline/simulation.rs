//! The run: all pending events, the least of which is handled by its member, and what that sends.

use std::collections::HashMap;

use crate::events::{Event, Events, Key, Time, ANSWER, ARRIVAL, ASK, DRAW, JOIN, LEAVE, REPORT};
use crate::member::{Member, Reaction, Role, Told};
use crate::network::{Link, Net, Route, Sent};
use crate::packets::{Body, Name, Packet, PacketId, DROPPED};
use crate::recovery::Scopes;
use crate::scenario::{Draw, Scenario};
use crate::timers::{Timers, Words};

pub enum About {
    Nothing,
    Packet(usize),
    Name(Name),
}

pub struct Row {
    pub key: Key,
    pub cause: &'static str,
    pub about: About,
    pub told: Told,
    pub lost: Vec<Name>,
    pub sent: Option<usize>,
}

/// What a member's timers go by after an event.
pub struct TimerRow {
    /// The place of the event's row in the trace.
    pub row: usize,
    pub constants: [u64; 4],
    pub averages: [Option<u64>; 4],
}

pub struct Simulation {
    net: Net,
    links: Vec<Link>,
    nodes: Vec<usize>,
    /// How long packets take from each member to each.
    ways: Vec<Vec<Time>>,
    /// Where packets of each member go that no link drops.
    routes: Vec<Route>,
    seed: u64,
    /// Whether a link has outages or losses.
    is_lossy: bool,
    drops: HashMap<PacketId, Vec<usize>>,
    draws: Vec<Draw>,
    /// From when to when each member is there.
    stays: Vec<(Time, Time)>,
    members: Vec<Member>,
    events: Events,
    pub packets: Vec<Packet>,
    pub rows: Vec<Row>,
    /// One for each join of a member that has timers, and one for each event that changed a constant of them.
    pub timer_rows: Vec<TimerRow>,
    pub totals: Vec<[u64; 5]>,
}

impl Simulation {
    pub fn new(scenario: Scenario, seed: u64) -> Simulation {
        let nodes: Vec<usize> = scenario.members.iter().map(|it| it.node).collect();
        let net = Net::new(scenario.nodes, &scenario.links, &nodes);
        let ways: Vec<Vec<Time>> =
            nodes.iter().map(|&node| net.distances(&scenario.links, node, nodes.len())).collect();
        let (events, stays) = (script(&scenario), scenario.members.iter().map(|it| (it.join, it.leave)).collect());
        let is_local = scenario.members.iter().any(|it| it.recovery.first > 0);
        let mut members = Vec::with_capacity(nodes.len());
        for (number, it) in scenario.members.into_iter().enumerate() {
            let distances = (0..nodes.len()).map(|other| (ways[number][other] + ways[other][number]) / 2).collect();
            let timers = Timers::new(Words::new(seed, it.stream), scenario.constants, distances);
            let hops = if is_local { net.hops(it.node, nodes.len()) } else { Vec::new() };
            let scopes = Scopes::new(number as u16, it.recovery, hops);
            members.push(Member::new(number as u16, it.role, it.pages, timers, scopes));
        }
        let mut drops: HashMap<PacketId, Vec<usize>> = HashMap::new();
        for it in scenario.drops {
            drops.entry(it.id).or_default().push(it.link);
        }
        let links = scenario.links;
        let sound: Vec<Link> = links.iter().map(|link| Link { outages: Vec::new(), losses: Vec::new(), ..*link }).collect();
        let any = Sent { id: PacketId { sender: 0, count: 0 }, at: 0, scope: None, dropping: &[], seed };
        Simulation {
            routes: nodes.iter().map(|&node| net.route(&sound, node, &any)).collect(),
            seed,
            is_lossy: links.iter().any(|link| !link.outages.is_empty() || !link.losses.is_empty()),
            net,
            nodes,
            ways,
            drops,
            draws: scenario.draws,
            stays,
            members,
            events,
            packets: Vec::new(),
            rows: Vec::new(),
            timer_rows: Vec::new(),
            totals: vec![[0; 5]; links.len()],
            links,
        }
    }

    pub fn run(&mut self) {
        while let Some(Event { key, packet }) = self.events.pop() {
            let before = self.members[key.member as usize].timers.constants();
            let Some((cause, about, reaction)) = self.handle(key, packet) else {
                continue;
            };
            self.note_timers(key, before);
            let Reaction { told, lost, body } = reaction;
            let sent = body.map(|body| self.send(key.time, key.member, body));
            self.rows.push(Row { key, cause, about, told, lost, sent });
        }
    }

    fn note_timers(&mut self, key: Key, before: [u64; 4]) {
        let Member { role, timers, .. } = &self.members[key.member as usize];
        let constants = timers.constants();
        if constants != before || (key.rank == JOIN && *role != Role::Listener) {
            self.timer_rows.push(TimerRow { row: self.rows.len(), constants, averages: timers.averages() });
        }
    }

    /// The member's answer to an event; `None` for a timer that is none any more.
    fn handle(&mut self, key: Key, packet: usize) -> Option<(&'static str, About, Reaction)> {
        let member = &mut self.members[key.member as usize];
        if member.gone {
            return None;
        }
        let answer = match key.rank {
            JOIN => ("join", About::Nothing, Reaction::of(Told::In)),
            ARRIVAL => {
                let heard = &self.packets[packet];
                let reaction = member.hear(key.time, heard, &mut self.events);
                (heard.body.cause(), About::Packet(packet), reaction)
            }
            ASK => ("ask", About::Name(key.name()), member.ask(key.time, key.name(), &mut self.events)?),
            ANSWER => ("answer", About::Name(key.name()), member.answer(key.time, key.name())?),
            DRAW => {
                let Draw { page, ink, .. } = self.draws[key.c as usize];
                let reaction = member.draw(page, ink);
                let about = match &reaction.body {
                    Some(Body::Data { name, .. }) => About::Name(*name),
                    _ => About::Nothing,
                };
                ("draw", about, reaction)
            }
            REPORT => ("report", About::Nothing, member.report()),
            _ => {
                member.gone = true;
                ("leave", About::Nothing, Reaction::of(Told::Out))
            }
        };
        Some(answer)
    }

    /// Hands a packet to all that hear it, and counts the links that it crosses.
    fn send(&mut self, at: Time, sender: u16, body: Body) -> usize {
        let (place, kind) = (self.packets.len(), body.kind());
        let from = &mut self.members[sender as usize];
        let id = PacketId { sender, count: from.sent };
        from.sent += 1;
        let listed = self.drops.get(&id).map(Vec::as_slice);
        let sent = Sent { id, at, scope: body.scope(), dropping: listed.unwrap_or(&[]), seed: self.seed };
        self.packets.push(Packet { id, body });
        let own = (self.is_lossy || listed.is_some() || sent.scope.is_some())
            .then(|| self.net.route(&self.links, self.nodes[sender as usize], &sent));
        let route = own.as_ref().unwrap_or(&self.routes[sender as usize]);
        for &link in &route.crossed {
            self.totals[link][kind] += 1;
        }
        for &link in &route.dropped {
            self.totals[link][DROPPED] += 1;
        }
        for &hearer in &route.hearers {
            let (join, leave) = self.stays[hearer];
            let time = at + self.ways[sender as usize][hearer];
            if join <= time && time <= leave {
                let key = Key { time, member: hearer as u16, rank: ARRIVAL, a: sender, b: 0, c: id.count };
                self.events.push(key, place);
            }
        }
        place
    }
}

/// What is pending from the beginning: joins and leaves, draws and session messages.
fn script(scenario: &Scenario) -> Events {
    let mut events = Events::new(scenario.until);
    for (number, it) in scenario.members.iter().enumerate() {
        let mark = Key { time: it.join, member: number as u16, rank: JOIN, a: 0, b: 0, c: 0 };
        events.push(mark, 0);
        events.push(Key { time: it.leave, rank: LEAVE, ..mark }, 0);
    }
    for (place, it) in scenario.draws.iter().enumerate() {
        events.push(Key { time: it.at, member: it.member, rank: DRAW, a: 0, b: 0, c: place as u64 }, 0);
    }
    for (place, it) in scenario.sessions.iter().enumerate() {
        events.push(Key { time: it.at, member: it.member, rank: REPORT, a: 0, b: 0, c: place as u64 }, 0);
    }
    events
}
