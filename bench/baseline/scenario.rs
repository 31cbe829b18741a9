//! Scenarios of each version of the format. A scenario that would not be simulated as it says stops the program with a
//! message.

use crate::events::Time;
use crate::losses::Loss;
use crate::member::Role;
use crate::network::{is_tree, Link, Outage};
use crate::packets::PacketId;
use crate::recovery::Recovery;
use crate::timers::{Backoff, Constant, Constants};
use crate::toml::Table;

const LATEST: Time = 1 << 40;
const LONGEST_DELAY: Time = 1_000_000;
const MOST_TIMES: u64 = 65_535;
const WIDEST: u64 = 65_535;
const MOST_TRIES: u64 = 10;
const WORD: u64 = u32::MAX as u64;
const MOST_STREAM: u64 = i64::MAX as u64;
/// Millionths.
const WHOLE_RATE: u64 = 1_000_000;

pub struct Draw {
    pub member: u16,
    pub page: u16,
    pub ink: u32,
    pub at: Time,
}

pub struct Session {
    pub member: u16,
    pub at: Time,
}

pub struct Drop {
    pub link: usize,
    pub id: PacketId,
}

struct LinkOutage {
    link: usize,
    outage: Outage,
}

struct LinkLoss {
    link: usize,
    loss: Loss,
}

pub struct Placed {
    pub node: usize,
    pub role: Role,
    pub stream: u64,
    pub join: Time,
    pub leave: Time,
    pub pages: Vec<u16>,
    pub recovery: Recovery,
}

impl Placed {
    fn is_there(&self, at: Time) -> bool {
        self.join <= at && at <= self.leave
    }
}

pub struct Scenario {
    pub until: Time,
    pub constants: Constants,
    pub nodes: usize,
    pub links: Vec<Link>,
    pub members: Vec<Placed>,
    pub draws: Vec<Draw>,
    pub sessions: Vec<Session>,
    pub drops: Vec<Drop>,
}

/// A version of the format, and what it has room for.
struct Version {
    number: u64,
    nodes: u64,
    /// Draws, session messages, drops and outages, of each.
    elements: u64,
    /// Thousandths.
    constant: u64,
}

const VERSIONS: [Version; 5] = [
    Version { number: 1, nodes: 256, elements: 4096, constant: 64_000 },
    Version { number: 2, nodes: 1024, elements: 4096, constant: 64_000 },
    Version { number: 3, nodes: 65_535, elements: 65_535, constant: 1_024_000 },
    Version { number: 4, nodes: 65_535, elements: 65_535, constant: 1_024_000 },
    Version { number: 5, nodes: 65_535, elements: 65_535, constant: 1_024_000 },
];

const COMMON_KEYS: [&str; 11] =
    ["version", "until", "c1", "c2", "d1", "d2", "topology", "member", "draw", "session", "drop"];
const ADAPTIVE_KEYS: [&str; 9] =
    ["c1_least", "c1_most", "c2_least", "c2_most", "d1_least", "d1_most", "d2_least", "d2_most", "backoff"];
const REPEATING_KEYS: [&str; 2] = ["times", "every"];
const RECOVERY_KEYS: [&str; 4] = ["scope", "widen", "tries", "steps"];

impl Version {
    fn of(top: &Table) -> &'static Version {
        &VERSIONS[top.number("version", 1..=VERSIONS.len() as u64) as usize - 1]
    }

    /// The greatest number of a node, a member or a link.
    fn last(&self) -> u64 {
        self.nodes - 1
    }

    fn top_keys(&self, shape: Option<&str>) -> Vec<&'static str> {
        let network: &[&str] = match shape {
            None => &["nodes", "link"],
            Some("chain" | "star") => &["size", "delay", "back"],
            Some("tree") => &["size", "delay", "back", "degree"],
            Some("parents") if self.number >= 3 => &["parent", "delay", "delays", "back", "backs"],
            Some(other) => panic!("no topology: {other}"),
        };
        let outage: &[&str] = if self.number >= 2 { &["outage"] } else { &[] };
        let loss: &[&str] = if self.number >= 4 { &["loss"] } else { &[] };
        let adaptive: &[&str] = if self.number >= 3 { &ADAPTIVE_KEYS } else { &[] };
        self.known([&COMMON_KEYS, network, outage, loss, adaptive, &RECOVERY_KEYS].concat())
    }

    fn element_keys(&self, keys: &[&'static str]) -> Vec<&'static str> {
        let repeating: &[&str] = if self.number >= 3 { &REPEATING_KEYS } else { &[] };
        self.known([keys, repeating].concat())
    }

    /// These keys without the second delay, local recovery and bursts, where the version has none.
    fn known(&self, mut keys: Vec<&'static str>) -> Vec<&'static str> {
        keys.retain(|&key| match key {
            "back" => self.number >= 2,
            "scope" | "widen" | "tries" | "steps" | "burst" => self.number >= 5,
            _ => true,
        });
        keys
    }
}

/// Stops where a table has another key than these.
fn has_only(what: &str, table: &Table, keys: &[&str]) {
    if let Some(other) = table.keys().find(|key| !keys.contains(key)) {
        panic!("{what} has an unknown key, {other}");
    }
}

/// An element of a list that may stand for several, one after the other: this one is the `number`-th of them, and its
/// places and times are `step` further on.
struct Element<'a> {
    table: &'a Table,
    number: u64,
    step: u64,
}

impl Element<'_> {
    fn number(&self, key: &str, most: u64) -> u64 {
        self.table.number(key, 0..=most)
    }

    /// A number to which the step is added.
    fn stepped(&self, key: &str, most: u64) -> u64 {
        within(key, self.number(key, most) + self.step, most)
    }
}

fn within(key: &str, value: u64, most: u64) -> u64 {
    assert!(value <= most, "{key} comes to {value}, above {most}");
    value
}

/// The elements of a list, each of them as many times as it says.
struct List<'a> {
    top: &'a Table,
    version: &'a Version,
    part: &'static str,
    keys: &'a [&'static str],
    most: u64,
}

impl List<'_> {
    fn read<T>(&self, element: impl Fn(&Element) -> T) -> Vec<T> {
        let (keys, mut found) = (self.version.element_keys(self.keys), Vec::new());
        for table in self.top.tables(self.part) {
            has_only(self.part, table, &keys);
            let times = table.number_or("times", 1..=MOST_TIMES, 1);
            let every = table.number_or("every", 0..=LATEST, 1);
            let copies = (0..times).map(|number| element(&Element { table, number, step: number * every }));
            found.extend(copies);
            assert!(found.len() as u64 <= self.most, "too many elements of {}", self.part);
        }
        found
    }
}

impl Scenario {
    pub fn of(top: &Table) -> Scenario {
        let version = Version::of(top);
        has_only("the top table", top, &version.top_keys(top.text("topology")));
        let (nodes, links) = network(top, version);
        assert!(is_tree(nodes, &links), "the links make no tree");
        let list = |part, keys, most| List { top, version, part, keys, most };
        let last = version.last();
        let members = list("member", &["node", "role", "stream", "join", "leave", "pages", "scope"], version.nodes);
        let draws = list("draw", &["member", "page", "ink", "at"], version.elements);
        let sessions = list("session", &["member", "at"], version.elements);
        let drops = list("drop", &["link", "sender", "count"], version.elements);
        let outages = list("outage", &["link", "from", "to"], version.elements);
        let losses = list("loss", &["link", "rate", "stream", "from", "to", "burst"], version.elements);
        let recovery = recovery(top);
        let mut scenario = Scenario {
            until: top.number("until", 1..=LATEST),
            constants: constants(top, version),
            nodes,
            links,
            members: members.read(|it| member(it, last, recovery)),
            draws: draws.read(|it| draw(it, last)),
            sessions: sessions
                .read(|it| Session { member: it.number("member", last) as u16, at: it.stepped("at", LATEST) }),
            drops: drops.read(|it| drop_of(it, last)),
        };
        scenario.check(top.text("topology") == Some("star"));
        scenario.take_in_outages(outages.read(|it| outage(it, last)));
        scenario.take_in_losses(losses.read(|it| loss(it, last)));
        scenario
    }

    /// Stops where an element does not fit the others.
    fn check(&self, has_hub: bool) {
        let mut taken = vec![false; self.nodes];
        taken[0] = has_hub;
        for (number, it) in self.members.iter().enumerate() {
            assert!(it.node < self.nodes && !taken[it.node], "member {number} has no node of its own");
            assert!(it.join < self.until && it.join < it.leave, "member {number} is never there");
            assert!(it.pages.is_empty() || it.role == Role::Late, "member {number} asks for no pages");
            taken[it.node] = true;
        }
        for (place, it) in self.draws.iter().enumerate() {
            assert!(self.acts(it.member, it.at, |role| role == Role::Sender), "no member can do draw {place}");
        }
        for (place, it) in self.sessions.iter().enumerate() {
            assert!(self.acts(it.member, it.at, |role| role != Role::Listener), "no member can do session {place}");
        }
        for (place, it) in self.drops.iter().enumerate() {
            let sender = usize::from(it.id.sender);
            assert!(it.link < self.links.len() && sender < self.members.len(), "drop {place} drops nothing");
        }
    }

    /// Whether a member of such a role is there at this time, before the end.
    fn acts(&self, member: u16, at: Time, able: impl Fn(Role) -> bool) -> bool {
        at < self.until && self.members.get(usize::from(member)).is_some_and(|it| able(it.role) && it.is_there(at))
    }

    fn take_in_outages(&mut self, outages: Vec<LinkOutage>) {
        for (place, LinkOutage { link, outage }) in outages.into_iter().enumerate() {
            assert!(link < self.links.len() && outage.from < outage.to, "outage {place} is none");
            self.links[link].outages.push(outage);
        }
    }

    fn take_in_losses(&mut self, losses: Vec<LinkLoss>) {
        for (place, LinkLoss { link, loss }) in losses.into_iter().enumerate() {
            let ends = loss.to.map_or(true, |to| loss.from < to);
            assert!(link < self.links.len() && ends, "loss {place} is none");
            self.links[link].losses.push(loss);
        }
    }
}

fn constants(top: &Table, version: &Version) -> Constants {
    let constant = |key: &str| {
        let value = top.number(key, 0..=version.constant);
        let least = top.number_or(&format!("{key}_least"), 0..=value, value);
        let most = top.number_or(&format!("{key}_most"), value..=version.constant, value);
        Constant { value, least, most }
    };
    let backoff = if top.number_or("backoff", 2..=3, 2) == 2 { Backoff::Doubles } else { Backoff::Triples };
    Constants { c1: constant("c1"), c2: constant("c2"), d1: constant("d1"), d2: constant("d2"), backoff }
}

fn recovery(top: &Table) -> Recovery {
    Recovery {
        first: top.number_or("scope", 0..=WIDEST, 0) as u32,
        widen: top.number_or("widen", 0..=WIDEST, 0) as u32,
        tries: top.number_or("tries", 1..=MOST_TRIES, 1) as u32,
        steps: top.number_or("steps", 1..=2, 2),
    }
}

fn member(it: &Element, last: u64, recovery: Recovery) -> Placed {
    let role = match it.table.text("role") {
        Some("sender") => Role::Sender,
        Some("receiver") => Role::Receiver,
        Some("late") => Role::Late,
        Some("listener") => Role::Listener,
        other => panic!("no role: {other:?}"),
    };
    assert!(role != Role::Listener || it.table.find("scope").is_none(), "a listener has a scope");
    let most = i64::MAX as u64;
    Placed {
        node: it.stepped("node", last) as usize,
        role,
        stream: within("stream", it.number("stream", most) + it.number, most),
        join: it.table.number_or("join", 0..=LATEST, 0),
        leave: it.table.number_or("leave", 1..=LATEST, Time::MAX),
        pages: it.table.numbers("pages", 0..=65_535).into_iter().map(|page| page as u16).collect(),
        recovery: Recovery { first: it.table.number_or("scope", 0..=WIDEST, recovery.first.into()) as u32, ..recovery },
    }
}

fn draw(it: &Element, last: u64) -> Draw {
    Draw {
        member: it.number("member", last) as u16,
        page: it.number("page", 65_535) as u16,
        ink: it.number("ink", WORD) as u32,
        at: it.stepped("at", LATEST),
    }
}

fn drop_of(it: &Element, last: u64) -> Drop {
    let id = PacketId { sender: it.number("sender", last) as u16, count: it.stepped("count", WORD) };
    Drop { link: it.number("link", last) as usize, id }
}

fn outage(it: &Element, last: u64) -> LinkOutage {
    let outage = Outage { from: it.stepped("from", LATEST), to: it.stepped("to", LATEST) };
    LinkOutage { link: it.number("link", last) as usize, outage }
}

fn loss(it: &Element, last: u64) -> LinkLoss {
    let rate = it.table.number("rate", 1..=WHOLE_RATE);
    let loss = Loss {
        stream: it.table.number_or("stream", 0..=MOST_STREAM, 0),
        bound: rate * (1 << 32) / WHOLE_RATE,
        from: it.table.number_or("from", 0..=LATEST, 0),
        to: it.table.find("to").map(|_| it.table.number("to", 1..=LATEST)),
        burst: it.table.find("burst").map(|_| it.table.number("burst", 1..=LATEST)),
    };
    LinkLoss { link: it.stepped("link", last) as usize, loss }
}

/// The number of nodes, and the links.
fn network(top: &Table, version: &Version) -> (usize, Vec<Link>) {
    match top.text("topology") {
        None => explicit(top, version),
        Some("parents") => parents(top, version),
        Some(shape) => regular(top, version, shape),
    }
}

fn explicit(top: &Table, version: &Version) -> (usize, Vec<Link>) {
    let keys = version.known(vec!["a", "b", "delay", "back"]);
    let link = |it: &Table| {
        has_only("link", it, &keys);
        let end = |key| it.number(key, 0..=version.last()) as usize;
        let delay = it.number("delay", 1..=LONGEST_DELAY);
        let back = it.number_or("back", 1..=LONGEST_DELAY, delay);
        Link { a: end("a"), b: end("b"), delay, back, outages: Vec::new(), losses: Vec::new() }
    };
    (top.number("nodes", 1..=version.nodes) as usize, top.tables("link").map(link).collect())
}

fn regular(top: &Table, version: &Version, shape: &str) -> (usize, Vec<Link>) {
    let nodes = top.number("size", 1..=version.nodes) as usize;
    let delay = top.number("delay", 1..=LONGEST_DELAY);
    let back = top.number_or("back", 1..=LONGEST_DELAY, delay);
    let degree = if shape == "tree" { top.number("degree", 2..=version.last()) as usize } else { 0 };
    let parent = |node: usize| match shape {
        "chain" => node - 1,
        "star" => 0,
        _ if node <= degree => 0,
        _ => 1 + (node - degree - 1) / (degree - 1),
    };
    let link = |node| Link { a: parent(node), b: node, delay, back, outages: Vec::new(), losses: Vec::new() };
    (nodes, (1..nodes).map(link).collect())
}

fn parents(top: &Table, version: &Version) -> (usize, Vec<Link>) {
    assert!(top.find("parent").is_some(), "parent is missing");
    let parent = top.numbers("parent", 0..=version.last());
    assert!((parent.len() as u64) < version.nodes, "too many parents");
    let there = delays(top, ["delay", "delays"], parent.len()).expect("delay or delays");
    let back = delays(top, ["back", "backs"], parent.len()).unwrap_or_else(|| there.clone());
    let link = |place: usize| {
        let (a, b) = (parent[place] as usize, place + 1);
        Link { a, b, delay: there[place], back: back[place], outages: Vec::new(), losses: Vec::new() }
    };
    (parent.len() + 1, (0..parent.len()).map(link).collect())
}

/// A delay for each link, from the key of one for all or from that of an array; none where neither stands there.
fn delays(top: &Table, [all, each]: [&str; 2], links: usize) -> Option<Vec<Time>> {
    if top.find(all).is_some() {
        assert!(top.find(each).is_none(), "{all} and {each}");
        return Some(vec![top.number(all, 1..=LONGEST_DELAY); links]);
    }
    top.find(each).map(|_| {
        let delays = top.numbers(each, 1..=LONGEST_DELAY);
        assert!(delays.len() == links, "{} {each} for {links} links", delays.len());
        delays
    })
}
