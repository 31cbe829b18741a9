//! The network: distances, and where packets go.

use crate::events::Time;
use crate::losses::Loss;
use crate::packets::PacketId;

/// A link takes `delay` ticks from `a` to `b`, and `back` ticks from `b` to `a`. In an outage it drops what comes to it, and
/// losses take some of it.
pub struct Link {
    pub a: usize,
    pub b: usize,
    pub delay: Time,
    pub back: Time,
    pub outages: Vec<Outage>,
    pub losses: Vec<Loss>,
}

pub struct Outage {
    pub from: Time,
    pub to: Time,
}

impl Link {
    fn delay_from(&self, node: usize) -> Time {
        if node == self.a { self.delay } else { self.back }
    }

    fn loses(&self, number: usize, sent: &Sent, at: Time) -> bool {
        self.losses.iter().any(|it| it.takes(sent.seed, number, sent.id, at))
    }

    fn is_out(&self, at: Time) -> bool {
        self.outages.iter().any(|it| it.from <= at && at < it.to)
    }
}

/// Whether the links make a tree of the nodes.
pub fn is_tree(nodes: usize, links: &[Link]) -> bool {
    if links.len() + 1 != nodes || links.iter().any(|link| link.a >= nodes || link.b >= nodes) {
        return false;
    }
    let mut beside: Vec<Vec<usize>> = vec![Vec::new(); nodes];
    for link in links {
        beside[link.a].push(link.b);
        beside[link.b].push(link.a);
    }
    let (mut reached, mut left) = (vec![false; nodes], vec![0]);
    reached[0] = true;
    while let Some(node) = left.pop() {
        for &other in &beside[node] {
            if !std::mem::replace(&mut reached[other], true) {
                left.push(other);
            }
        }
    }
    reached.iter().all(|&it| it)
}

/// One end of a link, as seen from the other.
struct Side {
    link: usize,
    node: usize,
    hosts: bool,
}

pub struct Net {
    sides: Vec<Vec<Side>>,
    hosts: Vec<Option<usize>>,
}

impl Net {
    pub fn new(nodes: usize, links: &[Link], members: &[usize]) -> Net {
        let mut hosts = vec![None; nodes];
        for (member, &node) in members.iter().enumerate() {
            hosts[node] = Some(member);
        }
        let mut sides: Vec<Vec<Side>> = (0..nodes).map(|_| Vec::new()).collect();
        for (link, &Link { a, b, .. }) in links.iter().enumerate() {
            sides[a].push(Side { link, node: b, hosts: false });
            sides[b].push(Side { link, node: a, hosts: false });
        }
        let mut net = Net { sides, hosts };
        for node in 0..nodes {
            for place in 0..net.sides[node].len() {
                let beyond = net.sides[node][place].node;
                net.sides[node][place].hosts = net.hosts_beyond(node, beyond);
            }
        }
        net
    }

    /// Whether a member is on a node, or beyond it as seen from a neighbour.
    fn hosts_beyond(&self, from: usize, node: usize) -> bool {
        let mut left = vec![(from, node)];
        while let Some((from, node)) = left.pop() {
            if self.hosts[node].is_some() {
                return true;
            }
            left.extend(self.sides[node].iter().filter(|side| side.node != from).map(|side| (node, side.node)));
        }
        false
    }

    /// The distances from a node to all members.
    pub fn distances(&self, links: &[Link], from: usize, members: usize) -> Vec<Time> {
        self.ways(from, members, |link, node| links[link].delay_from(node))
    }

    /// How many links are between a node and each member.
    pub fn hops(&self, from: usize, members: usize) -> Vec<u32> {
        self.ways(from, members, |_, _| 1).into_iter().map(|hops| hops as u32).collect()
    }

    /// The sums over the ways from a node to all members of what each link takes from the node where it is taken.
    fn ways(&self, from: usize, members: usize, takes: impl Fn(usize, usize) -> Time) -> Vec<Time> {
        let mut ways = vec![0; members];
        let mut left = vec![(from, from, 0)];
        while let Some((before, node, way)) = left.pop() {
            if let Some(member) = self.hosts[node] {
                ways[member] = way;
            }
            for side in self.sides[node].iter().filter(|side| side.node != before) {
                left.push((node, side.node, way + takes(side.link, node)));
            }
        }
        ways
    }

    /// Where a packet goes that is sent from a node.
    pub fn route(&self, links: &[Link], from: usize, sent: &Sent) -> Route {
        let mut route = Route { hearers: Vec::new(), crossed: Vec::new(), dropped: Vec::new() };
        let mut left = vec![(from, from, sent.at, 0)];
        while let Some((before, node, at, hops)) = left.pop() {
            route.hearers.extend(self.hosts[node].filter(|_| node != from));
            if sent.scope.is_some_and(|scope| hops >= scope) {
                continue;
            }
            for side in self.sides[node].iter().filter(|side| side.node != before && side.hosts) {
                let link = &links[side.link];
                if sent.dropping.contains(&side.link) || link.is_out(at) || link.loses(side.link, sent, at) {
                    route.dropped.push(side.link);
                } else {
                    route.crossed.push(side.link);
                    left.push((node, side.node, at + link.delay_from(node), hops + 1));
                }
            }
        }
        route
    }
}

/// What decides what becomes of a packet: which it is, when it was sent and how many links it goes, the links that are
/// listed as dropping it, and the seed of the run.
pub struct Sent<'a> {
    pub id: PacketId,
    pub at: Time,
    pub scope: Option<u32>,
    pub dropping: &'a [usize],
    pub seed: u64,
}

/// Where a packet goes: the members that it reaches, the links that it crosses, and those at which it is dropped.
pub struct Route {
    pub hearers: Vec<usize>,
    pub crossed: Vec<usize>,
    pub dropped: Vec<usize>,
}
