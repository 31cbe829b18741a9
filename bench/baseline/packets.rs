//! Names of what is drawn, and packets.

#[derive(Clone, Copy, PartialEq, Eq, PartialOrd, Ord, Hash)]
pub struct Name {
    pub source: u16,
    pub page: u16,
    pub number: u32,
}

#[derive(Clone, Copy, PartialEq, Eq, Hash)]
pub struct PacketId {
    pub sender: u16,
    pub count: u64,
}

/// The highest number that a session message tells for a page.
#[derive(Clone, Copy)]
pub struct Highest {
    pub source: u16,
    pub page: u16,
    pub number: u32,
}

/// Of a repair with a scope: how many links it goes, whose request it answers, and how many that went.
#[derive(Clone, Copy)]
pub struct Local {
    pub scope: u32,
    pub requester: u16,
    pub width: u32,
}

pub enum Body {
    Data { name: Name, ink: u32 },
    Request { name: Name, scope: Option<u32> },
    Repair { name: Name, ink: u32, local: Option<Local> },
    Session { heard: Vec<Highest> },
}

impl Body {
    /// The column of the table of links that counts it.
    pub fn kind(&self) -> usize {
        match self {
            Body::Data { .. } => 0,
            Body::Request { .. } => 1,
            Body::Repair { .. } => 2,
            Body::Session { .. } => 3,
        }
    }

    /// How many links it goes; none: to all.
    pub fn scope(&self) -> Option<u32> {
        match self {
            Body::Request { scope, .. } => *scope,
            Body::Repair { local, .. } => local.map(|it| it.scope),
            _ => None,
        }
    }

    /// The cause of its arrival, as the trace names it.
    pub fn cause(&self) -> &'static str {
        ["data", "request", "repair", "session"][self.kind()]
    }
}

/// The column of the table of links that counts what is dropped.
pub const DROPPED: usize = 4;

pub struct Packet {
    pub id: PacketId,
    pub body: Body,
}
