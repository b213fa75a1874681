//! The results of calls: events and queries to handle, packets to send, and the outcomes of received packets.

use std::time::Duration;

/// An event that is handed out. Run its handler.
#[derive(Clone, Debug, PartialEq, Eq)]
pub struct Event {
    /// The event's Lamport time.
    pub time: u64,
    /// The event's name.
    pub name: Vec<u8>,
    /// The event's payload.
    pub payload: Vec<u8>,
    /// Whether a host may coalesce the event. If several events with the same name arrive within a short time, it may
    /// then hand out only the latest.
    pub coalesce: bool,
}

/// A query that is handed out. Run its handler, and answer it by [`crate::Agent::respond`] with its number.
#[derive(Clone, Debug, PartialEq, Eq)]
pub struct PendingQuery {
    /// The query's number, for [`crate::Agent::respond`].
    pub number: u64,
    /// The query's Lamport time.
    pub time: u64,
    /// The query's ID. The time and the ID together identify a query.
    pub id: u32,
    /// The query's name.
    pub name: Vec<u8>,
    /// The query's payload.
    pub payload: Vec<u8>,
    /// The name of the node that fired the query.
    pub source: Vec<u8>,
    /// The address to which a response is sent.
    pub addr: Vec<u8>,
    /// The port to which a response is sent.
    pub port: u16,
    /// The number of other nodes that relay a response as well.
    pub relay_factor: u8,
    /// The last moment at which the query can be answered.
    pub deadline: Duration,
}

/// Why a packet was ignored.
#[derive(Clone, Copy, Debug, PartialEq, Eq)]
#[non_exhaustive]
pub enum Reason {
    /// The event's name and payload together have more than 9,216 bytes.
    Oversize,
    /// The time of the event or query is below the agent's minimum.
    BelowMinimum,
    /// The time of the event or query is too far below the clock.
    TooOld,
    /// The same event or query was accepted before.
    Seen,
    /// The limit of events or queries with the same time is reached.
    TimeFull,
    /// The packet is a response to a query that is not open here.
    NotOpen,
    /// The packet is a response to another query with the same time.
    OtherId,
    /// The response arrived after the query's deadline.
    Closed,
    /// The packet is an ack, although the query requests none.
    AckNotRequested,
    /// The packet is a second ack from the same node.
    AckTwice,
    /// The packet is a second response from the same node.
    ResponseTwice,
}

impl std::fmt::Display for Reason {
    fn fmt(&self, to: &mut std::fmt::Formatter<'_>) -> std::fmt::Result {
        to.write_str(match self {
            Reason::Oversize => "the event's name and payload together have more than 9,216 bytes",
            Reason::BelowMinimum => "its time is below the agent's minimum",
            Reason::TooOld => "its time is too far below the clock",
            Reason::Seen => "the same event or query was accepted before",
            Reason::TimeFull => "the limit of events or queries with the same time is reached",
            Reason::NotOpen => "it answers a query that is not open here",
            Reason::OtherId => "it answers another query with the same time",
            Reason::Closed => "it arrived after the query's deadline",
            Reason::AckNotRequested => "the query requests no acks",
            Reason::AckTwice => "the node has already acked the query",
            Reason::ResponseTwice => "the node has already responded to the query",
        })
    }
}

pub(crate) const REASONS: [Reason; 11] = [
    Reason::Oversize,
    Reason::BelowMinimum,
    Reason::TooOld,
    Reason::Seen,
    Reason::TimeFull,
    Reason::NotOpen,
    Reason::OtherId,
    Reason::Closed,
    Reason::AckNotRequested,
    Reason::AckTwice,
    Reason::ResponseTwice,
];

/// An ack or a response that was counted.
#[derive(Clone, Debug, PartialEq, Eq)]
pub struct Answer {
    /// The query's time.
    pub time: u64,
    /// The query's ID.
    pub id: u32,
    /// The name of the node that sent the answer.
    pub from: Vec<u8>,
    /// The payload of a response.
    pub payload: Vec<u8>,
}

/// The outcome of a received packet.
#[derive(Clone, Debug, PartialEq, Eq)]
#[non_exhaustive]
pub enum Outcome {
    /// A new event.
    Event(Event),
    /// A new query.
    Query {
        /// The query, for its handler, if its filters let this node pass.
        handed: Option<PendingQuery>,
        /// This node's own ack, to send to the query's address and port, if the query requests one.
        ack: Option<Vec<u8>>,
    },
    /// An ack was counted.
    Ack(Answer),
    /// A response was counted.
    Response(Answer),
    /// The packet was ignored, for this reason.
    Ignored(Reason),
    /// The packet is a message of this type, which the agent doesn't read.
    Foreign(u8),
    /// The packet is a push/pull. Pass it to [`crate::Agent::merge`].
    PushPull,
}

/// The result of a received packet.
#[derive(Clone, Debug, PartialEq, Eq)]
#[non_exhaustive]
pub struct Received {
    /// The outcome of the packet.
    pub outcome: Outcome,
    /// If `true`, send the packet unchanged to other nodes.
    pub rebroadcast: bool,
}

/// An event that was fired and is handed out on this node, and the packet to send.
#[derive(Clone, Debug, PartialEq, Eq)]
#[non_exhaustive]
pub struct Fired {
    /// The event, for its handler.
    pub event: Event,
    /// The packet to send.
    pub packet: Vec<u8>,
}

/// A query that was fired.
#[derive(Clone, Debug, PartialEq, Eq)]
#[non_exhaustive]
pub struct FiredQuery {
    /// The query's Lamport time, which is in each [`Answer`] to it.
    pub time: u64,
    /// The packet to send.
    pub packet: Vec<u8>,
    /// The query as it is handed out on this node, if its filters let this node pass.
    pub handed: Option<PendingQuery>,
    /// This node's own ack, to send to the query's address and port, if the query is handed out here and requests one.
    pub ack: Option<Vec<u8>>,
}

/// The agent's clocks, and the minimum times that it accepts.
#[derive(Clone, Copy, Debug, PartialEq, Eq)]
#[non_exhaustive]
pub struct Clocks {
    /// The member clock.
    pub member: u64,
    /// The time of the next event.
    pub event: u64,
    /// The time of the next query.
    pub query: u64,
    /// The minimum time of an event that is accepted.
    pub event_minimum: u64,
    /// The minimum time of a query that is accepted.
    pub query_minimum: u64,
}
