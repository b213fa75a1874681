// tools/rust_of_header.py makes this file from include/serf_agent.h.

//! The structs, in C's layout.

/// Where an agent is.
#[repr(C)]
#[derive(Debug)]
pub struct Place {
    /// The address, which only the library uses.
    pub at: *mut u8,
}

/// A handle: all 0 at first.
#[repr(C)]
#[derive(Debug)]
pub struct Handle {
    pub open: bool,
    pub place: Place,
}

/// An agent's settings, without its name.
#[repr(C)]
#[derive(Clone, Copy, Debug, Default)]
pub struct Settings {
    /// Slots for events: 1 to 65,536; Serf has 512.
    pub event_buffer: u64,
    /// Slots for queries: 1 to 65,536; Serf has 512.
    pub query_buffer: u64,
    /// The maximum size of a fired event in bytes: at most 9,216; Serf has 512.
    pub event_limit: u64,
    /// The maximum size of a fired query's packet in bytes: at most 9,216; 0 means 1,024, as in Serf.
    pub query_limit: u64,
    /// The maximum size of a response's packet in bytes: at most 9,216; 0 means 1,024, as in Serf.
    pub response_limit: u64,
    /// How many names are counted among a query's acks, and among its responses: 1 to 65,536.
    pub responders: u64,
    /// How many events, or queries, are accepted with the same time: 1 to 65,536.
    pub per_time: u64,
    /// Whether a join raises the minimum time of events to the other agent's clock.
    pub ignore_old: bool,
    /// Whether the file keeps events and queries, so that a restart restores those in the buffers.
    pub keep_events: bool,
}

/// The result of the last call.
#[repr(C)]
#[derive(Clone, Copy, Debug, Default)]
pub struct CallResult {
    /// `enum serf_agent_kind`.
    pub kind: u32,
    /// `enum serf_agent_reason`; 0 if nothing was ignored.
    pub reason: u32,
    /// The number of the query that is handed out, for pending_query and respond; 0 if there is none.
    pub handed: u64,
    /// How many events are handed out.
    pub events: usize,
    /// The type of a foreign message, otherwise 0.
    pub foreign: u8,
    /// Whether the host has to send the received packet on unchanged.
    pub rebroadcast: bool,
}

/// The bytes that are pending for the host's file.
#[repr(C)]
#[derive(Clone, Copy, Debug, Default)]
pub struct Bytes {
    pub len: usize,
    /// true: they replace the file's text; false: they are appended to it.
    pub replaces: bool,
}

/// An event that is handed out.
#[repr(C)]
#[derive(Clone, Copy, Debug, Default)]
pub struct Event {
    pub time: u64,
    /// The name's length in bytes.
    pub name_len: usize,
    /// The payload's length in bytes.
    pub payload_len: usize,
    pub coalesce: bool,
}

/// How a query is fired.
#[repr(C)]
#[derive(Clone, Copy, Debug, Default)]
pub struct Params {
    /// How long answers are accepted, in nanoseconds.
    pub timeout: i64,
    /// The port to which answers are sent.
    pub port: u16,
    pub relay_factor: u8,
    pub want_ack: bool,
    /// Whether nodes must not send the query on.
    pub no_broadcast: bool,
    /// Whether this node's tags pass every tag filter, so that the query may be handed out here.
    pub tags_pass: bool,
}

/// A query that was handed out and not yet answered.
#[repr(C)]
#[derive(Clone, Copy, Debug, Default)]
pub struct PendingQuery {
    pub time: u64,
    /// The last moment at which it can be answered.
    pub deadline: u64,
    /// The name's length in bytes.
    pub name_len: usize,
    /// The payload's length in bytes.
    pub payload_len: usize,
    /// The name of the node that fired the query.
    pub source_len: usize,
    /// The address to which a response is sent.
    pub addr_len: usize,
    pub id: u32,
    pub port: u16,
    pub relay_factor: u8,
}

/// What an ack or a response contains.
#[repr(C)]
#[derive(Clone, Copy, Debug, Default)]
pub struct Answer {
    /// The query's time.
    pub time: u64,
    /// The name of the node that sent it.
    pub from_len: usize,
    /// The payload's length in bytes.
    pub payload_len: usize,
    /// The query's ID.
    pub id: u32,
    pub is_ack: bool,
}

/// Why a packet is not a message: its first error.
#[repr(C)]
#[derive(Clone, Copy, Debug, Default)]
pub struct PacketError {
    /// Its position in bytes from the packet's first byte, which is the type; 0 if it concerns the whole packet.
    pub offset: usize,
    /// `enum serf_agent_error`.
    pub kind: u32,
    /// UNKNOWN_TYPE and UNSUPPORTED: the byte; otherwise 0.
    pub byte: u8,
}

/// What a join or a leave intent contains, without the node's name.
#[repr(C)]
#[derive(Clone, Copy, Debug, Default)]
pub struct Intent {
    /// By the member clock of the node that sent it.
    pub time: u64,
    /// The node's length in bytes.
    pub node_len: usize,
    /// true: the node leaves; false: it joins.
    pub leave: bool,
    /// Of a leave intent: whether the members have to forget the node at once.
    pub prune: bool,
}

/// How many members a push/pull names.
#[repr(C)]
#[derive(Clone, Copy, Debug, Default)]
pub struct Members {
    /// The sender's.
    pub member_clock: u64,
    pub members: usize,
    /// The total length of their names.
    pub names_len: usize,
}

/// A member that a push/pull names.
#[repr(C)]
#[derive(Clone, Copy, Debug, Default)]
pub struct Member {
    /// The time of its status, by the member clock; 0 if it is named among those that left.
    pub status_time: u64,
    /// The name's length in bytes.
    pub name_len: usize,
    /// true: it is named among those that left; false: with its status time.
    pub left: bool,
}

/// How many filters a query has.
#[repr(C)]
#[derive(Clone, Copy, Debug, Default)]
pub struct Filters {
    pub filters: usize,
    /// Their total length.
    pub filters_len: usize,
}

/// How many events a text leaves open.
#[repr(C)]
#[derive(Clone, Copy, Debug, Default)]
pub struct OpenEvents {
    pub events: usize,
    /// The total length of their names and payloads.
    pub texts_len: usize,
    /// Whether the text says what became of handlers; if it doesn't, no event is open.
    pub tracked: bool,
}

/// An event that a text leaves open: it was handed out, and it isn't done.
#[repr(C)]
#[derive(Clone, Copy, Debug, Default)]
pub struct OpenEvent {
    pub time: u64,
    /// The name's length in bytes.
    pub name_len: usize,
    /// The payload's length in bytes.
    pub payload_len: usize,
    /// true: its handler has begun; false: it still waits for its handler.
    pub begun: bool,
}

/// A query of this agent that close_due closed.
#[repr(C)]
#[derive(Clone, Copy, Debug, Default)]
pub struct Closed {
    pub time: u64,
    /// The last moment at which an answer was counted.
    pub deadline: u64,
    /// How many nodes acked it.
    pub acks: usize,
    /// How many nodes responded.
    pub responses: usize,
    pub id: u32,
}

/// A response to a query that close_due closed.
#[repr(C)]
#[derive(Clone, Copy, Debug, Default)]
pub struct Response {
    /// The name of the node that responded.
    pub from_len: usize,
    /// The payload's length in bytes.
    pub payload_len: usize,
}

/// The agent's clocks.
#[repr(C)]
#[derive(Clone, Copy, Debug, Default)]
pub struct Clocks {
    pub member: u64,
    pub event: u64,
    pub query: u64,
    /// The minimum time of an event that is accepted.
    pub event_minimum: u64,
    pub query_minimum: u64,
}
