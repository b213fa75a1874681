// tools/rust_of_header.py makes this file from include/serf_agent.h.

//! The version, and the numbers that calls return.

/// The version of these calls. A host that was written for another version has to be reviewed. In version 2, calls and constants had
/// other names, which CHANGELOG.md lists. In version 1, `serf_agent_receive` and `serf_agent_burst_receive` also had no tags_pass: a
/// separate call set it.
pub const SERF_AGENT_VERSION: u32 = 3;

/// As its name says.
pub const SERF_AGENT_OK: u32 = 0;

/// The handle has no agent.
pub const SERF_AGENT_EMPTY: u32 = 1;

/// open: the handle already has an agent.
pub const SERF_AGENT_IN_USE: u32 = 2;

/// Bytes are pending for the host's file.
pub const SERF_AGENT_PENDING: u32 = 3;

/// A getter: there is no result of this kind; next: no outcome is waiting.
pub const SERF_AGENT_NOTHING: u32 = 4;

/// Nothing was done, except that a merge returns the events that it accepted before.
pub const SERF_AGENT_OUT_OF_MEMORY: u32 = 5;

/// open: a setting is out of its bounds (below), or the name is empty or longer than 128 bytes.
pub const SERF_AGENT_BAD_CONFIG: u32 = 6;

/// The agent's sink failed; never with this library's own sink.
pub const SERF_AGENT_SINK_ERROR: u32 = 7;

/// The agent's sink failed before; never with this library's own sink.
pub const SERF_AGENT_STOPPED: u32 = 8;

/// fire, query, respond: the event, query or response is too large.
pub const SERF_AGENT_TOO_LARGE: u32 = 9;

/// fire, query: the clock is at 2^64 - 1; observe_member, join_packet, leave_packet, the calls .._line: the time is 2^64 - 1, which
/// isn't valid.
pub const SERF_AGENT_EXHAUSTED: u32 = 10;

/// receive, merge: not a message (see `serf_agent_packet_error`); intent: not a message, or faulty (see `serf_agent_intent_error`).
pub const SERF_AGENT_NO_MESSAGE: u32 = 11;

/// receive: the query has as many answers as it accepts.
pub const SERF_AGENT_RESPONDERS_FULL: u32 = 12;

/// merge: a message of another type.
pub const SERF_AGENT_NOT_PUSH_PULL: u32 = 13;

/// local_state, join_packet, leave_packet: a text has more than 4,294,967,295 bytes, or a list has more items than that.
pub const SERF_AGENT_TOO_LONG: u32 = 14;

/// query: the timeout is 0 or negative.
pub const SERF_AGENT_NO_TIME: u32 = 15;

/// respond: the moment is after the query's deadline.
pub const SERF_AGENT_PAST_DEADLINE: u32 = 16;

/// respond, pending_query, forget_query: no query with this number is waiting for an answer.
pub const SERF_AGENT_NOT_PENDING: u32 = 17;

/// There is none, or the last call was refused.
pub const SERF_AGENT_RESULT_NOTHING: u32 = 0;

/// receive: a new event; send the packet on unchanged.
pub const SERF_AGENT_RESULT_EVENT: u32 = 1;

/// receive: a new query.
pub const SERF_AGENT_RESULT_QUERY: u32 = 2;

/// receive: an ack was counted.
pub const SERF_AGENT_RESULT_ACK: u32 = 3;

/// receive: a response was counted.
pub const SERF_AGENT_RESULT_RESPONSE: u32 = 4;

/// receive: the packet was ignored, for the reason.
pub const SERF_AGENT_RESULT_IGNORED: u32 = 5;

/// receive: a message of a type that the agent doesn't read.
pub const SERF_AGENT_RESULT_FOREIGN: u32 = 6;

/// receive: a push/pull, which is for `serf_agent_merge`.
pub const SERF_AGENT_RESULT_PUSH_PULL: u32 = 7;

/// fire: the packet to send, and the event as it is handed out here.
pub const SERF_AGENT_RESULT_EVENT_FIRED: u32 = 8;

/// query: the packet to send, and perhaps the query and an ack.
pub const SERF_AGENT_RESULT_QUERY_FIRED: u32 = 9;

/// merge: the new events, in order; after OUT_OF_MEMORY, those accepted before it.
pub const SERF_AGENT_RESULT_MERGED: u32 = 10;

/// local_state: the packet to send.
pub const SERF_AGENT_RESULT_STATE: u32 = 11;

/// respond: the packet to send to the address and port of the query.
pub const SERF_AGENT_RESULT_REPLY: u32 = 12;

/// close_due: the queries that it closed, with their answers.
pub const SERF_AGENT_RESULT_CLOSED: u32 = 13;

/// As its name says.
pub const SERF_AGENT_NO_REASON: u32 = 0;

/// The event's name and payload together have more than 9,216 bytes.
pub const SERF_AGENT_OVERSIZE: u32 = 1;

/// Its time is below the agent's minimum.
pub const SERF_AGENT_BELOW_MINIMUM: u32 = 2;

/// Its time is too far below the clock.
pub const SERF_AGENT_TOO_OLD: u32 = 3;

/// The same event or query was accepted before.
pub const SERF_AGENT_SEEN: u32 = 4;

/// As many as the settings allow were accepted with the same time.
pub const SERF_AGENT_TIME_FULL: u32 = 5;

/// A response to a query that is not open here.
pub const SERF_AGENT_NOT_OPEN: u32 = 6;

/// A response to another query with the same time.
pub const SERF_AGENT_OTHER_ID: u32 = 7;

/// A response after the deadline.
pub const SERF_AGENT_CLOSED: u32 = 8;

/// An ack, although the query requests none.
pub const SERF_AGENT_ACK_NOT_REQUESTED: u32 = 9;

/// A second ack from the same node.
pub const SERF_AGENT_ACK_TWICE: u32 = 10;

/// A second response from the same node.
pub const SERF_AGENT_RESPONSE_TWICE: u32 = 11;

/// The packet is empty.
pub const SERF_AGENT_ERROR_EMPTY: u32 = 1;

/// The packet's first byte is not the type of any message.
pub const SERF_AGENT_ERROR_UNKNOWN_TYPE: u32 = 2;

/// The packet ends inside the value that begins at the offset.
pub const SERF_AGENT_ERROR_TRUNCATED: u32 = 3;

/// The byte at the offset begins an unsupported value: c1, a float or an ext.
pub const SERF_AGENT_ERROR_UNSUPPORTED: u32 = 4;

/// The array or map at the offset is inside eight others.
pub const SERF_AGENT_ERROR_TOO_DEEP: u32 = 5;

/// The value ends before the offset, and more bytes follow.
pub const SERF_AGENT_ERROR_TRAILING: u32 = 6;

/// The value is not a map.
pub const SERF_AGENT_ERROR_NOT_A_MAP: u32 = 7;

/// The key at the offset doesn't have MessagePack's type raw.
pub const SERF_AGENT_ERROR_BAD_KEY: u32 = 8;

/// The known key at the offset appears in its map for the second time.
pub const SERF_AGENT_ERROR_TWICE: u32 = 9;

/// The value at the offset doesn't have its field's type.
pub const SERF_AGENT_ERROR_WRONG_KIND: u32 = 10;

/// The integer at the offset is not in its field's range.
pub const SERF_AGENT_ERROR_OUT_OF_RANGE: u32 = 11;

/// The time at the offset is 2^64 - 1, which isn't valid.
pub const SERF_AGENT_ERROR_MAX_TIME: u32 = 12;

/// should_compact: the size in bytes above which Serf compacts its snapshot.
pub const SERF_AGENT_DEFAULT_SNAPSHOT_LIMIT: u64 = 131072;
