//! Why a call failed.

use crate::outcome::Event;
use crate::store::StoreError;

/// Why the library refused a call.
#[derive(Clone, Copy, Debug, PartialEq, Eq)]
#[non_exhaustive]
pub enum Code {
    /// The agent was closed, because its file failed.
    Empty,
    /// The handle already has an agent. This crate never causes this error.
    InUse,
    /// Bytes for the file are pending. This crate never causes this error, because each call writes them.
    Pending,
    /// The last call has no result of this kind.
    Nothing,
    /// Memory ran out. Nothing was changed, except that a merge keeps what it accepted ([`Error::MergedInPart`]).
    OutOfMemory,
    /// A setting is out of its bounds, or the name is empty or longer than 128 bytes.
    BadConfig,
    /// The agent's sink failed. This never happens with this library, whose sink is memory.
    SinkError,
    /// The agent's sink failed before. This never happens with this library.
    Stopped,
    /// The event, the query or the response is larger than its limit.
    TooLarge,
    /// The clock is at 2^64 - 1, or the caller passed 2^64 - 1 as a time, which is no valid time.
    Exhausted,
    /// The packet is no message. [`crate::packet_error`] returns the reason.
    NoMessage,
    /// The query has as many answers as the settings allow, and this answer is from a further node.
    RespondersFull,
    /// The packet to merge is not a push/pull.
    NotPushPull,
    /// A text has more than 4,294,967,295 bytes, or a list has more items than that.
    TooLong,
    /// The query's timeout is 0 or negative.
    NoTime,
    /// The response is after the query's deadline.
    PastDeadline,
    /// No query with this number is waiting for an answer.
    NotPending,
    /// A code that this crate doesn't know.
    Other(u32),
}

impl std::fmt::Display for Code {
    fn fmt(&self, to: &mut std::fmt::Formatter<'_>) -> std::fmt::Result {
        to.write_str(match self {
            Code::Empty => "the agent is closed",
            Code::InUse => "the handle already has an agent",
            Code::Pending => "bytes for the file are pending",
            Code::Nothing => "there is no such item",
            Code::OutOfMemory => "out of memory",
            Code::BadConfig => "the settings are out of bounds",
            Code::SinkError => "the sink failed",
            Code::Stopped => "the agent is stopped",
            Code::TooLarge => "the event, query or response is too large",
            Code::Exhausted => "the clock is exhausted",
            Code::NoMessage => "the packet is not a Serf message",
            Code::RespondersFull => "the query has as many answers as it accepts",
            Code::NotPushPull => "the packet is not a push/pull",
            Code::TooLong => "a text or a list is too long",
            Code::NoTime => "the query has no timeout",
            Code::PastDeadline => "the deadline of the query has passed",
            Code::NotPending => "no query with this number is waiting for an answer",
            Code::Other(code) => return write!(to, "the library refused the call with the code {code}"),
        })
    }
}

const CODES: [Code; 17] = [
    Code::Empty,
    Code::InUse,
    Code::Pending,
    Code::Nothing,
    Code::OutOfMemory,
    Code::BadConfig,
    Code::SinkError,
    Code::Stopped,
    Code::TooLarge,
    Code::Exhausted,
    Code::NoMessage,
    Code::RespondersFull,
    Code::NotPushPull,
    Code::TooLong,
    Code::NoTime,
    Code::PastDeadline,
    Code::NotPending,
];

/// Why a call failed.
///
/// `{:?}` prints the same sentence as `{}`, so the sentence is what appears if `main` returns the error, or if `unwrap`
/// panics. `{:#?}` prints the variant and its fields.
#[non_exhaustive]
pub enum Error {
    /// The library refused the call, and nothing has changed.
    Refused(Code),
    /// The library refused to open an agent ([`Code::BadConfig`]), because this setting, or the name's length, is out of its bounds.
    #[non_exhaustive]
    Setting {
        /// The name of the setting's field, or `name` for the node's name.
        field: &'static str,
        /// The setting's value, or the name's length in bytes.
        value: u64,
        /// The minimum of this value.
        min: u64,
        /// The maximum of this value.
        max: u64,
    },
    /// A merge ran out of memory. Before that, it accepted these events: run their handlers, since no later merge hands
    /// them out again.
    MergedInPart(Vec<Event>),
    /// The file failed, and the agent is closed, or was not opened.
    Store(StoreError),
}

impl std::fmt::Display for Error {
    fn fmt(&self, to: &mut std::fmt::Formatter<'_>) -> std::fmt::Result {
        match self {
            Error::Refused(code) => code.fmt(to),
            Error::Setting { field: "name", value, min, max } => {
                write!(to, "the name has {value} bytes, and must have {min} to {max}")
            }
            Error::Setting { field, value, min, max } => write!(to, "{field} is {value}, and must be between {min} and {max}"),
            Error::MergedInPart(events) => write!(to, "the merge ran out of memory; events that it accepted before: {}", events.len()),
            Error::Store(error) => error.fmt(to),
        }
    }
}

impl std::fmt::Debug for Error {
    fn fmt(&self, to: &mut std::fmt::Formatter<'_>) -> std::fmt::Result {
        if !to.alternate() {
            return std::fmt::Display::fmt(self, to);
        }
        match self {
            Error::Refused(code) => to.debug_tuple("Refused").field(code).finish(),
            Error::Setting { field, value, min, max } => {
                let mut fields = to.debug_struct("Setting");
                fields.field("field", field).field("value", value).field("min", min).field("max", max).finish()
            }
            Error::MergedInPart(events) => to.debug_tuple("MergedInPart").field(events).finish(),
            Error::Store(error) => to.debug_tuple("Store").field(error).finish(),
        }
    }
}

// Each text has its cause, so there is no source.
impl std::error::Error for Error {}

impl From<StoreError> for Error {
    fn from(error: StoreError) -> Self {
        Error::Store(error)
    }
}

/// Turns a code of the library into a result.
pub(crate) fn check_code(code: u32) -> Result<(), Error> {
    match code {
        0 => Ok(()),
        other => Err(Error::Refused(CODES.get(other as usize - 1).copied().unwrap_or(Code::Other(other)))),
    }
}
