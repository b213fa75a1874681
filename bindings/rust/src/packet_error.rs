//! Why a packet is not a message.

use crate::error::check_code;
use crate::raw;

/// Why a packet is not a message: the first error in the packet. Offsets are in bytes from the packet's first byte,
/// which is its type.
#[derive(Clone, Copy, Debug, PartialEq, Eq)]
#[non_exhaustive]
pub enum PacketError {
    /// The packet is empty.
    Empty,
    /// This first byte is not the type of any message.
    UnknownType(u8),
    /// The packet ends inside the value that begins at this offset.
    Truncated(usize),
    /// This byte, at this offset, begins an unsupported value: c1, a float or an ext.
    Unsupported(u8, usize),
    /// The array or map at this offset is inside eight others.
    TooDeep(usize),
    /// The value ends before this offset, and more bytes follow.
    Trailing(usize),
    /// The value is not a map.
    NotAMap,
    /// The key at this offset is not raw.
    BadKey(usize),
    /// The known key at this offset appears in its map for the second time.
    Twice(usize),
    /// The value at this offset doesn't have its field's type.
    WrongKind(usize),
    /// The integer at this offset is not in its field's range.
    OutOfRange(usize),
    /// The value at this offset is 2^64 - 1, which is no valid time.
    MaxTime(usize),
    /// A kind that this crate doesn't know.
    Other(u32),
}

impl std::fmt::Display for PacketError {
    fn fmt(&self, to: &mut std::fmt::Formatter<'_>) -> std::fmt::Result {
        match self {
            PacketError::Empty => write!(to, "the packet is empty"),
            PacketError::UnknownType(kind) => write!(to, "no message has the type {kind}"),
            PacketError::Truncated(offset) => write!(to, "the packet ends inside the value at {offset}"),
            PacketError::Unsupported(byte, offset) => write!(to, "the byte {byte:#x} at {offset} doesn't begin a supported value"),
            PacketError::TooDeep(offset) => write!(to, "the array or map at {offset} is inside eight others"),
            PacketError::Trailing(offset) => write!(to, "the value ends before {offset}, and more bytes follow"),
            PacketError::NotAMap => write!(to, "the value is not a map"),
            PacketError::BadKey(offset) => write!(to, "the key at {offset} is not raw"),
            PacketError::Twice(offset) => write!(to, "the key at {offset} appears for the second time"),
            PacketError::WrongKind(offset) => write!(to, "the value at {offset} has the wrong type"),
            PacketError::OutOfRange(offset) => write!(to, "the integer at {offset} is out of range"),
            PacketError::MaxTime(offset) => write!(to, "the number at {offset} is not a valid time"),
            PacketError::Other(kind) => write!(to, "the packet has the error {kind}"),
        }
    }
}

impl std::error::Error for PacketError {}

/// A function of the library that returns the first error in a packet.
type ErrorGetter = unsafe extern "C" fn(*const u8, usize, *mut raw::PacketError) -> u32;

/// Returns why a packet is no message, or `None` if it is one. No agent is needed.
pub fn packet_error(packet: &[u8]) -> Option<PacketError> {
    read_error(packet, raw::serf_agent_packet_error)
}

/// Returns why [`crate::Intent::of_packet`] refuses a packet with [`crate::Code::NoMessage`], or `None` if it doesn't. No agent is
/// needed.
pub fn intent_error(packet: &[u8]) -> Option<PacketError> {
    read_error(packet, raw::serf_agent_intent_error)
}

/// Returns the first error that a function of the library finds in a packet, or `None` if it finds none.
fn read_error(packet: &[u8], getter: ErrorGetter) -> Option<PacketError> {
    let mut raw_error = raw::PacketError::default();
    // SAFETY: the pointer comes with its length, and `raw_error` is of the type that the library writes.
    check_code(unsafe { getter(packet.as_ptr(), packet.len(), &mut raw_error) }).ok()?;
    let raw::PacketError { offset, kind, byte } = raw_error;
    Some(match kind {
        1 => PacketError::Empty,
        2 => PacketError::UnknownType(byte),
        3 => PacketError::Truncated(offset),
        4 => PacketError::Unsupported(byte, offset),
        5 => PacketError::TooDeep(offset),
        6 => PacketError::Trailing(offset),
        7 => PacketError::NotAMap,
        8 => PacketError::BadKey(offset),
        9 => PacketError::Twice(offset),
        10 => PacketError::WrongKind(offset),
        11 => PacketError::OutOfRange(offset),
        12 => PacketError::MaxTime(offset),
        other => PacketError::Other(other),
    })
}
