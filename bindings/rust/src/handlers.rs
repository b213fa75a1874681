//! What became of the handlers of events: the lines that a host adds to a snapshot's text, and the events that a text leaves open.

use crate::error::{check_code, Error};
use crate::raw;

/// An event that was handed out and isn't done.
#[derive(Clone, Debug, PartialEq, Eq)]
#[non_exhaustive]
pub struct OpenEvent {
    /// The event's Lamport time.
    pub time: u64,
    /// The event's name.
    pub name: Vec<u8>,
    /// The event's payload.
    pub payload: Vec<u8>,
    /// Whether the event's handler has begun. If it hasn't, the event still waits for it.
    pub begun: bool,
}

/// Returns the events that a text leaves open, in the order in which they were handed out. No agent is needed.
///
/// The result is `None` if the text doesn't say what became of handlers, because it has no line of [`done_up_to_line`]. The error is
/// [`crate::Code::OutOfMemory`] if memory runs out.
pub fn open_events(text: &[u8]) -> Result<Option<Vec<OpenEvent>>, Error> {
    let (mut summary, mut events, mut texts) = (raw::OpenEvents::default(), Vec::new(), Vec::new());
    // The first call returns the sizes, the second the events.
    for _ in 0..2 {
        events = vec![raw::OpenEvent::default(); summary.events];
        texts = vec![0; summary.texts_len];
        // SAFETY: each pointer comes with its length, and `summary` is of the type that the library writes.
        check_code(unsafe {
            raw::serf_agent_open_events(
                text.as_ptr(),
                text.len(),
                &mut summary,
                events.as_mut_ptr(),
                events.len(),
                texts.as_mut_ptr(),
                texts.len(),
            )
        })?;
    }
    if !summary.tracked {
        return Ok(None);
    }
    let mut rest = texts.as_slice();
    let open_list = events.iter().map(|raw_event| {
        let (name, after) = rest.split_at(raw_event.name_len);
        let (payload, after) = after.split_at(raw_event.payload_len);
        rest = after;
        OpenEvent { time: raw_event.time, name: name.to_vec(), payload: payload.to_vec(), begun: raw_event.begun }
    });
    Ok(Some(open_list.collect()))
}

/// Returns the bytes that a function of the library makes. It calls the function twice: first for the length, and then
/// for the bytes.
fn read_bytes(mut call: impl FnMut(*mut usize, *mut u8, usize) -> u32) -> Result<Vec<u8>, Error> {
    let (mut len, mut bytes) = (0, Vec::new());
    for _ in 0..2 {
        bytes = vec![0; len];
        check_code(call(&mut len, bytes.as_mut_ptr(), bytes.len()))?;
    }
    Ok(bytes)
}

/// Returns the line that opens an event in a text that replaces the file's. No agent is needed.
///
/// If the time is 2^64 - 1, which is no valid time, this function and the other three return
/// [`crate::Code::Exhausted`].
pub fn open_line(time: u64, name: &[u8], payload: &[u8]) -> Result<Vec<u8>, Error> {
    // SAFETY: each pointer comes with its length.
    read_bytes(|len, to, room| unsafe {
        raw::serf_agent_open_line(time, name.as_ptr(), name.len(), payload.as_ptr(), payload.len(), len, to, room)
    })
}

/// Returns the line that records that an event's handler has begun. Flush it before the handler starts.
pub fn begun_line(time: u64, name: &[u8], payload: &[u8]) -> Result<Vec<u8>, Error> {
    // SAFETY: each pointer comes with its length.
    read_bytes(|len, to, room| unsafe {
        raw::serf_agent_begun_line(time, name.as_ptr(), name.len(), payload.as_ptr(), payload.len(), len, to, room)
    })
}

/// Returns the line that records that an event is done. It can be flushed together with the next bytes.
pub fn done_line(time: u64, name: &[u8], payload: &[u8]) -> Result<Vec<u8>, Error> {
    // SAFETY: each pointer comes with its length.
    read_bytes(|len, to, room| unsafe {
        raw::serf_agent_done_line(time, name.as_ptr(), name.len(), payload.as_ptr(), payload.len(), len, to, room)
    })
}

/// Returns the line that marks the events of all lines above it as done, up to this time. After the first line of this
/// form in a file, no event is open.
pub fn done_up_to_line(time: u64) -> Result<Vec<u8>, Error> {
    // SAFETY: each pointer comes with its length.
    read_bytes(|len, to, room| unsafe { raw::serf_agent_done_up_to_line(time, len, to, room) })
}
