//! An agent that keeps its snapshot in a file.

mod burst;
mod closing;

use crate::error::{check_code, Code, Error};
use crate::outcome::{Answer, Clocks, Event, Fired, FiredQuery, Outcome, PendingQuery, Received, REASONS};
use crate::raw;
use crate::settings::{nanos, QueryParams, Settings};
use crate::store::Store;
use std::collections::VecDeque;
use std::fmt;
use std::path::Path;
use std::time::Duration;

pub use burst::{Call, CallOutcome, Outcomes};
pub use closing::{Closed, DEFAULT_SNAPSHOT_LIMIT};

/// Reads the packet of an ack or a response.
fn read_answer(packet: &[u8]) -> Result<Answer, Error> {
    let mut raw_answer = raw::Answer::default();
    let (mut from, mut payload) = (Vec::new(), Vec::new());
    for _ in 0..2 {
        (from, payload) = (vec![0; raw_answer.from_len], vec![0; raw_answer.payload_len]);
        // SAFETY: each pointer comes with its length.
        check_code(unsafe {
            raw::serf_agent_answer(
                packet.as_ptr(),
                packet.len(),
                &mut raw_answer,
                from.as_mut_ptr(),
                from.len(),
                payload.as_mut_ptr(),
                payload.len(),
            )
        })?;
    }
    Ok(Answer { time: raw_answer.time, id: raw_answer.id, from, payload })
}

/// A function of the library that returns a packet to send: the packet that the last call made, or this node's own ack.
type PacketGetter = unsafe extern "C" fn(*mut raw::Handle, *mut usize, *mut u8, usize) -> u32;
const MADE_PACKET: PacketGetter = raw::serf_agent_packet;
const OWN_ACK: PacketGetter = raw::serf_agent_ack;

/// The kind that `serf_agent_result` returns after a merge.
const MERGED: u32 = 10;

/// Accepts any refusal of a call that was made only to discard filters or members that were added before. The library
/// discards them even if it refuses the call, unless memory runs out.
fn ignore_refusal(result: Result<(), Error>) -> Result<(), Error> {
    match result {
        Err(Error::Refused(code)) if code != Code::OutOfMemory => Ok(()),
        other => other,
    }
}

/// A proved agent with its snapshot. Dropping it closes the agent and the file.
pub struct Agent {
    // In a box, because a handle must never be copied or moved.
    handle: Box<raw::Handle>,
    store: Store,
    // Whether a call that failed may have left filters or members behind. The library would add them to the next call.
    stale_filters: bool,
    stale_members: bool,
    // The calls of bursts whose outcomes have not been read yet.
    unread: VecDeque<burst::UnreadCall>,
}

// SAFETY: the library has no state per thread, and `&mut` allows one thread at a time.
unsafe impl Send for Agent {}

impl Agent {
    /// Opens or creates the file at `path`, and opens an agent with this name on its text. If a setting is out of its bounds, the
    /// error is [`Error::Setting`].
    pub fn open(name: &[u8], path: impl AsRef<Path>, settings: Settings) -> Result<Agent, Error> {
        let store = Store::open(path)?;
        let text = store.read()?;
        let place = raw::Place { at: std::ptr::null_mut() };
        let handle = Box::new(raw::Handle { open: false, place });
        let mut agent = Agent { handle, store, stale_filters: false, stale_members: false, unread: VecDeque::new() };
        let raw_settings = raw::Settings {
            event_buffer: settings.event_buffer,
            query_buffer: settings.query_buffer,
            event_limit: settings.event_limit,
            query_limit: settings.query_limit,
            response_limit: settings.response_limit,
            responders: settings.responders,
            per_time: settings.per_time,
            ignore_old: settings.ignore_old,
            keep_events: settings.keep_events,
        };
        let open_result = agent.call_and_flush(|handle| {
            // SAFETY: the handle is the agent's own, and each pointer comes with its length.
            unsafe { raw::serf_agent_open(handle, name.as_ptr(), name.len(), &raw_settings, text.as_ptr(), text.len()) }
        });
        match open_result {
            Err(Error::Refused(Code::BadConfig)) => Err(settings.bounds_error(name)),
            other => other.map(|()| agent),
        }
    }

    /// Makes a call, and flushes the bytes that it left for the file, even if the call was refused.
    fn call_and_flush(&mut self, call: impl FnOnce(&mut raw::Handle) -> u32) -> Result<(), Error> {
        let code = call(&mut self.handle);
        self.flush_pending()?;
        check_code(code)
    }

    /// Flushes the bytes that a call left for the file.
    fn flush_pending(&mut self) -> Result<(), Error> {
        self.flush_pending_with(b"")
    }

    /// Flushes the bytes that a call left for the file. If these bytes replace the file's text, the host's `lines`
    /// follow them.
    fn flush_pending_with(&mut self, lines: &[u8]) -> Result<(), Error> {
        let mut pending = raw::Bytes::default();
        // SAFETY: with room for 0 bytes, the library writes nothing there.
        if unsafe { raw::serf_agent_pending(&mut *self.handle, &mut pending, std::ptr::NonNull::dangling().as_ptr(), 0) } != 0 {
            return Ok(());
        }
        if pending.len == 0 && !pending.replaces {
            return Ok(());
        }
        let mut bytes = vec![0; pending.len];
        // SAFETY: `bytes` has this length.
        check_code(unsafe { raw::serf_agent_pending(&mut *self.handle, &mut pending, bytes.as_mut_ptr(), bytes.len()) })?;
        if pending.replaces {
            bytes.extend_from_slice(lines);
        }
        let write_result = if pending.replaces { self.store.replace(&bytes) } else { self.store.append(&bytes) };
        match write_result {
            Ok(()) => {
                // SAFETY: the handle is the agent's own.
                check_code(unsafe { raw::serf_agent_flushed(&mut *self.handle) })
            }
            Err(error) => {
                // SAFETY: the handle is the agent's own.
                unsafe { raw::serf_agent_close(&mut *self.handle) };
                self.unread.clear();
                Err(error.into())
            }
        }
    }

    /// Returns the result of the last call.
    fn call_result(&mut self) -> Result<raw::CallResult, Error> {
        let mut result = raw::CallResult::default();
        // SAFETY: `result` is of the type that the library writes.
        check_code(unsafe { raw::serf_agent_result(&mut *self.handle, &mut result) })?;
        Ok(result)
    }

    /// Returns an event of the last call's result. A merge has several, and they are numbered from 0.
    fn event_at(&mut self, index: usize) -> Result<Event, Error> {
        let (mut raw_event, mut name, mut payload) = (raw::Event::default(), Vec::new(), Vec::new());
        // The first call returns the lengths, the second the texts.
        for _ in 0..2 {
            name = vec![0; raw_event.name_len];
            payload = vec![0; raw_event.payload_len];
            // SAFETY: each pointer comes with its length.
            check_code(unsafe {
                raw::serf_agent_event(
                    &mut *self.handle,
                    index,
                    &mut raw_event,
                    name.as_mut_ptr(),
                    name.len(),
                    payload.as_mut_ptr(),
                    payload.len(),
                )
            })?;
        }
        Ok(Event { time: raw_event.time, name, payload, coalesce: raw_event.coalesce })
    }

    /// Returns a packet of the last call, or `None` if there is none.
    fn get_packet(&mut self, getter: PacketGetter) -> Result<Option<Vec<u8>>, Error> {
        let (mut len, mut packet) = (0, Vec::new());
        for _ in 0..2 {
            packet = vec![0; len];
            // SAFETY: the pointer comes with its length.
            let code = unsafe { getter(&mut *self.handle, &mut len, packet.as_mut_ptr(), packet.len()) };
            match check_code(code) {
                Err(Error::Refused(Code::Nothing)) => return Ok(None),
                other => other?,
            }
        }
        Ok(Some(packet))
    }

    /// Returns the packet that the last call made.
    fn made_packet(&mut self) -> Result<Vec<u8>, Error> {
        self.get_packet(MADE_PACKET)?.ok_or(Error::Refused(Code::Nothing))
    }

    /// Returns a query that was handed out, or `None` if its number is 0.
    fn pending_query(&mut self, number: u64) -> Result<Option<PendingQuery>, Error> {
        if number == 0 {
            return Ok(None);
        }
        let mut raw_query = raw::PendingQuery::default();
        let mut texts: [Vec<u8>; 4] = Default::default();
        for _ in 0..2 {
            let lens = [raw_query.name_len, raw_query.payload_len, raw_query.source_len, raw_query.addr_len];
            texts = lens.map(|len| vec![0; len]);
            let [name, payload, source, addr] = &mut texts;
            // SAFETY: each pointer comes with its length.
            check_code(unsafe {
                raw::serf_agent_pending_query(
                    &mut *self.handle,
                    number,
                    &mut raw_query,
                    name.as_mut_ptr(),
                    name.len(),
                    payload.as_mut_ptr(),
                    payload.len(),
                    source.as_mut_ptr(),
                    source.len(),
                    addr.as_mut_ptr(),
                    addr.len(),
                )
            })?;
        }
        let [name, payload, source, addr] = texts;
        let raw::PendingQuery { time, id, port, relay_factor, .. } = raw_query;
        let deadline = Duration::from_nanos(raw_query.deadline);
        Ok(Some(PendingQuery { number, time, id, name, payload, source, addr, port, relay_factor, deadline }))
    }

    /// Handles a packet from the network.
    ///
    /// `tags_pass` says whether this node's tags pass every tag filter of the packet's query ([`crate::query_filters`]
    /// returns the filters). If they do, and the other filters let this node pass, the query is handed out. Pass `true`
    /// only if every tag filter could be read and passes. A host without tags passes `false`.
    pub fn receive(&mut self, now: Duration, packet: &[u8], tags_pass: bool) -> Result<Received, Error> {
        // SAFETY: the pointer comes with its length.
        self.call_and_flush(|handle| unsafe { raw::serf_agent_receive(handle, nanos(now), packet.as_ptr(), packet.len(), tags_pass) })?;
        self.received_result(packet)
    }

    /// Returns the result of a packet that the last call received.
    fn received_result(&mut self, packet: &[u8]) -> Result<Received, Error> {
        let result = self.call_result()?;
        let outcome = match result.kind {
            1 => Outcome::Event(self.event_at(0)?),
            2 => Outcome::Query { handed: self.pending_query(result.handed)?, ack: self.get_packet(OWN_ACK)? },
            3 => Outcome::Ack(read_answer(packet)?),
            4 => Outcome::Response(read_answer(packet)?),
            5 => {
                Outcome::Ignored(*REASONS.get((result.reason as usize).wrapping_sub(1)).ok_or(Error::Refused(Code::Other(result.reason)))?)
            }
            6 => Outcome::Foreign(result.foreign),
            7 => Outcome::PushPull,
            other => return Err(Error::Refused(Code::Other(other))),
        };
        Ok(Received { outcome, rebroadcast: result.rebroadcast })
    }

    /// Fires an event.
    pub fn fire(&mut self, name: &[u8], payload: &[u8], coalesce: bool) -> Result<Fired, Error> {
        self.call_and_flush(|handle| {
            // SAFETY: each pointer comes with its length.
            unsafe { raw::serf_agent_fire(handle, name.as_ptr(), name.len(), payload.as_ptr(), payload.len(), coalesce) }
        })?;
        self.fired_event_result()
    }

    /// Returns the result of firing an event.
    fn fired_event_result(&mut self) -> Result<Fired, Error> {
        Ok(Fired { event: self.event_at(0)?, packet: self.made_packet()? })
    }

    /// Returns the events that a merge accepted, in order. If the merge was refused before it began, there are none.
    /// The library then still has the result of the call before it.
    fn merged_events(&mut self) -> Result<Vec<Event>, Error> {
        let result = self.call_result()?;
        let count = if result.kind == MERGED { result.events } else { 0 };
        (0..count).map(|index| self.event_at(index)).collect()
    }

    /// Merges another agent's whole state. Returns the events to hand out, in order.
    ///
    /// If memory runs out, [`Error::MergedInPart`] has the events that the merge had already accepted. Handle them as
    /// well, since no later merge hands them out again.
    pub fn merge(&mut self, packet: &[u8], is_join: bool) -> Result<Vec<Event>, Error> {
        // SAFETY: the pointer comes with its length.
        match self.call_and_flush(|handle| unsafe { raw::serf_agent_merge(handle, packet.as_ptr(), packet.len(), is_join) }) {
            Err(Error::Refused(Code::OutOfMemory)) => Err(Error::MergedInPart(self.merged_events()?)),
            other => other.and_then(|()| self.merged_events()),
        }
    }

    /// Makes the packet of the whole state, with the members that were added.
    fn make_state_packet(&mut self) -> Result<(), Error> {
        // SAFETY: the handle is the agent's own.
        self.call_and_flush(|handle| unsafe { raw::serf_agent_local_state(handle) })
    }

    /// Returns the packet with this agent's whole state. It contains the members' status times and the names of the
    /// members that left.
    pub fn local_state(&mut self, statuses: &[(&[u8], u64)], left: &[&[u8]]) -> Result<Vec<u8>, Error> {
        if self.stale_members {
            // This call only discards the members, and nobody reads its packet.
            ignore_refusal(self.make_state_packet())?;
        }
        self.stale_members = !statuses.is_empty() || !left.is_empty();
        for (name, time) in statuses {
            // SAFETY: the pointer comes with its length.
            check_code(unsafe { raw::serf_agent_add_status(&mut *self.handle, name.as_ptr(), name.len(), *time) })?;
        }
        for name in left {
            // SAFETY: the pointer comes with its length.
            check_code(unsafe { raw::serf_agent_add_left(&mut *self.handle, name.as_ptr(), name.len()) })?;
        }
        self.make_state_packet()?;
        self.stale_members = false;
        self.made_packet()
    }

    /// Fires a query with the filters that were added before.
    fn fire_query(&mut self, now: Duration, id: u32, name: &[u8], payload: &[u8], addr: &[u8], params: &raw::Params) -> Result<(), Error> {
        self.call_and_flush(|handle| unsafe {
            // SAFETY: each pointer comes with its length.
            raw::serf_agent_query(
                handle,
                nanos(now),
                id,
                name.as_ptr(),
                name.len(),
                payload.as_ptr(),
                payload.len(),
                addr.as_ptr(),
                addr.len(),
                params,
            )
        })
    }

    /// Fires a query. Choose `id` at random.
    pub fn query(&mut self, now: Duration, id: u32, name: &[u8], payload: &[u8], params: &QueryParams) -> Result<FiredQuery, Error> {
        self.forget_filters()?;
        self.stale_filters = !params.filters.is_empty();
        for filter in &params.filters {
            // SAFETY: the pointer comes with its length.
            check_code(unsafe { raw::serf_agent_add_filter(&mut *self.handle, filter.as_ptr(), filter.len()) })?;
        }
        self.fire_query(now, id, name, payload, &params.addr, &params.to_raw())?;
        self.stale_filters = false;
        self.fired_query_result()
    }

    /// Discards the filters that a failed query left. It does this by a query without a timeout, which the library
    /// refuses.
    fn forget_filters(&mut self) -> Result<(), Error> {
        if self.stale_filters {
            ignore_refusal(self.fire_query(Duration::ZERO, 0, b"", b"", b"", &raw::Params::default()))?;
            self.stale_filters = false;
        }
        Ok(())
    }

    /// Returns the result of firing a query.
    fn fired_query_result(&mut self) -> Result<FiredQuery, Error> {
        let number = self.call_result()?.handed;
        let mut time = 0;
        // SAFETY: `time` is of the type that the library writes.
        check_code(unsafe { raw::serf_agent_query_time(&mut *self.handle, &mut time) })?;
        Ok(FiredQuery { time, packet: self.made_packet()?, handed: self.pending_query(number)?, ack: self.get_packet(OWN_ACK)? })
    }

    /// Answers a query that was handed out. Returns the packet to send to the query's address and port.
    pub fn respond(&mut self, now: Duration, number: u64, payload: &[u8]) -> Result<Vec<u8>, Error> {
        // SAFETY: the pointer comes with its length.
        self.call_and_flush(|handle| unsafe { raw::serf_agent_respond(handle, nanos(now), number, payload.as_ptr(), payload.len()) })?;
        self.made_packet()
    }

    /// Forgets a query that was handed out and won't be answered. A query takes memory until it is answered or forgotten, or
    /// until [`Agent::close_due`] finds that its deadline has passed.
    pub fn forget(&mut self, number: u64) -> Result<(), Error> {
        // SAFETY: the handle is the agent's own.
        self.call_and_flush(|handle| unsafe { raw::serf_agent_forget_query(handle, number) })
    }

    /// Observes the time of a member's intent or status. After that the member clock is later than this time.
    pub fn observe_member(&mut self, time: u64) -> Result<(), Error> {
        // SAFETY: the handle is the agent's own.
        self.call_and_flush(|handle| unsafe { raw::serf_agent_observe_member(handle, time) })
    }

    /// Returns the time for an intent of this node ([`crate::Intent`]). When this function returns, the member clock is
    /// on the disk, so no later life of the agent uses this time again.
    pub fn next_member_time(&mut self) -> Result<u64, Error> {
        let time = self.clocks()?.member;
        self.observe_member(time)?;
        self.save_member_clock()?;
        Ok(time)
    }

    /// Appends the member clock to the file, so that the next life resumes from it.
    pub fn save_member_clock(&mut self) -> Result<(), Error> {
        // SAFETY: the handle is the agent's own.
        self.call_and_flush(|handle| unsafe { raw::serf_agent_save_member_clock(handle) })
    }

    /// Replaces the file's text by one line for each clock. If the settings keep events, the lines of the events and
    /// queries in the buffers follow.
    pub fn compact(&mut self) -> Result<(), Error> {
        self.compact_with(b"")
    }

    /// Does what [`Agent::compact`] does, and writes the host's own lines after those of the library, in the same
    /// replacement of the file. Each of the host's lines has to end with a newline. The library skips them when it
    /// reads the file.
    pub fn compact_with(&mut self, lines: &[u8]) -> Result<(), Error> {
        // SAFETY: the handle is the agent's own.
        let code = unsafe { raw::serf_agent_compact(&mut *self.handle) };
        self.flush_pending_with(lines)?;
        check_code(code)
    }

    /// Returns the agent's clocks, and the minimum times that it accepts.
    pub fn clocks(&mut self) -> Result<Clocks, Error> {
        let mut raw_clocks = raw::Clocks::default();
        // SAFETY: `raw_clocks` is of the type that the library writes.
        check_code(unsafe { raw::serf_agent_clocks(&mut *self.handle, &mut raw_clocks) })?;
        let raw::Clocks { member, event, query, event_minimum, query_minimum } = raw_clocks;
        Ok(Clocks { member, event, query, event_minimum, query_minimum })
    }

    /// Returns the earliest deadline of this agent's open queries, or `None` if none is open.
    pub fn next_deadline(&mut self) -> Result<Option<Duration>, Error> {
        let mut deadline = 0;
        // SAFETY: `deadline` is of the type that the library writes.
        match check_code(unsafe { raw::serf_agent_next_deadline(&mut *self.handle, &mut deadline) }) {
            Err(Error::Refused(Code::Nothing)) => Ok(None),
            other => other.map(|()| Some(Duration::from_nanos(deadline))),
        }
    }

    /// Returns how many of this agent's own queries still accept answers.
    pub fn open_queries(&mut self) -> Result<usize, Error> {
        let mut open = 0;
        // SAFETY: `open` is of the type that the library writes.
        check_code(unsafe { raw::serf_agent_open_queries(&mut *self.handle, &mut open) })?;
        Ok(open)
    }
}

impl fmt::Debug for Agent {
    fn fmt(&self, to: &mut fmt::Formatter<'_>) -> fmt::Result {
        to.debug_struct("Agent").field("is_open", &self.handle.open).field("store", &self.store).finish()
    }
}

impl Drop for Agent {
    fn drop(&mut self) {
        // SAFETY: the handle is the agent's own. Closing an empty handle does nothing.
        unsafe { raw::serf_agent_close(&mut *self.handle) };
    }
}
