//! Bursts: many calls of an agent, with one flush of its file.

use super::Agent;
use crate::error::{check_code, Code, Error};
use crate::outcome::{Fired, FiredQuery, Received};
use crate::raw;
use crate::settings::{nanos, QueryParams};
use std::time::Duration;

/// A call of a burst.
#[derive(Clone, Copy, Debug)]
#[non_exhaustive]
pub enum Call<'a> {
    /// A packet from the network. The fields are the arguments of [`Agent::receive`].
    Receive {
        /// The moment of the call.
        now: Duration,
        /// The packet, which begins with its type byte.
        packet: &'a [u8],
        /// Whether this node's tags pass every tag filter of the packet's query.
        tags_pass: bool,
    },
    /// An event to fire.
    Fire {
        /// The event's name.
        name: &'a [u8],
        /// The event's payload.
        payload: &'a [u8],
        /// Whether a host may coalesce the event. If several events with the same name arrive within a short time,
        /// it may then hand out only the latest.
        coalesce: bool,
    },
    /// A query to fire.
    Query {
        /// The moment of the call.
        now: Duration,
        /// The query's ID. Choose it at random.
        id: u32,
        /// The query's name.
        name: &'a [u8],
        /// The query's payload.
        payload: &'a [u8],
        /// The parameters with which the query is fired.
        params: &'a QueryParams,
    },
}

/// The outcome of a call of a burst.
#[derive(Clone, Debug, PartialEq, Eq)]
#[non_exhaustive]
pub enum CallOutcome {
    /// The outcome of a received packet.
    Received(Received),
    /// The outcome of an event.
    Fired(Fired),
    /// The outcome of a query.
    FiredQuery(FiredQuery),
}

/// A call of a burst. The agent keeps it until its outcome is read.
pub(super) enum UnreadCall {
    Received(Vec<u8>),
    Fired,
    FiredQuery,
}

impl Call<'_> {
    /// Returns what the agent keeps of this call until its outcome is read.
    fn unread_call(&self) -> UnreadCall {
        match self {
            Call::Receive { packet, .. } => UnreadCall::Received(packet.to_vec()),
            Call::Fire { .. } => UnreadCall::Fired,
            Call::Query { .. } => UnreadCall::FiredQuery,
        }
    }
}

/// The outcomes of the calls of a burst, in order. The outcome of a refused call is an error.
///
/// Outcomes that are not read wait for the next [`Agent::outcomes`] or [`Agent::burst`]. If reading an outcome fails
/// with [`Code::OutOfMemory`], the outcome is not lost: the next item is the same outcome.
#[must_use = "an event whose outcome isn't read isn't handled"]
#[derive(Debug)]
pub struct Outcomes<'a> {
    agent: &'a mut Agent,
    // The reason why a call wasn't made. This error follows the outcomes of the calls that were made.
    error: Option<Error>,
}

impl Outcomes<'_> {
    /// Reads the first outcome that waits.
    fn read_first(&mut self) -> Result<CallOutcome, Error> {
        let agent = &mut *self.agent;
        let mut code = 0;
        // SAFETY: `code` is of the type that the library writes.
        check_code(unsafe { raw::serf_agent_next(&mut *agent.handle, &mut code) })?;
        let call = agent.unread.pop_front().ok_or(Error::Refused(Code::Nothing))?;
        check_code(code)?;
        Ok(match call {
            UnreadCall::Received(packet) => CallOutcome::Received(agent.received_result(&packet)?),
            UnreadCall::Fired => CallOutcome::Fired(agent.fired_event_result()?),
            UnreadCall::FiredQuery => CallOutcome::FiredQuery(agent.fired_query_result()?),
        })
    }
}

impl Iterator for Outcomes<'_> {
    type Item = Result<CallOutcome, Error>;

    fn next(&mut self) -> Option<Self::Item> {
        if self.agent.unread.is_empty() {
            return self.error.take().map(Err);
        }
        Some(self.read_first())
    }

    fn size_hint(&self) -> (usize, Option<usize>) {
        let min = self.agent.unread.len() + usize::from(self.error.is_some());
        (min, None)
    }
}

impl Agent {
    /// Makes calls one after another, flushes the lines of all of them together, and returns their outcomes in order.
    ///
    /// A refused call, for example a packet that is no message, has an outcome like the others. If memory runs out,
    /// this function makes no further call. The outcomes of the calls before are valid, and [`Code::OutOfMemory`]
    /// follows them. If the file fails, this function returns the error, the agent is closed, and there are no
    /// outcomes.
    pub fn burst<'c>(&mut self, calls: impl IntoIterator<Item = Call<'c>>) -> Result<Outcomes<'_>, Error> {
        self.forget_filters()?;
        let error = calls.into_iter().try_for_each(|call| self.make_call(call)).err();
        self.flush_pending()?;
        Ok(Outcomes { agent: self, error })
    }

    /// Returns the outcomes of bursts that have not been read yet.
    pub fn outcomes(&mut self) -> Outcomes<'_> {
        Outcomes { agent: self, error: None }
    }

    /// Returns how many outcomes of bursts are unread.
    pub fn unread_outcomes(&mut self) -> Result<usize, Error> {
        let mut total = 0;
        // SAFETY: `total` is of the type that the library writes.
        check_code(unsafe { raw::serf_agent_outcomes(&mut *self.handle, &mut total) })?;
        Ok(total)
    }

    /// Makes a call of a burst. After that, its outcome waits.
    fn make_call(&mut self, call: Call<'_>) -> Result<(), Error> {
        let code = match call {
            Call::Receive { now, packet, tags_pass } => {
                // SAFETY: the pointer comes with its length.
                unsafe { raw::serf_agent_burst_receive(&mut *self.handle, nanos(now), packet.as_ptr(), packet.len(), tags_pass) }
            }
            Call::Fire { name, payload, coalesce } => {
                // SAFETY: each pointer comes with its length.
                unsafe {
                    raw::serf_agent_burst_fire(&mut *self.handle, name.as_ptr(), name.len(), payload.as_ptr(), payload.len(), coalesce)
                }
            }
            Call::Query { now, id, name, payload, params } => self.make_query_call(now, id, name, payload, params)?,
        };
        match check_code(code) {
            Err(Error::Refused(code @ (Code::OutOfMemory | Code::Empty))) => Err(Error::Refused(code)),
            _ => {
                self.stale_filters = false;
                self.unread.push_back(call.unread_call());
                Ok(())
            }
        }
    }

    /// Makes a burst's call of a query, after its filters were added. Returns the call's code.
    fn make_query_call(&mut self, now: Duration, id: u32, name: &[u8], payload: &[u8], params: &QueryParams) -> Result<u32, Error> {
        for filter in &params.filters {
            self.stale_filters = true;
            // SAFETY: the pointer comes with its length.
            check_code(unsafe { raw::serf_agent_add_filter(&mut *self.handle, filter.as_ptr(), filter.len()) })?;
        }
        // SAFETY: each pointer comes with its length.
        Ok(unsafe {
            raw::serf_agent_burst_query(
                &mut *self.handle,
                nanos(now),
                id,
                name.as_ptr(),
                name.len(),
                payload.as_ptr(),
                payload.len(),
                params.addr.as_ptr(),
                params.addr.len(),
                &params.to_raw(),
            )
        })
    }
}
