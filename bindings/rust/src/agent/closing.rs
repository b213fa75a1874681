//! The queries that an agent closed, with their answers, and when to compact the agent's file.

use super::Agent;
use crate::error::{check_code, Error};
use crate::outcome::Answer;
use crate::raw;
use crate::settings::nanos;
use std::time::Duration;

/// A query of this agent that was closed, with its acks and responses in order of arrival.
#[derive(Clone, Debug, PartialEq, Eq)]
#[non_exhaustive]
pub struct Closed {
    /// The query's Lamport time.
    pub time: u64,
    /// The query's ID.
    pub id: u32,
    /// The query's deadline. It is the last moment at which an answer was counted.
    pub deadline: Duration,
    /// The names of the nodes that acked the query.
    pub acks: Vec<Vec<u8>>,
    /// The responses to the query.
    pub responses: Vec<Answer>,
}

/// The size in bytes above which Serf compacts its snapshot, for [`Agent::should_compact`].
pub const DEFAULT_SNAPSHOT_LIMIT: u64 = 131_072;

impl Agent {
    /// Returns the name of the node that sent an ack of a closed query.
    fn closed_ack(&mut self, index: usize, number: usize) -> Result<Vec<u8>, Error> {
        let (mut len, mut name) = (0, Vec::new());
        for _ in 0..2 {
            name = vec![0; len];
            // SAFETY: the pointer comes with its length.
            check_code(unsafe { raw::serf_agent_closed_ack(&mut *self.handle, index, number, &mut len, name.as_mut_ptr(), name.len()) })?;
        }
        Ok(name)
    }

    /// Returns the sender and the payload of a response to a closed query.
    fn closed_response(&mut self, index: usize, number: usize) -> Result<(Vec<u8>, Vec<u8>), Error> {
        let mut raw_response = raw::Response::default();
        let (mut from, mut payload) = (Vec::new(), Vec::new());
        for _ in 0..2 {
            (from, payload) = (vec![0; raw_response.from_len], vec![0; raw_response.payload_len]);
            // SAFETY: each pointer comes with its length.
            check_code(unsafe {
                raw::serf_agent_closed_response(
                    &mut *self.handle,
                    index,
                    number,
                    &mut raw_response,
                    from.as_mut_ptr(),
                    from.len(),
                    payload.as_mut_ptr(),
                    payload.len(),
                )
            })?;
        }
        Ok((from, payload))
    }

    /// Returns a query that the last call closed, with its answers.
    fn closed_query(&mut self, index: usize) -> Result<Closed, Error> {
        let mut raw_closed = raw::Closed::default();
        // SAFETY: `raw_closed` is of the type that the library writes.
        check_code(unsafe { raw::serf_agent_closed(&mut *self.handle, index, &mut raw_closed) })?;
        let raw::Closed { time, id, .. } = raw_closed;
        let deadline = Duration::from_nanos(raw_closed.deadline);
        let acks = (0..raw_closed.acks).map(|number| self.closed_ack(index, number)).collect::<Result<_, _>>()?;
        let responses = (0..raw_closed.responses).map(|number| {
            let (from, payload) = self.closed_response(index, number)?;
            Ok(Answer { time, id, from, payload })
        });
        Ok(Closed { time, id, deadline, responses: responses.collect::<Result<_, Error>>()?, acks })
    }

    /// Closes this agent's queries whose deadline is before `now`. Returns them with their answers, in the order in which they
    /// were fired. Queries that were handed out here are forgotten if their deadline is before `now`.
    pub fn close_due(&mut self, now: Duration) -> Result<Vec<Closed>, Error> {
        let mut closed = 0;
        // SAFETY: `closed` is of the type that the library writes.
        self.call_and_flush(|handle| unsafe { raw::serf_agent_close_due(handle, nanos(now), &mut closed) })?;
        (0..closed).map(|index| self.closed_query(index)).collect()
    }

    /// Returns whether the file has more than `limit` bytes, and [`Agent::compact`] would remove at least half of them.
    pub fn should_compact(&mut self, limit: u64) -> Result<bool, Error> {
        let mut should = false;
        // SAFETY: `should` is of the type that the library writes.
        check_code(unsafe { raw::serf_agent_should_compact(&mut *self.handle, limit, &mut should) })?;
        Ok(should)
    }
}
