//! The members in another agent's whole state.

use crate::error::{check_code, Code, Error};
use crate::raw;

/// What a push/pull reports about members.
#[derive(Clone, Debug, PartialEq, Eq)]
pub struct Members {
    /// The sender's member clock.
    pub member_clock: u64,
    /// The members' names with the times of their status, in the packet's order.
    pub statuses: Vec<(Vec<u8>, u64)>,
    /// The names of the members that left.
    pub left: Vec<Vec<u8>>,
}

impl Members {
    /// Returns what a push/pull's packet reports about members, or `None` if the packet is not a push/pull. No agent is
    /// needed.
    ///
    /// [`crate::Agent::merge`] handles the events of the same packet.
    pub fn of_packet(packet: &[u8]) -> Result<Option<Members>, Error> {
        let (mut summary, mut raw_members, mut names) = (raw::Members::default(), Vec::new(), Vec::new());
        // The first call returns the sizes, the second the members.
        for _ in 0..2 {
            raw_members = vec![raw::Member::default(); summary.members];
            names = vec![0; summary.names_len];
            // SAFETY: each pointer comes with its length, and `summary` is of the type that the library writes.
            let code = unsafe {
                raw::serf_agent_state_members(
                    packet.as_ptr(),
                    packet.len(),
                    &mut summary,
                    raw_members.as_mut_ptr(),
                    raw_members.len(),
                    names.as_mut_ptr(),
                    names.len(),
                )
            };
            match check_code(code) {
                Err(Error::Refused(Code::Nothing)) => return Ok(None),
                other => other?,
            }
        }
        let mut members = Members { member_clock: summary.member_clock, statuses: Vec::new(), left: Vec::new() };
        let mut rest = names.as_slice();
        for raw_member in raw_members {
            let (name, after) = rest.split_at(raw_member.name_len);
            rest = after;
            if raw_member.left {
                members.left.push(name.to_vec());
            } else {
                members.statuses.push((name.to_vec(), raw_member.status_time));
            }
        }
        Ok(Some(members))
    }
}
