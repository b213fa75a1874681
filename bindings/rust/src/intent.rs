//! Join and leave intents.

use crate::error::{check_code, Code, Error};
use crate::raw;

/// A join or a leave intent, with a time of the member clock.
#[derive(Clone, Debug, PartialEq, Eq)]
pub enum Intent {
    /// The node joins.
    Join {
        /// The intent's time. 2^64 - 1 is no time.
        time: u64,
        /// The name of the node that joins.
        node: Vec<u8>,
    },
    /// The node leaves, or another node made it leave.
    Leave {
        /// The intent's time. 2^64 - 1 is no time.
        time: u64,
        /// The name of the node that leaves.
        node: Vec<u8>,
        /// Whether the members are to forget the node at once.
        prune: bool,
    },
}

impl Intent {
    /// Returns a packet's intent, or `None` if the packet is another message. The content of other messages is not
    /// checked. No agent is needed.
    ///
    /// The error is [`Code::NoMessage`] if the packet is no message, or a faulty intent. [`crate::intent_error`]
    /// returns the reason.
    pub fn of_packet(packet: &[u8]) -> Result<Option<Intent>, Error> {
        let (mut raw_intent, mut node) = (raw::Intent::default(), Vec::new());
        // The first call returns the length, the second the name.
        for _ in 0..2 {
            node = vec![0; raw_intent.node_len];
            // SAFETY: each pointer comes with its length, and `raw_intent` is of the type that the library writes.
            let code = unsafe { raw::serf_agent_intent(packet.as_ptr(), packet.len(), &mut raw_intent, node.as_mut_ptr(), node.len()) };
            match check_code(code) {
                Err(Error::Refused(Code::Nothing)) => return Ok(None),
                other => other?,
            }
        }
        let raw::Intent { time, leave, prune, .. } = raw_intent;
        Ok(Some(if leave { Intent::Leave { time, node, prune } } else { Intent::Join { time, node } }))
    }

    /// Returns the packet to send. No agent is needed. The error is [`Code::Exhausted`] if the time is 2^64 - 1, which
    /// is no valid time.
    pub fn packet(&self) -> Result<Vec<u8>, Error> {
        let (mut len, mut packet) = (0, Vec::new());
        for _ in 0..2 {
            packet = vec![0; len];
            // SAFETY: each pointer comes with its length.
            check_code(unsafe {
                match self {
                    Intent::Join { time, node } => {
                        raw::serf_agent_join_packet(*time, node.as_ptr(), node.len(), &mut len, packet.as_mut_ptr(), packet.len())
                    }
                    Intent::Leave { time, node, prune } => {
                        raw::serf_agent_leave_packet(*time, node.as_ptr(), node.len(), *prune, &mut len, packet.as_mut_ptr(), packet.len())
                    }
                }
            })?;
        }
        Ok(packet)
    }
}
