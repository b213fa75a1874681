//! The proved Serf agent for Rust programs that are built without Rattle. An [`Agent`] keeps its snapshot in a file.
//!
//! Each call flushes what it wrote to the disk before it returns, so nothing reaches a handler before its line is
//! durable. If the file fails, the agent is closed: open it again on the same file. The calls of an [`Agent`] borrow it
//! mutably (`&mut`), so only one thread at a time uses it. A moment (`now`) is the time since a start that you choose.
//! Use one clock that never goes back, for example `start.elapsed()` of an [`std::time::Instant`].
//!
//! The library is proved. This crate is tested.
//!
//! ```no_run
//! use serf_agent::{Agent, Error, Outcome, Settings};
//! use std::time::Instant;
//!
//! # fn handle(_: &serf_agent::Event) {}
//! # fn packets() -> Vec<Vec<u8>> { Vec::new() }
//! fn main() -> Result<(), Error> {
//!     let start = Instant::now();
//!     let mut agent = Agent::open(b"alpha", "alpha.snapshot", Settings::default())?;
//!     let fired = agent.fire(b"deploy", b"v1", false)?;
//!     handle(&fired.event);
//!     // Send fired.packet to the other agents, and receive what they send.
//!     for packet in packets() {
//!         if let Outcome::Event(event) = agent.receive(start.elapsed(), &packet, false)?.outcome {
//!             handle(&event);
//!         }
//!     }
//!     Ok(())
//! }
//! ```
//!
//! If a call fails, this program prints why, for example `Error: alpha.snapshot: another agent has the file, in process
//! 4711`, and ends with status 1.

#![warn(missing_docs, missing_debug_implementations)]

mod agent;
mod error;
mod filters;
mod handlers;
mod intent;
mod members;
mod outcome;
mod packet_error;
use serf_agent_sys as raw;
mod settings;
mod store;

pub use agent::{Agent, Call, CallOutcome, Closed, Outcomes, DEFAULT_SNAPSHOT_LIMIT};
pub use error::{Code, Error};
pub use filters::{node_filter, query_filters, tag_filter, TAG_FILTER};
pub use handlers::{begun_line, done_line, done_up_to_line, open_events, open_line, OpenEvent};
pub use intent::Intent;
pub use members::Members;
pub use outcome::{Answer, Clocks, Event, Fired, FiredQuery, Outcome, PendingQuery, Reason, Received};
pub use packet_error::{intent_error, packet_error, PacketError};
pub use settings::{QueryParams, Settings, DEFAULT_QUERY_TIMEOUT};
pub use store::{Store, StoreError, StoreErrorKind};
