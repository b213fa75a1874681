//! The calls of the proved Serf agent's library for C: `serf_agent.h` as Rust, and the library itself, which the build script links.
//!
//! These calls are unsafe. The crate `serf_agent` is a safe wrapper of them that also manages the snapshot's file. This
//! crate is for a host that manages the file itself. A handle is all 0 at first:
//! `Handle { open: false, place: Place { at: std::ptr::null_mut() } }`.
//!
//! - A call that writes leaves bytes for the file: [`serf_agent_pending`] returns them. The host appends them and flushes its file, or
//!   replaces the file's text, and then calls [`serf_agent_flushed`]. Until then most calls return [`SERF_AGENT_PENDING`] and do nothing.
//! - The host never copies or writes a handle, and uses it from one thread at a time.
//! - A pointer with a length points to that many bytes, which nothing else writes during the call. If the length is 0,
//!   any pointer is accepted.
//! - Getters write as much as fits into the host's memory, and return the whole length. A call that doesn't return [`SERF_AGENT_OK`]
//!   leaves its output parameters unchanged.
//!
//! The library is proved. This crate is tested.

mod calls;
mod heap;
mod numbers;
mod structs;

pub use calls::*;
pub use numbers::*;
pub use structs::*;
