//! An agent's settings, and a query's parameters.

use crate::error::{Code, Error};
use crate::raw;
use std::time::Duration;

/// How long a query accepts answers if the host sets no timeout. It is Serf's timeout in a cluster of 10 to 99 nodes:
/// 16 gossip intervals of 0.2 seconds for each digit of the number of nodes.
pub const DEFAULT_QUERY_TIMEOUT: Duration = Duration::from_millis(6_400);

/// Defines methods that set one field each.
macro_rules! setters {
    ($($field:ident: $type:ty,)*) => {
        $(
            #[doc = concat!("Sets [`", stringify!($field), "`](Self#structfield.", stringify!($field), ").")]
            #[must_use]
            pub fn $field(mut self, $field: $type) -> Self {
                self.$field = $field;
                self
            }
        )*
    };
}

/// An agent's settings. `default()` returns Serf's settings. Each setting has a method that sets it:
///
/// ```
/// let settings = serf_agent::Settings::default().event_buffer(256).keep_events(true);
/// ```
#[derive(Clone, Copy, Debug, PartialEq, Eq)]
#[non_exhaustive]
pub struct Settings {
    /// The number of Lamport times of events that the buffer holds: 1 to 65,536.
    pub event_buffer: u64,
    /// The number of Lamport times of queries that the buffer holds: 1 to 65,536.
    pub query_buffer: u64,
    /// The maximum size of a fired event in bytes, at most 9,216.
    pub event_limit: u64,
    /// The maximum size in bytes of a fired query's packet, at most 9,216. 0 stands for 1,024.
    pub query_limit: u64,
    /// The maximum size in bytes of a response's packet, at most 9,216. 0 stands for 1,024.
    pub response_limit: u64,
    /// The maximum number of names that are counted among a query's acks, and among its responses: 1 to 65,536.
    pub responders: u64,
    /// The maximum number of events, and of queries, that are accepted with the same Lamport time: 1 to 65,536.
    pub per_time: u64,
    /// Whether a join ignores the events from before it.
    pub ignore_old: bool,
    /// Whether the file keeps events and queries, so that a restart resumes with those that the buffers held.
    pub keep_events: bool,
}

impl Settings {
    setters! {
        event_buffer: u64,
        query_buffer: u64,
        event_limit: u64,
        query_limit: u64,
        response_limit: u64,
        responders: u64,
        per_time: u64,
        ignore_old: bool,
        keep_events: bool,
    }

    /// Returns the error for settings that the library refused. It names the first setting that is out of the header's
    /// bounds, or the name if its length is.
    pub(crate) fn bounds_error(&self, name: &[u8]) -> Error {
        const MAX_COUNT: u64 = 65_536;
        const MAX_LENGTH: u64 = 9_216;
        let bounds = [
            ("name", name.len() as u64, 1, 128),
            ("event_buffer", self.event_buffer, 1, MAX_COUNT),
            ("query_buffer", self.query_buffer, 1, MAX_COUNT),
            ("event_limit", self.event_limit, 0, MAX_LENGTH),
            ("query_limit", self.query_limit, 0, MAX_LENGTH),
            ("response_limit", self.response_limit, 0, MAX_LENGTH),
            ("responders", self.responders, 1, MAX_COUNT),
            ("per_time", self.per_time, 1, MAX_COUNT),
        ];
        let out_of_bounds = bounds.into_iter().find(|&(_, value, min, max)| value < min || value > max);
        out_of_bounds.map_or(Error::Refused(Code::BadConfig), |(field, value, min, max)| Error::Setting { field, value, min, max })
    }
}

impl Default for Settings {
    fn default() -> Self {
        Settings {
            event_buffer: 512,
            query_buffer: 512,
            event_limit: 512,
            query_limit: 1024,
            response_limit: 1024,
            responders: 1024,
            per_time: 1024,
            ignore_old: false,
            keep_events: false,
        }
    }
}

/// The parameters with which a query is fired. `default()` returns Serf's parameters. Each parameter has a method that
/// sets it:
///
/// ```
/// # use std::time::Duration;
/// let params = serf_agent::QueryParams::default().timeout(Duration::from_secs(2)).want_ack(true);
/// ```
#[derive(Clone, Debug, PartialEq, Eq)]
#[non_exhaustive]
pub struct QueryParams {
    /// How long answers are accepted. A timeout of 0 is refused ([`Code::NoTime`]).
    pub timeout: Duration,
    /// The address to which answers are sent.
    pub addr: Vec<u8>,
    /// The port to which answers are sent.
    pub port: u16,
    /// The number of other nodes that relay each answer as well.
    pub relay_factor: u8,
    /// Whether each node that hands out the query has to send an ack.
    pub want_ack: bool,
    /// Whether nodes must not send the query on.
    pub no_broadcast: bool,
    /// Whether this node's tags pass every tag filter in `filters`, so that the query may be handed out here.
    pub tags_pass: bool,
    /// The filters that a node has to pass, in the form in which Serf writes them.
    pub filters: Vec<Vec<u8>>,
}

impl Default for QueryParams {
    fn default() -> Self {
        QueryParams {
            timeout: DEFAULT_QUERY_TIMEOUT,
            addr: Vec::new(),
            port: 0,
            relay_factor: 0,
            want_ack: false,
            no_broadcast: false,
            tags_pass: false,
            filters: Vec::new(),
        }
    }
}

impl QueryParams {
    setters! {
        timeout: Duration,
        addr: Vec<u8>,
        port: u16,
        relay_factor: u8,
        want_ack: bool,
        no_broadcast: bool,
        tags_pass: bool,
        filters: Vec<Vec<u8>>,
    }

    /// Converts the parameters to C's struct, which has no texts. A timeout of more than 292 years becomes 292 years.
    pub(crate) fn to_raw(&self) -> raw::Params {
        raw::Params {
            timeout: i64::try_from(self.timeout.as_nanos()).unwrap_or(i64::MAX),
            port: self.port,
            relay_factor: self.relay_factor,
            want_ack: self.want_ack,
            no_broadcast: self.no_broadcast,
            tags_pass: self.tags_pass,
        }
    }
}

/// Converts a moment to nanoseconds, as the library counts it. A moment of more than 584 years becomes 2^64 - 1
/// nanoseconds.
pub(crate) fn nanos(moment: Duration) -> u64 {
    u64::try_from(moment.as_nanos()).unwrap_or(u64::MAX)
}
