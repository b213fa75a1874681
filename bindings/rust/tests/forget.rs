//! Queries that a host will not answer.

use serf_agent::{Agent, Code, Error, QueryParams, Settings};
use std::time::Duration;

/// A moment, or a duration, in nanoseconds.
const fn ns(nanos: u64) -> Duration {
    Duration::from_nanos(nanos)
}

/// Fires a query that is handed out here, and returns its number.
fn pending_query(agent: &mut Agent, timeout: u64) -> u64 {
    let params = QueryParams::default().timeout(ns(timeout));
    agent.query(ns(5), 7, b"load", b"", &params).unwrap().handed.unwrap().number
}

/// Returns whether the call was refused because the query isn't pending any more.
fn is_forgotten(result: Result<(), Error>) -> bool {
    matches!(result, Err(Error::Refused(Code::NotPending)))
}

#[test]
fn queries_that_are_forgotten() {
    let folder = std::env::temp_dir().join(format!("serf-agent-forget-{}", std::process::id()));
    let _ = std::fs::remove_dir_all(&folder);
    std::fs::create_dir_all(&folder).unwrap();
    let mut agent = Agent::open(b"a", folder.join("snapshot"), Settings::default()).unwrap();
    let (long, short, other) = (pending_query(&mut agent, 1000), pending_query(&mut agent, 10), pending_query(&mut agent, 1000));
    agent.forget(other).unwrap();
    for number in [other, 0, other + 1] {
        assert!(is_forgotten(agent.forget(number)), "{number}");
    }
    assert!(is_forgotten(agent.respond(ns(6), other, b"").map(drop)));
    // A query can be answered at its deadline, and not after it.
    agent.close_due(ns(15)).unwrap();
    agent.respond(ns(15), short, b"").unwrap();
    let late = pending_query(&mut agent, 10);
    agent.close_due(ns(16)).unwrap();
    assert!(is_forgotten(agent.respond(ns(16), late, b"").map(drop)));
    agent.respond(ns(16), long, b"").unwrap();
    assert_eq!(pending_query(&mut agent, 10), other + 2);
}
