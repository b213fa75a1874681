//! Makes the calls that tests/library/embed/starved_driver.c describes. They may run out of memory.

use serf_agent::{Agent, Code, Error, QueryParams, Settings};
use std::path::Path;
use std::time::Duration;

const NOW: Duration = Duration::from_nanos(1);

/// Merges a state, and prints the events that are handed out.
fn print_merge(agent: &mut Agent, state: &[u8]) -> Result<(), Error> {
    let (events, end) = match agent.merge(state, false) {
        Ok(events) => (events, "ok"),
        Err(Error::MergedInPart(events)) => (events, "out of memory"),
        Err(error) => return Err(error),
    };
    for event in events {
        println!("{} {}", event.time, String::from_utf8_lossy(&event.name));
    }
    println!("{end}");
    Ok(())
}

/// Prints a packet in hex, or that memory ran out.
fn print_packet(kind: &str, packet: Result<Vec<u8>, Error>) -> Result<(), Error> {
    let text = match packet {
        Ok(packet) => packet.iter().map(|byte| format!("{byte:02x}")).collect(),
        Err(Error::Refused(Code::OutOfMemory)) => "refused".to_string(),
        Err(error) => return Err(error),
    };
    println!("{kind} {text}");
    Ok(())
}

/// Fires a query with two filters that name this letter, and prints its packet.
fn print_query(agent: &mut Agent, letter: char) -> Result<(), Error> {
    let filters = [1, 2].map(|number| [&b"\x00\x91\xa7"[..], format!("node-{letter}{number}").as_bytes()].concat());
    let params = QueryParams::default().timeout(Duration::from_nanos(9)).filters(filters.to_vec());
    print_packet("query", agent.query(NOW, 7, b"load", b"", &params).map(|fired_query| fired_query.packet))
}

/// Prints the packet of a state with members that have this letter in their names.
fn print_state(agent: &mut Agent, letter: char) -> Result<(), Error> {
    let [first, second] = [1, 2].map(|number| format!("node-{letter}{number}"));
    print_packet("state", agent.local_state(&[(first.as_bytes(), 3), (second.as_bytes(), 4)], &[second.as_bytes()]))
}

fn main() -> Result<(), Error> {
    let folder = std::env::args().nth(1).expect("starved_driver FOLDER");
    let path = |name| Path::new(&folder).join(name);
    let mut one = Agent::open(b"one", path("one.snapshot"), Settings::default())?;
    for number in 0..5 {
        one.fire(format!("e{number}").as_bytes(), b"", false)?;
    }
    let whole_state = one.local_state(&[], &[])?;
    let load_query = one.query(NOW, 8, b"load", b"", &QueryParams::default().timeout(Duration::from_nanos(9)))?.packet;
    let mut other = Agent::open(b"other", path("other.snapshot"), Settings::default())?;
    print_merge(&mut other, &whole_state)?;
    print_merge(&mut other, &whole_state)?;
    print_query(&mut other, 'a')?;
    other.receive(NOW, &load_query, false)?;
    print_query(&mut other, 'b')?;
    print_query(&mut other, 'c')?;
    ['a', 'b', 'c'].into_iter().try_for_each(|letter| print_state(&mut other, letter))
}
