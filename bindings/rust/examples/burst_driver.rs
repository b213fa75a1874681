//! Makes the bursts that tests/library/embed/burst_driver.c describes. Some of them run out of memory.

use serf_agent::{Agent, Call, CallOutcome, Code, Error, Outcome, PendingQuery, QueryParams, Settings};
use std::path::Path;
use std::time::Duration;

/// The moment of each call, in nanoseconds.
const NOW: Duration = Duration::from_nanos(5);

/// The codes with which a call of a burst may be refused here, and their numbers.
const REFUSAL_NUMBERS: [(Code, u32); 3] = [(Code::TooLarge, 9), (Code::NoMessage, 11), (Code::NoTime, 15)];

fn text(bytes: &[u8]) -> String {
    String::from_utf8_lossy(bytes).into_owned()
}

/// Describes a query, received or fired: its word, whether it was handed out, and whether it was acked.
fn query_line(word: &str, handed: &Option<PendingQuery>, ack: &Option<Vec<u8>>) -> String {
    let handed_words = handed.as_ref().map_or(String::new(), |query| format!(" {} {} handed", query.time, text(&query.name)));
    format!("{word}{handed_words}{}", if ack.is_some() { " acked" } else { "" })
}

/// Describes the outcome of a call in a line.
fn outcome_line(outcome: &CallOutcome) -> String {
    let received = match outcome {
        CallOutcome::Fired(fired) => return format!("fired {} {}", fired.event.time, text(&fired.event.name)),
        CallOutcome::FiredQuery(fired_query) => return query_line("asked", &fired_query.handed, &fired_query.ack),
        CallOutcome::Received(received) => received,
        other => return format!("{other:?}"),
    };
    let line = match &received.outcome {
        Outcome::Event(event) => format!("event {} {}", event.time, text(&event.name)),
        Outcome::Query { handed, ack } => query_line("query", handed, ack),
        Outcome::Ack(answer) => format!("ack {}", text(&answer.from)),
        Outcome::Response(answer) => format!("response {} {}", text(&answer.from), text(&answer.payload)),
        Outcome::Ignored(reason) => format!("ignored {}", *reason as u32 + 1),
        Outcome::Foreign(kind) => format!("foreign {kind}"),
        Outcome::PushPull => "state".to_string(),
        other => format!("{other:?}"),
    };
    format!("{line}{}", if received.rebroadcast { " sent on" } else { "" })
}

/// Makes a burst and prints its outcomes. Returns the outcomes of the calls that were not refused.
fn run_burst(agent: &mut Agent, calls: &[Call]) -> Result<Vec<CallOutcome>, Error> {
    let (mut lines, mut outcomes, mut end, mut read_outcomes) = (Vec::new(), Vec::new(), "ok".to_string(), 0);
    for outcome in agent.burst(calls.iter().copied())? {
        match outcome {
            Ok(outcome) => {
                lines.push(outcome_line(&outcome));
                outcomes.push(outcome);
            }
            Err(Error::Refused(Code::OutOfMemory)) => {
                end = format!("out of memory {read_outcomes}");
                continue;
            }
            Err(Error::Refused(code)) => {
                let (_, number) = REFUSAL_NUMBERS.into_iter().find(|(one, _)| *one == code).ok_or(Error::Refused(code))?;
                lines.push(format!("refused {number}"));
            }
            Err(error) => return Err(error),
        }
        read_outcomes += 1;
    }
    assert_eq!(agent.unread_outcomes()?, 0);
    println!("{}", lines.into_iter().chain([end]).collect::<Vec<_>>().join("\n"));
    Ok(outcomes)
}

/// Makes bursts of an agent that has to run out of memory in one of their calls.
fn run_out_of_memory(third: &mut Agent, events: &[Vec<u8>], load_query: &[u8]) -> Result<(), Error> {
    for filter in [b"\0\x91\xa5other", b"\0\x91\xa5third"] {
        let params = QueryParams::default().timeout(Duration::from_nanos(9)).want_ack(true).filters(vec![filter.to_vec()]);
        let mut calls: Vec<_> = events.iter().map(|packet| Call::Receive { now: NOW, packet, tags_pass: false }).collect();
        calls.push(Call::Receive { now: NOW, packet: load_query, tags_pass: false });
        calls.push(Call::Fire { name: b"own", payload: b"", coalesce: false });
        calls.push(Call::Query { now: NOW, id: 9, name: b"load", payload: b"", params: &params });
        calls.push(Call::Receive { now: NOW, packet: &events[0], tags_pass: false });
        run_burst(third, &calls)?;
    }
    Ok(())
}

/// Makes bursts of two agents with every kind of call and outcome.
fn receive_all(one: &mut Agent, other: &mut Agent, events: &[Vec<u8>], load_query: &[u8], whole_state: &[u8]) -> Result<(), Error> {
    let no_time = QueryParams::default().timeout(Duration::ZERO).want_ack(true);
    let params = no_time.clone().timeout(Duration::from_nanos(9)).filters(vec![b"\0\x91\xa5other".to_vec()]);
    let packets = [&events[0], &b""[..], &events[1], &events[0], b"\x03\x81\xa5LTim", load_query, b"\0", whole_state];
    let mut calls: Vec<_> = packets.into_iter().map(|packet| Call::Receive { now: NOW, packet, tags_pass: false }).collect();
    calls.push(Call::Fire { name: b"own", payload: b"", coalesce: false });
    calls.push(Call::Fire { name: &[0; 600], payload: b"", coalesce: false });
    calls.push(Call::Query { now: NOW, id: 9, name: b"load", payload: b"", params: &no_time });
    calls.push(Call::Query { now: NOW, id: 9, name: b"load", payload: b"", params: &params });
    calls.push(Call::Receive { now: NOW, packet: &events[2], tags_pass: false });
    let outcomes = run_burst(other, &calls)?;
    let number = outcomes.iter().find_map(|outcome| match outcome {
        CallOutcome::Received(received) => match &received.outcome {
            Outcome::Query { handed, .. } => handed.as_ref().map(|query| query.number),
            _ => None,
        },
        _ => None,
    });
    let reply = other.respond(NOW, number.expect("a query"), b"yes")?;
    run_burst(one, &[])?;
    let mut calls = vec![Call::Receive { now: NOW, packet: &reply, tags_pass: false }; 2];
    calls.extend([Call::Fire { name: b"again", payload: b"", coalesce: false }; 5]);
    run_burst(one, &calls)?;
    Ok(())
}

fn main() -> Result<(), Error> {
    let folder = std::env::args().nth(1).expect("burst_driver FOLDER");
    let open_agent = |name: &str| Agent::open(name.as_bytes(), Path::new(&folder).join(format!("{name}.snapshot")), Settings::default());
    let mut one = open_agent("one")?;
    let fired = (0..5).map(|number| Ok(one.fire(format!("e{number}").as_bytes(), b"", false)?.packet));
    let events = fired.collect::<Result<Vec<_>, Error>>()?;
    let load_query = one
        .query(Duration::from_nanos(1), 8, b"load", b"", &QueryParams::default().timeout(Duration::from_nanos(1000)).want_ack(true))?
        .packet;
    let whole_state = one.local_state(&[], &[])?;
    run_out_of_memory(&mut open_agent("third")?, &events, &load_query)?;
    receive_all(&mut one, &mut open_agent("other")?, &events, &load_query, &whole_state)
}
