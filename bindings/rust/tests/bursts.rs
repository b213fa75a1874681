//! Bursts: the outcomes are in the order of the calls, with errors among them, and some stay unread.

use serf_agent::{Agent, Call, CallOutcome, Code, Error, Outcome, Reason, Settings};
use std::time::Duration;

/// Opens a new agent in the test's own folder. Returns it with the path of its file.
fn open_agent(test: &str, name: &str) -> (Agent, std::path::PathBuf) {
    let folder = std::env::temp_dir().join(format!("serf-agent-{test}-{}", std::process::id()));
    std::fs::create_dir_all(&folder).unwrap();
    let path = folder.join(name);
    let _ = std::fs::remove_file(&path);
    (Agent::open(name.as_bytes(), &path, Settings::default()).unwrap(), path)
}

const FIRE: Call<'static> = Call::Fire { name: b"own", payload: b"", coalesce: false };

#[test]
fn outcomes_in_order() {
    let (mut one, first) = open_agent("order", "one");
    let (mut other, path) = open_agent("order", "other");
    let packet = one.fire(b"deploy", b"", false).unwrap().packet;
    let receive = |packet| Call::Receive { now: Duration::from_nanos(1), packet, tags_pass: false };
    let calls = [receive(&packet), receive(&packet[1..]), FIRE, receive(&packet)];
    let outcomes: Vec<_> = other.burst(calls).unwrap().collect();
    let (event, error, fired, repeat) = match &outcomes[..] {
        [event, error, fired, repeat] => (event, error, fired, repeat),
        _ => panic!("{outcomes:?}"),
    };
    assert!(matches!(event, Ok(CallOutcome::Received(received)) if received.rebroadcast && matches!(received.outcome, Outcome::Event(_))));
    assert!(matches!(error, Err(Error::Refused(Code::NoMessage))));
    assert!(matches!(fired, Ok(CallOutcome::Fired(fired)) if fired.event.time == 2));
    assert!(matches!(repeat, Ok(CallOutcome::Received(received)) if received.outcome == Outcome::Ignored(Reason::Seen)));
    assert_eq!(std::fs::read(&path).unwrap(), b"event-clock: 1\nevent-clock: 2\n");
    drop((one, other));
    std::fs::remove_dir_all(first.parent().unwrap()).unwrap();
}

#[test]
fn unread_outcomes_wait() {
    let (mut agent, path) = open_agent("unread", "one");
    let mut first = agent.burst([FIRE, FIRE, FIRE]).unwrap();
    assert_eq!(first.size_hint(), (3, None));
    assert!(matches!(first.next(), Some(Ok(CallOutcome::Fired(fired))) if fired.event.time == 1));
    assert_eq!(agent.unread_outcomes().unwrap(), 2);
    let times = agent.burst([FIRE]).unwrap().map(|outcome| match outcome {
        Ok(CallOutcome::Fired(fired)) => fired.event.time,
        other => panic!("{other:?}"),
    });
    assert_eq!(times.collect::<Vec<_>>(), [2, 3, 4]);
    assert_eq!(agent.outcomes().count(), 0);
    assert_eq!(agent.burst([]).unwrap().count(), 0);
    drop(agent);
    std::fs::remove_dir_all(path.parent().unwrap()).unwrap();
}
