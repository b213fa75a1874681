//! Agents that keep their events across a restart.

use serf_agent::{Agent, Call, Outcome, Reason, Settings};
use std::path::{Path, PathBuf};
use std::time::Duration;

const NOW: Duration = Duration::from_nanos(1);

const NEW: Result<(), Reason> = Ok(());
const SEEN: Result<(), Reason> = Err(Reason::Seen);
const BELOW: Result<(), Reason> = Err(Reason::BelowMinimum);

/// The test's own folder.
fn folder(test: &str) -> PathBuf {
    let folder = std::env::temp_dir().join(format!("serf-agent-{test}-{}", std::process::id()));
    let _ = std::fs::remove_dir_all(&folder);
    std::fs::create_dir_all(&folder).unwrap();
    folder
}

/// Opens an agent with small buffers on the file.
fn open_agent(path: &Path, keep_events: bool) -> Agent {
    let settings = Settings::default().event_buffer(8).query_buffer(8).keep_events(keep_events);
    Agent::open(b"keeps", path, settings).unwrap()
}

/// Returns the packets of another agent's events e1, e2 and so on, with the times 1, 2 and so on.
fn fired_packets(folder: &Path) -> Vec<Vec<u8>> {
    let mut other = open_agent(&folder.join("other"), false);
    (1..10).map(|time| other.fire(format!("e{time}").as_bytes(), b"", false).unwrap().packet).collect()
}

/// Receives the event with this time. The event is handed out, or the error is why it was ignored.
fn receive(agent: &mut Agent, packets: &[Vec<u8>], time: usize) -> Result<(), Reason> {
    match agent.receive(NOW, &packets[time - 1], false).unwrap().outcome {
        Outcome::Event(event) => {
            assert_eq!(event.time, time as u64);
            Ok(())
        }
        Outcome::Ignored(reason) => Err(reason),
        other => panic!("{other:?}"),
    }
}

/// Runs an agent on a file, and ends its life as a kill would. Returns the outcomes of receiving these events, and the file's
/// text afterwards.
fn run_life(path: &Path, keep_events: bool, packets: &[Vec<u8>], times: &[usize]) -> (Vec<Result<(), Reason>>, String) {
    let mut agent = open_agent(path, keep_events);
    let outcomes = times.iter().map(|&time| receive(&mut agent, packets, time)).collect();
    drop(agent);
    (outcomes, std::fs::read_to_string(path).unwrap())
}

#[test]
fn restarts_that_go_on() {
    let folder = folder("keeps");
    let (packets, path) = (fired_packets(&folder), folder.join("keeps"));
    let lines = "event-clock: 03\n#event 3 6533 \n#event 1 6531 \n";
    assert_eq!(run_life(&path, true, &packets, &[3, 1, 3]), (vec![NEW, NEW, SEEN], lines.to_string()));
    let lines = format!("{lines}#event 2 6532 \n");
    assert_eq!(run_life(&path, true, &packets, &[3, 1, 2, 2]), (vec![SEEN, SEEN, NEW, SEEN], lines));
    std::fs::remove_dir_all(folder).unwrap();
}

#[test]
fn restarts_without_the_setting() {
    assert!(!Settings::default().keep_events);
    let folder = folder("without");
    let (packets, path) = (fired_packets(&folder), folder.join("without"));
    let line = "event-clock: 3\n".to_string();
    assert_eq!(run_life(&path, false, &packets, &[3, 1]), (vec![NEW, NEW], line.clone()));
    assert_eq!(run_life(&path, false, &packets, &[3, 2]), (vec![BELOW, BELOW], line));
    std::fs::remove_dir_all(folder).unwrap();
}

#[test]
fn lines_that_are_torn() {
    let folder = folder("torn");
    let (packets, path) = (fired_packets(&folder), folder.join("torn"));
    let text = "event-clock: 03\n#event 3 6533 \nevent-clock: 05\n#event 5 65";
    std::fs::write(&path, text).unwrap();
    let lines = format!("{text}#\n#event 5 6535 \n#event 4 6534 \n");
    assert_eq!(run_life(&path, true, &packets, &[3, 5, 4]), (vec![SEEN, NEW, NEW], lines));
    std::fs::remove_dir_all(folder).unwrap();
}

#[test]
fn lives_with_the_setting_and_without() {
    let folder = folder("both");
    let (packets, path) = (fired_packets(&folder), folder.join("both"));
    assert_eq!(run_life(&path, false, &packets, &[3]).0, [NEW]);
    assert_eq!(run_life(&path, true, &packets, &[2, 5]).0, [BELOW, NEW]);
    assert_eq!(run_life(&path, false, &packets, &[4, 7]).0, [BELOW, NEW]);
    assert_eq!(run_life(&path, true, &packets, &[6, 8, 9]).0, [BELOW, NEW, NEW]);
    assert_eq!(run_life(&path, true, &packets, &[8, 9]).0, [SEEN, SEEN]);
    std::fs::remove_dir_all(folder).unwrap();
}

#[test]
fn compactions_that_keep_events() {
    let folder = folder("compacted");
    let (packets, path) = (fired_packets(&folder), folder.join("compacted"));
    let mut agent = open_agent(&path, true);
    assert_eq!((receive(&mut agent, &packets, 3), receive(&mut agent, &packets, 1)), (NEW, NEW));
    agent.compact().unwrap();
    drop(agent);
    let lines = "#least event-clock: 1\n#event 1 6531 \n#event 3 6533 \n#least query-clock: 1\nevent-clock: 03\n";
    assert_eq!(std::fs::read_to_string(&path).unwrap(), lines);
    assert_eq!(run_life(&path, true, &packets, &[1, 3, 2]), (vec![SEEN, SEEN, NEW], format!("{lines}#event 2 6532 \n")));
    std::fs::remove_dir_all(folder).unwrap();
}

#[test]
fn bursts_that_are_kept() {
    let folder = folder("burst");
    let (packets, path) = (fired_packets(&folder), folder.join("burst"));
    let mut agent = open_agent(&path, true);
    let calls = [3, 2, 3].map(|time| Call::Receive { now: NOW, packet: &packets[time - 1], tags_pass: false });
    assert_eq!(agent.burst(calls).unwrap().count(), 3);
    drop(agent);
    let lines = "event-clock: 03\n#event 3 6533 \n#event 2 6532 \n#event 1 6531 \n".to_string();
    assert_eq!(run_life(&path, true, &packets, &[3, 2, 1]), (vec![SEEN, SEEN, NEW], lines));
    std::fs::remove_dir_all(folder).unwrap();
}
