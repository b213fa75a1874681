//! An agent that several threads share, as tasks of a pool do.

use serf_agent::{Agent, Outcome, Settings};
use std::sync::{Arc, Mutex};
use std::time::Instant;

#[test]
fn threads_share_an_agent() {
    let path = std::path::Path::new(env!("CARGO_TARGET_TMPDIR")).join(format!("shared-{}", std::process::id()));
    std::fs::create_dir_all(&path).unwrap();
    let mut one = Agent::open(b"one", path.join("one"), Settings::default()).unwrap();
    let other = Arc::new(Mutex::new(Agent::open(b"other", path.join("other"), Settings::default()).unwrap()));
    let start = Instant::now();
    for time in 1..20 {
        let packet = one.fire(b"deploy", b"", false).unwrap().packet;
        let agent = Arc::clone(&other);
        let received = std::thread::spawn(move || agent.lock().unwrap().receive(start.elapsed(), &packet, false)).join().unwrap().unwrap();
        assert!(matches!(received.outcome, Outcome::Event(event) if event.time == time));
    }
    std::fs::remove_dir_all(path).unwrap();
}
