//! The lines about handlers, and the events that a text leaves open.

use serf_agent::{begun_line, done_line, done_up_to_line, open_events, open_line, Agent, Code, Error, Settings};

/// A function that makes a line of an event.
type Line = fn(u64, &[u8], &[u8]) -> Result<Vec<u8>, Error>;

/// Returns the events that a text leaves open: each event's time, name, payload, and whether its handler has begun.
fn open_list(text: &[u8]) -> Option<Vec<(u64, String, String, bool)>> {
    let words = |bytes: &[u8]| String::from_utf8(bytes.to_vec()).unwrap();
    let found = open_events(text).unwrap()?;
    Some(found.iter().map(|event| (event.time, words(&event.name), words(&event.payload), event.begun)).collect())
}

/// Returns an open event in the form in which `open_list` returns it.
fn event(time: u64, name: &str, payload: &str, begun: bool) -> (u64, String, String, bool) {
    (time, name.to_string(), payload.to_string(), begun)
}

#[test]
fn lines_about_handlers() {
    let lines: [(Line, &[u8]); 3] = [
        (open_line, b"#open 3 6465706c6f79 7631\n"),
        (begun_line, b"#begun 3 6465706c6f79 7631\n"),
        (done_line, b"#done 3 6465706c6f79 7631\n"),
    ];
    for (line, text) in lines {
        assert_eq!(line(3, b"deploy", b"v1").unwrap(), text);
        assert!(matches!(line(u64::MAX, b"a", b"b"), Err(Error::Refused(Code::Exhausted))));
    }
    assert_eq!(done_up_to_line(3).unwrap(), b"#done 3\n");
    assert_eq!(begun_line(0, b"", b"").unwrap(), b"#begun 0  \n");
    assert!(matches!(done_up_to_line(u64::MAX), Err(Error::Refused(Code::Exhausted))));
}

#[test]
fn open_events_of_texts() {
    let start = done_up_to_line(0).unwrap();
    let (one, two) = (open_line(1, b"one", b"").unwrap(), open_line(2, b"two", b"payload").unwrap());
    let both = [start.clone(), one.clone(), two].concat();
    let (first, second) = (event(1, "one", "", false), event(2, "two", "payload", false));
    let open_after = |line: Result<Vec<u8>, Error>| open_list(&[both.clone(), line.unwrap()].concat());
    assert_eq!(open_list(b""), None);
    assert_eq!(open_list(&one), None);
    assert_eq!(open_list(&start), Some(vec![]));
    assert_eq!(open_list(&both), Some(vec![first, second.clone()]));
    assert_eq!(open_after(begun_line(1, b"one", b"")), Some(vec![event(1, "one", "", true), second.clone()]));
    assert_eq!(open_after(done_line(1, b"one", b"")), Some(vec![second.clone()]));
    assert_eq!(open_after(done_up_to_line(1)), Some(vec![second]));
    assert_eq!(open_after(done_up_to_line(2)), Some(vec![]));
}

#[test]
fn open_events_of_an_agents_file() {
    let folder = std::env::temp_dir().join(format!("serf-agent-handlers-{}", std::process::id()));
    std::fs::create_dir_all(&folder).unwrap();
    let path = folder.join("snapshot");
    let text = || std::fs::read(&path).unwrap();
    let append = |line: Vec<u8>| std::fs::write(&path, [text(), line].concat()).unwrap();
    let agent = || Agent::open(b"a", &path, Settings::default().keep_events(true)).unwrap();
    agent().fire(b"before", b"", false).unwrap();
    assert_eq!(open_list(&text()), None);
    append(done_up_to_line(1).unwrap());
    let fired = agent().fire(b"deploy", b"v1", false).unwrap().event;
    assert_eq!(open_list(&text()), Some(vec![event(2, "deploy", "v1", false)]));
    append(begun_line(fired.time, &fired.name, &fired.payload).unwrap());
    assert_eq!(open_list(&text()), Some(vec![event(2, "deploy", "v1", true)]));
    append(done_line(fired.time, &fired.name, &fired.payload).unwrap());
    assert_eq!(open_list(&text()), Some(vec![]));
    let mut compacting = agent();
    compacting.compact_with(&[done_up_to_line(2).unwrap(), open_line(2, b"deploy", b"v1").unwrap()].concat()).unwrap();
    assert_eq!(open_list(&text()), Some(vec![event(2, "deploy", "v1", false)]));
    compacting.compact().unwrap();
    assert_eq!(open_list(&text()), None);
    std::fs::remove_dir_all(folder).unwrap();
}
