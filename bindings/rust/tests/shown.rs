//! How agents, codes and errors appear in a log, and what `default` returns.

use serf_agent::{Agent, Code, Error, Event, QueryParams, Reason, Settings, StoreErrorKind, DEFAULT_QUERY_TIMEOUT};
use std::error::Error as _;
use std::time::Duration;

/// Creates the test's own folder.
fn folder(name: &str) -> std::path::PathBuf {
    let path = std::path::Path::new(env!("CARGO_TARGET_TMPDIR")).join(format!("{name}-{}", std::process::id()));
    std::fs::create_dir_all(&path).expect("a folder");
    path
}

/// Returns whether the system's list shows a lock of this process. (In some containers it shows none.)
fn is_lock_listed() -> bool {
    let own = std::process::id().to_string();
    let list = std::fs::read_to_string("/proc/locks").unwrap_or_default();
    list.lines().any(|line| line.split_whitespace().nth(4) == Some(&own))
}

#[test]
fn an_agent_is_shown() {
    let folder = folder("shown");
    let path = folder.join("one.snapshot");
    let agent = Agent::open(b"one", &path, Settings::default()).expect("an agent");
    let shown = format!("{agent:?}");
    assert!(shown.starts_with("Agent { is_open: true, store: Store {") && shown.contains("one.snapshot"), "{shown}");
    let error = match Agent::open(b"two", &path, Settings::default()) {
        Err(Error::Store(error)) => error,
        other => panic!("{other:?}"),
    };
    assert_eq!((error.kind(), error.path()), (StoreErrorKind::Locked, path.as_path()));
    let expected = format!("{}: another agent has the file", path.display());
    if is_lock_listed() {
        assert_eq!((error.owner(), error.to_string()), (Some(std::process::id()), expected + ", in this process"));
    } else {
        assert!(error.owner().is_none() && error.to_string().starts_with(&expected), "{error}");
    }
    assert_eq!(format!("{}", Error::Store(error)).matches("one.snapshot").count(), 1);
    drop(agent);
    std::fs::remove_dir_all(folder).expect("nobody has it");
}

#[test]
fn an_error_has_its_path_and_its_cause() {
    let error = Agent::open(b"a", "/none/a", Settings::default()).unwrap_err();
    let expected = "/none/a: the folder of the file doesn't exist: No such file or directory (os error 2)";
    assert_eq!(error.to_string(), expected);
    assert_eq!(format!("{error:?}"), expected);
    let shown = format!("{error:#?}");
    assert!(
        error.source().is_none() && shown.contains("/none/a") && shown.contains("MissingFolder") && shown.contains("code: 2"),
        "{shown}"
    );
    match error {
        Error::Store(error) => {
            assert_eq!(format!("{error:?}"), expected);
            assert_eq!(error.cause().and_then(|cause| cause.raw_os_error()), Some(2));
        }
        other => panic!("{other:?}"),
    }
    assert_eq!(Agent::open(b"a", "/proc", Settings::default()).unwrap_err().to_string().split(':').next(), Some("/proc"));
}

#[test]
fn a_merge_in_part_is_shown_with_its_events() {
    let event = Event { time: 7, name: b"deploy".to_vec(), payload: Vec::new(), coalesce: false };
    let error = Error::MergedInPart(vec![event]);
    assert_eq!(error.to_string(), "the merge ran out of memory; events that it accepted before: 1");
    assert_eq!(format!("{error:?}"), error.to_string());
    assert!(error.source().is_none() && format!("{error:#?}").contains("time: 7"));
}

#[test]
fn codes_and_reasons_are_sentences() {
    assert_eq!(Error::Refused(Code::NoTime).to_string(), "the query has no timeout");
    assert_eq!(format!("{:?}", Error::Refused(Code::NoTime)), "the query has no timeout");
    assert_eq!(format!("{:#?}", Error::Refused(Code::NoTime)), "Refused(\n    NoTime,\n)");
    assert_eq!(Code::NotPending.to_string(), "no query with this number is waiting for an answer");
    assert_eq!(Reason::Seen.to_string(), "the same event or query was accepted before");
}

#[test]
fn default_parameters_are_accepted() {
    let folder = folder("defaults");
    let mut agent = Agent::open(b"a", folder.join("a"), Settings::default()).expect("an agent");
    agent.query(Duration::ZERO, 7, b"load", b"", &QueryParams::default()).expect("a query");
    assert_eq!((agent.next_deadline().unwrap(), DEFAULT_QUERY_TIMEOUT), (Some(DEFAULT_QUERY_TIMEOUT), Duration::from_millis(6400)));
    let refused = agent.query(Duration::ZERO, 8, b"load", b"", &QueryParams::default().timeout(Duration::ZERO));
    assert!(matches!(refused, Err(Error::Refused(Code::NoTime))), "{refused:?}");
    // Durations that are too long for the library are shortened.
    let query = agent.query(Duration::ZERO, 9, b"load", b"", &QueryParams::default().timeout(Duration::MAX)).expect("a query");
    assert_eq!(query.handed.expect("handed out here").deadline, Duration::from_nanos(i64::MAX as u64));
    assert_eq!(agent.close_due(Duration::MAX).expect("both").len(), 2);
    drop(agent);
    std::fs::remove_dir_all(folder).expect("nobody has it");
}
