//! Intents, the members in a state, the time of a query, and its filters together with the host's `tags_pass`.

use serf_agent::{intent_error, node_filter, query_filters, tag_filter, Agent, Call, CallOutcome, Code, Error, Intent, Members};
use serf_agent::{Outcome, PacketError, QueryParams, Received, Settings, TAG_FILTER};
use std::time::Duration;

const NOW: Duration = Duration::from_nanos(1);
const TIMEOUT: Duration = Duration::from_nanos(1000);

/// A new folder, which is removed when the value is dropped. The agent's snapshot is in it.
struct TestFolder(std::path::PathBuf);

impl TestFolder {
    fn new(name: &str) -> TestFolder {
        let folder = std::env::temp_dir().join(format!("serf-agent-{name}-{}", std::process::id()));
        std::fs::create_dir_all(&folder).unwrap();
        TestFolder(folder)
    }

    /// Opens the agent on the snapshot of this folder.
    fn agent(&self) -> Agent {
        Agent::open(b"a", self.0.join("snapshot"), Settings::default()).unwrap()
    }
}

impl Drop for TestFolder {
    fn drop(&mut self) {
        let _ = std::fs::remove_dir_all(&self.0);
    }
}

/// Intents that agents of Serf sent to each other.
fn serf_intents() -> [(&'static [u8], Intent); 3] {
    [
        (b"\x01\x82\xa5LTime\x01\xa4Node\xa4beta", Intent::Join { time: 1, node: b"beta".to_vec() }),
        (b"\x00\x83\xa5LTime\x03\xa4Node\xa5gamma\xa5Prune\xc2", Intent::Leave { time: 3, node: b"gamma".to_vec(), prune: false }),
        (b"\x00\x83\xa5LTime\x06\xa4Node\xa5delta\xa5Prune\xc3", Intent::Leave { time: 6, node: b"delta".to_vec(), prune: true }),
    ]
}

#[test]
fn intents_are_read_and_written() {
    for (packet, intent) in serf_intents() {
        assert_eq!(Intent::of_packet(packet).unwrap(), Some(intent.clone()));
        assert_eq!(intent.packet().unwrap(), packet);
        assert_eq!(intent_error(packet), None);
    }
}

#[test]
fn no_intents() {
    for packet in [&b"\x03"[..], b"\x09\xc1"] {
        assert_eq!(Intent::of_packet(packet).unwrap(), None);
        assert_eq!(intent_error(packet), None);
    }
    let faulty: [(&[u8], PacketError); 4] = [
        (b"", PacketError::Empty),
        (b"\x63", PacketError::UnknownType(99)),
        (b"\x01\x81\xa4Node\xdb\xff\xff\xff\xffa", PacketError::Truncated(7)),
        (b"\x00\x81\xa5Prune\x01", PacketError::WrongKind(8)),
    ];
    for (packet, error) in faulty {
        assert!(matches!(Intent::of_packet(packet), Err(Error::Refused(Code::NoMessage))));
        assert_eq!(intent_error(packet), Some(error));
    }
    let none = Intent::Join { time: u64::MAX, node: Vec::new() };
    assert!(matches!(none.packet(), Err(Error::Refused(Code::Exhausted))));
}

#[test]
fn members_of_a_state() {
    let folder = TestFolder::new("members");
    let statuses: [(&[u8], u64); 3] = [(b"b", 7), (b"", 0), (b"b", 9)];
    let packet = folder.agent().local_state(&statuses, &[b"gone", b""]).unwrap();
    let found = Members::of_packet(&packet).unwrap().unwrap();
    assert_eq!(found.member_clock, 1);
    assert_eq!(found.statuses, statuses.map(|(name, time)| (name.to_vec(), time)));
    assert_eq!(found.left, [b"gone".to_vec(), Vec::new()]);
    for other in [&b""[..], b"\x03\x80", b"\x02"] {
        assert_eq!(Members::of_packet(other).unwrap(), None);
    }
}

#[test]
fn time_of_a_query() {
    let folder = TestFolder::new("fired_query");
    let mut agent = folder.agent();
    let params = QueryParams::default().timeout(TIMEOUT);
    for time in 1..4 {
        let fired_query = agent.query(Duration::ZERO, 7, b"load", b"", &params).unwrap();
        assert_eq!((fired_query.time, fired_query.handed.unwrap().time), (time, time));
    }
}

#[test]
fn member_times() {
    let folder = TestFolder::new("member-times");
    for first in [1, 9] {
        let mut agent = folder.agent();
        assert_eq!(agent.next_member_time().unwrap(), first);
        agent.observe_member(first + 6).unwrap();
        assert_eq!(agent.next_member_time().unwrap(), first + 7);
        assert!(matches!(agent.observe_member(u64::MAX), Err(Error::Refused(Code::Exhausted))));
    }
}

/// A filter for the node a, one for another node, one for a tag, and one of an unknown type.
const NODE: &[u8] = b"\x00\x91\xa1a";
const OTHER: &[u8] = b"\x00\x91\xa1c";
const TAG: &[u8] = b"\x01\x82\xa4Expr\xa0\xa3Tag\xa1a";
const UNKNOWN: &[u8] = b"\x02";

/// Returns whether a received query was handed out.
fn is_handed_out(received: &Received) -> bool {
    match &received.outcome {
        Outcome::Query { handed, .. } => handed.is_some(),
        other => panic!("{other:?}"),
    }
}

#[test]
fn what_the_host_says_of_tags() {
    let (query_folder, folder) = (TestFolder::new("tags-of-asks"), TestFolder::new("tags"));
    let (mut querying_agent, mut agent) = (query_folder.agent(), folder.agent());
    let mut packet_of = |filters: &[&[u8]]| {
        let filters = filters.iter().map(|filter| filter.to_vec()).collect();
        let params = QueryParams::default().timeout(TIMEOUT).filters(filters);
        querying_agent.query(NOW, 7, b"who", b"", &params).unwrap().packet
    };
    let cases: [(&[&[u8]], bool, bool); 6] = [
        (&[], true, true),
        (&[TAG], false, true),
        (&[NODE, TAG, TAG], false, true),
        (&[TAG, OTHER], false, false),
        (&[TAG, UNKNOWN], false, false),
        (&[NODE], true, true),
    ];
    for (filters, handed_without_tags, handed_with_tags) in cases {
        for (tags_pass, expected) in [(false, handed_without_tags), (true, handed_with_tags)] {
            let packet = packet_of(filters);
            let found_filters = query_filters(&packet).unwrap().unwrap();
            assert_eq!(found_filters, filters);
            assert!(found_filters.iter().zip(filters).all(|(one, filter)| (one[0] == TAG_FILTER) == (*filter == TAG)));
            assert_eq!(is_handed_out(&agent.receive(NOW, &packet, tags_pass).unwrap()), expected, "{filters:?}");
            let packet = packet_of(filters);
            let outcomes: Vec<_> = agent.burst([Call::Receive { now: NOW, packet: &packet, tags_pass }]).unwrap().collect();
            let received = match &outcomes[..] {
                [Ok(CallOutcome::Received(received))] => received,
                _ => panic!("{outcomes:?}"),
            };
            assert_eq!(is_handed_out(received), expected, "{filters:?} in a burst");
            let own_filters = filters.iter().map(|filter| filter.to_vec()).collect();
            let params = QueryParams::default().timeout(TIMEOUT).want_ack(true).tags_pass(tags_pass).filters(own_filters);
            let fired_query = agent.query(NOW, 8, b"who", b"", &params).unwrap();
            assert_eq!((fired_query.handed.is_some(), fired_query.ack.is_some()), (expected, expected), "its own of {filters:?}");
            let call = Call::Query { now: NOW, id: 8, name: b"who", payload: b"", params: &params };
            let outcomes: Vec<_> = agent.burst([call]).unwrap().collect();
            let fired_query = match &outcomes[..] {
                [Ok(CallOutcome::FiredQuery(fired_query))] => fired_query,
                _ => panic!("{outcomes:?}"),
            };
            assert_eq!(fired_query.handed.is_some(), expected, "its own of {filters:?} in a burst");
        }
    }
    assert!(!is_handed_out(&agent.receive(NOW, &packet_of(&[TAG]), false).unwrap()));
    assert_eq!((node_filter(&["a"]), tag_filter(b"a", b"")), (NODE.to_vec(), TAG.to_vec()));
    let long = node_filter(&[vec![b'x'; 32], vec![b'y'; 65536]]);
    assert_eq!((&long[..5], &long[37..42]), (&b"\x00\x92\xda\x00\x20"[..], &b"\xdb\x00\x01\x00\x00"[..]));
    assert_eq!(
        (&node_filter(&["b"; 16])[..6], &node_filter(&["b"; 65536])[..6]),
        (&b"\x00\xdc\x00\x10\xa1b"[..], &b"\x00\xdd\x00\x01\x00\x00"[..])
    );
    for packet in [&b""[..], b"\x04", b"\x03\x80"] {
        assert_eq!(query_filters(packet).unwrap(), None);
    }
}
