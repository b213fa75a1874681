//! The maximum sizes of the packets of queries and responses, and the bounds of the settings.

use serf_agent::{Agent, Code, Error, QueryParams, Settings};
use std::time::Duration;

/// Opens an agent with these limits, in the test's own folder.
fn open_agent(test: &str, query_limit: u64, response_limit: u64) -> Result<Agent, Error> {
    let folder = std::env::temp_dir().join(format!("serf-agent-{test}-{}", std::process::id()));
    let _ = std::fs::remove_dir_all(&folder);
    std::fs::create_dir_all(&folder).unwrap();
    Agent::open(b"limited", folder.join("snapshot"), Settings::default().query_limit(query_limit).response_limit(response_limit))
}

/// Returns the length of the packet with the longest payload that is accepted. Each longer payload has to be refused as
/// too large.
fn longest_packet(max_length: u64, mut call: impl FnMut(&[u8]) -> Result<Vec<u8>, Error>) -> u64 {
    for length in (0..=max_length).rev() {
        match call(&vec![0; length as usize]) {
            Ok(packet) => return packet.len() as u64,
            Err(Error::Refused(Code::TooLarge)) => {}
            Err(other) => panic!("{length}: {other:?}"),
        }
    }
    0
}

#[test]
fn packets_as_long_as_the_limits() {
    let params = QueryParams::default().timeout(Duration::from_millis(1));
    for (query_limit, response_limit, expected) in
        [(0, 0, (1024, 1024)), (300, 0, (300, 1024)), (0, 300, (1024, 300)), (200, 9216, (200, 9216)), (9216, 200, (9216, 200))]
    {
        let mut agent = open_agent("limits", query_limit, response_limit).unwrap();
        let mut query_number = 0;
        let query_length = longest_packet(expected.0 + 1, |payload| {
            let fired_query = agent.query(Duration::from_nanos(1), 7, b"q", payload, &params)?;
            query_number = fired_query.handed.as_ref().unwrap().number;
            Ok(fired_query.packet)
        });
        let response_length = longest_packet(expected.1 + 1, |payload| agent.respond(Duration::from_nanos(2), query_number, payload));
        assert_eq!((query_length, response_length), expected, "{query_limit} {response_limit}");
    }
    let settings = Settings::default();
    assert_eq!((settings.query_limit, settings.response_limit), (1024, 1024));
}

/// Each setting is accepted at its bounds, and the error names it if it is beyond them.
#[test]
fn settings_out_of_bounds() {
    type Field = fn(&mut Settings) -> &mut u64;
    let fields: [(&str, Field, u64, u64); 7] = [
        ("event_buffer", |settings| &mut settings.event_buffer, 1, 65536),
        ("query_buffer", |settings| &mut settings.query_buffer, 1, 65536),
        ("event_limit", |settings| &mut settings.event_limit, 0, 9216),
        ("query_limit", |settings| &mut settings.query_limit, 0, 9216),
        ("response_limit", |settings| &mut settings.response_limit, 0, 9216),
        ("responders", |settings| &mut settings.responders, 1, 65536),
        ("per_time", |settings| &mut settings.per_time, 1, 65536),
    ];
    let path = std::env::temp_dir().join(format!("serf-agent-bounds-{}", std::process::id()));
    for (field, field_of, min, max) in fields {
        for value in [0, 1, max, max + 1, u64::MAX] {
            let mut settings = Settings::default();
            *field_of(&mut settings) = value;
            let expected = format!("{field} is {value}, and must be between {min} and {max}");
            match Agent::open(b"bounds", &path, settings) {
                Ok(_) => assert!(value >= min && value <= max, "{expected}"),
                Err(error) => assert_eq!((value < min || value > max, error.to_string()), (true, expected)),
            }
        }
    }
    for (length, is_accepted) in [(0, false), (1, true), (128, true), (129, false)] {
        let opened = Agent::open(&vec![b'n'; length], &path, Settings::default());
        assert!(if is_accepted { opened.is_ok() } else { matches!(opened, Err(Error::Setting { field: "name", .. })) }, "{length}");
    }
    let error = Agent::open(b"", &path, Settings::default()).unwrap_err();
    assert_eq!(error.to_string(), "the name has 0 bytes, and must have 1 to 128");
    std::fs::remove_file(path).unwrap();
}
