//! `merge ROUNDS STATE`: merges a push/pull's state into a buffer of events ROUNDS times, in plain Rust without proofs.
//!
//! It has a merge's duties: a packet that is faulty anywhere leaves the buffer unchanged, so the whole packet is checked first;
//! each event may be ignored for each reason; the line of a new event is written first; each allocation may fail. STATE is the
//! packet, in hex. The first merge accepts the events. It prints the minimum nanoseconds of the later merges.

#[allow(dead_code)]
mod packets;

use packets::{read_number, read_raw};
use std::collections::TryReserveError;
use std::fmt::Write;
use std::time::Instant;

const SLOTS: u64 = 512;
const PER_TIME: usize = 1024;
const LONGEST_TEXTS: usize = 9216;

/// Why a packet isn't merged, with the number of bytes that were left at that point.
#[allow(dead_code)]
#[derive(Debug)]
enum Error {
    Type,
    Key(usize),
    Twice(usize),
    Value(usize),
    Trailing(usize),
    Memory,
}

#[derive(Debug, Clone, Copy, PartialEq)]
enum Reason {
    Oversize,
    BelowMinimum,
    TooOld,
    Seen,
    TimeFull,
}

#[derive(Clone, Copy)]
struct Event<'a> {
    name: &'a [u8],
    payload: &'a [u8],
}

struct Slot {
    time: u64,
    events: Vec<(Vec<u8>, Vec<u8>)>,
}

struct Buffer {
    clock: u64,
    minimum: u64,
    slots: Vec<Slot>,
    line: u64,
    snapshot: String,
}

/// The parts of a state that are merged: its clocks, and the number and the bytes of its slots.
#[derive(Default)]
struct State<'a> {
    member_clock: u64,
    event_clock: u64,
    query_clock: u64,
    count: usize,
    slots: &'a [u8],
}

impl From<TryReserveError> for Error {
    fn from(_: TryReserveError) -> Error {
        Error::Memory
    }
}

/// A header: `short` with up to 15 parts, or `long` with a count of two bytes.
fn read_head(short: u8, long: u8, bytes: &[u8]) -> Option<(usize, &[u8])> {
    let (head, rest) = bytes.split_first()?;
    if *head & 0xf0 == short {
        return Some(((*head & 15) as usize, rest));
    }
    if *head != long {
        return None;
    }
    let number = u16::from_be_bytes(rest.get(..2)?.try_into().ok()?);
    Some((number as usize, &rest[2..]))
}

fn read_map(bytes: &[u8]) -> Result<(usize, &[u8]), Error> {
    read_head(0x80, 0xde, bytes).ok_or(Error::Value(bytes.len()))
}

fn read_array(bytes: &[u8]) -> Result<(usize, &[u8]), Error> {
    read_head(0x90, 0xdc, bytes).ok_or(Error::Value(bytes.len()))
}

fn text(bytes: &[u8]) -> Result<(&[u8], &[u8]), Error> {
    read_raw(bytes).ok_or(Error::Value(bytes.len()))
}

fn number(bytes: &[u8]) -> Result<(u64, &[u8]), Error> {
    read_number(bytes).ok_or(Error::Value(bytes.len()))
}

/// Records that a field was found. It must not be found again.
fn once(found: &mut u8, field: u8, at: usize) -> Result<(), Error> {
    if *found & field != 0 {
        return Err(Error::Twice(at));
    }
    *found |= field;
    Ok(())
}

fn read_event(bytes: &[u8]) -> Result<(Event<'_>, &[u8]), Error> {
    let (pairs, mut rest) = read_map(bytes)?;
    let (mut found, mut event) = (
        0,
        Event {
            name: b"",
            payload: b"",
        },
    );
    for _ in 0..pairs {
        let (key, value) = text(rest)?;
        match key {
            b"Name" => {
                once(&mut found, 1, rest.len())?;
                (event.name, rest) = text(value)?;
            }
            b"Payload" => {
                once(&mut found, 2, rest.len())?;
                (event.payload, rest) = text(value)?;
            }
            _ => return Err(Error::Key(rest.len())),
        }
    }
    Ok((event, rest))
}

fn skip_events(count: usize, bytes: &[u8]) -> Result<&[u8], Error> {
    let mut rest = bytes;
    for _ in 0..count {
        rest = read_event(rest)?.1;
    }
    Ok(rest)
}

/// A slot: its time, the number and the place of its events, and the bytes after it.
fn read_slot(bytes: &[u8]) -> Result<(u64, usize, &[u8], &[u8]), Error> {
    if let [0xc0, rest @ ..] = bytes {
        return Ok((0, 0, b"", rest));
    }
    let (pairs, mut rest) = read_map(bytes)?;
    let (mut found, mut time, mut count, mut events) = (0, 0, 0, &b""[..]);
    for _ in 0..pairs {
        let (key, value) = text(rest)?;
        match key {
            b"LTime" => {
                once(&mut found, 1, rest.len())?;
                (time, rest) = number(value)?;
                if time == u64::MAX {
                    return Err(Error::Value(value.len()));
                }
            }
            b"Events" => {
                once(&mut found, 2, rest.len())?;
                (count, events) = read_array(value)?;
                rest = skip_events(count, events)?;
            }
            _ => return Err(Error::Key(rest.len())),
        }
    }
    Ok((time, count, events, rest))
}

fn skip_slots(count: usize, bytes: &[u8]) -> Result<&[u8], Error> {
    let mut rest = bytes;
    for _ in 0..count {
        rest = read_slot(rest)?.3;
    }
    Ok(rest)
}

fn skip_status(bytes: &[u8]) -> Result<&[u8], Error> {
    let (count, mut rest) = read_map(bytes)?;
    for _ in 0..count {
        rest = number(text(rest)?.1)?.1;
    }
    Ok(rest)
}

fn skip_texts(bytes: &[u8]) -> Result<&[u8], Error> {
    let (count, mut rest) = read_array(bytes)?;
    for _ in 0..count {
        rest = text(rest)?.1;
    }
    Ok(rest)
}

/// The state of a packet, after the whole packet was checked.
fn read_state(packet: &[u8]) -> Result<State<'_>, Error> {
    let [2, map @ ..] = packet else {
        return Err(Error::Type);
    };
    let (pairs, mut rest) = read_map(map)?;
    let (mut found, mut state) = (0, State::default());
    for _ in 0..pairs {
        let (key, value) = text(rest)?;
        let field = match key {
            b"LTime" => 1,
            b"StatusLTimes" => 2,
            b"LeftMembers" => 4,
            b"EventLTime" => 8,
            b"Events" => 16,
            b"QueryLTime" => 32,
            _ => return Err(Error::Key(rest.len())),
        };
        once(&mut found, field, rest.len())?;
        match field {
            1 => (state.member_clock, rest) = number(value)?,
            2 => rest = skip_status(value)?,
            4 => rest = skip_texts(value)?,
            8 => (state.event_clock, rest) = number(value)?,
            16 => {
                (state.count, state.slots) = read_array(value)?;
                rest = skip_slots(state.count, state.slots)?;
            }
            _ => (state.query_clock, rest) = number(value)?,
        }
    }
    if !rest.is_empty() {
        return Err(Error::Trailing(rest.len()));
    }
    Ok(state)
}

fn copy(bytes: &[u8]) -> Result<Vec<u8>, TryReserveError> {
    let mut copied = Vec::new();
    copied.try_reserve_exact(bytes.len())?;
    copied.extend_from_slice(bytes);
    Ok(copied)
}

impl Buffer {
    fn new() -> Buffer {
        let empty = |_| Slot {
            time: 0,
            events: Vec::new(),
        };
        Buffer {
            clock: 1,
            minimum: 1,
            slots: (0..SLOTS).map(empty).collect(),
            line: 0,
            snapshot: String::new(),
        }
    }

    /// Why an event is ignored, or `None`.
    fn reason(&self, time: u64, event: &Event) -> Option<Reason> {
        if event.name.len() + event.payload.len() > LONGEST_TEXTS {
            return Some(Reason::Oversize);
        }
        if time < self.minimum {
            return Some(Reason::BelowMinimum);
        }
        let slot = &self.slots[(time % self.slots.len() as u64) as usize];
        let oldest = self
            .clock
            .max(time + 1)
            .saturating_sub(self.slots.len() as u64);
        if time < oldest || time < slot.time {
            return Some(Reason::TooOld);
        }
        if slot.time < time {
            return None;
        }
        let same = |held: &(Vec<u8>, Vec<u8>)| held.1 == event.payload && held.0 == event.name;
        if slot.events.iter().any(same) {
            return Some(Reason::Seen);
        }
        (slot.events.len() >= PER_TIME).then_some(Reason::TimeFull)
    }

    /// Accepts a new event, and hands it out after its line is written.
    fn accept(&mut self, time: u64, event: &Event, out: &mut Vec<u64>) -> Result<(), Error> {
        out.try_reserve(1)?;
        let copied = (copy(event.name)?, copy(event.payload)?);
        let size = self.slots.len() as u64;
        let slot = &mut self.slots[(time % size) as usize];
        slot.events.try_reserve(1)?;
        if time > self.line {
            self.snapshot.try_reserve(40)?;
            let _ = writeln!(self.snapshot, "event-clock: {time}");
            self.line = time;
        }
        if slot.time < time {
            slot.events.clear();
            slot.time = time;
        }
        slot.events.push(copied);
        out.push(time);
        Ok(())
    }

    fn receive(&mut self, time: u64, event: &Event, out: &mut Vec<u64>) -> Result<(), Error> {
        if self.reason(time, event).is_none() {
            self.accept(time, event, out)?;
        }
        self.clock = self.clock.max(time + 1);
        Ok(())
    }

    /// Merges a packet. The first pass checks it for errors, and the second accepts the events.
    fn merge(&mut self, packet: &[u8], out: &mut Vec<u64>) -> Result<(), Error> {
        let state = read_state(packet)?;
        self.clock = self.clock.max(state.event_clock);
        let mut rest = state.slots;
        for _ in 0..state.count {
            let (time, count, mut events, after) = read_slot(rest)?;
            for _ in 0..count {
                let (event, next) = read_event(events)?;
                self.receive(time, &event, out)?;
                events = next;
            }
            rest = after;
        }
        Ok(())
    }
}

fn from_hex(text: &str) -> Vec<u8> {
    let digits: Vec<u8> = text
        .trim()
        .chars()
        .map(|c| c.to_digit(16).expect("hex") as u8)
        .collect();
    digits
        .chunks(2)
        .map(|pair| pair[0] * 16 + pair[1])
        .collect()
}

fn main() {
    let words: Vec<String> = std::env::args().collect();
    let rounds: u32 = words[1].parse().expect("a number of rounds");
    let packet = from_hex(&std::fs::read_to_string(&words[2]).expect("a file"));
    let (mut buffer, mut out) = (Buffer::new(), Vec::new());
    buffer.merge(&packet, &mut out).expect("a state");
    let new = out.len();
    let mut shortest = u128::MAX;
    for _ in 0..rounds {
        let start = Instant::now();
        buffer
            .merge(std::hint::black_box(&packet), &mut out)
            .expect("a state");
        shortest = shortest.min(start.elapsed().as_nanos());
    }
    assert_eq!(out.len(), new, "an event was handed out twice");
    println!("{shortest} {new}");
}
