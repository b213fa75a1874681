//! A replay in plain Rust that proves nothing. Comparing `serf-replay replay` with it shows the cost of the same duties without
//! proofs. `bench/beside_rust.py` builds and runs it.
//!
//! It runs schedules with the words agent, inject, fire and deliver. For these it has the program's duties: each bad line has a
//! cause, an agent or a packet may be missing, a packet may contain any bytes, an event may be ignored for each reason, and an
//! allocation may fail. It keeps no snapshot, and knows no queries and no states.
mod cluster;
mod packets;
mod text;

use cluster::{Action, Agent, Answer, Line, Reason, World};
use std::io::Write;
use std::process::ExitCode;
use text::{write, write_number, Error, Hex};

const MAX_SLOTS: u64 = 65_536;

fn write_answer(out: &mut Vec<u8>, answer: Answer) -> Result<(), Error> {
    match answer {
        Answer::Fired(time) => {
            write(out, b"fired ")?;
            write_number(out, time)
        }
        Answer::New => write(out, b"new"),
        Answer::Injected => write(out, b"injected"),
        Answer::Ignored(reason) => {
            write(out, b"ignored ")?;
            match reason {
                Reason::Oversize => write(out, b"Oversize"),
                Reason::BelowMinimum => write(out, b"BelowMinimum"),
                Reason::TooOld => write(out, b"TooOld"),
                Reason::Seen => write(out, b"Seen"),
                Reason::TimeFull => write(out, b"TimeFull"),
            }
        }
        Answer::Refused(refusal) => {
            write(out, b"refused ")?;
            write(out, refusal)
        }
    }
}

fn put_line(
    out: &mut Vec<u8>,
    hex: &Hex,
    world: &World,
    number: u64,
    line: &Line,
) -> Result<(), Error> {
    write_number(out, number)?;
    write(out, b" ")?;
    write_answer(out, line.answer)?;
    write(out, b"\n")?;
    if let Some(sent) = line.sent {
        let (from, to) = world.sent[sent];
        write_number(out, number)?;
        write(out, b" sent ")?;
        write_number(out, sent as u64)?;
        write(out, b" ")?;
        hex.write(out, &world.packets[from..to])?;
        write(out, b"\n")?;
    }
    if let Some(event) = &line.event {
        write_number(out, number)?;
        write(out, b" event ")?;
        write_number(out, event.agent)?;
        write(out, b" ")?;
        write_number(out, event.time)?;
        write(out, b" ")?;
        hex.write(out, &event.name)?;
        write(out, b" ")?;
        hex.write(out, &event.payload)?;
        write(out, if event.coalesce { b" 1\n" } else { b" 0\n" })?;
    }
    Ok(())
}

fn number_at(words: &[&[u8]], place: usize) -> Result<u64, Error> {
    let mut number: u64 = 0;
    for byte in words[place] {
        if !byte.is_ascii_digit() {
            return Err(Error::BadWord(place));
        }
        let digit = u64::from(byte - b'0');
        number = number
            .checked_mul(10)
            .and_then(|tens| tens.checked_add(digit))
            .ok_or(Error::BadWord(place))?;
    }
    Ok(number)
}

fn read_agent(words: &[&[u8]]) -> Result<Agent, Error> {
    if words.len() != 7 && words.len() != 8 {
        return Err(Error::WordCount);
    }
    let slot_count = number_at(words, 2)?;
    if slot_count == 0 || slot_count > MAX_SLOTS {
        return Err(Error::BadWord(2));
    }
    let per_time = if words.len() == 8 {
        number_at(words, 7)?
    } else {
        1_024
    };
    Ok(Agent {
        clock: 1,
        minimum: 1,
        slot_count,
        per_time,
        is_stopped: false,
        slots: Vec::new(),
    })
}

fn read_action(hex: &Hex, words: &[&[u8]]) -> Result<Action, Error> {
    match (words[0], words.len()) {
        (b"deliver", 4) => {
            let (agent, packet, _now) = (
                number_at(words, 1)?,
                number_at(words, 2)?,
                number_at(words, 3)?,
            );
            Ok(Action::Deliver { agent, packet })
        }
        (b"fire", 5) => {
            let coalesce = match words[4] {
                b"0" => false,
                b"1" => true,
                _ => return Err(Error::BadWord(4)),
            };
            Ok(Action::Fire {
                agent: number_at(words, 1)?,
                name: hex.read(words, 2)?,
                payload: hex.read(words, 3)?,
                coalesce,
            })
        }
        (b"inject", 2) => Ok(Action::Inject {
            bytes: hex.read(words, 1)?,
        }),
        (b"deliver" | b"fire" | b"inject", _) => Err(Error::WordCount),
        _ => Err(Error::UnknownWord),
    }
}

fn take_line<'a>(
    world: &mut World,
    hex: &Hex,
    words: &mut Vec<&'a [u8]>,
    turns: &mut u64,
    line: &'a [u8],
    out: &mut Vec<u8>,
) -> Result<(), Error> {
    words.clear();
    if line.first() == Some(&b'#') {
        return Ok(());
    }
    for word in line
        .split(|byte| *byte == b' ')
        .filter(|word| !word.is_empty())
    {
        words.try_reserve(1)?;
        words.push(word);
    }
    match words.first() {
        None => Ok(()),
        Some(&b"agent") if *turns > 0 => Err(Error::LateAgent),
        Some(&b"agent") => {
            world.agents.try_reserve(1)?;
            world.agents.push(read_agent(words)?);
            Ok(())
        }
        Some(_) => {
            let action = read_action(hex, words)?;
            *turns += 1;
            let line = world.step(&action)?;
            put_line(out, hex, world, *turns, &line)
        }
    }
}

fn replay(schedule: &[u8]) -> Result<Vec<u8>, (usize, Error)> {
    let (hex, mut world) = (Hex::new(), World::default());
    let (mut words, mut turns, mut out) = (Vec::new(), 0, Vec::new());
    for (index, line) in schedule.split(|byte| *byte == b'\n').enumerate() {
        take_line(&mut world, &hex, &mut words, &mut turns, line, &mut out)
            .map_err(|fault| (index + 1, fault))?;
    }
    Ok(out)
}

fn main() -> ExitCode {
    let file = std::env::args_os()
        .nth(1)
        .expect("usage: same_duties SCHEDULE");
    let schedule = std::fs::read(file).expect("a schedule");
    match replay(&schedule) {
        Ok(trace) => {
            std::io::stdout()
                .write_all(&trace)
                .expect("a place for the trace");
            ExitCode::SUCCESS
        }
        Err((line, error)) => {
            eprintln!("line {line} of the schedule is bad: {error}");
            ExitCode::FAILURE
        }
    }
}
