//! A host over the crate of bindings/rust, driven by lines: tests/library/power_cuts/hosts.py says which.

mod tracking;

use serf_agent::{Agent, FiredQuery, Call, CallOutcome, Error, Event, Fired, PendingQuery, Outcome, QueryParams, Received, Settings, Store};
use std::io::{BufRead, Write};
use std::time::Duration;
use tracking::{Failure, Tracking};

/// The moment of each call, and how long a query accepts answers.
const NOW: Duration = Duration::ZERO;
const TIMEOUT: Duration = Duration::from_nanos(1000);

fn bytes_of(hex: &str) -> Vec<u8> {
    let digits: Vec<u8> = hex.bytes().map(|digit| (digit as char).to_digit(16).unwrap_or(0) as u8).collect();
    digits.chunks_exact(2).map(|pair| pair[0] * 16 + pair[1]).collect()
}

fn hex_of(bytes: &[u8]) -> String {
    bytes.iter().map(|byte| format!("{byte:02x}")).collect()
}

/// Each line is one write.
fn say(line: &str) {
    let _ = std::io::stdout().write_all(format!("{line}\n").as_bytes());
    let _ = std::io::stdout().flush();
}

/// A store, or an agent over one, and the number of the query that was handed out last.
#[derive(Default)]
struct Host {
    store: Option<Store>,
    agent: Option<Agent>,
    asked: Option<u64>,
    tracking: Option<Tracking>,
}

impl Host {
    fn end(&mut self) {
        *self = Host::default();
    }

    fn tell_event(&mut self, event: &Event) {
        say(&format!("e {} {}", event.time, hex_of(&event.name)));
        if let Some(tracking) = self.tracking.as_mut() {
            tracking.hand_out(event);
        }
    }

    fn tell_query(&mut self, handed: Option<PendingQuery>, ack: Option<Vec<u8>>) {
        if let Some(query) = handed {
            self.asked = Some(query.number);
            say(&format!("h {} {}", query.time, query.id));
        }
        if let Some(ack) = ack {
            say(&format!("p {}", hex_of(&ack)));
        }
    }

    fn tell(&mut self, outcome: CallOutcome) {
        match outcome {
            CallOutcome::Received(Received { outcome: Outcome::Event(event), .. }) => self.tell_event(&event),
            CallOutcome::Received(Received { outcome: Outcome::Query { handed, ack }, .. }) => self.tell_query(handed, ack),
            CallOutcome::Received(_) => {}
            CallOutcome::Fired(Fired { event, packet, .. }) => {
                self.tell_event(&event);
                say(&format!("p {}", hex_of(&packet)));
            }
            CallOutcome::FiredQuery(FiredQuery { packet, handed, ack, .. }) => {
                say(&format!("p {}", hex_of(&packet)));
                self.tell_query(handed, ack);
            }
            _ => {}
        }
    }

    fn burst(&mut self, words: &str) -> Result<(), Error> {
        let params = QueryParams::default().timeout(TIMEOUT).want_ack(true);
        let texts: Vec<(&str, Vec<u8>)> = words.split(' ').map(|word| (&word[..1], bytes_of(&word[1..]))).collect();
        let calls = texts.iter().map(|(kind, text)| match *kind {
            "r" => Call::Receive { now: NOW, packet: text, tags_pass: false },
            "f" => Call::Fire { name: text, payload: b"", coalesce: false },
            _ => Call::Query { now: NOW, id: 7, name: text, payload: b"", params: &params },
        });
        let Some(mut agent) = self.agent.take() else { return Err(Error::Refused(serf_agent::Code::Empty)) };
        let outcomes: Vec<_> = agent.burst(calls)?.collect();
        self.agent = Some(agent);
        outcomes.into_iter().flatten().for_each(|outcome| self.tell(outcome));
        Ok(())
    }

    fn keep(&mut self, call: &str, bytes: &[u8]) -> Result<(), Error> {
        let Some(store) = self.store.as_mut() else { return Ok(()) };
        Ok(if call == "append" { store.append(bytes)? } else { store.replace(bytes)? })
    }

    fn act(&mut self, call: &str, bytes: &[u8]) -> Result<(), Failure> {
        let Some(mut agent) = self.agent.take() else { return Err(Error::Refused(serf_agent::Code::Empty).into()) };
        match (call, self.tracking.as_mut()) {
            ("s", Some(tracking)) => tracking.begin()?,
            ("d", Some(tracking)) => tracking.end()?,
            ("c", Some(tracking)) => tracking.compact(&mut agent)?,
            _ => self.call(&mut agent, call, bytes)?,
        }
        self.agent = Some(agent);
        Ok(())
    }

    /// A call of the agent alone.
    fn call(&mut self, agent: &mut Agent, call: &str, bytes: &[u8]) -> Result<(), Error> {
        match call {
            "r" => self.tell(CallOutcome::Received(agent.receive(NOW, bytes, false)?)),
            "m" | "j" => agent.merge(bytes, call == "j")?.iter().for_each(|event| self.tell_event(event)),
            "f" => self.tell(CallOutcome::Fired(agent.fire(bytes, b"", false)?)),
            "q" => {
                let params = QueryParams::default().timeout(TIMEOUT).want_ack(true);
                self.tell(CallOutcome::FiredQuery(agent.query(NOW, 7, bytes, b"", &params)?));
            }
            "p" => {
                if let Some(number) = self.asked.take() {
                    say(&format!("p {}", hex_of(&agent.respond(NOW, number, b"")?)));
                }
            }
            "c" => agent.compact()?,
            _ => agent.save_member_clock()?,
        }
        Ok(())
    }

    fn answer(&mut self, call: &str, word: &str) -> Result<(), Failure> {
        if ["open", "o", "O", "t", "close", "x"].contains(&call) {
            self.end();
        }
        match call {
            "open" => self.store = Some(Store::open(word).map_err(Error::from)?),
            "t" => {
                let (agent, tracking) = Tracking::open(word)?;
                (self.agent, self.tracking) = (Some(agent), Some(tracking));
            }
            "o" | "O" => {
                let settings = Settings::default().keep_events(call == "O").ignore_old(call == "O");
                self.agent = Some(Agent::open(b"host", word, settings)?);
            }
            "append" | "replace" => self.keep(call, &bytes_of(word))?,
            "close" | "x" => {}
            "b" => self.burst(word)?,
            _ => self.act(call, &bytes_of(word))?,
        }
        Ok(())
    }
}

fn main() {
    let mut host = Host::default();
    for line in std::io::stdin().lock().lines().map_while(Result::ok) {
        let (call, word) = line.split_once(' ').unwrap_or((&line, ""));
        say(if host.answer(call, word).is_ok() { "ok" } else { "Failed" });
    }
}
