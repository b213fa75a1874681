//! What the host notes of the handlers of its events, and the lines about them (docs/HOST.md, "What was handed out and isn't done").
//!
//! POWER_CUTS_FAULT names a bug of it, as handled.py lists them.

use serf_agent::{begun_line, done_line, done_up_to_line, open_events, open_line, Agent, Error, Event, OpenEvent, Settings};
use std::fs::{self, File, OpenOptions};
use std::io::{self, Write};
use std::path::{Path, PathBuf};

/// Why a line can't be made or written.
pub enum Failure {
    Refused(Error),
    System(io::Error),
}

impl From<Error> for Failure {
    fn from(error: Error) -> Self {
        Failure::Refused(error)
    }
}

impl From<io::Error> for Failure {
    fn from(error: io::Error) -> Self {
        Failure::System(error)
    }
}

/// An event that was handed out and isn't done.
struct Open {
    time: u64,
    name: Vec<u8>,
    payload: Vec<u8>,
    has_begun: bool,
}

impl Open {
    fn print(&self, word: &str) {
        crate::say(&format!("{word} {} {}", self.time, crate::hex_of(&self.name)));
    }

    fn line(&self, line: impl Fn(u64, &[u8], &[u8]) -> Result<Vec<u8>, Error>) -> Result<Vec<u8>, Error> {
        line(self.time, &self.name, &self.payload)
    }
}

impl From<OpenEvent> for Open {
    fn from(event: OpenEvent) -> Self {
        Open { time: event.time, name: event.name, payload: event.payload, has_begun: event.begun }
    }
}

/// The open events, in the order in which they were handed out, and the file.
pub struct Tracking {
    path: PathBuf,
    file: File,
    open: Vec<Open>,
}

fn is_fault(name: &str) -> bool {
    std::env::var("POWER_CUTS_FAULT").as_deref() == Ok(name)
}

fn opened(path: &Path) -> io::Result<File> {
    OpenOptions::new().append(true).open(path)
}

impl Tracking {
    /// Opens an agent that keeps its events, and whose handlers are tracked.
    pub fn open(path: &str) -> Result<(Agent, Tracking), Failure> {
        let mut agent = Agent::open(b"host", path, Settings::default().event_buffer(8).keep_events(true))?;
        // (the agent has locked the file, and flushed it)
        let found = open_events(&fs::read(path)?)?;
        let says_of_handlers = found.is_some();
        let open: Vec<Open> = found.unwrap_or_default().into_iter().map(Open::from).collect();
        open.iter().for_each(|event| event.print(if event.has_begun { "u" } else { "w" }));
        let mut tracking = Tracking { path: path.into(), file: opened(Path::new(path))?, open };
        if !says_of_handlers {
            let line = done_up_to_line(agent.clocks()?.event)?;
            tracking.file.write_all(&line)?;
            tracking.file.sync_data()?;
        }
        Ok((agent, tracking))
    }

    pub fn hand_out(&mut self, event: &Event) {
        self.open.push(Open { time: event.time, name: event.name.clone(), payload: event.payload.clone(), has_begun: false });
    }

    /// Begins the handler of the first event that waits, after the flush of its line.
    pub fn begin(&mut self) -> Result<(), Failure> {
        let Some(event) = self.open.iter_mut().find(|event| !event.has_begun) else { return Ok(()) };
        let mut lines = event.line(begun_line)?;
        if is_fault("done_first") {
            lines.extend(event.line(done_line)?);
        }
        self.file.write_all(&lines)?;
        let flushed = if is_fault("begun_unflushed") { Ok(()) } else { self.file.sync_data() };
        if !is_fault("begun_error") {
            flushed?;
        }
        event.has_begun = true;
        event.print("b");
        Ok(())
    }

    /// Ends the handler that began first.
    pub fn end(&mut self) -> Result<(), Failure> {
        let Some(place) = self.open.iter().position(|event| event.has_begun) else { return Ok(()) };
        let event = self.open.remove(place);
        event.print("d");
        if !is_fault("done_first") && !is_fault("done_missing") {
            self.file.write_all(&event.line(done_line)?)?;
        }
        Ok(())
    }

    /// The lines that follow the agent's in a text that replaces the file's.
    fn open_lines(&self, agent: &mut Agent) -> Result<Vec<u8>, Error> {
        let mut text = done_up_to_line(agent.clocks()?.event - 1)?;
        let mut events: Vec<&Open> = self.open.iter().filter(|_| !is_fault("compaction_drops")).collect();
        if is_fault("compaction_reverses") {
            events.reverse();
        }
        for event in events {
            text.extend(event.line(open_line)?);
            if event.has_begun && !is_fault("compaction_forgets_begun") {
                text.extend(event.line(begun_line)?);
            }
        }
        Ok(text)
    }

    pub fn compact(&mut self, agent: &mut Agent) -> Result<(), Failure> {
        let lines = self.open_lines(agent)?;
        let is_in_two_steps = is_fault("compaction_in_two_steps");
        agent.compact_with(if is_in_two_steps { b"" } else { &lines })?;
        self.file = opened(&self.path)?;
        if is_in_two_steps {
            self.file.write_all(&lines)?;
            self.file.sync_data()?;
        }
        Ok(())
    }
}
