//! Agents that keep the events of the last times, and the packets that they sent.

use crate::packets::{put_raw, put_time, read_event, EventView};
use crate::text::{copy, write, Error};

pub const LONGEST_TEXTS: usize = 9_216;

#[derive(Clone, Copy)]
pub enum Reason {
    Oversize,
    BelowMinimum,
    TooOld,
    Seen,
    TimeFull,
}

#[derive(Clone, Copy)]
pub enum Answer {
    Fired(u64),
    New,
    Injected,
    Ignored(Reason),
    Refused(&'static [u8]),
}

pub enum Action {
    Inject {
        bytes: Vec<u8>,
    },
    Fire {
        agent: u64,
        name: Vec<u8>,
        payload: Vec<u8>,
        coalesce: bool,
    },
    Deliver {
        agent: u64,
        packet: u64,
    },
}

pub struct EventOut {
    pub agent: u64,
    pub time: u64,
    pub name: Vec<u8>,
    pub payload: Vec<u8>,
    pub coalesce: bool,
}

/// The answer to an action, the packet that it sent, and the event that it handed out.
pub struct Line {
    pub answer: Answer,
    pub sent: Option<usize>,
    pub event: Option<EventOut>,
}

pub struct Slot {
    pub time: u64,
    pub events: Vec<(Vec<u8>, Vec<u8>)>,
}

pub struct Agent {
    pub clock: u64,
    pub minimum: u64,
    pub slot_count: u64,
    pub per_time: u64,
    pub is_stopped: bool,
    pub slots: Vec<Slot>,
}

#[derive(Default)]
pub struct World {
    pub agents: Vec<Agent>,
    pub packets: Vec<u8>,
    pub sent: Vec<(usize, usize)>,
}

impl Agent {
    pub fn reason(&self, event: &EventView) -> Option<Reason> {
        if event.name.len() > LONGEST_TEXTS
            || event.payload.len() > LONGEST_TEXTS - event.name.len()
        {
            return Some(Reason::Oversize);
        }
        if event.time < self.minimum {
            return Some(Reason::BelowMinimum);
        }
        let clock_after = self.clock.max(event.time + 1);
        if event.time < clock_after.saturating_sub(self.slot_count) {
            return Some(Reason::TooOld);
        }
        let slot = self.slots.get((event.time % self.slot_count) as usize)?;
        if event.time < slot.time {
            Some(Reason::TooOld)
        } else if slot.time < event.time {
            None
        } else if slot
            .events
            .iter()
            .any(|(name, payload)| payload == event.payload && name == event.name)
        {
            Some(Reason::Seen)
        } else if self.per_time <= slot.events.len() as u64 {
            Some(Reason::TimeFull)
        } else {
            None
        }
    }

    pub fn insert(&mut self, time: u64, name: &[u8], payload: &[u8]) -> Result<(), Error> {
        let place = (time % self.slot_count) as usize;
        if self.slots.len() <= place {
            self.slots.try_reserve(place + 1 - self.slots.len())?;
            self.slots.resize_with(place + 1, || Slot {
                time: 0,
                events: Vec::new(),
            });
        }
        let slot = &mut self.slots[place];
        if slot.time < time {
            slot.time = time;
            slot.events.clear();
        }
        slot.events.try_reserve(1)?;
        slot.events.push((copy(name)?, copy(payload)?));
        Ok(())
    }
}

pub fn answered(answer: Answer) -> Line {
    Line {
        answer,
        sent: None,
        event: None,
    }
}

impl World {
    /// Records that what is in `packets` from here on was sent. Returns its number.
    pub fn note_sent(&mut self, from: usize) -> Result<usize, Error> {
        self.sent.try_reserve(1)?;
        self.sent.push((from, self.packets.len()));
        Ok(self.sent.len() - 1)
    }

    fn inject(&mut self, bytes: &[u8]) -> Result<Line, Error> {
        let from = self.packets.len();
        write(&mut self.packets, bytes)?;
        let sent = Some(self.note_sent(from)?);
        Ok(Line {
            answer: Answer::Injected,
            sent,
            event: None,
        })
    }

    fn fire(
        &mut self,
        number: u64,
        name: &[u8],
        payload: &[u8],
        coalesce: bool,
    ) -> Result<Line, Error> {
        let Some(agent) = self.agents.get_mut(number as usize) else {
            return Ok(answered(Answer::Refused(b"NoAgent")));
        };
        if agent.is_stopped {
            return Ok(answered(Answer::Refused(b"Stopped")));
        }
        let time = agent.clock;
        agent.insert(time, name, payload)?;
        agent.clock += 1;
        let from = self.packets.len();
        self.packets.try_reserve(name.len() + payload.len() + 40)?;
        self.packets.extend_from_slice(b"\x03\x84\xa5LTime");
        put_time(&mut self.packets, time);
        self.packets.extend_from_slice(b"\xa4Name");
        put_raw(&mut self.packets, name);
        self.packets.extend_from_slice(b"\xa7Payload");
        put_raw(&mut self.packets, payload);
        self.packets.extend_from_slice(b"\xa2CC");
        self.packets.push(if coalesce { 0xc3 } else { 0xc2 });
        let sent = Some(self.note_sent(from)?);
        let event = EventOut {
            agent: number,
            time,
            name: copy(name)?,
            payload: copy(payload)?,
            coalesce,
        };
        Ok(Line {
            answer: Answer::Fired(time),
            sent,
            event: Some(event),
        })
    }

    fn deliver(&mut self, number: u64, packet: u64) -> Result<Line, Error> {
        let Some(agent) = self.agents.get_mut(number as usize) else {
            return Ok(answered(Answer::Refused(b"NoAgent")));
        };
        let Some((from, to)) = self.sent.get(packet as usize).copied() else {
            return Ok(answered(Answer::Refused(b"NoMessage")));
        };
        if agent.is_stopped {
            return Ok(answered(Answer::Refused(b"Stopped")));
        }
        let Some(event) = read_event(&self.packets[from..to]) else {
            return Ok(answered(Answer::Refused(b"Wire")));
        };
        let reason = agent.reason(&event);
        agent.clock = agent.clock.max(event.time + 1);
        if let Some(reason) = reason {
            return Ok(answered(Answer::Ignored(reason)));
        }
        agent.insert(event.time, event.name, event.payload)?;
        let (name, payload) = (copy(event.name)?, copy(event.payload)?);
        let event = EventOut {
            agent: number,
            time: event.time,
            name,
            payload,
            coalesce: event.coalesce,
        };
        self.sent.try_reserve(1)?;
        self.sent.push((from, to));
        Ok(Line {
            answer: Answer::New,
            sent: Some(self.sent.len() - 1),
            event: Some(event),
        })
    }

    pub fn step(&mut self, action: &Action) -> Result<Line, Error> {
        match action {
            Action::Inject { bytes } => self.inject(bytes),
            Action::Fire {
                agent,
                name,
                payload,
                coalesce,
            } => self.fire(*agent, name, payload, *coalesce),
            Action::Deliver { agent, packet } => self.deliver(*agent, *packet),
        }
    }
}
