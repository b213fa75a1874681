//! Two agents in one process, which the program joins by hand. An event is fired and arrives twice. Its receiver crashes and
//! restarts, and nothing is handed out twice. Then a query is answered and closed.
//!
//!     cargo run --example two_agents FOLDER
//!
//! The two snapshots are in FOLDER. If they exist already, the agents resume from them.

use serf_agent::{Agent, Error, Event, Outcome, QueryParams, Reason, Settings};
use std::path::Path;
use std::time::Duration;

/// A moment in nanoseconds. A real host passes `start.elapsed()` of an `Instant`.
const fn at(nanos: u64) -> Duration {
    Duration::from_nanos(nanos)
}

struct Node {
    name: &'static str,
    agent: Agent,
}

impl Node {
    fn open(name: &'static str, folder: &Path) -> Result<Node, Error> {
        let path = folder.join(format!("{name}.snapshot"));
        Ok(Node { name, agent: Agent::open(name.as_bytes(), path, Settings::default())? })
    }

    /// The handler of events. It prints the event.
    fn handle(&self, event: &Event) {
        let (name, payload) = (String::from_utf8_lossy(&event.name), String::from_utf8_lossy(&event.payload));
        println!("{} handed out {name} {payload} at {}", self.name, event.time);
    }

    /// Merges the other node's state, as a join does, and handles the events.
    fn join(&mut self, other: &mut Node) -> Result<(), Error> {
        let state = other.agent.local_state(&[], &[])?;
        for event in self.agent.merge(&state, true)? {
            self.handle(&event);
        }
        println!("{} joined {}", self.name, other.name);
        Ok(())
    }

    /// Fires an event, handles it here, and returns its packet.
    fn fire(&mut self, name: &str, payload: &str) -> Result<Vec<u8>, Error> {
        let fired = self.agent.fire(name.as_bytes(), payload.as_bytes(), false)?;
        self.handle(&fired.event);
        Ok(fired.packet)
    }

    /// Passes a packet to this node, and handles the event that it hands out.
    fn deliver(&mut self, now: Duration, packet: &[u8]) -> Result<(), Error> {
        match self.agent.receive(now, packet, false)?.outcome {
            Outcome::Event(event) => self.handle(&event),
            Outcome::Ignored(Reason::Seen) => println!("{} ignored it: seen", self.name),
            Outcome::Ignored(Reason::BelowMinimum) => println!("{} ignored it: below the minimum", self.name),
            other => println!("{} got {other:?}", self.name),
        }
        Ok(())
    }

    /// This node fires a query, and the other acks and answers it.
    fn ask(&mut self, answerer: &mut Node, now: Duration, name: &str, answer: &str) -> Result<(), Error> {
        let params = QueryParams::default().timeout(at(1000)).want_ack(true);
        let fired_query = self.agent.query(now, 7, name.as_bytes(), b"", &params)?;
        if let Outcome::Query { handed: Some(query), ack: Some(ack) } = answerer.agent.receive(now, &fired_query.packet, false)?.outcome {
            self.agent.receive(now, &ack, false)?;
            let response = answerer.agent.respond(now, query.number, answer.as_bytes())?;
            self.agent.receive(now, &response, false)?;
        }
        Ok(())
    }

    /// Closes the queries that are due, and prints their answers.
    fn close_due(&mut self, now: Duration) -> Result<(), Error> {
        for closed in self.agent.close_due(now)? {
            for node in &closed.acks {
                println!("{} acked the query of {}", String::from_utf8_lossy(node), self.name);
            }
            for answer in &closed.responses {
                println!("{} answered {}", String::from_utf8_lossy(&answer.from), String::from_utf8_lossy(&answer.payload));
            }
        }
        Ok(())
    }
}

fn main() {
    let result = std::env::args().nth(1).ok_or_else(|| "two_agents FOLDER".into()).and_then(|folder| run(Path::new(&folder)));
    if let Err(error) = result {
        eprintln!("{error}");
        std::process::exit(1);
    }
}

/// Runs the two nodes, with their snapshots in a folder.
fn run(folder: &Path) -> Result<(), Box<dyn std::error::Error>> {
    let mut alpha = Node::open("alpha", folder)?;
    let mut beta = Node::open("beta", folder)?;
    alpha.join(&mut beta)?;
    beta.join(&mut alpha)?;

    let packet = alpha.fire("deploy", "v1.2")?;
    beta.deliver(at(1), &packet)?;
    beta.deliver(at(2), &packet)?;

    // beta has crashed: only its file is left.
    drop(beta);
    let mut beta = Node::open("beta", folder)?;
    println!("beta crashed, and is back at {}", beta.agent.clocks()?.event);
    beta.deliver(at(3), &packet)?;

    let packet = beta.fire("rollback", "v1.1")?;
    alpha.deliver(at(4), &packet)?;

    alpha.ask(&mut beta, at(5), "load", "0.12")?;
    alpha.close_due(at(1006))?;
    Ok(())
}
