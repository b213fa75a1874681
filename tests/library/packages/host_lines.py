"""Programs around the lines of hosts that docs/HOST.md shows: each fires `deploy v1` at an agent beta, and passes its packet to those
lines, whose handler prints what it is handed. The one in Go is a node of a cluster, and is only compiled."""

import textwrap

import pages

# The first words of each language's lines, as in tests/pages.py.
BEGINS = {"c": "serf_agent_receive(&agent,", "python": "with", "rust": "let", "go": "node,"}

SAYS = "deploy v1\n"

AROUND = {
    "c": """#include <serf_agent_store.h>
#include <stdio.h>
#include <stdlib.h>

static const struct serf_agent_settings settings = {512, 512, 512, 1024, 1024, 1024, 1024, false, false};

static void handle(const struct serf_agent_event *event, const uint8_t *name, const uint8_t *payload) {
    printf("%.*s %.*s\\n", (int)event->name_len, (const char *)name, (int)event->payload_len, (const char *)payload);
}

static void begin(struct serf_agent_store *store, struct serf_agent *agent, const char *path) {
    uint8_t *text;
    size_t len;
    if (serf_agent_store_open(store, path) || serf_agent_store_read(store, &text, &len) ||
        serf_agent_open(agent, (const uint8_t *)"a", 1, &settings, text, len) || serf_agent_store_settle(store, agent))
        exit(1);
    free(text);
}

int main(void) {
    struct serf_agent_store store = {0}, others = {0};
    struct serf_agent agent = {0}, other = {0};
    struct serf_agent_event event;
    uint8_t name[512], payload[512], packet[1024];
    size_t length;
    uint64_t now = 1;
    begin(&others, &other, "beta.snapshot");
    begin(&store, &agent, "alpha.snapshot");
    if (serf_agent_fire(&other, (const uint8_t *)"deploy", 6, (const uint8_t *)"v1", 2, false) ||
        serf_agent_store_settle(&others, &other) || serf_agent_packet(&other, &length, packet, sizeof packet))
        return 1;
LINES
    return 0;
}
""",
    "python": """from serf_agent import Agent, Event, ReceivedEvent

with Agent(b"beta", "beta.snapshot") as other:
    packet = other.fire(b"deploy", b"v1").packet
now = 1


def handle(event: Event) -> None:
    print(event.name.decode(), event.payload.decode())


LINES
""",
    "rust": """use serf_agent::{Agent, Error, Event, Outcome, Settings};
use std::time::Duration;

fn handle(event: Event) {
    println!("{} {}", String::from_utf8_lossy(&event.name), String::from_utf8_lossy(&event.payload));
}

fn main() -> Result<(), Error> {
    let packet = Agent::open(b"beta", "beta.snapshot", Settings::default())?.fire(b"deploy", b"v1", false)?.packet;
    let now = Duration::from_nanos(1);
LINES
    Ok(())
}
""",
    "go": """package main

import (
	"fmt"

	"kitchenrue.example/serf"
)

func main() {
	events, config := make(chan serf.Event), serf.DefaultConfig()
	config.EventCh, config.SnapshotPath = events, "alpha.snapshot"
	go func() {
		for event := range events {
			fmt.Println(event)
		}
	}()
LINES
	fmt.Println(err)
}
""",
}


def program(language):
    """The program around the page's lines."""
    (lines,) = [block for _, block in pages.blocks("docs/HOST.md") if block.split()[0] == BEGINS[language]]
    return AROUND[language].replace("LINES\n", lines if language == "python" else textwrap.indent(lines, "    "))
