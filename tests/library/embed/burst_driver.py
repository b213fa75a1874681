"""Bursts in Python, some of which run out of memory, as described in burst_driver.c."""

import os
import sys

sys.dont_write_bytecode = True
sys.path.insert(0, os.path.join(os.path.dirname(os.path.abspath(__file__)), "..", "..", "..", "bindings", "python"))
from serf_agent import (
    Agent,
    AgentError,
    Code,
    Fired,
    FiredQuery,
    Foreign,
    Ignored,
    ReceivedAck,
    ReceivedEvent,
    ReceivedQuery,
    ReceivedResponse,
)


def query_line(name, handed, ack):
    words = [name]
    if handed is not None:
        words += [str(handed.time), handed.name.decode(), "handed"]
    return words + (["acked"] if ack is not None else [])


def words_of(outcome):
    if isinstance(outcome, AgentError):
        return ["refused", str(outcome.code.value)]
    if isinstance(outcome, Fired):
        return ["fired", str(outcome.event.time), outcome.event.name.decode()]
    if isinstance(outcome, FiredQuery):
        return query_line("asked", outcome.query, outcome.ack)
    if isinstance(outcome, ReceivedEvent):
        words = ["event", str(outcome.event.time), outcome.event.name.decode()]
    elif isinstance(outcome, ReceivedQuery):
        words = query_line("query", outcome.query, outcome.ack)
    elif isinstance(outcome, ReceivedAck):
        words = ["ack", outcome.answer.sender.decode()]
    elif isinstance(outcome, ReceivedResponse):
        words = ["response", outcome.answer.sender.decode(), outcome.answer.payload.decode()]
    elif isinstance(outcome, Ignored):
        words = ["ignored", str(outcome.reason.value)]
    elif isinstance(outcome, Foreign):
        words = ["foreign", str(outcome.message_type)]
    else:
        words = ["state"]
    return words + (["sent on"] if outcome.rebroadcast else [])


def run_burst(agent, fill):
    """A burst whose outcomes are printed."""
    burst, end = agent.burst(), "ok"
    try:
        with burst:
            fill(burst)
    except AgentError as error:
        if error.code is not Code.OUT_OF_MEMORY:
            raise
        end = f"out of memory {len(burst.outcomes)}"
        burst.read()
    if agent.unread_outcomes():
        raise RuntimeError("outcomes are left")
    for outcome in burst.outcomes:
        print(*words_of(outcome))
    print(end)
    return burst.outcomes


def run_out_of_memory(third, events, load):
    def fill(burst, filter):
        for packet in events:
            burst.receive(5, packet)
        burst.receive(5, load)
        burst.fire(b"own")
        burst.query(5, 9, b"load", timeout=9, want_ack=True, filters=[filter])
        burst.receive(5, events[0])

    for filter in (b"\0\x91\xa5other", b"\0\x91\xa5third"):
        run_burst(third, lambda burst: fill(burst, filter))


def receive_all(one, other, events, load, whole):
    def fill(burst):
        for packet in (events[0], b"", events[1], events[0], b"\x03\x81\xa5LTim", load, b"\0", whole):
            burst.receive(5, packet)
        burst.fire(b"own")
        burst.fire(b"\0" * 600)
        burst.query(5, 9, b"load", timeout=0, want_ack=True)
        burst.query(5, 9, b"load", timeout=9, want_ack=True, filters=[b"\0\x91\xa5other"])
        burst.receive(5, events[2])

    outcomes = run_burst(other, fill)
    reply = other.respond(5, outcomes[5].query.number, b"yes")
    run_burst(one, lambda burst: None)

    def answers(burst):
        for packet in (reply, reply):
            burst.receive(5, packet)
        for _ in range(5):
            burst.fire(b"again")

    run_burst(one, answers)


def main():
    paths = (os.path.join(sys.argv[1], name + ".snapshot") for name in ("one", "third", "other"))
    with Agent(b"one", next(paths)) as one:
        events = [one.fire(b"e%d" % number).packet for number in range(5)]
        load = one.query(1, 8, b"load", timeout=1000, want_ack=True).packet
        whole = one.local_state()
        with Agent(b"third", next(paths)) as third:
            run_out_of_memory(third, events, load)
        with Agent(b"other", next(paths)) as other:
            receive_all(one, other, events, load, whole)


if __name__ == "__main__":
    main()
