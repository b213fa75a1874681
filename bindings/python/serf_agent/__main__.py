"""Two agents in one process, which the program joins by hand. An event is fired and arrives twice. Its receiver crashes and
restarts, and nothing is handed out twice. Then a query is answered and closed.

    python -m serf_agent [FOLDER]

The two snapshots are in FOLDER. If they exist already, the agents resume from them. Without FOLDER they are in a temporary
folder.
"""

import os
import sys
import tempfile
from typing import Iterable, List

from . import Agent, Event, Ignored, NotLoaded, ReceivedEvent, ReceivedQuery, StoreError


def handle(agent: str, events: Iterable[Event]) -> None:
    """The handler of events. It prints them."""
    for event in events:
        print(f"{agent} handed out {event.name.decode()} {event.payload.decode()} at {event.time}")


def join(names: List[str], agents: List[Agent], joiner: int, other: int) -> None:
    """One agent merges the state of the other, as in a join, and handles the events."""
    handle(names[joiner], agents[joiner].merge(agents[other].local_state(), join=True))
    print(f"{names[joiner]} joined {names[other]}")


def deliver(name: str, agent: Agent, now: int, packet: bytes) -> None:
    """Passes a packet to an agent, and handles the event that it hands out."""
    received = agent.receive(now, packet)
    if isinstance(received, ReceivedEvent):
        handle(name, [received.event])
    if isinstance(received, Ignored):
        print(f"{name} ignored it: {received.reason.name.lower().replace('below_', 'below the ')}")


def fire(name: str, agent: Agent, event: bytes, payload: bytes) -> bytes:
    """Fires an event, handles it here, and returns its packet."""
    fired = agent.fire(event, payload)
    handle(name, [fired.event])
    return fired.packet


def ask(querier: Agent, answerer: Agent, now: int, name: bytes, answer: bytes) -> None:
    """One agent fires a query, and the other acks and answers it."""
    received = answerer.receive(now, querier.query(now, 7, name, timeout=1000, want_ack=True).packet)
    if isinstance(received, ReceivedQuery) and received.query and received.ack:
        querier.receive(now, received.ack)
        querier.receive(now, answerer.respond(now, received.query.number, answer))


def close_due(name: str, agent: Agent, now: int) -> None:
    """Closes the queries that are due, and prints their answers."""
    for closed in agent.close_due(now):
        for node in closed.acks:
            print(f"{node.decode()} acked the query of {name}")
        for answer in closed.responses:
            print(f"{answer.sender.decode()} answered {answer.payload.decode()}")


def run(folder: str) -> None:
    """Runs the two agents, with their snapshots in a folder."""
    names = ["alpha", "beta"]
    paths = [os.path.join(folder, name + ".snapshot") for name in names]
    with Agent(b"alpha", paths[0]) as alpha:
        with Agent(b"beta", paths[1]) as beta:
            join(names, [alpha, beta], 0, 1)
            join(names, [alpha, beta], 1, 0)
            packet = fire("alpha", alpha, b"deploy", b"v1.2")
            deliver("beta", beta, 1, packet)
            deliver("beta", beta, 2, packet)
        # beta has crashed: only its file is left
        with Agent(b"beta", paths[1]) as beta:
            print(f"beta crashed, and is back at {beta.clocks().event}")
            deliver("beta", beta, 3, packet)
            packet = fire("beta", beta, b"rollback", b"v1.1")
            deliver("alpha", alpha, 4, packet)
            ask(alpha, beta, 5, b"load", b"0.12")
            close_due("alpha", alpha, 1006)


def main() -> int:
    if len(sys.argv) > 2 or sys.argv[1:2] in (["-h"], ["--help"]):
        print("python -m serf_agent [FOLDER]", file=sys.stderr)
        return 2
    try:
        if len(sys.argv) == 2:
            run(sys.argv[1])
        else:
            with tempfile.TemporaryDirectory(prefix="serf_agent-") as folder:
                run(folder)
    except (NotLoaded, StoreError) as why:
        print(why, file=sys.stderr)
        return 3
    return 0


if __name__ == "__main__":
    sys.exit(main())
