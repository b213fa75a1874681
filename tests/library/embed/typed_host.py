"""A typed host in Python, which handles each result of a packet and of a burst by its class. tests/repository/linters.py has mypy read
it strictly. It prints `FAILED ..` for each check that fails, and 'N passed, M failed'.

    typed_host.py FOLDER
"""

import os
import pathlib
import sys
from typing import List, NoReturn

sys.path.insert(0, os.path.join(os.path.dirname(os.path.abspath(__file__)), "..", "..", "..", "bindings", "python"))
from serf_agent import Agent, AgentError, CallOutcome, Fired, FiredQuery, Foreign, Ignored, Received, ReceivedAck, ReceivedEvent
from serf_agent import ReceivedPushPull, ReceivedQuery, ReceivedResponse


def never(outcome: NoReturn) -> NoReturn:
    """mypy refuses a call of this if a class was forgotten."""
    raise AssertionError(outcome)


def words_of_received(received: Received) -> str:
    if isinstance(received, ReceivedEvent):
        return f"event {received.event.name.decode()}"
    if isinstance(received, ReceivedQuery):
        return f"query {received.query.name.decode() if received.query else 'for others'}"
    if isinstance(received, ReceivedAck):
        return f"ack of {received.answer.sender.decode()}"
    if isinstance(received, ReceivedResponse):
        return f"response {received.answer.payload.decode()}"
    if isinstance(received, ReceivedPushPull):
        return "push/pull"
    if isinstance(received, Ignored):
        return f"ignored: {received.reason.text}"
    if isinstance(received, Foreign):
        return f"foreign {received.message_type}"
    never(received)


def words_of(outcome: CallOutcome) -> str:
    if isinstance(outcome, Fired):
        return f"fired {outcome.event.name.decode()}"
    if isinstance(outcome, FiredQuery):
        return f"fired the query of time {outcome.time}"
    if isinstance(outcome, AgentError):
        return f"refused: {outcome.code.text}"
    return words_of_received(outcome)


def run(folder: pathlib.Path) -> List[str]:
    """What each outcome is, in the order of the calls."""
    with Agent(b"a", folder / "a") as one, Agent(b"b", folder / "b") as other:
        event, query = one.fire(b"deploy").packet, one.query(1, 7, b"load", want_ack=True).packet
        with other.burst() as burst:
            for packet in (event, event, query, one.query(1, 8, b"load", filters=[b"\0\x90"]).packet, one.local_state(), b"\1\x80", b""):
                burst.receive(1, packet)
            burst.fire(b"own")
            burst.query(1, 9, b"own")
        said = [words_of(outcome) for outcome in burst.outcomes]
        handed = burst.outcomes[2]
        if isinstance(handed, ReceivedQuery) and handed.query and handed.ack:
            said.append(words_of_received(one.receive(2, handed.ack)))
            said.append(words_of_received(one.receive(2, other.respond(2, handed.query.number, b"0.12"))))
        return said


WANTED = [
    "event deploy",
    "ignored: the same event or query was accepted before",
    "query load",
    "query for others",
    "push/pull",
    "foreign 1",
    "refused: the packet is not a Serf message",
    "fired own",
    "fired the query of time 3",
    "ack of b",
    "response 0.12",
]

if __name__ == "__main__":
    found = run(pathlib.Path(sys.argv[1]))
    if found != WANTED:
        print(f"FAILED a typed host: {found}")
    print("1 passed, 0 failed" if found == WANTED else "0 passed, 1 failed")
    sys.exit(found != WANTED)
