"""Agents that keep their events, through the binding in Python: prints a line `FAILED ..` for each check that fails, and
'N passed, M failed'.

    keep.py FOLDER
"""

import os
import sys

sys.path.insert(0, os.path.join(os.path.dirname(os.path.abspath(__file__)), "..", "..", "..", "bindings", "python"))
from serf_agent import Agent, Ignored, ReceivedEvent, Settings

FOLDER = sys.argv[1]
KEEPS = Settings(event_buffer=8, query_buffer=8, keep_events=True)
KEEPS_NOT = Settings(event_buffer=8, query_buffer=8)
NEW, SEEN, BELOW = "NEW", "SEEN", "BELOW_MINIMUM"
passed = failed = 0


def check(name, found, wanted):
    global passed, failed
    if found == wanted:
        passed += 1
    else:
        failed += 1
        print(f"FAILED {name}: {found!r}, expected {wanted!r}")


def path(name):
    return os.path.join(FOLDER, name)


def text(name):
    with open(path(name), "rb") as file:
        return file.read()


def packets():
    """Another agent's events of the times from 1 on, named e1 and so on, by their times."""
    with Agent(b"other", path("other")) as agent:
        return {time: agent.fire(b"e%d" % time).packet for time in range(1, 10)}


PACKETS = packets()


def receive(agent, time):
    """The result of the event of this time: NEW, or why it is ignored."""
    received = agent.receive(1, PACKETS[time])
    if isinstance(received, Ignored):
        return received.reason.name
    return NEW if isinstance(received, ReceivedEvent) else received


def life(what, name, settings, events):
    """A life on a file, which ends as if killed; and the result of each event in it."""
    with Agent(b"keeps", path(name), settings) as agent:
        check(what, [(time, receive(agent, time)) for time, _ in events], events)


def goes_on():
    life("the first life", "keeps", KEEPS, [(3, NEW), (1, NEW), (3, SEEN)])
    check("the lines", text("keeps"), b"event-clock: 03\n#event 3 6533 \n#event 1 6531 \n")
    life("a life that continues", "keeps", KEEPS, [(3, SEEN), (1, SEEN), (2, NEW), (2, SEEN)])
    check("one line more", text("keeps"), b"event-clock: 03\n#event 3 6533 \n#event 1 6531 \n#event 2 6532 \n")


def without():
    check("the setting that is left out", Settings().keep_events, False)
    life("a life without", "today", KEEPS_NOT, [(3, NEW), (1, NEW)])
    check("its line", text("today"), b"event-clock: 3\n")
    life("a life that begins above", "today", KEEPS_NOT, [(3, BELOW), (2, BELOW)])


def torn():
    lines = b"event-clock: 03\n#event 3 6533 \nevent-clock: 05\n#event 5 65"
    with open(path("torn"), "wb") as file:
        file.write(lines)
    life("a torn line", "torn", KEEPS, [(3, SEEN), (5, NEW), (4, NEW)])
    check("what ends it", text("torn"), lines + b"#\n#event 5 6535 \n#event 4 6534 \n")


def on_and_off():
    life("without", "both", KEEPS_NOT, [(3, NEW)])
    life("with", "both", KEEPS, [(2, BELOW), (5, NEW)])
    life("without again", "both", KEEPS_NOT, [(4, BELOW), (7, NEW)])
    life("with again", "both", KEEPS, [(6, BELOW), (8, NEW), (9, NEW)])
    life("and on", "both", KEEPS, [(8, SEEN), (9, SEEN)])


def compacted():
    with Agent(b"keeps", path("compacted"), KEEPS) as agent:
        check("events", [receive(agent, time) for time in (3, 1)], [NEW, NEW])
        agent.compact()
    check(
        "what a compaction keeps",
        text("compacted"),
        b"#least event-clock: 1\n#event 1 6531 \n#event 3 6533 \n#least query-clock: 1\nevent-clock: 03\n",
    )
    life("after a compaction", "compacted", KEEPS, [(1, SEEN), (3, SEEN), (2, NEW)])


def bursts():
    with Agent(b"keeps", path("burst"), KEEPS) as agent, agent.burst() as burst:
        for time in (3, 2, 3):
            burst.receive(1, PACKETS[time])
    check("a burst's lines", text("burst"), b"event-clock: 03\n#event 3 6533 \n#event 2 6532 \n")
    life("after a burst", "burst", KEEPS, [(3, SEEN), (2, SEEN), (1, NEW)])


for part in (goes_on, without, torn, on_and_off, compacted, bursts):
    part()
print(f"{passed} passed, {failed} failed")
sys.exit(1 if failed else 0)
