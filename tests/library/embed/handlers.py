"""The lines about handlers and the events that a text leaves open, through the binding in Python: prints `FAILED ..` for each check that
fails, and 'N passed, M failed'.

    handlers.py FOLDER
"""

import os
import sys

sys.path.insert(0, os.path.join(os.path.dirname(os.path.abspath(__file__)), "..", "..", "..", "bindings", "python"))
from serf_agent import Agent, AgentError, Code, OpenEvent, Settings, begun_line, done_line, done_up_to_line, open_events, open_line

passed = failed = 0

LAST = 2**64 - 1


def check(name, found, wanted):
    global passed, failed
    if found == wanted:
        passed += 1
    else:
        failed += 1
        print(f"FAILED {name}: {found}, expected {wanted}")


def refused(name, wanted, call, *words):
    """A call that has to be refused: with this code, or with this error."""
    try:
        found = call(*words)
    except AgentError as error:
        found = error.code
    except (TypeError, OverflowError) as error:
        found = type(error)
    check(name, found, wanted)


def lines():
    for name, line, wanted in (
        ("open_line", open_line(3, b"deploy", b"v1"), b"#open 3 6465706c6f79 7631\n"),
        ("begun_line", begun_line(3, b"deploy", b"v1"), b"#begun 3 6465706c6f79 7631\n"),
        ("done_line", done_line(3, b"deploy", b"v1"), b"#done 3 6465706c6f79 7631\n"),
        ("done_up_to_line", done_up_to_line(3), b"#done 3\n"),
        ("no name and no payload", begun_line(0, b"", bytearray()), b"#begun 0  \n"),
    ):
        check(name, line, wanted)
    for call in (open_line, begun_line, done_line):
        refused(f"{call.__name__}: no time", Code.EXHAUSTED, call, LAST, b"a", b"b")
        refused(f"{call.__name__}: a number that doesn't fit", OverflowError, call, -1, b"a", b"b")
        refused(f"{call.__name__}: a text that isn't bytes", TypeError, call, 1, "a", b"b")
        refused(f"{call.__name__}: a payload that isn't bytes", TypeError, call, 1, b"a", 5)
    refused("done_up_to_line: no time", Code.EXHAUSTED, done_up_to_line, LAST)
    refused("done_up_to_line: a number that doesn't fit", OverflowError, done_up_to_line, LAST + 1)
    refused("open_events: a text that isn't bytes", TypeError, open_events, "text")


def texts():
    start = done_up_to_line(0)
    both = start + open_line(1, b"one", b"") + open_line(2, b"two", b"payload")
    one, two = OpenEvent(1, b"one", b"", False), OpenEvent(2, b"two", b"payload", False)
    for name, text, wanted in (
        ("no text", b"", None),
        ("a text without this line", open_line(1, b"one", b""), None),
        ("nothing is open", start, []),
        ("two are open", both, [one, two]),
        ("one has begun", both + begun_line(1, b"one", b""), [OpenEvent(1, b"one", b"", True), two]),
        ("one is done", both + done_line(1, b"one", b""), [two]),
        ("all are done", both + done_up_to_line(2), []),
        ("those of a time are done", both + done_up_to_line(1), [two]),
        ("another view of the text", memoryview(both), [one, two]),
    ):
        check(name, open_events(text), wanted)


def of_agent(folder):
    """An agent's own file: what it was handed is open until a line says that it is done."""
    path = os.path.join(folder, "alpha.snapshot")

    def left():
        with open(path, "rb") as file:
            return open_events(file.read())

    with Agent(b"alpha", path, Settings(keep_events=True)) as agent:
        agent.fire(b"before", b"")
    check("the file says nothing of handlers", left(), None)
    with open(path, "ab") as file:
        file.write(done_up_to_line(1))
    with Agent(b"alpha", path, Settings(keep_events=True)) as agent:
        event = agent.fire(b"deploy", b"v1").event
    check("the agent skips the line", event.time, 2)
    check("the event is open", left(), [OpenEvent(2, b"deploy", b"v1", False)])
    with open(path, "ab") as file:
        file.write(begun_line(event.time, event.name, event.payload))
    check("its handler has begun", left(), [OpenEvent(2, b"deploy", b"v1", True)])
    with open(path, "ab") as file:
        file.write(done_line(event.time, event.name, event.payload))
    check("it is done", left(), [])
    with Agent(b"alpha", path, Settings(keep_events=True)) as agent:
        agent.compact(done_up_to_line(2) + open_line(2, b"deploy", b"v1"))
        refused("compact: lines that aren't bytes", TypeError, agent.compact, "text")
        check("the host's lines follow the agent's", left(), [OpenEvent(2, b"deploy", b"v1", False)])
        agent.compact()
    check("no line of the host is left", left(), None)


lines()
texts()
of_agent(sys.argv[1])
print(f"{passed} passed, {failed} failed")
sys.exit(1 if failed else 0)
