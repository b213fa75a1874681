"""Bad input through the binding in Python: prints a line `FAILED ..` for each check that fails, and 'N passed, M failed'.

    bad_input.py FOLDER
"""

import os
import sys

sys.path.insert(0, os.path.join(os.path.dirname(os.path.abspath(__file__)), "..", "..", "..", "bindings", "python"))
from serf_agent import Agent, AgentError, Answer, Closed, Code, DEFAULT_QUERY_TIMEOUT, Foreign, Ignored, Locked, MissingFolder, NotAFile
from serf_agent import packet_error, PacketError, PacketErrorKind, Reason, ReceivedAck, ReceivedEvent, ReceivedPushPull, ReceivedQuery
from serf_agent import ReceivedResponse, Settings

FOLDER = sys.argv[1]
passed = failed = 0


def check(name, holds, said=""):
    global passed, failed
    if holds:
        passed += 1
    else:
        failed += 1
        print(f"FAILED {name}: {said}")


def refused(name, wanted, call, *words, **more):
    """A call that has to be refused: with this code, or with this error."""
    try:
        said = call(*words, **more)
    except AgentError as error:
        said = error.code
    except Exception as error:
        said = type(error)
    check(name, said == wanted, f"{said}, expected {wanted}")


def in_words(name, wanted, call, *words, **named):
    """A call is refused with these words."""
    try:
        call(*words, **named)
        said = None
    except Exception as error:
        said = str(error)
    check(name, said == wanted, f"{said}, expected {wanted!r}")


def path(name):
    return os.path.join(FOLDER, name)


def openings():
    refused("no name", Code.BAD_CONFIG, Agent, b"", path("a"))
    refused("no slots", Code.BAD_CONFIG, Agent, b"a", path("a"), Settings(event_buffer=0))
    for limit in (9217, (1 << 64) - 1):
        refused(f"a limit of queries of {limit}", Code.BAD_CONFIG, Agent, b"a", path("a"), Settings(query_limit=limit))
        refused(f"a limit of responses of {limit}", Code.BAD_CONFIG, Agent, b"a", path("a"), Settings(response_limit=limit))
    refused("a folder", NotAFile, Agent, b"a", FOLDER)
    refused("no folder", MissingFolder, Agent, b"a", path("none/a"))
    with Agent(b"a", path("a")) as agent:
        refused("twice", Locked, Agent, b"a", path("a"))
        check("the first continues", agent.fire(b"x").event.time == 1)
    refused("closed", Code.EMPTY, agent.fire, b"x")
    agent.close()


def events():
    with Agent(b"a", path("b")) as one, Agent(b"b", path("c")) as other:
        refused("too large", Code.TOO_LARGE, one.fire, b"x" * 513)
        fired = one.fire(b"x", b"\0y", coalesce=True)
        refused("nothing", Code.NO_MESSAGE, other.receive, 1, b"")
        refused("any bytes", Code.NO_MESSAGE, other.receive, 1, b"\xff\xff")
        refused("an event as a state", Code.NOT_PUSH_PULL, other.merge, fired.packet)
        received = other.receive(1, fired.packet)
        check("the event", received == ReceivedEvent(fired.event, rebroadcast=True), received)
        received = other.receive(2, fired.packet)
        check("again", received == Ignored(Reason.SEEN, rebroadcast=False), received)
        check("foreign", other.receive(2, b"\x01\x80") == Foreign(1, rebroadcast=False))
        received = other.receive(2, one.local_state([(b"a", 3)], [b"c"]))
        check("a state as a packet", received == ReceivedPushPull(rebroadcast=False), received)
        check("merged already", other.merge(one.local_state(), join=True) == [])


def queries():
    with Agent(b"a", path("d")) as one, Agent(b"b", path("e")) as other:
        refused("no time", Code.NO_TIME, one.query, 1, 7, b"q", timeout=0)
        check("no deadline", one.next_deadline() is None)
        in_words("a str", "name must be bytes, and has the type str", one.query, 1, 7, "q")
        in_words("a filter of str", "filter must be bytes, and has the type str", one.query, 1, 7, b"q", filters=["a"])
        in_words("a code in words", "no query with this number is waiting for an answer (NOT_PENDING)", one.respond, 1, 9)
        asked = one.query(1, 7, b"q", b"p", timeout=1000, want_ack=True, addr=b"\x7f\0\0\1", port=7946)
        check(
            "asked",
            asked.query.name == b"q"
            and asked.ack is not None
            and one.open_queries() == 1
            and one.next_deadline() == 1001,
            asked,
        )
        received = other.receive(5, asked.packet)
        query = received.query
        said = (query.id, query.name, query.payload, query.source, query.addr, query.port)
        check("the query", isinstance(received, ReceivedQuery) and said == (7, b"q", b"p", b"a", b"\x7f\0\0\1", 7946), received)
        time = asked.query.time
        received = one.receive(6, received.ack)
        check("its ack", received == ReceivedAck(Answer(time, 7, b"b", b""), rebroadcast=False), received)
        refused("a wrong number", Code.NOT_PENDING, other.respond, 6, query.number + 1)
        refused("too large", Code.TOO_LARGE, other.respond, 6, query.number, b"x" * 1100)
        response = other.respond(6, query.number, b"r")
        refused("twice", Code.NOT_PENDING, other.respond, 6, query.number)
        late = other.receive(6, one.query(6, 8, b"late", timeout=2).packet).query
        refused("too late", Code.PAST_DEADLINE, other.respond, late.deadline + 1, late.number)
        check("none of its queries is closed", other.close_due(late.deadline + 1) == [])
        refused("forgotten after its deadline", Code.NOT_PENDING, other.respond, late.deadline + 1, late.number)
        received = one.receive(7, response)
        check("the response", received == ReceivedResponse(Answer(time, 7, b"b", b"r"), rebroadcast=False), received)
        check("again", one.receive(7, response) == Ignored(Reason.RESPONSE_TWICE, rebroadcast=False))
        check("the late one is closed", [closed.id for closed in one.close_due(9)] == [8])
        check("none is due", one.close_due(1001) == [] and one.open_queries() == 1)
        closed = one.close_due(1002)
        check(
            "closed",
            closed == [Closed(time, 7, 1001, (b"b",), (Answer(time, 7, b"b", b"r"),))] and one.open_queries() == 0,
            closed,
        )
        one.query(1002, 9, b"usual")
        usual = 1002 + DEFAULT_QUERY_TIMEOUT
        check("the usual time", one.close_due(usual) == [] and [it.id for it in one.close_due(usual + 1)] == [9])
        unwanted = other.receive(usual + 1, one.query(usual + 1, 10, b"unwanted").packet).query
        check("forget", other.forget(unwanted.number) is None)
        refused("forgotten", Code.NOT_PENDING, other.respond, usual + 1, unwanted.number)
        refused("forgotten twice", Code.NOT_PENDING, other.forget, unwanted.number)
        refused("a number that is none", TypeError, other.forget, "1")


def compactions():
    with Agent(b"a", path("f")) as agent:
        for _ in range(3):
            agent.fire(b"x")
        # (a state with nothing but a member clock of 7)
        agent.merge(b"\x02\x81\xa5LTime\x07")
        agent.save_member_clock()
        check("should compact", agent.should_compact(20) and not agent.should_compact())
        agent.compact()
        check("should not", not agent.should_compact(0))
        with open(path("f"), "rb") as file:
            text = file.read()
        check("compacted", sorted(text.split(b"\n")) == [b"", b"clock: 6", b"event-clock: 3"], text)
    with Agent(b"a", path("f")) as agent:
        clocks = agent.clocks()
        check(
            "the next life", (clocks.member, clocks.event, clocks.query, clocks.event_minimum) == (7, 4, 1, 4), clocks
        )


# Packets that are no messages: the error, its offset, its byte, and its words.
FAULTY = [
    (b"", PacketErrorKind.EMPTY, 0, 0, "the packet is empty"),
    (b"\x63\x80", PacketErrorKind.UNKNOWN_TYPE, 0, 99, "no message has the type 99"),
    (b"\x03", PacketErrorKind.TRUNCATED, 1, 0, "the packet ends inside the value at 1"),
    (b"\x03\xc1", PacketErrorKind.UNSUPPORTED, 1, 0xC1, "the byte 0xc1 at 1 doesn't begin a supported value"),
    (b"\x03" + b"\x91" * 9 + b"\xc0", PacketErrorKind.TOO_DEEP, 9, 0, "the array or map at 9 is inside eight others"),
    (b"\x03\x80\x00", PacketErrorKind.TRAILING, 2, 0, "the value ends before 2, and more bytes follow"),
    (b"\x03\x07", PacketErrorKind.NOT_A_MAP, 0, 0, "the value is not a map"),
    (b"\x03\x81\x01\x01", PacketErrorKind.BAD_KEY, 2, 0, "the key at 2 is not raw"),
    (b"\x03\x82\xa5LTime\x01\xa5LTime\x01", PacketErrorKind.TWICE, 9, 0, "the key at 9 appears for the second time"),
    (b"\x03\x81\xa5LTime\xa1x", PacketErrorKind.WRONG_KIND, 8, 0, "the value at 8 has the wrong type"),
    (b"\x05\x81\xa2ID\xcf\0\0\0\1\0\0\0\0", PacketErrorKind.OUT_OF_RANGE, 5, 0, "the integer at 5 is out of range"),
    (b"\x03\x81\xa5LTime\xcf" + b"\xff" * 8, PacketErrorKind.MAX_TIME, 8, 0, "the number at 8 is not a valid time"),
]


def texts():
    """Each code and each reason has its own sentence."""
    for kind in (Code, Reason):
        said = [one.text for one in kind]
        check(f"the sentences of {kind.__name__}", all(said) and len(set(said)) == len(said), said)
    check("a code in words", Code.NO_TIME.text == "the query has no timeout")
    check("a reason in words", Reason.SEEN.text == "the same event or query was accepted before")


def faults():
    for packet, kind, offset, byte, words in FAULTY:
        found = packet_error(packet)
        check(f"the error of {packet}", found == PacketError(kind, offset, byte) and str(found) == words, repr(found))
    check("each kind", [kind for _, kind, *_ in FAULTY] == list(PacketErrorKind))
    with Agent(b"a", path("g")) as agent:
        for packet, *_ in FAULTY:
            refused(f"the packet {packet}", Code.NO_MESSAGE, agent.receive, 1, packet)
        asked = agent.query(1, 7, b"q", timeout=1000, want_ack=True)
        for packet in (
            agent.fire(b"x").packet, agent.local_state(), asked.packet, asked.ack, b"\x00", b"\x09\xc1", b"\x03\x80"
        ):
            check(f"no error of {packet}", packet_error(packet) is None)
        cut = len(asked.ack) - 1
        check("a cut ack", packet_error(asked.ack[:cut]) == PacketError(PacketErrorKind.TRUNCATED, cut, 0))


def bursts():
    with Agent(b"a", path("h")) as agent:
        burst = agent.burst()
        try:
            with burst:
                burst.fire(b"x")
                check("one call waits", len(burst) == 1)
                raise KeyError
        except KeyError:
            pass
        check("a block that raises makes no call", burst.outcomes == [] and len(burst) == 0 and agent.clocks().event == 1)
        with agent.burst() as burst:
            refused("a number as a packet", TypeError, burst.receive, 1, 5)
            refused("an ID of 33 bits", OverflowError, burst.query, 1, 1 << 32, b"q")
            refused("no bool", TypeError, burst.fire, b"x", b"", 1)
            burst.fire(b"x")
            refused("a clock that goes back", ValueError, burst.receive, 0, b"")
            check("other calls continue", agent.fire(b"y").event.time == 1)
        check("just the calls that were accepted", [outcome.event.time for outcome in burst.outcomes] == [2], burst.outcomes)
        check("nothing is unread", agent.unread_outcomes() == 0)
        with burst:
            burst.receive(2, b"\xff")
        check(
            "a burst may be filled again",
            [getattr(outcome, "code", None) for outcome in burst.outcomes] == [None, Code.NO_MESSAGE],
            burst.outcomes,
        )
        with agent.burst() as empty:
            pass
        check("an empty burst", empty.outcomes == [])

        def closed_meanwhile():
            with agent.burst() as burst:
                burst.fire(b"z")
                agent.close()

        refused("an agent that was closed", Code.EMPTY, closed_meanwhile)


def longest(name, start, call):
    """The packet of the longest payload that is accepted: each longer one is refused as too large."""
    for length in range(start, -1, -1):
        try:
            return len(call(b"x" * length))
        except AgentError as error:
            if error.code is not Code.TOO_LARGE:
                check(f"{name} of {length}", False, error)
                return None
    return 0


def limits():
    check("the limits that are left out", (Settings().query_limit, Settings().response_limit) == (1024, 1024))
    for given, wanted in (
        ({}, (1024, 1024)),
        ({"query_limit": 0, "response_limit": 0}, (1024, 1024)),
        ({"query_limit": 300}, (300, 1024)),
        ({"response_limit": 300}, (1024, 300)),
        ({"query_limit": 200, "response_limit": 9216}, (200, 9216)),
        ({"query_limit": 9216, "response_limit": 200}, (9216, 200)),
    ):
        with Agent(b"a", path("limits"), Settings(**given)) as agent:
            asked = []

            def ask(payload):
                asked.append(agent.query(1, 7, b"q", payload, timeout=1000))
                return asked[-1].packet

            query = longest(f"a query with {given}", wanted[0] + 1, ask)
            response = longest(f"a response with {given}", wanted[1] + 1, lambda payload: agent.respond(2, asked[-1].query.number, payload))
            check(f"packets with {given}", (query, response) == wanted, (query, response))


for part in (openings, events, queries, limits, compactions, texts, faults, bursts):
    part()
print(f"{passed} passed, {failed} failed")
sys.exit(1 if failed else 0)
