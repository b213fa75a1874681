"""Calls for a host that knows members, through the binding in Python: prints `FAILED ..` for each check that fails, and
'N passed, M failed'.

    members.py FOLDER
"""

import os
import sys

sys.path.insert(0, os.path.join(os.path.dirname(os.path.abspath(__file__)), "..", "..", "..", "bindings", "python"))
from serf_agent import Agent, AgentError, Code, PacketErrorKind, intent, intent_error, Join, Leave, Members, PacketError
from serf_agent import node_filter, query_filters, ReceivedQuery, state_members, TAG_FILTER, tag_filter

FOLDER = sys.argv[1]
passed = failed = 0


def check(name, holds, said=""):
    global passed, failed
    if holds:
        passed += 1
    else:
        failed += 1
        print(f"FAILED {name}: {said}")


def refused(name, wanted, call, *words):
    """A call that has to be refused: with this code, or with this error."""
    try:
        said = call(*words)
    except AgentError as error:
        said = error.code
    except Exception as error:
        said = type(error)
    check(name, said == wanted, f"{said}, expected {wanted}")


# Intents that agents of Serf sent to one another.
OF_SERF = {
    b"\x01\x82\xa5LTime\x01\xa4Node\xa4beta": Join(1, b"beta"),
    b"\x00\x83\xa5LTime\x03\xa4Node\xa5gamma\xa5Prune\xc2": Leave(3, b"gamma"),
    b"\x00\x83\xa5LTime\x06\xa4Node\xa5delta\xa5Prune\xc3": Leave(6, b"delta", prune=True),
}

FAULTY = {
    b"": PacketError(PacketErrorKind.EMPTY, 0, 0),
    b"\x63": PacketError(PacketErrorKind.UNKNOWN_TYPE, 0, 99),
    b"\x01\x81\xa4Node\xdb\xff\xff\xff\xffa": PacketError(PacketErrorKind.TRUNCATED, 7, 0),
    b"\x00\x81\xa5Prune\x01": PacketError(PacketErrorKind.WRONG_KIND, 8, 0),
    b"\x01\x81\xa5LTime\xcf" + b"\xff" * 8: PacketError(PacketErrorKind.MAX_TIME, 8, 0),
}


def intents():
    for packet, wanted in OF_SERF.items():
        check(f"the intent {packet}", intent(packet) == wanted and intent_error(packet) is None, intent(packet))
        check(f"the packet of {wanted}", wanted.packet() == packet, wanted.packet())
    for packet in (b"\x03", b"\x09\xc1"):
        check(f"no intent in {packet}", intent(packet) is None and intent_error(packet) is None)
    for packet, wanted in FAULTY.items():
        refused(f"the packet {packet}", Code.NO_MESSAGE, intent, packet)
        check(f"the error of {packet}", intent_error(packet) == wanted, intent_error(packet))
    refused("no time", Code.EXHAUSTED, Join(2**64 - 1, b"a").packet)
    refused("no number of 64 bits", OverflowError, Leave(2**64, b"a").packet)
    refused("a name that is no bytes", TypeError, Join(1, "a").packet)
    refused("a prune that is no bool", TypeError, Leave(1, b"a", 1).packet)


def members():
    with Agent(b"a", os.path.join(FOLDER, "a")) as agent:
        statuses, left = ((b"b", 7), (b"", 0), (b"b", 9)), (b"gone", b"")
        found = state_members(agent.local_state(statuses, left))
        check("members", found == Members(1, statuses, left), found)
        check("none", state_members(agent.local_state()) == Members(1, (), ()))
    for packet in (b"", b"\x02", b"\x03\x80", *OF_SERF):
        check(f"no members in {packet}", state_members(packet) is None)


def times():
    with Agent(b"a", os.path.join(FOLDER, "b")) as agent:
        for time in range(1, 4):
            asked = agent.query(1, 7, b"q", timeout=1000)
            check("the time of a query", asked.time == asked.query.time == time, asked)


def member_times():
    path = os.path.join(FOLDER, "c")
    with Agent(b"a", path) as agent:
        check("the first time", agent.next_member_time() == 1)
        agent.observe_member(7)
        agent.observe_member(3)
        check("one above what was observed", agent.next_member_time() == 8)
        with open(path, "rb") as file:
            text = file.read()
        check("its lines", text == b"clock: 1\nclock: 8\n", text)
        refused("no time", Code.EXHAUSTED, agent.observe_member, 2**64 - 1)
        refused("no number of 64 bits", OverflowError, agent.observe_member, 2**64)
        agent.observe_member(90)
    with Agent(b"a", path) as agent:
        # (a time that was only observed is forgotten, and one that was taken isn't)
        check("the next life", agent.next_member_time() == 9)
        agent.observe_member(2**64 - 2)
        refused("exhausted", Code.EXHAUSTED, agent.next_member_time)
    refused("closed", Code.EMPTY, agent.observe_member, 1)


# Filters of the node b, of another one, of a tag, and of an unknown type; and whether b is handed a query with them, without
# and with the host's verdict that its tags pass.
NODE, OTHER, TAG, UNKNOWN = b"\x00\x91\xa1b", b"\x00\x91\xa1c", b"\x01\x82\xa4Expr\xa0\xa3Tag\xa1a", b"\x02"
VERDICTS = {
    (): (True, True),
    (TAG,): (False, True),
    (NODE, TAG, TAG): (False, True),
    (TAG, OTHER): (False, False),
    (TAG, UNKNOWN): (False, False),
    (NODE,): (True, True),
    (b"",): (False, False),
}


def made():
    """Filters as Serf writes them, and with long texts and lists as MessagePack's old form has them."""
    check("of names", node_filter(b"b") == NODE and node_filter(b"c") == OTHER and node_filter() == b"\x00\x90")
    check("of sixteen names", node_filter(*[b"b"] * 16) == b"\x00\xdc\x00\x10" + b"\xa1b" * 16)
    check(
        "of long names",
        node_filter(b"x" * 32, b"y" * 65536)[:5] == b"\x00\x92\xda\x00\x20" and node_filter(b"y" * 65536)[2:7] == b"\xdb\x00\x01\x00\x00",
    )
    check("of a tag", tag_filter(b"a", b"") == TAG)
    check("of very many names", node_filter(*[b"b"] * 65536)[:6] == b"\x00\xdd\x00\x01\x00\x00")
    refused("a name of str", TypeError, node_filter, "b")


def verdicts():
    with Agent(b"q", os.path.join(FOLDER, "q")) as asks, Agent(b"b", os.path.join(FOLDER, "d")) as agent:
        for filters, wanted in VERDICTS.items():
            for passes, handed in zip((False, True), wanted):
                packet = asks.query(1, 7, b"who", timeout=1000, filters=filters).packet
                found = query_filters(packet)
                check(f"the filters {filters}", found == filters, found)
                check("of tags", [one[:1] == bytes([TAG_FILTER]) for one in found] == [one is TAG for one in filters])
                got = agent.receive(1, packet, tags_pass=passes)
                check(f"{filters}, {passes}", isinstance(got, ReceivedQuery) and (got.query is not None) == handed, got)
                packet = asks.query(1, 7, b"who", timeout=1000, filters=filters).packet
                with agent.burst() as burst:
                    burst.receive(1, packet, passes)
                check(f"{filters}, {passes}, in a burst", (burst.outcomes[0].query is not None) == handed, burst.outcomes)
                asked = agent.query(1, 8, b"who", timeout=1000, filters=filters, tags_pass=passes, want_ack=True)
                check(f"its own of {filters}, {passes}", (asked.query is not None, asked.ack is not None) == (handed, handed), asked)
                with agent.burst() as burst:
                    burst.query(1, 8, b"who", timeout=1000, filters=filters, tags_pass=passes)
                check(f"its own of {filters}, {passes}, in a burst", (burst.outcomes[0].query is not None) == handed, burst.outcomes)
        packet = asks.query(1, 7, b"who", timeout=1000, filters=[TAG]).packet
        check("without a verdict", agent.receive(1, packet).query is None)
        refused("a verdict that is no bool", TypeError, agent.receive, 1, packet, 1)
    for packet in (b"", b"\x04", b"\x03\x80", packet[:-1], *OF_SERF):
        check(f"no filters in {packet}", query_filters(packet) is None)


for part in (intents, members, times, member_times, made, verdicts):
    part()
print(f"{passed} passed, {failed} failed")
sys.exit(1 if failed else 0)
