"""Which node called, on captures that the test makes itself: one address of several nodes, and what distinguishes them."""

import struct

from made import ALPHA, BETA, EVENT, capture, ip, node, read, senders, state, udp

CONTENT = b"\x02\x82\xaaEventLTime%c\xa6Events\x91%b"
SLOT = b"\x82\xa5LTime\x01\xa6Events\x91\x82\xa4Name\xa6deploy\xa7Payload\xa2v1"
ASKED = b"\x02\x83\xaaEventLTime\x01\xaaQueryLTime\x05\xa6Events\x91\xc0"
HAS, LACKS = CONTENT % (2, SLOT), CONTENT % (1, b"\xc0")


def listing(content, *nodes, is_join=False):
    """A whole state that lists these nodes."""
    own = b"".join(node(name.encode(), host, port) for name, host, port in nodes)
    return state(content, is_join).replace(b"\xa5Nodes\x00", b"\xa5Nodes%c" % len(nodes)).replace(content, own + content)


def called(time, host, port, listener, sent, answer):
    """The packets of a connection from a port that no node listens on."""
    to, at = listener
    back = lambda flags, seq, part: ip(to, host, 6, struct.pack(">2H2IBBHHH", at, port, seq, 0, 0x50, flags, 0, 0, 0) + part)
    forth = lambda flags, seq, part: ip(host, to, 6, struct.pack(">2H2IBBHHH", port, at, seq, 0, 0x50, flags, 0, 0, 0) + part)
    return [(time, forth(2, 99, b"")), (time + 1, back(18, 49, b"")), (time + 2, forth(16, 100, sent)), (time + 3, back(16, 50, answer))]


def unknown_callers(count):
    """A caller that can be each of two: what it merged is reported, unless it was nothing new, and --node names the caller."""
    nodes = [("alpha", "127.0.0.1", 7946), ("beta", "127.0.0.1", 7947), ("gamma", "127.0.0.1", 7948)]
    alpha, beta = (("127.0.0.1", port) for port in (7946, 7947))
    lacks, has = listing(LACKS, *nodes), listing(HAS, *nodes)
    packets = called(0, "127.0.0.1", 40000, alpha, lacks, has)
    got = read(capture(packets))
    said = "left out: at 0.000003 s a node merged a state that had something new for it. It called from 127.0.0.1:40000, and can be "
    said += '"beta" or "gamma": say which node it is by --node NAME=127.0.0.1:40000'
    count.check("a caller that can be each of two", got[0] == 1 and got[1].startswith(f"# {said}") and got[2].startswith(said), got)
    count.check("what it sent is merged", f'take "alpha" {LACKS.hex()} sync # at 2us from "127.0.0.1:40000"' in got[1], got[1])
    got = read(capture(packets), "--node", "gamma=127.0.0.1:40000")
    count.check("--node names a caller's port", got[0] == 0 and senders(got[1]) == [("alpha", "gamma"), ("gamma", "alpha")], got)
    later = [(100, udp(b"\x08" + EVENT, "127.0.0.1", "127.0.0.9"))]
    for what, down in (("was down then", "beta=-0.00005"), ("was down later", "beta=0.00005-0.00009")):
        got = read(capture([(0, later[0][1]), *called(10, "127.0.0.1", 40000, alpha, lacks, has), *later]), "--down", down)
        is_found = ("gamma", "alpha") in senders(got[1])
        count.check(f"another node {what}", is_found == (got[0] == 0) == (what == "was down then"), got)
    got = read(capture(called(0, "127.0.0.1", 40000, alpha, has, lacks)))
    is_counted = "nothing new" in got[2] and senders(got[1]) == [("alpha", "127.0.0.1:40000")]
    count.check("nothing new for the caller", got[0] == 0 and is_counted, got)
    later, asked = listing(CONTENT % (2, b"\xc0"), *nodes), listing(ASKED, *nodes)
    for what, own, answer in (("an event", later, has), ("a clock of events", lacks, later), ("a clock of queries", lacks, asked)):
        got = read(capture(called(0, "127.0.0.1", 40000, alpha, own, answer)))
        count.check(f"{what} that is new for the caller", got[0] == 1 and got[1].startswith(f"# {said}"), got)
    got = read(capture(packets + called(9, "127.0.0.1", 40000, alpha, listing(HAS, nodes[1]), has)))
    count.check("a port that is used again", got[0] == 1 and senders(got[1])[1:] == [("alpha", "beta"), ("beta", "alpha")], got)
    suspect = node(b"beta", "127.0.0.1", 7947).replace(b"\x83", b"\x84", 1) + b"\xa5State\x01"
    sent = lacks.replace(node(b"beta", "127.0.0.1", 7947), suspect)
    got = read(capture(called(0, "127.0.0.1", 40000, alpha, sent, has)))
    count.check("a node doesn't suspect itself", got[0] == 0 and senders(got[1]) == [("alpha", "gamma"), ("gamma", "alpha")], got)


def what_nodes_had(count):
    """A caller is known by what each node had before and afterwards, in one life."""
    nodes = [("alpha", "127.0.0.1", 7946), ("beta", "127.0.0.1", 7947), ("gamma", "127.0.0.1", 7948)]
    alpha, beta, gamma = (("127.0.0.1", port) for *_, port in nodes)
    lacks, has, lone = listing(LACKS, *nodes), listing(HAS, *nodes), listing(LACKS, nodes[0])
    header = lambda port: struct.pack(">4H", port, 7946, 9 + len(EVENT), 0)
    sent = lambda time, port: [(time, ip("127.0.0.1", "127.0.0.1", 17, header(port) + b"\x08" + EVENT))]
    of_beta, of_gamma = [("alpha", "beta"), ("beta", "alpha")], [("alpha", "gamma"), ("gamma", "alpha")]
    calls = called(50, "127.0.0.1", 40000, alpha, lacks, has)
    before = called(10, "127.0.0.1", 40001, gamma, lone, has)
    started = sent(0, 7947) + sent(1, 7948) + called(10, "127.0.0.1", 40002, gamma, listing(LACKS, nodes[1]), lacks)
    after = called(90, "127.0.0.1", 40001, gamma, lone, lacks)
    for what, packets, wanted in (
        ("beta had sent the event", sent(0, 7947) + calls, of_gamma),
        ("gamma had sent the event", sent(0, 7948) + calls, of_beta),
        ("gamma had the event before", before + calls, of_beta),
        ("gamma lacked the event afterwards", called(50, "127.0.0.1", 40000, alpha, has, lacks) + after, of_beta),
        ("beta had it in an earlier life", started + calls, of_beta),
    ):
        got = read(capture(packets))
        merged = [ends for ends in senders(got[1]) if "alpha" in ends and "gamma" not in ends or ends in of_gamma]
        count.check(f"what nodes had: {what}", got[0] == 0 and set(wanted) <= set(merged), (got[0], got[2], senders(got[1])))
    got = read(capture(before + calls + called(99, "127.0.0.1", 40001, beta, has, lacks)), "--node", "gamma=127.0.0.1:40000")
    count.check("what nodes had: --node is believed all the same", got[0] == 0 and of_gamma == senders(got[1])[2:4], got)


def other_addresses(count):
    """A node that dials from another node's address, of the loopback or not; and one that has its address to itself."""
    nodes = [("alpha", ALPHA, 7946), ("beta", BETA, 7946), ("gamma", "10.0.0.3", 7946)]
    lacks, has = listing(LACKS, *nodes), listing(HAS, *nodes)
    joins = called(0, ALPHA, 40000, (ALPHA, 7946), listing(LACKS, nodes[1], is_join=True), listing(HAS, nodes[0], is_join=True))
    got = read(capture(joins))
    count.check("a join from another node's address", got[0] == 0 and senders(got[1]) == [("alpha", "beta"), ("beta", "alpha")], got)
    got = read(capture(called(0, ALPHA, 40000, (BETA, 7946), lacks, has)))
    count.check("an address of one node", got[0] == 0 and senders(got[1]) == [("beta", "alpha"), ("alpha", "beta")], got)
    got = read(capture(called(0, ALPHA, 40000, (ALPHA, 7946), lacks, has)))
    count.check("alpha doesn't call itself", got[0] == 1 and 'can be "beta" or "gamma"' in got[1].splitlines()[0], got)
    joins = called(0, ALPHA, 40000, (ALPHA, 7946), listing(LACKS, nodes[1], is_join=True), listing(LACKS, nodes[0], is_join=True))
    got = read(capture([*joins, *called(9, ALPHA, 40001, ("10.0.0.3", 7946), lacks, has)]))
    count.check("an address from which beta dialled", got[0] == 1 and 'can be "alpha" or "beta"' in got[1].splitlines()[0], got)
    nodes = [("alpha", "127.0.0.1", 7946), ("beta", "127.0.0.2", 7946), ("gamma", "127.0.0.3", 7946)]
    got = read(capture(called(0, "127.0.0.1", 40000, ("127.0.0.2", 7946), listing(LACKS, *nodes), listing(HAS, *nodes))))
    count.check("an address of the loopback", got[0] == 1 and 'can be "alpha" or "gamma"' in got[1].splitlines()[0], got)


PARTS = (unknown_callers, what_nodes_had, other_addresses)
