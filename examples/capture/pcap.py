"""Capture files of the form pcap: UDP packets, and TCP connections put together again."""

import collections
import ipaddress
import struct

# A file's first four bytes, and how many of its small units a microsecond has.
MAGICS = {0xA1B2C3D4: 1, 0xA1B23C4D: 1000}

# How many bytes a frame has before its IP packet, by the kind of link: 1 is Ethernet, 113 and 276 are the two of Linux's `any`.
HEADS = {0: 4, 1: 14, 12: 0, 14: 0, 101: 0, 113: 16, 276: 20}

TCP, UDP = 6, 17
SYN, ACK = 2, 16

# What a capture has. The times are microseconds: `began` since 1970, all others since `began`.
Capture = collections.namedtuple("Capture", "began length hosts datagrams connections notes")


class CaptureError(Exception):
    """The file is no capture that can be read here."""


def frames_of(data):
    """The kind of link, and each frame with its time in microseconds."""
    order = {b"\xa1\xb2": ">", b"\xd4\xc3": "<", b"\x4d\x3c": "<"}.get(data[:2])
    if data[:4] == b"\x0a\x0d\x0d\x0a":
        raise CaptureError("the capture has the form pcapng; `editcap -F pcap` turns it into one of the form pcap")
    if order is None or len(data) < 24 or struct.unpack_from(order + "I", data)[0] not in MAGICS:
        raise CaptureError("this is no capture of the form pcap")
    unit = MAGICS[struct.unpack_from(order + "I", data)[0]]
    link = struct.unpack_from(order + "I", data, 20)[0] & 0xFFFF
    if link not in HEADS:
        raise CaptureError(f"the capture is of a kind of link that is not known here: {link}")
    frames, at = [], 24
    while at + 16 <= len(data):
        seconds, fraction, captured_length, _ = struct.unpack_from(order + "4I", data, at)
        frames.append((seconds * 1_000_000 + fraction // unit, data[at + 16 : at + 16 + captured_length]))
        at += 16 + captured_length
    return link, frames


def network_packet(link, frame):
    """The IP packet in a frame: its two addresses, its protocol and what it carries; None if it has none that is whole."""
    at = HEADS[link]
    if link == 1 and frame[12:14] == b"\x81\x00":
        at += 4
    packet = frame[at:]
    version = packet[0] >> 4 if packet else 0
    if version == 4 and len(packet) >= 20:
        length, flags = struct.unpack_from(">H2xH", packet, 2)
        if flags & 0x3FFF:
            return None
        ends = [str(ipaddress.ip_address(packet[12:16])), str(ipaddress.ip_address(packet[16:20]))]
        return ends, packet[9], packet[(packet[0] & 15) * 4 : length or None]
    if version == 6 and len(packet) >= 40:
        length = struct.unpack_from(">H", packet, 4)[0]
        ends = [str(ipaddress.ip_address(packet[8:24])), str(ipaddress.ip_address(packet[24:40]))]
        return ends, packet[6], packet[40 : 40 + length if length else None]
    return None


class Side:
    """What one end of a connection sent: its parts by their sequence numbers, each with its time."""

    def __init__(self):
        self.first, self.parts = None, {}

    def add(self, time, sequence, flags, payload):
        """Adds a segment. A SYN begins the sequence numbers."""
        if flags & SYN:
            self.first = sequence + 1
        if payload:
            self.parts.setdefault(sequence, (time, payload))

    def bytes_sent(self):
        """The time of the last part and all bytes up to the first gap; None if the capture lacks the beginning."""
        if self.first is None:
            return None
        sent, time, at = b"", None, 0
        for start, (when, payload) in sorted(((n - self.first) & 0xFFFFFFFF, part) for n, part in self.parts.items()):
            if start > at:
                break
            if start + len(payload) > at:
                sent, time, at = sent + payload[at - start :], when, start + len(payload)
        return (time, sent) if sent else None


class Connection:
    """A TCP connection: which end called, when, and what each end sent. The caller's port is none that it listens on."""

    def __init__(self, ends, began):
        self.sides, self.began = {end: Side() for end in ends}, began
        self.caller, self.listener = None, None

    def is_used(self):
        return any(side.parts for side in self.sides.values())

    def set_caller(self, caller, listener):
        self.caller, self.listener = caller, listener

    def sent_by(self, end):
        """The time and the bytes of what this end sent; None if that is nothing, or the capture lacks its beginning."""
        return self.sides[end].bytes_sent()


def connection_of(connections, time, sender, receiver, flags):
    """The connection to which a segment belongs. Two ends have a new one after each SYN, unless that is a SYN sent again."""
    connections_of_ends = connections.setdefault(frozenset((sender, receiver)), [])
    calls, answers = flags & SYN and not flags & ACK, flags & SYN and flags & ACK
    if (
        not connections_of_ends
        or (calls and connections_of_ends[-1].is_used())
        or (answers and connections_of_ends[-1].sides[sender].parts)
    ):
        connections_of_ends.append(Connection((sender, receiver), time))
    if calls or answers:
        connections_of_ends[-1].set_caller(*((sender, receiver) if calls else (receiver, sender)))
    return connections_of_ends[-1]


def count_note(notes, why):
    """Counts one more thing that was left out for this reason."""
    notes[why] = notes.get(why, 0) + 1


def read(data):
    """The capture in a file's bytes: all addresses, the UDP packets, each with its time, sender, receiver and bytes, the
    connections, and how often what was left out."""
    link, frames = frames_of(data)
    began = frames[0][0] if frames else 0
    length = max([max(time - began, 0) for time, _ in frames], default=0)
    addresses, datagrams, connections, notes = set(), [], {}, {}
    for time, frame in frames:
        parsed_packet = network_packet(link, frame)
        if parsed_packet is None:
            count_note(notes, "frames without a whole IP packet")
            continue
        hosts, protocol, segment = parsed_packet
        if protocol not in (TCP, UDP) or len(segment) < 8:
            continue
        addresses.update(hosts)
        sender, receiver = zip(hosts, struct.unpack_from(">2H", segment))
        since = max(time - began, 0)
        if protocol == UDP:
            datagrams.append((since, sender, receiver, segment[8:]))
        elif len(segment) >= 20 and sender != receiver:
            sequence, offset, flags = struct.unpack_from(">I4x2B", segment, 4)
            connection = connection_of(connections, since, sender, receiver, flags)
            connection.sides[sender].add(since, sequence, flags, segment[(offset >> 4) * 4 :])
    known_connections = []
    for connection in (one for of_ends in connections.values() for one in of_ends):
        for side in connection.sides.values():
            if side.parts and side.first is None:
                count_note(notes, "sides of connections without their beginning")
        if connection.caller is not None:
            known_connections.append(connection)
    return Capture(began, length, addresses, datagrams, known_connections, notes)
