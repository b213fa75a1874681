#!/usr/bin/env python3
"""Reads a capture of Serf's gossip, and writes what it shows as a written schedule: which node got which event, query and response,
and which node merged which whole state.

    tcpdump -i any -s 0 -w gossip.pcap port 7946
    schedule_of.py gossip.pcap | serf-replay write | serf-replay replay

Give it what the capture doesn't show, and what it can be checked against:

    schedule_of.py gossip.pcap --down beta=14:02:31-14:02:34 --kept beta=beta.snapshot --zone +02:00 --log handlers.log

What the options say is compared with the capture, and what the schedule hands out with the logs. A contradiction is a comment in
the first line of the schedule, and a line on standard error, which also says how many packets were read and what was left out.

A schedule has no word for the sender of a packet, so its lines have a comment with the sender's name, and in its picture each packet
comes from outside. With --senders the script reads such a picture, and writes it with each arrow from the sender's lane:

    serf-replay write gossip.written | serf-replay draw --taken | schedule_of.py gossip.pcap --senders >gossip.svg

The status is 1 if something contradicts the schedule, if a packet or a line of a log can't be read, or if a state is left out that
had something new. It is 2 if the file is no capture, the picture is one of another schedule, or the command line is refused.
"""

import argparse
import base64
import os
import sys

sys.dont_write_bytecode = True
sys.path.insert(0, os.path.dirname(os.path.abspath(__file__)))
import callers
import handlers
import memberlist
import moments
import pcap
import picture
import snapshots
import story
from story import name_list, quoted


class OptionError(Exception):
    """An option that can't be meant, as a sentence."""


def names_of(capture, key):
    """The node of each address, by memberlist's own messages."""
    names = {}
    payloads = [payload for *_, payload in capture.datagrams]
    for connection in capture.connections:
        payloads += [sent[1] for sent in map(connection.sent_by, connection.sides) if sent]
    for payload in payloads:
        try:
            names.update(memberlist.nodes_in(payload, key))
        except memberlist.FrameError:
            continue
    return names


def named_addresses(words, capture):
    """The node of each address that --node names; the port is 7946 if it is left out."""
    names = {}
    for word in words:
        name, equals, address = word.rpartition("=")
        host, colon, port = address.rpartition(":")
        if address.strip("[]") in capture.hosts or not colon:
            host, port = address, "7946"
        host = host.strip("[]")
        if not equals or not name or not port.isdigit():
            raise OptionError(f"--node {word}: this is not NAME=ADDRESS or NAME=ADDRESS:PORT")
        if host not in capture.hosts:
            addresses = ", ".join(sorted(capture.hosts)) or "none"
            raise OptionError(f"--node {word}: no packet of the capture is from or to {host}; its addresses are {addresses}")
        names[(host, int(port))] = name
    return names


def checked_node(option, name, nodes):
    """Refuses a node that the capture doesn't have."""
    if name not in nodes:
        raise OptionError(f'{option}: the capture has no node "{quoted(name)}"; its nodes are {name_list(sorted(nodes))}')
    return name


def downs_of(words, nodes, clock):
    """The spans of --down, in the order of time."""
    downs = []
    for word in words:
        name, equals, span = word.rpartition("=")
        if not equals:
            raise OptionError(f"--down {word}: this is not NAME=FROM-TO")
        checked_node(f"--down {word}", name, nodes)
        try:
            downs.append(story.Down(name, *clock.span(span)))
        except moments.MomentError as why:
            raise OptionError(f"--down {word}: {why}") from None
    downs.sort(key=lambda down: (down.node, down.begin or 0))
    for first, second in zip(downs, downs[1:]):
        if first.node == second.node and (first.end is None or second.begin is None or second.begin < first.end):
            raise OptionError(f'--down says of "{quoted(first.node)}" two spans that overlap')
    return downs


def kept_files(words, nodes, downs, rejoining):
    """The text of each --kept, on which its node was started, and whether the node keeps its events."""
    kept = {}
    for word in words:
        name, equals, path = word.partition("=")
        if not equals:
            raise OptionError(f"--kept {word}: this is not NAME=FILE")
        checked_node(f"--kept {word}", name, nodes)
        if name in kept:
            raise OptionError(f'--kept {word}: "{quoted(name)}" has a --kept already; it is for the last start alone')
        if not any(down.node == name and down.end is not None for down in downs):
            raise OptionError(f"--kept {word}: say when it was started on this file, by --down {name}=FROM-TO")
        with open(path, "rb") as file:
            text = file.read()
        try:
            kept[name] = snapshots.start_on(text, name in rejoining)
        except snapshots.SnapshotError as why:
            raise OptionError(f"--kept {word}: {path}: {why}") from None
    for name in rejoining:
        if checked_node(f"--rejoin {name}", name, nodes) not in kept:
            raise OptionError(f"--rejoin {name}: it is about the snapshot of a start: name this one by --kept {name}=FILE")
    return kept


def logs_of(words, nodes, clock):
    """The handlers' logs that --log names."""
    logs = handlers.Logs(clock)
    for word in words:
        name, equals, path = word.partition("=")
        if os.path.exists(word) or not equals:
            name, path = None, word
        else:
            checked_node(f"--log {word}", name, nodes)
        logs.add(name, path)
    return logs


def sending_times(capture, names, caller_of):
    """The moments at which each node sent a packet."""
    times = {}
    for time, sender, _, _ in capture.datagrams:
        times.setdefault(names.get(sender), []).append(time)
    for connection in capture.connections:
        times.setdefault(caller_of(connection), []).append(connection.began)
        answer = connection.sent_by(connection.listener)
        times.setdefault(names.get(connection.listener), []).extend([answer[0]] if answer else [])
    return times


def story_of(capture, names, key, downs, kept, ignoring):
    """The story of a capture."""
    down_at = story.Downs(downs, sending_times(capture, names, lambda connection: None))
    all_callers = callers.Callers(capture, names, key, down_at)
    result = story.Story(names, key, story.Downs(downs, sending_times(capture, names, all_callers.caller_of)), kept, ignoring)
    payloads = [(time, result.add_packet, (time, *rest)) for time, *rest in capture.datagrams]
    for connection in capture.connections:
        for end in (connection.caller, connection.listener):
            time, payload = connection.sent_by(end) or (None, None)
            if payload:
                payloads.append((time, result.add_side, (time, connection, end == connection.listener, payload, all_callers)))
    for _, add_payload, arguments in sorted(payloads, key=lambda payload_entry: payload_entry[0]):
        try:
            add_payload(*arguments)
        except memberlist.FrameError as why:
            result.unreadable += 1
            result.leave_out(f"packets that could not be read: {why}")
    return result


def write(capture_story, remarks, is_picture):
    """Writes the schedule, or the picture of standard input, with the remarks in front."""
    if is_picture:
        picture_text = picture.Picture(sys.stdin.buffer.read().decode(errors="replace"), capture_story).with_senders()
        sys.stdout.write("".join(f"<!-- {remark.replace('--', '- -')} -->\n" for remark in remarks) + picture_text)
        return
    for line in [*(f"# {remark}" for remark in remarks), *capture_story.lines()]:
        print(line)


def zone(text):
    """A time zone, and its text."""
    return moments.zone_of(text), text


def parser():
    result = argparse.ArgumentParser(
        description="Writes a schedule of a capture of Serf's gossip, and compares it with the logs of the nodes' handlers.",
        epilog="FROM and TO are seconds since the capture's first packet, or times of day such as 14:02:31, 14:02:31.25+02:00 or"
        " 2026-11-30T14:02:31Z. Leave FROM out if the node didn't run when the capture began, and TO if it wasn't started again.",
    )
    result.add_argument("capture", help="a file of the form pcap")
    add = lambda *names, **settings: result.add_argument(*names, action="append", default=[], **settings)
    add("--node", metavar="NAME=ADDRESS[:PORT]", help="the node of an address that the capture doesn't name; the port is 7946 if left out")
    add("--down", metavar="NAME=FROM-TO", help="the node didn't run from FROM to TO, and was started at TO")
    add("--kept", metavar="NAME=FILE", help="the snapshot on which the node was started after its last --down")
    add("--rejoin", metavar="NAME", help="the node was started with -rejoin, so a `leave` in its snapshot changes nothing")
    add("--ignore", metavar="NAME", help="the node joins without -replay, so its joins ignore old events")
    add("--log", metavar="[NODE=]FILE", help="a log of handlers that the schedule is checked against; it needs serf-replay on PATH")
    zone_help = "the zone of times of day that have none: an offset such as +02:00, a name such as Europe/Berlin, or local; UTC if left out"
    result.add_argument("--zone", type=zone, default=zone("UTC"), help=zone_help)
    key_help = "the key of `serf agent -encrypt`; it needs Python's package cryptography"
    result.add_argument("--key", type=base64.b64decode, metavar="BASE64", help=key_help)
    senders_help = "read a picture of the schedule, and write it with each arrow from its sender's lane"
    result.add_argument("--senders", action="store_true", help=senders_help)
    return result


def main(words):
    options = parser().parse_args(words)
    try:
        with open(options.capture, "rb") as file:
            capture = pcap.read(file.read())
        names = names_of(capture, options.key)
        names.update(named_addresses(options.node, capture))
        nodes, clock = set(names.values()), moments.Clock(capture.began, capture.length, *options.zone)
        downs = downs_of(options.down, nodes, clock)
        kept = kept_files(options.kept, nodes, downs, options.rejoin)
        ignoring = {checked_node(f"--ignore {name}", name, nodes) for name in options.ignore}
        logs = logs_of(options.log, nodes, clock)
        capture_story = story_of(capture, names, options.key, downs, kept, ignoring)
        remarks = list(capture_story.remarks())
        if options.log:
            lives = [agent.node for agent in capture_story.agents()]
            handed = list(handlers.handed_out(capture_story.lines(), lives))
            remarks += [f"contradiction: {sentence}" for sentence in handlers.contradictions(logs, handed, capture_story.carried, nodes)]
        write(capture_story, remarks, options.senders)
    except (pcap.CaptureError, OSError) as why:
        print(f"{getattr(why, 'filename', None) or options.capture}: {getattr(why, 'strerror', None) or why}", file=sys.stderr)
        return 2
    except (OptionError, handlers.LogError) as why:
        print(why, file=sys.stderr)
        return 2
    except picture.PictureError:
        print("--senders: standard input is no picture of this capture's schedule, as `serf-replay draw` writes it", file=sys.stderr)
        return 2
    for remark in [*remarks, *logs.bad]:
        print(remark, file=sys.stderr)
    print(f"{len(capture.datagrams)} packets and {len(capture.connections)} connections were read", file=sys.stderr)
    for why, count in [*capture.notes.items(), *capture_story.left_out.items()]:
        print(f"left out: {count} {why}", file=sys.stderr)
    return 1 if remarks or logs.bad or capture_story.unreadable else 0


if __name__ == "__main__":
    sys.exit(main(sys.argv[1:]))
