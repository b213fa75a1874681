"""Captures that a test makes itself: frames of the network, memberlist's frames in them, and the script over the capture."""

import os
import re
import struct
import subprocess
import sys
import tempfile
import zlib

import checks

FOLDER = os.path.join(checks.EXAMPLES, "capture")
SCRIPT, CAPTURE = os.path.join(FOLDER, "schedule_of.py"), os.path.join(FOLDER, "gossip.pcap")

EVENT = b"\x03\x84\xa5LTime\x01\xa4Name\xa6deploy\xa7Payload\xa2v1\xa2CC\xc2"
ALPHA, BETA = "10.0.0.1", "10.0.0.2"
NAMES = ("--node", f"alpha={ALPHA}", "--node", f"beta={BETA}")
BOTH = f'agent "alpha"\nagent "beta"\ngive "alpha" {EVENT.hex()} at 0us # its own\ngive "beta" {EVENT.hex()} at 0us # from "alpha"\n'


def script(path, *words, given="", **env):
    """The script over a capture: its status, its standard output and its standard error. It finds the tested program on PATH."""
    with tempfile.TemporaryDirectory() as folder:
        called = os.path.join(folder, "serf-replay")
        with open(called, "w", encoding="utf-8") as file:
            print(f'#!/bin/sh\nexec "{checks.PROGRAM}" "$@"', file=file)
        os.chmod(called, 0o755)
        env = {**os.environ, "PATH": f"{folder}{os.pathsep}{os.environ['PATH']}", **env}
        call = [sys.executable, SCRIPT, path, *words]
        result = subprocess.run(call, input=given, capture_output=True, text=True, timeout=checks.LIMIT, env=env)
    return result.returncode, result.stdout, result.stderr


# A capture of frames


def ip(sender, receiver, protocol, payload):
    ends = bytes(int(part) for end in (sender, receiver) for part in end.split("."))
    return struct.pack(">BBHHHBBH", 0x45, 0, 20 + len(payload), 0, 0, 64, protocol, 0) + ends + payload


def udp(payload, sender=ALPHA, receiver=BETA):
    return ip(sender, receiver, 17, struct.pack(">4H", 7946, 7946, 8 + len(payload), 0) + payload)


def tcp(payload, sequence, flags=16, sender=ALPHA, receiver=BETA, port=40000):
    return ip(sender, receiver, 6, struct.pack(">2H2IBBHHH", port, 7946, sequence, 0, 0x50, flags, 0, 0, 0) + payload)


def capture(packets, link=1, order="<", magic=0xA1B2C3D4):
    head = {1: bytes(12) + b"\x08\x00", 113: bytes(14) + b"\x08\x00", 101: b""}[link]
    data = struct.pack(order + "IHHiIII", magic, 2, 4, 0, 0, 65535, link)
    for time, packet in packets:
        data += struct.pack(order + "4I", time // 1_000_000, time % 1_000_000, len(head + packet), len(head + packet)) + head + packet
    return data


def read(data, *words, given=""):
    with tempfile.TemporaryDirectory() as folder:
        path = os.path.join(folder, "it.pcap")
        with open(path, "wb") as file:
            file.write(data)
        return script(path, *words, given=given)


# memberlist's frames


def raw(data):
    return b"\xc6" + struct.pack(">I", len(data)) + data


def packed(data):
    """LZW in codes of 9 bits that stand for a byte each, with the table cleared before it would grow over them."""
    codes = []
    for at, byte in enumerate(data):
        codes += ([256] if at % 200 == 0 else []) + [byte]
    bits = sum(code << (9 * at) for at, code in enumerate([*codes, 257]))
    return b"\x09\x82\xa4Algo\x00\xa3Buf" + raw(bits.to_bytes((9 * len(codes) + 16) // 8, "little"))


def summed(data):
    return b"\x0c" + struct.pack(">I", zlib.crc32(data)) + data


def compound(*parts):
    return b"\x07" + bytes([len(parts)]) + b"".join(struct.pack(">H", len(part)) for part in parts) + b"".join(parts)


def state(content, is_join=True):
    length = b"\xcd" + struct.pack(">H", len(content))
    return b"\x06\x83\xa5Nodes\x00\xa4Join" + (b"\xc3" if is_join else b"\xc2") + b"\xacUserStateLen" + length + content


def node(name, host, port):
    """A node of a whole state, as memberlist writes one."""
    address = raw(bytes(map(int, host.split("."))))
    return b"\x83\xa4Name" + bytes([0xA0 | len(name)]) + name + b"\xa4Addr" + address + b"\xa4Port\xcd" + struct.pack(">H", port)


# A packet's line of a schedule: its receiver, and its sender.
STEP = re.compile(r'(?:give|take) "([^"]*)" .* (?:from "([^"]*)"|its own)$')


def senders(written):
    """The agents that merged a state, each with its sender, in order."""
    return [step.groups() for line in written.splitlines() if line.startswith("take ") and (step := STEP.match(line))]
