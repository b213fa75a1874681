"""Reads an agent's RPC by the Python package msgpack with its defaults, and prints the answers as JSON; bytes as `bytes:` and hex.

    tests/library/rpc_client/reader.py HOST PORT

tests/library/rpc_client.py runs it by a Python that has the package.
"""

import json
import socket
import sys

import msgpack

# An event's payload that is no UTF-8.
PAYLOAD = b"\xff\xfe\x00"

# How long an answer may take, in seconds.
LIMIT = 60


class Client:
    """A connection that speaks the protocol: requests with a body or without one, and the answers, value by value."""

    def __init__(self, host, port):
        self.conn = socket.create_connection((host, port), LIMIT)
        self.values, self.seq = msgpack.Unpacker(), 0
        self.asked("handshake", {"Version": 1})

    def ask(self, command, body=None):
        self.seq += 1
        request = msgpack.packb({"Command": command, "Seq": self.seq})
        self.conn.sendall(request + (b"" if body is None else msgpack.packb(body)))

    def next(self):
        """The next value that the agent sends."""
        while True:
            try:
                return self.values.unpack()
            except msgpack.OutOfData:
                data = self.conn.recv(65536)
                if not data:
                    raise EOFError("the agent ended the connection") from None
                self.values.feed(data)

    def asked(self, command, body=None):
        """Sends a request, and reads the header of the answer."""
        self.ask(command, body)
        header = self.next()
        if header != {"Seq": self.seq, "Error": ""}:
            raise ValueError(f"{command}: {header}")


def written(value):
    """A value of JSON for one of MessagePack."""
    if isinstance(value, bytes):
        return f"bytes:{value.hex()}"
    if isinstance(value, dict):
        return {key: written(inner) for key, inner in value.items()}
    if isinstance(value, list):
        return [written(inner) for inner in value]
    return value


def read(host, port):
    """What an agent reports about its members and about an event: its answer's header and its record, in either order."""
    client = Client(host, port)
    client.asked("members")
    members = client.next()
    client.asked("stream", {"Type": "user"})
    stream = client.seq
    client.ask("event", {"Name": "odd", "Payload": PAYLOAD, "Coalesce": False})
    record = None
    while record is None:
        header = client.next()
        if header["Error"]:
            raise ValueError(header["Error"])
        record = client.next() if header["Seq"] == stream else None
    return {"members": written(members), "record": written(record)}


if __name__ == "__main__":
    print(json.dumps(read(sys.argv[1], int(sys.argv[2])), sort_keys=True))
