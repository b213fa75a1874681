"""Which node called, for each connection of a capture.

A node dials from a port of the system's choice, and often from an address that is another node's: on one machine everything is
dialled from 127.0.0.1. So the address alone names the caller only if no other node can dial from it. These decide, in this order:

1. A whole state that lists one node alone is of this node: an agent sends it when it joins after a start.
2. If one node has the address, and nothing says that others dial from it, this node called.
3. Else the nodes that can dial from there are candidates. A candidate is ruled out if the caller's own state doesn't list it as
   running, if it was down, or if it is known to have had more before, or less after, than the caller's state has. If one candidate
   is left, it called.
"""

import collections
import ipaddress

import gossip
import memberlist

# What a node is known to have had: at which moment, which events, at which clock. It is `all` if a whole state says it.
Record = collections.namedtuple("Record", "time events clock is_all slots")


def read_or_none(read, *arguments):
    """What a reader returns, or None if the bytes can't be read. The story counts these."""
    try:
        return read(*arguments)
    except memberlist.FrameError:
        return None


def state_part(connection, end, key):
    """What one end sent as a whole state: its names, each with whether it runs, and Serf's part; None if it sent none."""
    sent = connection.sent_by(end)
    parsed_state = sent and read_or_none(memberlist.state_of, sent[1], key)
    if not parsed_state or parsed_state[0] != memberlist.STATE:
        return None
    return read_or_none(memberlist.listed_nodes, sent[1], key) or {}, read_or_none(gossip.state_of, parsed_state[2])


def in_window(events, state):
    """Those of the events that a buffer of a state's size and clock has room for."""
    return {event for event in events if event.time + state.slots >= state.clock}


def has_news(answer, own_state):
    """Whether a state can change a node that has the other one: by an event, or by a clock."""
    if answer is None:
        return False
    return (
        own_state is None
        or not answer.events <= own_state.events
        or answer.clock > own_state.clock
        or answer.query_clock > own_state.query_clock
    )


class Callers:
    """The caller of each connection. `names` has the node of each address, and `downs` has the spans in which nodes were down."""

    def __init__(self, capture, names, key, downs):
        self.names, self.downs = names, downs
        self.nodes = sorted(set(names.values()))
        self.found, self.possible, self.records = {}, {}, {name: [] for name in self.nodes}
        self.parts = {
            connection: (state_part(connection, connection.caller, key), state_part(connection, connection.listener, key))
            for connection in capture.connections
        }
        self.starts = {name: [down.end for down in downs.spans_of(name) if down.end is not None] for name in self.nodes}
        for connection, (caller_part, _) in self.parts.items():
            self.find_by_names(connection, caller_part)
        self.at, self.dialling = {}, {connection.caller[0] for connection in self.parts}
        for (host, _), name in names.items():
            self.at.setdefault(host, set()).add(name)
        self.collect_evidence(capture, key)
        while any([self.find_by_elimination(connection) for connection in self.parts if connection not in self.found]):
            continue

    def find_by_names(self, connection, caller_part):
        """Finds a caller that --node names by its port, or that lists itself alone."""
        names = [*(caller_part[0] if caller_part else ())]
        if connection.caller in self.names:
            self.found[connection] = self.names[connection.caller]
        elif len(names) == 1 and names[0] in self.records:
            self.found[connection] = names[0]
            self.starts[names[0]].append(connection.began)

    def candidates(self, host):
        """The nodes that can dial from an address, and whether its own node alone does, as far as the capture shows."""
        own = self.at.get(host, set())
        found_names = {name for connection, name in self.found.items() if connection.caller[0] == host}
        # a node whose address nobody dials from can dial from another one's
        others = {name for other, names in self.at.items() if other not in self.dialling for name in names}
        is_lone = len(own) == 1 and found_names <= own and not ipaddress.ip_address(host).is_loopback
        return own, own | found_names | others, is_lone

    def collect_evidence(self, capture, key):
        """Records what nodes are known to have had: the events that they sent by UDP, and the states of those that are known."""
        for time, sender, _, payload in capture.datagrams:
            if sender in self.names:
                for message in read_or_none(lambda data: list(memberlist.messages_of(data, key)), payload) or []:
                    event = read_or_none(gossip.event_of, message[1:]) if message[:1] == bytes([memberlist.USER]) else None
                    if event:
                        self.records[self.names[sender]].append(Record(time, {event}, event.time + 1, False, 0))
        for connection, (caller_part, listener_part) in self.parts.items():
            self.add_record(self.names.get(connection.listener), connection, listener_part)
            self.add_record(self.found.get(connection), connection, caller_part)

    def add_record(self, name, connection, part):
        """Records which events and clock a node had when it sent this state."""
        if name in self.records and part and part[1]:
            state = part[1]
            self.records[name].append(Record(connection.began, state.events, state.clock, True, state.slots))

    def is_one_life(self, name, first, second):
        """Whether a node was not started between two moments."""
        return not any(min(first, second) < start <= max(first, second) for start in self.starts[name])

    def is_listed(self, name, connection):
        """Whether the caller's state lists a node as running. If the node itself answered, it has to answer with the same state."""
        (listed, state), listener_part = self.parts[connection]
        if name == self.names.get(connection.listener) and (listener_part is None or state != listener_part[1]):
            return False
        return listed.get(name) is True

    def is_consistent(self, name, connection):
        """Whether a node can have had the caller's state, by what it is known to have had in this life."""
        state = self.parts[connection][0][1]
        for record in self.records[name] if state else ():
            if not self.is_one_life(name, record.time, connection.began):
                continue
            if record.time <= connection.began:
                if record.clock > state.clock or not in_window(record.events, state) <= state.events:
                    return False
            elif record.is_all and (record.clock < state.clock or not in_window(state.events, record) <= record.events):
                return False
        return True

    def find_by_elimination(self, connection):
        """Finds the caller if one candidate alone is left, and returns whether it is found."""
        own, possible, is_lone = self.candidates(connection.caller[0])
        caller_part = self.parts[connection][0]
        if is_lone and (caller_part is None or all(self.is_listed(name, connection) for name in own)):
            possible = own
        elif caller_part is not None:
            possible = {
                name
                for name in possible
                if self.is_listed(name, connection)
                and not self.downs.is_down(name, connection.began)
                and self.is_consistent(name, connection)
            }
        self.possible[connection] = sorted(possible)
        if len(possible) == 1:
            self.found[connection] = self.possible[connection][0]
            self.add_record(self.found[connection], connection, caller_part)
        return len(possible) == 1

    def caller_of(self, connection):
        """The node that called, or None."""
        return self.found.get(connection)

    def caller_lacks_news(self, connection):
        """Whether the caller's state lacks something that the answer to it has."""
        caller_part, listener_part = self.parts[connection]
        return bool(listener_part) and has_news(listener_part[1], caller_part and caller_part[1])
