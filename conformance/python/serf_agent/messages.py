"""Serf's messages: the message of a packet, or its first error, and the canonical packets."""

from collections import namedtuple

from . import messagepack as pack
from .messagepack import WireError
from .switches import wrong

PUSH_PULL, USER_EVENT, QUERY, RESPONSE = 2, 3, 4, 5
FOREIGN = (0, 1, 6, 7, 8, 9)

MAX_UINT64 = (1 << 64) - 1

UserEvent = namedtuple("UserEvent", "LTime Name Payload CC")
Query = namedtuple("Query", "LTime ID Addr Port SourceNode Filters Flags RelayFactor Timeout Name Payload")
Response = namedtuple("Response", "LTime ID From Flags Payload")
PushPull = namedtuple("PushPull", "LTime StatusLTimes LeftMembers EventLTime Events QueryLTime")
Slot = namedtuple("Slot", "LTime Events")
Texts = namedtuple("Texts", "Name Payload")
Foreign = namedtuple("Foreign", "type")


def kind_of(value, kind, zero):
    """The value, if it has this kind. Nil stands for the zero value."""
    if value.kind == "nil" and not wrong("nil_refused"):
        return zero
    if value.kind != kind:
        raise WireError(f"WrongKind {value.place}")
    return value.of


def number(low, high, wider=None):
    """Reads a number within bounds. `wider` is the switch that removes the upper bound."""

    def read(value):
        found = kind_of(value, "int", 0)
        if wrong("numbers_wrap") and low == 0:
            return found % (high + 1)
        if wider and wrong(wider) and found > high:
            return found
        if not low <= found <= high:
            raise WireError(f"OutOfRange {value.place}")
        return found

    return read


unsigned_64 = number(0, MAX_UINT64)


def time(value):
    found = unsigned_64(value)
    if found == MAX_UINT64 and not wrong("max_time_accepted"):
        raise WireError(f"GreatestTime {value.place}")
    return found


def text(value):
    return kind_of(value, "raw", b"")


def truth(value):
    return kind_of(value, "bool", False)


def texts(value):
    return [text(item) for item in kind_of(value, "array", [])]


def clock(value):
    """A clock of a state, which is not a time."""
    return time(value) if wrong("max_clock_refused") else unsigned_64(value)


def answer_time(value):
    return time(value) if wrong("max_answer_refused") else unsigned_64(value)


def key_of(key):
    if key.kind == "nil" and wrong("nil_is_a_key"):
        return b""
    if key.kind != "raw" or key.is_bin and wrong("bin_keys_refused"):
        raise WireError(f"BadKey {key.place}")
    return b"" if key.is_bin and wrong("bin_keys_unknown") else key.of


def status_time(value):
    if value.kind == "nil" and wrong("nil_status_time_refused"):
        raise WireError(f"WrongKind {value.place}")
    return clock(value)


def status_times(value):
    found = {}
    for key, item in kind_of(value, "map", []):
        name = key_of(key)
        if name in found and wrong("node_twice_refused"):
            raise WireError(f"Twice {key.place}")
        found[name] = status_time(item)
    return list(found.items())


def fields_of(message, readers, pairs):
    """The message with the pairs of a map, or the first error in reading order."""
    found, unknown = {}, set()
    for key, value in pairs:
        if key.kind != "raw" and wrong("bad_keys_passed_over"):
            continue
        name = key_of(key).decode("latin-1")
        if wrong("keys_without_case"):
            name = {known.lower(): known for known in readers}.get(name.lower(), name)
        if name not in readers:
            if wrong("unknown_keys_refused") or name in unknown and wrong("unknown_twice_refused"):
                raise WireError(f"BadKey {key.place}")
            unknown.add(name)
            continue
        if name in found and wrong("first_key_wins"):
            continue
        if name in found and not wrong("last_key_wins"):
            raise WireError(f"Twice {value.place if wrong('twice_at_its_value') else key.place}")
        found[name] = readers[name][0](value)
    if "LTime" in readers and "LTime" not in found and wrong("time_has_to_be_there"):
        raise WireError("NotAMap")
    return message(*(found[name] if name in found else readers[name][1] for name in message._fields))


def event_in_slot(value):
    return fields_of(Texts, TEXTS, kind_of(value, "map", []))


def slot(value):
    return fields_of(Slot, SLOT, kind_of(value, "map", []))


def list_of(read):
    return lambda value: [read(item) for item in kind_of(value, "array", [])]


TEXTS = {"Name": (text, b""), "Payload": (text, b"")}
SLOT = {"LTime": (time, 0), "Events": (list_of(event_in_slot), [])}
EVENT_FIELDS = {"LTime": (time, 0), "Name": (text, b""), "Payload": (text, b""), "CC": (truth, False)}
QUERY_FIELDS = {
    "LTime": (time, 0),
    "ID": (number(0, (1 << 32) - 1, "ids_of_any_size"), 0),
    "Addr": (text, b""),
    "Port": (number(0, (1 << 16) - 1, "ports_of_any_size"), 0),
    "SourceNode": (text, b""),
    "Filters": (texts, []),
    "Flags": (number(0, (1 << 32) - 1), 0),
    "RelayFactor": (number(0, (1 << 8) - 1, "relays_of_any_size"), 0),
    "Timeout": (number(-(1 << 63), (1 << 63) - 1), 0),
    "Name": (text, b""),
    "Payload": (text, b""),
}
RESPONSE_FIELDS = {
    "LTime": (answer_time, 0),
    "ID": (number(0, (1 << 32) - 1), 0),
    "From": (text, b""),
    "Flags": (number(0, (1 << 32) - 1), 0),
    "Payload": (text, b""),
}
STATE_FIELDS = {
    "LTime": (clock, 0),
    "StatusLTimes": (status_times, []),
    "LeftMembers": (texts, []),
    "EventLTime": (clock, 0),
    "Events": (list_of(slot), []),
    "QueryLTime": (clock, 0),
}
KINDS = {
    PUSH_PULL: (PushPull, STATE_FIELDS),
    USER_EVENT: (UserEvent, EVENT_FIELDS),
    QUERY: (Query, QUERY_FIELDS),
    RESPONSE: (Response, RESPONSE_FIELDS),
}


def decode(packet):
    """The message that a packet spells, or its first error."""
    if not packet:
        raise WireError("Empty")
    kind = packet[0]
    if is_foreign(kind):
        if len(packet) == 1 and wrong("foreign_needs_a_body"):
            raise WireError("Truncated 1")
        return Foreign(kind)
    if kind not in KINDS:
        raise WireError(f"UnknownType {kind}")
    if wrong("no_map_before_all_else") and packet[1:] and packet[1] & 0xF0 != 0x80 and packet[1] not in pack.MAPS:
        raise WireError("NotAMap")
    value = pack.whole(packet[1:], 0) if wrong("places_after_the_type") else pack.whole(packet, 1)
    if value.kind != "map" and wrong("no_map_is_empty"):
        return fields_of(*KINDS[kind], [])
    if value.kind != "map":
        raise WireError("NotAMap")
    return fields_of(*KINDS[kind], value.of)


def is_foreign(kind):
    """Whether a type byte belongs to one of Serf's other messages."""
    if kind == 9 and wrong("type_nine_is_unknown"):
        return False
    if kind == 10 and wrong("type_ten_is_foreign"):
        return True
    return kind in FOREIGN or kind not in KINDS and wrong("unknown_type_is_foreign")


# Canonical packets


def encode_event(event):
    pairs = ((b"LTime", pack.pack_int(event.LTime)), (b"Name", pack.pack_raw(event.Name)), (b"Payload", pack.pack_raw(event.Payload)))
    if wrong("cc_is_always_false"):
        event = event._replace(CC=False)
    return bytes([USER_EVENT]) + pack.pack_map((*pairs, (b"CC", pack.pack_bool(event.CC))))


def encode_query(query):
    spelled = (
        pack.pack_int(query.LTime),
        pack.pack_int(query.ID),
        pack.pack_raw(query.Addr),
        pack.pack_int(query.Port),
        pack.pack_raw(query.SourceNode),
        pack.pack_array([pack.pack_raw(one) for one in query.Filters]),
        pack.pack_int(query.Flags),
        pack.pack_int(query.RelayFactor),
        pack.pack_int(query.Timeout),
        pack.pack_raw(query.Name),
        pack.pack_raw(query.Payload),
    )
    keys = [name.encode() for name in Query._fields]
    return bytes([QUERY]) + pack.pack_map(list(zip(keys, spelled)))


def encode_response(response):
    spelled = (
        pack.pack_int(response.LTime),
        pack.pack_int(response.ID),
        pack.pack_raw(response.From),
        pack.pack_int(response.Flags),
        pack.pack_raw(response.Payload),
    )
    keys = [name.encode() for name in Response._fields]
    return bytes([RESPONSE]) + pack.pack_map(list(zip(keys, spelled)))


def encode_slot(held):
    if held is None or not held.Events:
        return pack.NIL
    events = [pack.pack_map(((b"Name", pack.pack_raw(one.Name)), (b"Payload", pack.pack_raw(one.Payload)))) for one in held.Events]
    return pack.pack_map(((b"LTime", pack.pack_int(held.LTime)), (b"Events", pack.pack_array(events))))


def encode_state(state):
    pairs = (
        (b"LTime", pack.pack_int(state.LTime)),
        (b"StatusLTimes", pack.pack_map([(name, pack.pack_int(one)) for name, one in state.StatusLTimes])),
        (b"LeftMembers", pack.pack_array([pack.pack_raw(one) for one in state.LeftMembers])),
        (b"EventLTime", pack.pack_int(state.EventLTime)),
        (b"Events", pack.pack_array([encode_slot(one) for one in state.Events])),
        (b"QueryLTime", pack.pack_int(state.QueryLTime)),
    )
    return bytes([PUSH_PULL]) + pack.pack_map(pairs)


# Filters


def passes(filters, name):
    """Whether all filters let a node pass."""
    if wrong("filters_ignored"):
        return True
    tests = [filter_passes(one, name) for one in filters]
    if wrong("any_filter_is_enough") and tests:
        return any(tests)
    return all(tests)


def filter_passes(one, name):
    if not one:
        return wrong("empty_filter_passes")
    if one[0] != 0:
        return wrong("tag_filter_passes")
    try:
        value = pack.Reader(one, 1).value() if wrong("bytes_after_a_filter") else pack.whole(one, 1)
    except WireError:
        return wrong("unreadable_filter_passes")
    if value.kind != "array" or any(item.kind not in ("raw", "nil") for item in value.of):
        return wrong("unreadable_filter_passes")
    if wrong("no_bin_in_filters") and any(item.is_bin for item in value.of):
        return False
    if wrong("no_nil_in_filters") and any(item.kind == "nil" for item in value.of):
        return False
    if not value.of and wrong("no_names_is_every_name"):
        return True
    names = [item.of or b"" for item in value.of]
    if wrong("filters_without_case"):
        return name.lower() in [each.lower() for each in names]
    if wrong("name_filter_by_front"):
        return any(name.startswith(each) for each in names)
    return name in names
