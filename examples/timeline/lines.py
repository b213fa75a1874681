"""The objects that `serf-replay` prints with `--format json`, one a line, and what they are called in sentences."""

import json


def objects(data):
    """The objects in these bytes, one after another."""
    at = 0
    while at < len(data):
        end = data.find(b"\n", at)
        line, at = (data[at:end], end + 1) if end >= 0 else (data[at:], len(data))
        if line.strip():
            yield json.loads(line)


def visible(text):
    """A text in which nothing is invisible, or changes the order of what is around it."""
    return "".join(c if c.isprintable() else f"\\u{{{ord(c):x}}}" for c in text)


def text_of(item, key):
    """The bytes under a key: as text if they are text, and otherwise in hex."""
    spelled = item.get(f"{key}_hex", "")
    try:
        return visible(item[key] if key in item else bytes.fromhex(spelled).decode("utf-8"))
    except UnicodeDecodeError:
        return "0x" + spelled


def label_of(item):
    """What an event or a query is called: its name, its payload and its time."""
    words = [word for word in (text_of(item, "name"), text_of(item, "payload")) if word]
    if not words:
        words = ["query" + (f" #{item['id']}" if "id" in item else "")] if is_query(item) else ["(no name)"]
    return " ".join(words) + f" @{item['time']}"


def is_query(item):
    return "query" in (item["kind"], item.get("of"))


def key_of(item):
    """What was handed out: the same for the same event or query, on any node."""
    kind = "query" if is_query(item) else "event"
    return kind, item["time"], item.get("id"), item.get("name_hex"), item.get("payload_hex")
