"""Changes of records, and whether a changed record is the record of an agent, by the Python agent of conformance/."""

import os
import sys

sys.path.insert(0, os.path.join(os.path.dirname(os.path.abspath(__file__)), *[os.pardir] * 3, "conformance", "python"))
import lives
import snapshot_texts
from record import RecordError
from serf_agent.messagepack import WireError
from serf_agent.messages import decode
from serf_agent.pipe import Pipe


def change(chance, text):
    """A text with one change, and what was changed."""
    lines = text.split("\n")
    at = chance.randrange(len(lines) - 1)
    kind = chance.choice(("byte", "byte", "byte", "dropped", "doubled", "swapped"))
    if kind == "byte":
        place = chance.randrange(len(text))
        new = chance.choice("0123456789abcdef -\nx")
        return text[:place] + new + text[place + 1 :], f"byte {place}: {text[place]!r} to {new!r}"
    if kind == "dropped":
        del lines[at]
    elif kind == "doubled":
        lines.insert(at, lines[at])
    else:
        lines[at], lines[at + 1] = lines[at + 1], lines[at]
    return "\n".join(lines), f"line {at + 1} {kind}"


def fault_of(path):
    """Why a record isn't that of an agent, or None. A change of the host's part, of a moment or of a comment says nothing."""
    try:
        found = lives.lives_of(path)
    except RecordError as error:
        return str(error)
    events, flushed = set(), None
    for life in found:
        if flushed is not None and all(snapshot_texts.begins_with(life.opened, one) for one in flushed):
            return f"line {life.line}: the text lacks what was flushed"
        pipe = Pipe()
        for call in [life.opening, *life.calls]:
            try:
                reply = pipe.reply(" ".join(call.words).encode())
            except (ValueError, KeyError, IndexError) as error:
                return f"line {call.line}: {error!r}"
            reply = [spelled(line, call) for line in reply]
            recorded = [spelled(" ".join(words), call) for words in call.reply]
            if reply != recorded:
                return f"line {call.line}: {reply} and not {recorded}"
            for event in call.lines("event"):
                if tuple(event[:3]) in events:
                    return f"line {call.line}: again"
                events.add(tuple(event[:3]))
        flushed = [kept(pipe)]
        if life.is_compacting:
            pipe.reply(b"compact")
            flushed.append(kept(pipe))
    return None


def spelled(line, call):
    """A line of a reply. A packet that the call made is the message that it spells, without the host's part."""
    word, _, data = (lives.without_host_part(line) if call.kind in ("state", "query") else line).partition(" ")
    if word == "sent" and data not in call.words:
        try:
            return decode(bytes.fromhex(data))
        except (WireError, ValueError):
            pass
    return line


def kept(pipe):
    """What the disk keeps."""
    word = pipe.reply(b"look")[1].split(" ")[1]
    return b"" if word == "-" else bytes.fromhex(word)
