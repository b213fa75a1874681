"""Power cuts of hosts that track their handlers: what a cut leaves of the lines about them, and what the next life reports.

A host prints `e TIME NAME` when an event is handed out, `b TIME NAME` when its handler begins, and `d TIME NAME` when the handler has
ended; and at an opening `w TIME NAME` for each event that waits for its handler, and `u TIME NAME` for each whose handler began and
isn't known to have ended. An event is a tuple of its time, its name and its payload, which is empty here.
"""

import os
import tempfile

import kept
import levels
import traces
from serf_agent import handlers

# The bugs of a host, by the names that its POWER_CUTS_FAULT has.
BUGS = {
    "begun_unflushed": "no flush of the line of a handler that begins",
    "begun_error": "a handler that begins although the flush of its line failed",
    "done_first": "the line of a handler that has ended, written before it begins",
    "done_missing": "no line of a handler that has ended",
    "compaction_drops": "a compaction without the open events",
    "compaction_forgets_begun": "a compaction in which an open event whose handler began waits",
    "compaction_reverses": "a compaction with the open events in reverse order",
    "compaction_in_two_steps": "a compaction that writes the open events in a second step",
}

# At most so many bytes that aren't sure are cut at each byte. Of more bytes, this number of lengths is tried.
EACH, FEW = 36, 5


class Handled:
    """What a host printed of its handlers so far."""

    def __init__(self, text):
        # the events that were handed out, in order; those whose handlers began and ended; and those of them whose lines were flushed
        self.handed, self.begun, self.ended, self.sure = {}, set(), set(), set()
        for event, has_begun in handlers.open_events(text) or []:
            self.handed[event] = None
            self.begun |= {event} if has_begun else set()

    def note(self, seen, line):
        word, *event = line.split(" ")
        if word not in ("e", "w", "u", "b", "d"):
            return
        event = int(event[0]), bytes.fromhex(event[1]), b""
        if event in self.begun and word in "wb":
            seen.wrong(f"{line}: its handler had begun before")
        if event in self.sure and word in "wu":
            seen.wrong(f"{line}: its handler had ended, and its line was flushed")
        if word in "eb":
            # (this follows a flush)
            self.sure = set(self.ended)
        self.handed.setdefault(event)
        self.begun |= {event} if word in "bu" else set()
        self.ended |= {event} if word == "d" else set()

    def state(self):
        """A value that differs after each change."""
        return len(self.handed), len(self.begun), len(self.ended), len(self.sure)

    def check(self, seen, text):
        """Compares the open events of a text that a cut leaves with what the host printed before the cut."""
        found = handlers.open_events(text) or []
        waits, began = {event for event, has_begun in found if not has_begun}, {event for event, has_begun in found if has_begun}
        unknown = (waits | began) - self.handed.keys()
        for what, events in {
            "waits, and its handler had begun": waits & self.begun,
            "is silent: it was handed out, and is neither open nor ended": self.handed.keys() - self.ended - waits - began,
            "is open, and the line of its end was flushed": (waits | began) & self.sure,
            "is open, and was never handed out": unknown and unknown - events_noted_in(text),
        }.items():
            if events:
                seen.wrong(f"a cut leaves {text!r}: {sorted(events)[0]} {what}")
        if len(began - self.begun) > 1:
            seen.wrong(f"a cut leaves {text!r}: {began - self.begun} began, and only one can begin at a time")
        in_order = [event for event, _ in found if event in self.handed]
        if in_order != [event for event in self.handed if event in waits | began]:
            seen.wrong(f"a cut leaves {text!r}, in which the open events are in another order than {list(self.handed)}")
        return bool(waits), bool(began)


def events_noted_in(text):
    """The events that have whole lines in a text: those that were about to be handed out, too."""
    words = [line.split(" ") for line in kept.noted_in(text) if line[0] == "e"]
    return {(int(time), bytes.fromhex(name), b"") for _, time, name in words}


def lengths(drawn):
    """The lengths of a file that a cut leaves: each, if few bytes aren't sure."""

    def of(sure, whole):
        if whole - sure <= EACH:
            return range(sure, whole + 1)
        return sorted({sure, whole, *(drawn.randint(sure, whole) for _ in range(FEW))})

    return of


def of_run(run, drawn, is_planted=False):
    """Level e of a run, without the openings: what was checked; the texts that cuts leave; and in how many of them an event waits, and
    the handler of one began. If a bug is planted, the first error is enough."""
    seen, handled, walk, texts, counts = levels.Seen(), Handled(run.text or b""), run.walk(), {}, [0, 0]
    checked = set()
    for said in walk:
        if said is not None:
            handled.note(seen, said.decode().rstrip("\n"))
        if is_planted and seen.faults:
            break
        for _, text in walk.disk.cuts(lengths(drawn)):
            seen.cuts += 1
            if (text, handled.state()) in checked:
                continue
            checked.add((text, handled.state()))
            texts[text] = None
            counts = [count + is_there for count, is_there in zip(counts, handled.check(seen, text))]
    return seen, list(texts), counts


def begun_syncs(run):
    """The syncs after which a handler began, in strace's words for a failure of each."""
    counts, found, last = {}, [], None
    for call in run.calls:
        counts[call.thread, call.name] = counts.get((call.thread, call.name), 0) + 1
        if call.name == "fdatasync":
            last = f"fdatasync:error=EIO:when={counts[call.thread, call.name]}"
        if call.name == "write" and call.args.startswith("1,") and call.texts[0].startswith(b"b ") and last:
            found.append(last)
    return found


def lines_of(found):
    """What a host prints at an opening."""
    return [f"{'u' if has_begun else 'w'} {time} {name.hex()}" for (time, name, _), has_begun in found or []]


def open_again(seen, store, texts, room):
    """Opens each text by the store's own host: it has to report what the reader in Python finds there. Then what waits runs, everything
    ends, and the opening after that has to report nothing but an event that was fired last."""
    with tempfile.TemporaryDirectory(dir=room) as folder:
        lines, wanted = [], []
        for number, text in enumerate(texts):
            path, found = os.path.join(folder, str(number)), handlers.open_events(text) or []
            with open(path, "wb") as file:
                file.write(text)
            lines += [f"t {path}", *["s"] * len(found), *["d"] * len(found), "f 66", "x", f"t {path}", "x"]
            wanted += [("first", text, lines_of(found)), *[None] * (2 * len(found) + 2), ("then", text, None), None]
        with traces.Host(store.words(None), store.env(None)) as host:
            answered = host.say_all(lines)
    fired = None
    for line, want, (handed, answer) in zip(lines, wanted, answered):
        printed = [said for said in handed if said[0] in "wu"]
        if answer != "ok":
            seen.wrong(f"{line} is answered by {answer}")
        fired = next((said for said in handed if said[0] == "e"), fired)
        if want and want[0] == "first" and printed != want[2]:
            seen.wrong(f"it was left {want[1]!r}, and reports {printed}, not {want[2]}")
        elif want and want[0] == "then" and (fired is None or printed != ["w" + fired[1:]]):
            seen.wrong(f"it was left {want[1]!r}, and after all handlers ended the next life reports {printed}; {fired} was fired last")
