"""Lines about handlers: compares the library, through its binding for Python, with a second reader and writer of these lines, that of
conformance/python, which was written from docs/SPEC.md alone.

    tests/library/handler_lines.py [--library FILE] [--over-ci] [--seeds FIRST-LAST]

Both read the same texts, and have to report the same open events, in the same order, with whether each has begun, or that the text says
nothing of handlers. The texts are those of hosts that keep a list of their open events, which both have to report then, with
compactions in between; the same texts with lines that are doubled, dropped, moved, or taken from another text; lines in a random order,
for events that were never handed out, with words that no line has; texts without a line `#done TIME`, as Serf leaves them; each of
these cut at any byte, sealed, and continued; and the files of real agents, which seal what a kill left. Both write the same lines.
tests/library/handler_lines has the texts.

Then errors are planted into the second reader, by its switches, and into a copy of the binding, and each has to be found.
--library and --over-ci are those of tests/library/embed.py.
"""

import argparse
import collections
import itertools
import os
import shutil
import sys
import tempfile

sys.dont_write_bytecode = True
sys.path.insert(0, os.path.dirname(os.path.dirname(os.path.abspath(__file__))))
import checks
import c_library

sys.path[:0] = [os.path.join(checks.TOP, "tests", "library", "handler_lines"), os.path.join(checks.TOP, "conformance", "python")]
import texts
from serf_agent import handlers, switches

# The minimum number of texts of each kind in all seeds together, and of texts with each of these results.
MINIMUMS = {
    "host": 150, "changed": 300, "strange": 300, "without": 75, "cut": 6000, "sealed": 6000, "agent": 300,
    "says nothing": 500, "nothing is open": 500, "waits": 3000, "began": 3000,
}

# Errors that are planted into a copy of the binding: what is replaced by what in its handlers.py.
PLANTED = {
    "an event that began is reported as one that waits": ("bytes(payload), c_event.begun)", "bytes(payload), False)"),
    "name and payload trade places": (
        "OpenEvent(c_event.time, bytes(name), bytes(payload)",
        "OpenEvent(c_event.time, bytes(payload), bytes(name)",
    ),
    "a text with nothing open says nothing": ("if not summary.tracked:", "if not summary.events:"),
    "the first open event is left out": ("for c_event in c_events:", "for c_event in list(c_events)[1:]:"),
}


class Library:
    """The library, through a folder with the binding for Python."""

    def __init__(self, folder):
        self.binding = binding_in(folder)
        self.loaded = self.binding.Library()

    def open_events(self, text):
        found = self.binding.open_events(text, self.loaded)
        return None if found is None else [((it.time, it.name, it.payload), it.begun) for it in found]

    def lines(self, event):
        """The lines of an event, and that of its time."""
        own = (self.binding.open_line, self.binding.begun_line, self.binding.done_line)
        return [*(line(*event, self.loaded) for line in own), self.binding.done_up_to_line(event[0], self.loaded)]


def binding_in(folder):
    """The package of a folder. The agent of conformance/ has a package of the same name, which is set aside meanwhile."""
    own = {name: sys.modules.pop(name) for name in list(sys.modules) if name.partition(".")[0] == "serf_agent"}
    sys.path.insert(0, folder)
    try:
        import serf_agent

        return serf_agent
    finally:
        sys.path.pop(0)
        for name in [name for name in sys.modules if name.partition(".")[0] == "serf_agent"]:
            sys.modules[f"{folder} {name}"] = sys.modules.pop(name)
        sys.modules.update(own)


def library_in(folder, library):
    """The library as a shared one in this folder, from a static one, and what went wrong, or None."""
    shared = os.path.join(folder, "libserf_agent.so")
    fault = c_library.fault_of_shared(shared, os.path.abspath(library))
    if fault:
        return None, fault
    os.environ["SERF_AGENT_LIBRARY"] = shared
    return Library(os.path.join(checks.TOP, "bindings", "python")), None


def results_of(found):
    """The words of MINIMUMS that a result counts for."""
    if found is None:
        return ["says nothing"]
    words = {"began" if has_begun else "waits" for _, has_begun in found}
    return sorted(words) or ["nothing is open"]


def differences(texts_of_seed, library, seen=None):
    """What is wrong in the texts of a seed: (kind, text, what is open by a host's own list, or `texts.UNKNOWN`)."""
    for kind, text, own in texts_of_seed:
        by_library, by_python = library.open_events(text), handlers.open_events(text)
        if seen is not None:
            seen.update([kind, *results_of(by_library)])
        if by_library != by_python:
            yield f"{kind}: {text!r}: the library {by_library}, the reader in Python {by_python}"
        elif own is not texts.UNKNOWN and by_library != own:
            yield f"{kind}: {text!r}: both {by_library}, the host {own}"


def lines_differ(events, library):
    """The first event whose lines are written differently, or None."""
    for event in events:
        wanted = [handlers.open_line(event), handlers.begun_line(event), handlers.done_line(event), handlers.done_up_to_line(event[0])]
        found = library.lines(event)
        if found != wanted:
            return f"{event}: the library {found}, the writer in Python {wanted}"
    return None


def compare(count, library, seeds, folder):
    """Compares the two on the texts of all seeds."""
    seen = collections.Counter()
    for seed in seeds:
        wrong = list(differences(texts.of_seed(seed), library, seen))
        count.check(f"seed {seed}: both read the same", not wrong, f"{len(wrong)} differ: {wrong[:1]}")
        wrong = list(differences(texts.of_agents(seed, library.binding, os.path.join(folder, "snapshot")), library, seen))
        count.check(f"seed {seed}: both read the same in files of agents", not wrong, f"{len(wrong)} differ: {wrong[:1]}")
        fault = lines_differ(texts.events_of(seed), library)
        count.check(f"seed {seed}: both write the same", not fault, fault)
    total = sum(seen[kind] for kind in texts.KINDS)
    print(f"seeds {seeds[0]}-{seeds[-1]}: {total:,} texts; " + ", ".join(f"{seen[name]:,} {name}" for name in MINIMUMS))
    for name, minimum in MINIMUMS.items():
        count.check(f"{name} occurred often enough", seen[name] >= minimum, f"{seen[name]}, and {minimum} are needed")


def first_found(library, seeds):
    """The seed whose texts show an error, and what differs, or None."""
    for seed in seeds:
        for fault in differences(texts.of_seed(seed), library):
            return seed, fault
    return None


def plant(count, library, seeds, folder):
    """Each planted error is found."""
    for name in switches.ONLY_BY_HANDLER_LINES:
        switches.chosen.clear()
        switches.choose(name)
        found = first_found(library, seeds)
        switches.chosen.clear()
        count.check(f"{name} is found", found)
    for number, (what, (old, new)) in enumerate(PLANTED.items()):
        copy = shutil.copytree(os.path.join(checks.TOP, "bindings", "python"), os.path.join(folder, f"planted{number}"))
        path = os.path.join(copy, "serf_agent", "handlers.py")
        source = checks.text_of(path)
        count.check(f"{what}: it can be planted", source.count(old) == 1)
        with open(path, "w", encoding="utf-8") as file:
            file.write(source.replace(old, new))
        count.check(f"{what}: it is found", first_found(Library(copy), seeds))
    planted = itertools.chain(switches.ONLY_BY_HANDLER_LINES, PLANTED)
    print(f"{len(list(planted))} errors were planted")


def main():
    parser = argparse.ArgumentParser(description=__doc__, formatter_class=argparse.RawDescriptionHelpFormatter)
    parser.add_argument("--library")
    parser.add_argument("--over-ci", action="store_true")
    parser.add_argument("--seeds", default="1-4")
    options = parser.parse_args()
    first, _, last = options.seeds.partition("-")
    seeds = range(int(first), int(last or first) + 1)
    count = checks.Checks()
    fault = None if options.library else c_library.fault_of_library(options.over_ci)
    with tempfile.TemporaryDirectory(dir="/dev/shm" if os.access("/dev/shm", os.W_OK) else None) as folder:
        library, fault = (None, fault) if fault else library_in(folder, options.library or c_library.LIBRARY)
        if fault:
            count.check("the library is built", False, fault)
            return count.finish()
        compare(count, library, seeds, folder)
        plant(count, library, seeds, folder)
    return count.finish()


if __name__ == "__main__":
    sys.exit(main())
