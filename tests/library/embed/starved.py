"""The library with calls that run out of memory, and what each language's driver of these calls has to print."""

import os
import re

import c_library

HERE = os.path.dirname(os.path.abspath(__file__))

# The library's calls that starved.c wraps, and the names that they get.
CALLS = ["merge", "add_filter", "query", "add_status", "add_left", "local_state"]
CALLS += ["burst_receive", "burst_fire", "burst_query", "next"]
NAMES = {"rattle_alloc": "starved_alloc", "rattle_realloc": "starved_realloc"} | {
    f"serf_agent_{call}": f"whole_{call}" for call in CALLS
}

# How many requests for memory a merge of five events may make.
MAX_GRANTED = 200
EVENTS = [f"{time} e{time - 1}" for time in range(1, 6)]

# The nodes that the first, the second and the third query and state name: two filters; two members, the second of which
# left.
NODES = {
    "query": [["a1", "a2"], ["b1", "b2"], ["c1", "c2"]],
    "state": [["a1", "a2", "a2"], ["b1", "b2", "b2"], ["c1", "c2", "c2"]],
}


def make(places):
    """Makes that library, in a separate folder with its shared one; what went wrong, or None."""
    piece = places.of("starved.o")
    renamed = [word for pair in NAMES.items() for word in ("--redefine-sym", "=".join(pair))]
    steps = [
        ["objcopy", *renamed, places.library, places.starved],
        [
            os.environ.get("CC", "cc"),
            *c_library.STRICT,
            "-O2",
            "-fPIC",
            "-c",
            "-o",
            piece,
            os.path.join(HERE, "starved.c"),
        ],
        ["ar", "r", places.starved, piece],
    ]
    for words in steps:
        status, output = c_library.ran(words)
        if status:
            return output or f"{words[0]} failed"
    return c_library.fault_of_shared(shared(places.starved), places.starved)


def shared(library):
    return os.path.join(os.path.dirname(library), "libserf_agent.so")


def largest_kept(path):
    """The largest time of an event that a snapshot's file keeps."""
    with open(path, encoding="utf-8") as file:
        return max((int(line.split(" ")[1]) for line in file if line.startswith("event-clock: ")), default=0)


def named(kind, lines):
    """What each query or state named, or None if it had no memory."""
    words = [line.split(" ")[1] for line in lines if line.startswith(kind)]
    return [
        None if word == "refused" else [name.decode() for name in re.findall(rb"node-(..)", bytes.fromhex(word))]
        for word in words
    ]


def try_calls(count, language, places, words, **more):
    """Runs a driver with one more request granted each time, until the first calls of all three kinds end well."""
    env, parts, ends = dict(more.pop("env", os.environ)), set(), []
    for granted in range(MAX_GRANTED):
        folder = places.fresh("starved")
        env["SERF_AGENT_GRANTED"] = str(granted)
        status, output = c_library.ran([*words, folder], env=env, **more)
        lines = output.splitlines()
        ends = [line for line in lines if line in ("ok", "out of memory")]
        handed = [line for line in lines if re.match(r"\d", line)]
        # (each event is handed out exactly once)
        whole = status == 0 and sorted(handed) == EVENTS and ends[1:] == ["ok"]
        kept = largest_kept(os.path.join(folder, "other.snapshot")) if whole else None
        count.check(
            f"{language}: a merge with {granted} requests for memory",
            whole and kept == 5,
            f"{status}, {kept}: {output[-600:]}",
        )
        if "out of memory" in lines:
            parts.add(lines.index("out of memory"))
        # (each query and each state names only its own nodes, and one that is refused leaves nothing for the next)
        for kind, nodes in NODES.items():
            found = named(kind, lines) if status == 0 else []
            count.check(
                f"{language}: a {kind} with {granted} requests for memory",
                found in ([None, None, nodes[2]], [nodes[0], None, nodes[2]]),
                f"{status}, {found}",
            )
            ends += ["out of memory"] if found[:1] == [None] else []
        if status or "out of memory" not in ends:
            break
    # (nothing, one event, two, and so on, entered before the memory was used up)
    count.check(
        f"{language}: merges that end in each place",
        parts >= set(range(5)) and granted < MAX_GRANTED - 1,
        f"{sorted(parts)}, {granted}",
    )
