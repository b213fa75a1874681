"""What each language's driver of bursts has to print, also if a burst runs out of memory."""

import os
import re

import starved

# How many requests for memory a burst may make.
MAX_GRANTED = 200

# The outcomes of a burst that has memory, and those of the same burst again: everything but its own firings is a repeat then. The
# first query is for another node, and the second one for this node.
EVENTS = [f"event {time} e{time - 1} sent on" for time in range(1, 6)]
QUERY = "query 1 load handed acked sent on"
FIRST = [*EVENTS, QUERY, "fired 6 own", "asked", "ignored 4", "ok"]
SECOND = ["ignored 4"] * 6 + ["fired 7 own", "asked 3 load handed acked", "ignored 4", "ok"]

# Good and faulty packets, a repeat, a foreign message and a state in one burst, with an event, an event that is too large, a query
# without time, and a query; then an empty burst, and an answer, its repeat and events.
MIXED = [
    EVENTS[0],
    "refused 11",
    EVENTS[1],
    "ignored 4",
    "refused 11",
    QUERY,
    "foreign 0",
    "state",
    "fired 3 own",
    "refused 9",
    "refused 15",
]
MIXED += ["asked 2 load handed acked", EVENTS[2], "ok"]
ANSWERS = ["ok", "response other yes", "ignored 11", *(f"fired {time} again" for time in range(6, 11)), "ok"]


def kept(folder, name):
    """The largest times of an event and of a query that an agent's file keeps."""
    with open(os.path.join(folder, f"{name}.snapshot"), encoding="utf-8") as file:
        text = file.read()
    return [max([int(time) for time in re.findall(rf"^{kind}-clock: (\d+)$", text, re.M)], default=0) for kind in ("event", "query")]


def try_bursts(count, language, places, words, **more):
    """Runs a driver with enough memory: the outcomes of each burst, in order, and at least one line of each clock."""
    folder = places.fresh("bursts")
    status, output = starved.c_library.ran([*words, folder], **more)
    lines = output.splitlines()
    for name, wanted in (("bursts", FIRST), ("bursts of repeats", SECOND), ("mixed bursts", MIXED), ("bursts of answers", ANSWERS)):
        found, lines = lines[: len(wanted)], lines[len(wanted) :]
        count.check(f"{language}: {name}", status == 0 and found == wanted, f"{status}: {found}")
    count.check(f"{language}: no other outcome", not lines, lines)
    files = {name: kept(folder, name) for name in ("one", "other", "third")} if status == 0 else {}
    count.check(f"{language}: what the files of bursts keep", files == {"one": [10, 1], "other": [3, 2], "third": [7, 3]}, files)


def is_whole(lines, end):
    """Whether the bursts together handed out exactly what one with memory does, and the first one stopped after the number of calls
    that it reports."""
    first, second = lines[: lines.index(end)], lines[lines.index(end) + 1 : lines.index("ok", lines.index(end) + 1)]
    own = [line for line in first + second if line.startswith(("fired", "asked"))]
    handed = [line for line in first + second if line.startswith(("event", "query"))]
    is_cut = end == "ok" or (first == FIRST[: len(first)] and int(end.split(" ")[-1]) <= len(first))
    # (a filter that is left over from the first burst would keep the second query from this node)
    is_asked = any(re.fullmatch("asked [23] load handed acked", line) for line in second)
    return is_cut and is_asked and len(second) == 9 and handed == [*EVENTS, QUERY] and len(set(own)) == len(own)


def try_starved(count, language, places, words, **more):
    """Runs a driver with one more request granted each time, until its first burst ends well."""
    env, ends = dict(more.pop("env", os.environ)), {}
    for granted in range(MAX_GRANTED):
        folder = places.fresh("starved_bursts")
        env["SERF_AGENT_GRANTED"] = str(granted)
        status, output = starved.c_library.ran([*words, folder], env=env, **more)
        lines = output.splitlines()
        end = next((line for line in lines if line == "ok" or line.startswith("out of memory")), None)
        whole = status == 0 and end is not None and is_whole(lines, end)
        times = (
            [int(line.split(" ")[1]) for line in lines[: lines.index("ok", lines.index(end) + 1)] if line.startswith(("event", "fired"))]
            if whole
            else []
        )
        # (the file of a burst that was cut has the lines of what it handed out)
        count.check(
            f"{language}: a burst with {granted} requests for memory",
            whole and kept(folder, "third")[0] == max(times),
            f"{status}, {end}: {output[-900:]}",
        )
        if not whole or end == "ok":
            break
        ends[end] = ends.get(end, 0) + 1
    # (each call that allocates was once the first that failed)
    cut = {int(end.split(" ")[-1]) for end in ends}
    count.check(
        f"{language}: bursts that end in each place", set(range(6)) <= cut and granted < MAX_GRANTED - 1, f"{sorted(cut)}, {granted}"
    )
