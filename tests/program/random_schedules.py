"""`random`: each kind's first seeds, replayed.

For each seed the program writes the same bytes twice, and these are the bytes of this version (DIGESTS). `replay` accepts them and
answers each action, and there are as many actions as were requested. The largest schedule ends below 16 MiB, and takes
few processor seconds. Bad words of a command line are refused. With `--rules serf`, no turn of a trace depends on one of
this project's own rules, no agent keeps its events, and the median of the actions that are left is printed. The tails of
`kept` have lines of each form that an agent which keeps its events writes, about events that were sent and about others.

    tests/program/random_schedules.py [--digests]

--digests prints the current digests: another version of the generator gets another number, and new digests.
"""

import hashlib
import os
import re
import statistics
import subprocess
import sys
from collections import Counter

sys.dont_write_bytecode = True
sys.path.insert(0, os.path.dirname(os.path.dirname(os.path.abspath(__file__))))
import checks

SEEDS = range(1, 11)
ACTIONS = 120

# How many processor seconds a schedule of the maximum size may take.
MAX_SECONDS = 10

# For each kind the digest of the schedules of SEEDS, one after another, at version 5; of those of COMMON_SEEDS that keep to
# Serf's rules; and of rounds with other settings of fanout and loss.
DIGESTS = {
    "mixed": "0b2236d6002f13b2",
    "tiny": "5e8ba723f32ff852",
    "merges": "2ea25b6f94ac9bf9",
    "restarts": "40b851ab9cfd6bf4",
    "devices": "f78ec85dc176f45f",
    "injections": "d883b27c402d12e2",
    "queries": "d21389bb08529ba5",
    "limits": "cda75c9ee7120035",
    "exhaustion": "53a8d3a50aeac73c",
    "per-time": "9fdc168c7b949a95",
    "compactions": "805712ffe24eba01",
    "gossip": "eb9ee42311210ec2",
    "spellings": "7b148779c42204e1",
    "kept": "5fd2f9f074b9d1da",
    "rounds": "72259437886de4cf",
    "mixed, Serf's rules": "b990d755e4899540",
    "tiny, Serf's rules": "40fe6a4bba1d6df9",
    "merges, Serf's rules": "86610806c7dc196b",
    "restarts, Serf's rules": "98ace6109bef8cf8",
    "devices, Serf's rules": "3018635cecb19b83",
    "injections, Serf's rules": "51ee04270632a4fc",
    "queries, Serf's rules": "124618e2c8807612",
    "limits, Serf's rules": "e330e56a396fa057",
    "exhaustion, Serf's rules": "0ac9ce9501891f96",
    "per-time, Serf's rules": "7c914a7b9d20854b",
    "compactions, Serf's rules": "2dd93c351f83fa36",
    "gossip, Serf's rules": "36bd194b2f303592",
    "spellings, Serf's rules": "69bb1d0ba19d5ddb",
    "kept, Serf's rules": "1f488e731160a2e9",
    "rounds, Serf's rules": "178d8078c3d142fb",
    "fanout 1 and loss 0": "a80e39b3a52530c2",
    "fanout 3 and loss 0": "dd2b6a89a3bbef2c",
    "fanout 3 and loss 50": "35c4a35b6e56ba28",
    "fanout 16 and loss 99": "6df58beb56300784",
}

# For each kind, the seeds whose schedules keep to Serf's rules here.
COMMON_SEEDS = range(1, 21)

# The seeds whose tails are inspected, and their number of actions.
KEPT_SEEDS, KEPT_ACTIONS = range(1, 61), 200

# The answers that depend on one of this project's own rules (docs/SPEC.md, "Traces"); a restart with a tail; and what
# agent keeps its events.
OWN_ANSWER = re.compile(
    rb"^\d+ (?:ignored (?:Oversize|TimeFull)|refused (?:Wire|Exhausted|RespondersFull|Stopped|SinkFault)"
    rb"|broken|compacted)\b",
    re.M,
)
TAIL = re.compile(rb"^restart \d+ [^-\n]", re.M)
KEEPS = re.compile(rb"^agent .*\+events", re.M)

# An agent's line with the number of events of one time that it accepts, and the default of that number.
PER_TIME = re.compile(rb"^agent \S+ \d+ \d+ \d+ \d+ \S+ (\d+)", re.M)
DEFAULT_PER_TIME = 1024

# A query that entered, with the number of its action, and one that was handed out.
ENTERED = re.compile(rb"^(\d+) (?:query|queried \d+)$", re.M)
HANDED = re.compile(rb"^(\d+) handed ", re.M)

# The forms of a tail's line, if agents keep their events.
KEPT_LINES = {
    "event with a text of no bytes": re.compile(rb"#event [1-9]\d* (?:- [0-9a-f]+|[0-9a-f]+ -)\n"),
    "least time above 2^64 - 1": re.compile(rb"#least event-clock: 18446744073709551615\d+\n"),
    "event": re.compile(rb"#event [1-9]\d* (?:[0-9a-f]{2})* (?:[0-9a-f]{2})*\n"),
    "query": re.compile(rb"#query [1-9]\d* \d+\n"),
    "least time": re.compile(rb"#least (?:event|query)-clock: \d+\n"),
    "clock line with a zero": re.compile(rb"(?:event|query)-clock: 0[1-9]\d*\n"),
    "clock line without a zero": re.compile(rb"(?:event|query)-clock: [1-9]\d*\n"),
    "torn line": re.compile(rb"[^\n]+"),
}

# A round's length, in nanoseconds.
ROUND = 200_000_000

# Words that are refused, with their status.
REFUSED = (
    (["random"], 2),
    (["random", "x"], 2),
    (["random", "18446744073709551616"], 2),
    (["random", "1", "--kind", "mixd"], 2),
    (["random", "1", "--actions", "-1"], 2),
    (["random", "1", "2"], 2),
    (["random", "1", "--rules", "mine"], 2),
    (["random", "1", "--fanout", "3"], 2),
    (["random", "1", "--kind", "gossip", "--loss", "20"], 2),
    (["random", "1", "--kind", "gossip", "--rounds", "10"], 2),
    (["random", "1", "--kind", "gossip", "--agents", "65"], 2),
    (["random", "1", "--kind", "rounds", "--agents", "10001"], 2),
    (["random", "1", "--kind", "rounds", "--fanout", "0"], 2),
    (["random", "1", "--kind", "rounds", "--fanout", "17"], 2),
    (["random", "1", "--kind", "rounds", "--loss", "100"], 2),
    (["random", "1", "--kind", "rounds", "--rounds", "0"], 2),
)


def run_program(words, given=b""):
    return subprocess.run([checks.PROGRAM, *words], input=given, capture_output=True, timeout=checks.LIMIT)


def schedule_of(seed, kind, *words):
    return run_program(["random", str(seed), "--kind", kind, "--actions", str(ACTIONS), *words])


def first_line(seed, kind, rules=""):
    """The first line of a schedule: the words with which it was requested."""
    spread = " --fanout 3 --loss 20 --rounds 10" if kind == "rounds" else ""
    return f"# random {seed} --kind {kind} --agents 0 --actions {ACTIONS}{spread}{rules} version 5".encode()


def actions_in(text):
    return sum(not line.startswith((b"#", b"agent ")) for line in text.splitlines())


def wrong_seed(seed, kind, made, again):
    """What is wrong with the schedule of a seed, or None."""
    if made.returncode or made.stderr:
        return f"status {made.returncode}: {made.stderr}"
    if made.stdout != again.stdout:
        return "it has other bytes the second time"
    if made.stdout.split(b"\n")[0] != first_line(seed, kind):
        return "its first line isn't what was requested"
    # (rounds may end before the last action)
    many = actions_in(made.stdout)
    if many > ACTIONS or many < ACTIONS and kind != "rounds":
        return f"it has {many} actions"
    replayed = run_program(["replay"], made.stdout)
    if replayed.returncode or replayed.stderr:
        return f"replay: status {replayed.returncode}: {replayed.stderr}"
    answered = {line.split(b" ")[0] for line in replayed.stdout.splitlines()}
    return None if len(answered) == many else "replay answers fewer actions"


def wrong_common(seed, kind, made):
    """What is wrong with the schedule of a seed that keeps to Serf's rules, or None."""
    if made.returncode or made.stderr:
        return f"status {made.returncode}: {made.stderr}"
    if made.stdout.split(b"\n")[0] != first_line(seed, kind, " --rules serf"):
        return "its first line isn't what was requested"
    if actions_in(made.stdout) > ACTIONS:
        return f"it has {actions_in(made.stdout)} actions"
    replayed = run_program(["replay"], made.stdout)
    if replayed.returncode or replayed.stderr:
        return f"replay: status {replayed.returncode}: {replayed.stderr}"
    own = OWN_ANSWER.search(replayed.stdout) or TAIL.search(made.stdout) or KEEPS.search(made.stdout)
    if own:
        return f"an own rule: {own[0]}"
    if any(int(number) < DEFAULT_PER_TIME for number in PER_TIME.findall(made.stdout)):
        return "an agent accepts fewer events of one time than by default"
    held_back = set(ENTERED.findall(replayed.stdout)) - set(HANDED.findall(replayed.stdout))
    return f"a query is held back in action {min(held_back, key=int)}" if held_back else None


def same_bytes(count, name, texts):
    """The schedules are those of this version."""
    short = hashlib.sha256(b"".join(texts)).hexdigest()[:16]
    if "--digests" in sys.argv:
        print(f'    "{name}": "{short}",')
    count.check(f"{name}, its bytes", DIGESTS.get(name) == short, f"digest {short}")


def common_schedules(count):
    for kind in checks.KINDS:
        made = {seed: schedule_of(seed, kind, "--rules", "serf") for seed in COMMON_SEEDS}
        same_bytes(count, f"{kind}, Serf's rules", [one.stdout for one in made.values()])
        left = statistics.median(actions_in(schedule.stdout) for schedule in made.values())
        print(f"{kind}: {left:g} of {ACTIONS} actions keep to Serf's rules in the median")
        for seed, schedule in made.items():
            fault = wrong_common(seed, kind, schedule)
            count.check(f"{kind} {seed}, Serf's rules", not fault, fault)


def largest(kind):
    """What is wrong with the largest schedule of a kind, or None."""
    began = checks.processor_seconds()
    made = run_program(["random", "1", "--kind", kind, "--agents", "4", "--actions", "100000000"])
    seconds = checks.processor_seconds() - began
    print(f"{kind}: {len(made.stdout)} bytes and {actions_in(made.stdout)} actions in {seconds:.2f} processor seconds")
    if made.returncode:
        return f"status {made.returncode}: {made.stderr}"
    if not checks.LONGEST - 200_000 < len(made.stdout) <= checks.LONGEST:
        return f"it has {len(made.stdout)} bytes"
    return None if seconds < MAX_SECONDS else f"it took {seconds:.1f} processor seconds"


def first_seeds(count):
    for kind in checks.KINDS:
        texts = []
        for seed in SEEDS:
            made = schedule_of(seed, kind)
            texts.append(made.stdout)
            fault = wrong_seed(seed, kind, made, schedule_of(seed, kind))
            count.check(f"{kind} {seed}", not fault, fault)
        same_bytes(count, kind, texts)


def largest_schedules(count):
    """For rounds, the schedule of four agents ends with the last round, far below the maximum size."""
    for kind in checks.KINDS[:-1]:
        fault = largest(kind)
        count.check(f"{kind}, the largest", not fault, fault)


def rounds_without_room(count):
    """If the maximum size ends the rounds, the program prints that; otherwise it prints nothing."""
    for agents, said in (("10000", b"random: a schedule has at most 16777216 bytes, so the last rounds may be missing\n"), ("1000", b"")):
        made = run_program(["random", "1", "--kind", "rounds", "--agents", agents, "--fanout", "16"])
        is_full = checks.LONGEST - 4096 < len(made.stdout) <= checks.LONGEST
        count.check(
            f"rounds of {agents} agents", (made.returncode, made.stderr, is_full) == (0, said, bool(said)), (made.stderr, len(made.stdout))
        )


def sends_in(text):
    """For each round, the packets that are delivered in it, with their agents."""
    sends = {}
    for line in text.splitlines():
        words = line.split(b" ")
        if words[0] == b"deliver":
            sends.setdefault(int(words[3]) // ROUND, []).append((int(words[2]), int(words[1])))
    return sends


def rounds_spread(count):
    """In rounds, no packet is sent more often than the options allow, and without losses each agent gets each event."""
    words = ["--kind", "rounds", "--agents", "100", "--actions", "100000", "--rounds", "30"]
    for fanout, loss in ((1, 0), (3, 0), (3, 50), (16, 99)):
        made = run_program(["random", "5", *words, "--fanout", str(fanout), "--loss", str(loss)])
        name, sends = f"fanout {fanout} and loss {loss}", sends_in(made.stdout)
        same_bytes(count, name, [made.stdout])
        maximum = max((many for sent in sends.values() for many in Counter(packet for packet, _ in sent).values()), default=0)
        count.check(f"{name}: no packet goes to more in a round", made.returncode == 0 and maximum <= fanout, maximum)
        count.check(f"{name}: rounds in order", list(sends) == sorted(sends) and max(sends, default=0) <= 30, list(sends))
        events = run_program(["replay"], made.stdout).stdout.count(b" event ")
        fired = sum(line.startswith(b"fire ") for line in made.stdout.splitlines())
        count.check(
            f"{name}: which agents got the events",
            (events == 100 * fired) if (fanout, loss) == (3, 0) else events >= fired,
            (events, fired),
        )
    said = run_program(["random", "5", *words])
    count.check(
        "the same words generate it again", run_program(said.stdout.split(b" version")[0].decode().split(" ")[1:]).stdout == said.stdout
    )


def all_rounds(count):
    """All requested rounds are generated, unless a number of actions ends them; and the words of the comment generate them again."""
    for agents, rounds in ((40, 10), (300, 12)):
        words = ["random", "3", "--kind", "rounds", "--agents", str(agents), "--rounds", str(rounds)]
        made, whole, cut = (run_program([*words, *more]).stdout for more in ([], ["--actions", "10000000"], ["--actions", "200"]))
        name, body = f"{agents} agents, {rounds} rounds", made.partition(b"\n")[2]
        count.check(f"{name}: no limit", body == whole.partition(b"\n")[2] and actions_in(made) > 200, actions_in(made))
        count.check(f"{name}: to the last round", max(sends_in(made), default=0) >= rounds - 1, list(sends_in(made)))
        count.check(f"{name}: 200 actions", actions_in(cut) == 200 and body.startswith(cut.partition(b"\n")[2]), actions_in(cut))
        count.check(f"{name}: its words again", run_program(made.split(b" version")[0].decode().split(" ")[1:]).stdout == made)


def kept_lines(count):
    """Schedules of `kept`: agents of each MODE with small buffers, and tails of each form; events in them that were sent, and others."""
    modes, forms, events = Counter(), Counter(), Counter()
    for seed in KEPT_SEEDS:
        made = run_program(["random", str(seed), "--kind", "kept", "--actions", str(KEPT_ACTIONS)]).stdout
        lines = [line.split(b" ") for line in made.splitlines()]
        modes.update(words[6].decode() for words in lines if words[0] == b"agent")
        slots = [int(word) for words in lines if words[0] == b"agent" for word in words[2:4]]
        count.check(f"kept {seed}: buffers of 1 to 8", 1 <= min(slots) and max(slots) <= 8, slots)
        sent = set(re.findall(rb"^\d+ event \d+ (\d+ \S+ \S+) [01]$", run_program(["replay"], made).stdout, re.M))
        tails = [words[2] for words in lines if words[0] == b"restart"]
        forms["none"] += tails.count(b"-")
        for tail in tails:
            for line in bytes.fromhex(tail.strip(b"-").decode()).splitlines(keepends=True):
                form = next((form for form, is_it in KEPT_LINES.items() if is_it.fullmatch(line)), "other")
                forms[form] += 1
                if form == "event":
                    words = [word or b"-" for word in line[:-1].split(b" ")[1:]]
                    events[b" ".join(words) in sent] += 1
    print(f"kept: {dict(modes)}, tails {dict(forms)}, events handed out or not {dict(events)}")
    count.check("kept: each MODE", sorted(modes) == ["ignore", "ignore+events", "keep", "keep+events"], modes)
    count.check("kept: each form", all(forms[form] >= 2 for form in ("none", "other", *KEPT_LINES)), forms)
    count.check("kept: events of both kinds", events[True] >= 10 and events[False] >= 10, events)


def refused(count):
    for words, status in REFUSED:
        got = run_program(words)
        count.check(" ".join(words), (got.returncode, got.stdout) == (status, b""), f"status {got.returncode}")


PARTS = (first_seeds, common_schedules, rounds_spread, all_rounds, kept_lines, refused)

# The parts with the largest schedules: over a program that is compiled unproved they take minutes.
PROVED_ALONE = (largest_schedules, rounds_without_room)


if __name__ == "__main__":
    sys.exit(checks.by_speed(PROVED_ALONE, PARTS))
