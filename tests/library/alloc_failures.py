"""Each allocation refused once: every public call that allocates, with its first, second, .. allocation refused.

A scratch crate outside the repository, over its crates' sources, has a test for each growth of each case of
tests/library/alloc_failures. `rt try --test --fail-alloc N` builds it once, runs each test in a separate process, and
refuses the N-th allocation there; a test makes N - k allocations before its case begins, so the k-th growth of the case is
refused. The case checks the state after a refusal, makes its call again, and prints the result:

    no state        a growth was refused before the call, or after it
    refused         one was refused in the call, and everything was correct, in the second call too
    whole           none was refused in the call, and it returned what it should
    wrong: WHAT     something was wrong
"""

import os
import re
import sys

sys.dont_write_bytecode = True
sys.path.insert(0, os.path.dirname(os.path.dirname(os.path.abspath(__file__))))
import checks
import scratch

CASES = os.path.join(checks.TOP, "tests", "library", "alloc_failures")

USES = [
    "serf_lamport",
    "serf_pack",
    "serf_wire",
    "serf_snapshot",
    "serf_text",
    "serf_window",
    "serf_agent",
    "serf_model",
    "serf_world",
    "serf_schedule",
    "serf_replay",
]

# The number of the allocation that is refused, as REFUSED in tests/library/alloc_failures/lib.rattle. Each test first makes the
# allocations before it that its case doesn't need. The number is as small as the cases allow: if nothing is refused, each case has to
# end before it.
REFUSED = 1024

# The number of a run in which nothing is refused.
NOTHING = 1000

# How often the toolchain is called: again for the cases that have more growths than were tried.
ROUNDS = 4

# Each case, and how many growths it has up to the end of its call. If a case has more, this is found and it is tried again, which
# takes longer: the numbers only save time.
GROWTHS = {
    "appenders": 15,
    "bytes_list": 3,
    "clocks_text": 3,
    "compact_agent": 21,
    "compact_kept": 6,
    "compact_snapshot": 4,
    "copied_actions": 120,
    "copied_roster": 26,
    "copy_of": 1,
    "decode_text": 9,
    "default_config": 1,
    "encode_intent": 4,
    "encode_push_pull": 11,
    "encode_query": 6,
    "encode_response": 4,
    "encode_user_event": 4,
    "event_bodies": 3,
    "event_window": 4,
    "fire": 14,
    "ids": 1,
    "kept_entries": 18,
    "local_state": 19,
    "merge_remote_state": 14,
    "new_world": 15,
    "node_filter": 2,
    "note_event": 3,
    "note_kept": 5,
    "note_member": 3,
    "note_query": 3,
    "open_agent": 5,
    "open_events": 18,
    "open_snapshot": 2,
    "parse_bad_schedule": 24,
    "parse_schedule": 35,
    "query": 22,
    "query_window": 2,
    "read_input": 3,
    "read_schedule_line": 24,
    "recall": 5,
    "receive_ack": 24,
    "receive_event": 10,
    "receive_excluded_query": 6,
    "receive_query": 13,
    "receive_response": 25,
    "replay": 157,
    "replay_lines": 200,
    "report_input": 190,
    "respond": 17,
    "responses": 5,
    "roster": 12,
    "run": 165,
    "save_member_clock": 20,
    "show_trace": 175,
    "sink_replace": 2,
    "sink_reserve": 2,
    "sink_with": 1,
    "step": 165,
    "summarize": 200,
    "summarize_lines": 202,
    "take_due": 27,
    "take_line": 200,
}

# Each public call that gets an allocator, and the case that makes it; None if it allocates nothing.
CALLS = {
    "serf_agent Agent::compact": "compact_agent",
    "serf_agent Agent::fire": "fire",
    "serf_agent Agent::local_state": "local_state",
    "serf_agent Agent::merge_remote_state": "merge_remote_state",
    "serf_agent Agent::open": "open_agent",
    "serf_agent Agent::query": "query",
    "serf_agent Agent::receive": "receive_event",
    "serf_agent Agent::save_member_clock": "save_member_clock",
    "serf_agent Agent::take_due": "take_due",
    "serf_agent Config::new": "default_config",
    "serf_agent Config::try_clone": "copied_roster",
    "serf_agent PendingQuery::respond": "respond",
    "serf_agent List::new": None,
    "serf_model Act::try_clone": "copied_actions",
    "serf_model Action::try_clone": "copied_actions",
    "serf_model Boxed::new": "parse_schedule",
    "serf_model NewQuery::try_clone": "copied_actions",
    "serf_model Numbers::one": None,
    "serf_replay replay": "replay",
    "serf_replay replay_lines": "replay_lines",
    "serf_replay summarize": "summarize",
    "serf_replay summarize_lines": "summarize_lines",
    "serf_schedule Run::new": None,
    "serf_schedule Run::take_line": "take_line",
    "serf_schedule parse_schedule": "parse_schedule",
    "serf_schedule read_schedule_line": "read_schedule_line",
    "serf_schedule report_input": "report_input",
    "serf_schedule report_schedule": "summarize",
    "serf_schedule show_trace": "show_trace",
    "serf_snapshot MemorySink::new": None,
    "serf_snapshot MemorySink::with": "sink_with",
    "serf_snapshot Snapshot::compact": "compact_snapshot",
    "serf_snapshot Snapshot::append_line": "note_event",
    "serf_snapshot Snapshot::open": "open_snapshot",
    "serf_snapshot Snapshot::open_read": "open_snapshot",
    "serf_snapshot read_kept": "kept_entries",
    "serf_snapshot read_open_events": "open_events",
    "serf_text answer_lines": "replay_lines",
    "serf_text bytes_at": "parse_schedule",
    "serf_text clocks_text": "clocks_text",
    "serf_text decode_text": "decode_text",
    "serf_text hex_bytes": "parse_schedule",
    "serf_text read_input": "read_input",
    "serf_text report_lines": "replay_lines",
    "serf_text report_text": "replay",
    "serf_window Window::new": "new_windows",
    "serf_window Window::prepare": "event_window",
    "serf_window Window::recall": "recall",
    "serf_wire Bytes::copy_of": "copy_of",
    "serf_wire ReservedVec::new": None,
    "serf_wire encode_intent": "encode_intent",
    "serf_wire encode_push_pull": "encode_push_pull",
    "serf_wire encode_query": "encode_query",
    "serf_wire encode_response": "encode_response",
    "serf_wire encode_user_event": "encode_user_event",
    "serf_wire node_filter": "node_filter",
    "serf_world Roster::add": "roster",
    "serf_world Roster::from_vec": "roster",
    "serf_world Roster::new": None,
    "serf_world Roster::try_clone": "copied_roster",
    "serf_world World::new": "new_world",
    "serf_world World::step": "step",
    "serf_world act": "take_line",
    "serf_world run": "run",
}

# A public function with its parameters, and the head of the impl or trait that it is in.
PUBLIC = re.compile(r"^( *)pub fn (\w+)(?:<[^(]*>)?\(([^)]*)\)", re.M)
OWNER = re.compile(r"^(?:impl(?:<[^{]*?>)? (?:[\w:]+(?:<[^{]*?>)? for )?|pub trait )(\w+)", re.M)

# Calls that allocate nothing, so that they are never refused, and how many growths their state has.
NEVER_REFUSED = {"ignore": 10, "merge_again": 14, "new_windows": 0}

# Calls that are wrong on purpose, and have to be reported as wrong, one that always fails to allocate among them.
WRONG = {"wrong_always_refused": 1, "wrong_another_error": 1, "wrong_answer": 1, "wrong_change": 2}


def public_calls():
    """Each public call of the crates that gets an allocator."""
    found = set()
    for crate in USES:
        for folder, _, files in os.walk(os.path.join(checks.TOP, "crates", crate, "src")):
            for file in files:
                with open(os.path.join(folder, file), encoding="utf-8") as source:
                    text = source.read()
                for call in PUBLIC.finditer(text):
                    if "alloc: Global" in call[3]:
                        owner = (
                            [head[1] + "::" for head in OWNER.finditer(text, 0, call.start())][-1] if call[1] else ""
                        )
                        found.add(f"{crate} {owner}{call[2]}")
    return found


def faults_of_calls():
    """What is wrong with the table of public calls."""
    found = public_calls()
    faults = [f"{call}: a public call without a case" for call in sorted(found - CALLS.keys())]
    faults += [f"{call}: a case for a call that doesn't exist" for call in sorted(CALLS.keys() - found)]
    cases = {**GROWTHS, **NEVER_REFUSED}
    return faults + [
        f"{call}: no case {case}" for call, case in CALLS.items() if case is not None and case not in cases
    ]


def first_numbers():
    """Each case, and the largest number of a growth that is refused at first."""
    return {name: count + 2 for name, count in {**GROWTHS, **NEVER_REFUSED, **WRONG}.items()}


def rust_text(data):
    """A byte string in Rattle's syntax."""
    return 'b"' + "".join(
        chr(byte) if 32 <= byte < 127 and byte not in b'"\\' else f"\\x{byte:02x}" for byte in data
    ) + '"'


def write_example(source):
    """The schedule with every word, and its trace, as a source."""
    texts = {}
    for kind in ("schedule", "trace"):
        with open(os.path.join(CASES, "every_word." + kind), "rb") as file:
            texts[kind] = rust_text(file.read())
    lines = ["//! A schedule with every word, and its trace.", "", "use crate::example::Example;", ""]
    lines += [
        f"pub const EVERY_WORD: &Example = &Example {{ schedule: {texts['schedule']}, trace: {texts['trace']} }};", ""
    ]
    scratch.write(source, "every_word.rt", "\n".join(lines))


def write_tests(source, numbers):
    """A test for each growth of each case up to its number."""
    lines = ["//! A test for each growth of each case.", "", "use crate::told;", "use std::io;", ""]
    for name, number in numbers.items():
        for k in [*range(1, number + 1), NOTHING]:
            lines += [
                "#[test]",
                f"fn {name}_{k}(rt: HostRuntime) -> io::Result<()> {{",
                f'    told(&rt, "{name}", {k})',
                "}",
                "",
            ]
    scratch.write(source, "cases.rt", "\n".join(lines))


def outcomes(numbers):
    """The result of each run of each case, what the toolchain printed, and its status."""
    with scratch.crate("alloc_failures", USES) as source:
        scratch.copy_sources(CASES, source)
        write_example(source)
        write_tests(source, numbers)
        status, output = scratch.run_tests(source, "--fail-alloc", str(REFUSED))
    came = {name: {} for name in numbers}
    for name, k, how in re.findall(r"^ *came (\w+) (\d+) (.+)$", output, re.M):
        came[name][int(k)] = how
    return came, output, status


def refused_in(came):
    return [k for k, how in sorted(came.items()) if how == "refused"]


def has_more(name, number, came):
    """Whether a case may have growths after those that were tried."""
    last = came.get(number)
    if name in WRONG or last is None:
        return False
    if name in NEVER_REFUSED:
        return last == "no state"
    return last == "refused" or (last == "no state" and not refused_in(came))


def fault_of(name, number, came):
    """What is wrong with the runs of a case, or None."""
    missing = [k for k in [*range(1, number + 1), NOTHING] if k not in came]
    if missing:
        return f"no answer if growth {missing[0]} is refused"
    wrong = [(k, how) for k, how in sorted(came.items()) if how not in ("no state", "refused", "whole")]
    if name in WRONG:
        return None if wrong else "a wrong call that isn't found"
    if wrong:
        return "if growth {} is refused: {}".format(*wrong[0])
    if came[NOTHING] != "whole":
        return f"{came[NOTHING]} if nothing is refused"
    if has_more(name, number, came):
        return f"it has more than {number} growths"
    refused = refused_in(came)
    if name in NEVER_REFUSED:
        return f"refused at growth {refused[0]}" if refused else None
    return None if refused else "no growth of the call was refused"


def calls(count):
    """Each public call that gets an allocator has a case."""
    faults = faults_of_calls()
    for fault in faults:
        count.check("the table of public calls", False, fault)
    count.add(len(CALLS) - len(faults), 0)


def growths(count):
    numbers = first_numbers()
    came = {}
    asked = numbers
    said, status = "", 0
    for _ in range(ROUNDS):
        answers, said, status = outcomes(asked)
        came.update(answers)
        asked = {
            name: numbers[name] + max(10, numbers[name] // 2)
            for name in numbers
            if has_more(name, numbers[name], came[name])
        }
        if status != 0 or not asked:
            break
        for name, number in asked.items():
            print(f"{name} has more than {numbers[name]} growths: up to {number} are tried now")
        numbers.update(asked)
    for name, number in numbers.items():
        fault = fault_of(name, number, came[name])
        count.check(name, not fault, fault)
    if status != 0:
        count.check("rt try", False, f"it ended with status {status}: {said[-1400:]}")
    runs = sum(len(each) for each in came.values())
    refused = sum(len(refused_in(each)) for each in came.values())
    print(f"{runs} runs, and a growth of a call was refused in {refused} of them")


if __name__ == "__main__":
    sys.exit(checks.run(calls, growths))
