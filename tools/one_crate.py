"""What one crate has, for the quick loop of `./test CRATE`: its check, its wrong bodies, and the scripts that test it."""

import os
import subprocess
import sys

import edits

TOP = os.path.dirname(os.path.dirname(os.path.abspath(__file__)))

UNITS = "tests/library/units.py"
FORM = tuple(f"tests/repository/{name}.py" for name in ("clauses", "imports", "layout"))

# The scripts that test each crate, in addition to those of FORM.
SCRIPTS = {
    "serf_lamport": (UNITS,),
    "serf_pack": (UNITS, "tests/program/decode.py"),
    "serf_wire": (UNITS, "tests/program/decode.py", "tests/program/encode.py"),
    "serf_snapshot": (UNITS, "tests/program/clocks.py", "tests/program/rules.py"),
    "serf_store": (UNITS, "tests/library/store_faults.py", "tests/library/power_cuts.py"),
    "serf_text": ("tests/program/decode.py", "tests/program/clocks.py", "tests/program/stream.py"),
    "serf_window": (UNITS, "tests/program/rules.py", "tests/program/rows.py"),
    "serf_agent": (
        UNITS,
        "tests/library/alloc_failures.py",
        "tests/library/moved_query.py",
        "tests/program/rules.py",
        "tests/program/fault_order.py",
        "tests/program/rows.py",
        "tests/program/python_agent.py",
    ),
    "serf_agent_c": (
        "tests/library/embed.py",
        "tests/library/crashes.py",
        "tests/library/kept_lives.py",
        "tests/library/handler_lines.py",
        "tests/library/aarch64.py",
    ),
    "serf_example": (),
    "serf_model": ("tests/program/rules.py", "tests/program/rows.py"),
    "serf_world": (UNITS, "tests/program/rules.py", "tests/program/rows.py", "tests/repository/one_run.py"),
    "serf_schedule": (UNITS, "tests/program/schedule_cases.py", "tests/program/fault_order.py", "tests/program/rows.py"),
    "serf_write": ("tests/program/write.py",),
    "serf_random": ("tests/program/random_schedules.py",),
    "serf_conform": (
        "tests/program/conform.py",
        "tests/program/conform_seeds.py",
        "tests/program/conform_without.py",
        "tests/program/python_agent.py",
        "tests/program/attest.py",
    ),
    "serf_draw": ("tests/program/draw.py",),
    "serf_explain": ("tests/program/explain.py",),
    "serf_packets": ("tests/program/decode.py", "tests/program/encode.py"),
    "serf_judge": (
        "tests/program/judge.py",
        "tests/program/judge_stock_serf.py",
        "tests/program/log_handler.py",
        "tests/program/clocks.py",
    ),
    "serf_json": ("tests/program/json_output.py",),
    "serf_run_json": ("tests/program/json_output.py", "tests/program/replay.py"),
    "serf_judge_json": ("tests/program/json_output.py",),
    "serf_timeline": ("tests/program/timeline.py",),
    "serf_replay": ("tests/program/replay.py", "tests/program/stream.py"),
    "serf_replay_program": (
        "tests/program/command_line.py",
        "tests/program/completions.py",
        "tests/program/replay.py",
        "tests/program/capture.py",
    ),
}


def edits_of(crate):
    """How many wrong bodies a crate has."""
    return len(edits.edits_of(crate))


def commands_of(crate, is_slow):
    """The commands that run for a crate, each with its name, words and folder, and the scripts that only the whole gate runs."""
    python = sys.executable
    found = [("rt check", ["rt", "check"], os.path.join(TOP, "crates", crate))]
    if edits_of(crate):
        found.append((f"its {edits_of(crate)} wrong bodies", [python, "tools/mutants.py", crate], TOP))
    scripts = [*FORM, *SCRIPTS[crate]]
    found += [(name, [python, name], TOP) for name in scripts if not is_slow(name)]
    return found, [name for name in scripts if is_slow(name)]


def run(crate, is_slow):
    """Prints what a crate has, and runs it, with the unproved program. Returns how many passed, and how many failed."""
    commands, left = commands_of(crate, is_slow)
    print(f"test: {crate} has {', '.join(name for name, *_ in commands)}", flush=True)
    passed = 0
    for name, words, folder in commands:
        print(f"-- {name}", flush=True)
        result = subprocess.run(words, cwd=folder, env={**os.environ, "SERF_UNPROVED": "1"}, stdin=subprocess.DEVNULL)
        passed += result.returncode == 0
        if result.returncode:
            print(f"FAILED {name}", flush=True)
    for name in left:
        print(f"not run: {name}, which needs what `rt ci` leaves; python3 {name} makes that first")
    return passed, len(commands) - passed


def install():
    """Lets tools/packages install what the tests need, if it is allowed to."""
    result = subprocess.run([os.path.join(TOP, "tools", "packages")], stdin=subprocess.DEVNULL)
    if result.returncode:
        print("test: continuing without them; the tests that did not run are listed at the end", flush=True)
