"""The wrong bodies of error exits: at least two for each function that C calls, and for each step of a store.

tests/repository/exits.rows has a line for each. It names edits of crates/CRATE/mutants, and for a store's step also the bugs that
tests/library/power_cuts plants. Each edit has to exist, and has to turn the function of its line or one that this function calls,
directly or not. If tests/refused has a current line for it, the line isn't `open`. For the bindings' stores, and for the file below
`FileStore`, each step has two wrong bodies that tests/library/store_faults plants, each with the check that finds it.
"""

import os
import re
import subprocess
import sys

sys.dont_write_bytecode = True
sys.path.insert(0, os.path.dirname(os.path.dirname(os.path.abspath(__file__))))
import checks
import edits
import pages
import reach

sys.path[:0] = [os.path.join(checks.TOP, "tests", "library", name) for name in ("power_cuts", "store_faults")]
import faults
import planted

ROWS = checks.text_of("tests", "repository", "exits.rows")

# A line: the step, if it is of one, a function, and the wrong bodies.
ROW = re.compile(r"^(?:(?P<step>[^=#\n]*): )?(?P<function>[\w:]+) = (?P<bodies>.+)$", re.M)

EXPORT = re.compile(r'^pub extern "C" fn (\w+)', re.M)
CALLED = re.compile(r"\b(\w+)\(")
PLANTED = "planted: "
MIN_BODIES = 2


def rows_of(crate):
    """The lines of a crate: the step of each, its function, and its wrong bodies."""
    part = ROWS.partition(f"\n[{crate}]\n")[2].partition("\n[")[0]
    return [(row["step"] or "", row["function"], row["bodies"].split(", ")) for row in ROW.finditer(part)]


def functions_of(crate):
    """The functions of a crate by their paths, each with the names that it calls."""
    found = {}
    for file in edits.source_files(crate):
        text, functions = edits.text_of(crate, file), edits.functions_in(crate, file)
        ends = [begin for begin, _, _ in functions[1:]] + [len(text)]
        for (begin, path, _), end in zip(functions, ends):
            found[path] = set(CALLED.findall(text[begin:end]))
    return found


def reached_from(function, functions):
    """The paths that end in this function's path, and those of all that they call, directly or not; a call is known by its last name."""
    todo = [path for path in functions if path == function or path.endswith(f"::{function}")]
    found = set()
    while todo:
        path = todo.pop()
        if path not in found:
            found.add(path)
            todo += [other for other in functions if other.split("::")[-1] in functions[path]]
    return found


def open_of(crate, own):
    """The edits of a crate for which tests/refused has a current line that says `open`."""
    path = os.path.join(checks.TOP, "tests", "refused", f"{crate}.txt")
    sums = dict(re.findall(r"^(\w+) ([0-9a-f]{32}) open ", checks.text_of(path), re.M))
    now = reach.Reach(checks.TOP)
    return {name for name in sums.keys() & own.keys() if now.sum_of(crate, own[name])[:32] == sums[name]}


def wrong_body(name, own, reached, unshown):
    """What is wrong with a row's wrong body, or None."""
    if name.startswith(PLANTED):
        return None if name.removeprefix(PLANTED) in faults.FAULTS.values() else "no bug of this name is planted"
    if name not in own:
        return "mutants/ has no edit of this name"
    if not reached & set(own[name].functions):
        return f"it turns {', '.join(own[name].functions)}"
    return "its evidence says `open`" if name in unshown else None


def rows(count, crate):
    """The lines of a crate, and each wrong body in them. Returns the functions that have a line."""
    own = {edit.name: edit for edit in edits.edits_of(crate)}
    functions, unshown, found = functions_of(crate), open_of(crate, own), set()
    for step, function, bodies in rows_of(crate):
        reached = reached_from(function, functions)
        count.check(f"{function} is in {crate}", reached)
        faulty = {name: wrong_body(name, own, reached, unshown) for name in bodies}
        faulty = {name: why for name, why in faulty.items() if why}
        count.check(f"{step} {function}: its wrong bodies", not faulty, faulty)
        count.check(f"{step} {function}: at least {MIN_BODIES}", len(set(bodies)) >= MIN_BODIES, bodies)
        found.add(function)
    return found


def planted_steps(count, what, of_faults, is_cut):
    """Each step has two wrong bodies that are planted, one of which a power cut may find."""
    for step, own in planted.steps(of_faults).items():
        bodies = [fault.what for fault in own] + [cut for of_step, cut in planted.OF_POWER_CUTS.items() if is_cut and of_step == step]
        count.check(f"{what}: {step}: at least {MIN_BODIES}", len(set(bodies)) >= MIN_BODIES, bodies)
        count.check(f"{what}: {step}: each has its check", all(fault.part and fault.check for fault in own), own)


def bindings(count):
    planted_steps(count, "the bindings' stores", planted.FAULTS, True)


def system_file(count):
    planted_steps(count, "the file beneath `FileStore`", planted.FILE_FAULTS, False)


def exits(count):
    texts = [edits.text_of("serf_agent_c", file) for file in edits.source_files("serf_agent_c")]
    exports = {name for text in texts for name in EXPORT.findall(text)}
    named = rows(count, "serf_agent_c")
    count.check("each function that C calls has a row", named == exports, named ^ exports)
    count.check("steps of a store", len(rows(count, "serf_store")) >= 5)


def printed(count):
    """The command of docs/WRONG_BODIES.md prints each wrong body, or with a crate's name those of that crate."""
    edit_names = {crate: [edit.name for edit in edits.edits_of(crate)] for crate in sorted(os.listdir(os.path.join(checks.TOP, "crates")))}
    for command in pages.of(pages.EXITS):
        run = lambda *words: subprocess.run([os.path.join(checks.TOP, command.text), *words], capture_output=True, text=True)
        for words, wanted in (((), edit_names), (("serf_window",), {"serf_window": edit_names["serf_window"]})):
            ran = run(*words)
            names = re.findall(r"^  (\w+)(?::| \()", ran.stdout.partition("the stores of C")[0], re.M)
            count.check(command.name(), ran.returncode == 0 and names == [name for own in wanted.values() for name in own], ran.stderr)
        count.check(
            f"{command.name()}: what a wrong body does",
            "  compares_time_alone: a second event of a time is dropped (window::verdict_in; " in run("serf_window").stdout,
        )
        count.check(f"{command.name()}: no such crate", run("serf_none").returncode == 2)


if __name__ == "__main__":
    sys.exit(checks.run(exits, bindings, system_file, printed))
