"""The command line: runs the commands of the documents, and compares `--help` and the manual page with docs/COMMANDS.md.

`command_line.py read` only compares the pages, and needs no built program.

- Each command of a page that begins with `serf-replay` (or `cut`, `grep`) is run in the page's folder, or at the top if the page
  is in docs/: its status is 0, or 1 for `judge`, and it prints something. If the page has lines under it that are no commands,
  they are its output.
- docs/COMMANDS.md has a section for each command of `--help`, README names each, and a section's table has the options of
  the command's help.
- The examples in the table of statuses end with these statuses.
- docs/serf-replay.1 has the commands, options, statuses and examples of docs/COMMANDS.md. If groff is installed, it reads the
  page without a warning.
- Words that no command accepts are refused, and a write that fails is an error for each command.
"""

import os
import re
import shutil
import subprocess
import sys

sys.dont_write_bytecode = True
sys.path.insert(0, os.path.dirname(os.path.dirname(os.path.abspath(__file__))))
import checks
import pages
from checks import TOP, text_of

STATUS = re.compile(r"^\| (\d) \| ([^|]*) \| `serf-replay ([^`]*)` \|$", re.M)
OPTION = re.compile(r"^\| `--([a-z-]+)([^`]*)`", re.M)
HELP_OPTION = re.compile(r"^ {2,}(?:-\w, )?--([a-z-]+)", re.M)
HELP_COMMAND = re.compile(r"^  ([a-z-]+)  ", re.M)
# In the manual: an option, by itself or with its value, and a status with what it means.
MANUAL = os.path.join("docs", "serf-replay.1")
MANUAL_OPTION = re.compile(r"^\.TP\n\.BI? --([a-z-]+)([^\n]*)$", re.M)
MANUAL_STATUS = re.compile(r"^\.TP\n\.B (\d)\n([^\n]*)$", re.M)


def run(command, folder):
    """Runs a line of a page in a shell that fails if a part of the line fails, with the program in place of its name."""
    line = re.sub(r"(^|\| |; do )(?:\./)?serf-replay\b", lambda found: found[1] + checks.COMMAND, command)
    # (a script of examples/ calls the program by its name)
    env = {**os.environ, "PATH": TOP + os.pathsep + os.environ["PATH"]}
    return subprocess.run(
        ["bash", "-o", "pipefail", "-c", line], cwd=folder, env=env, stdin=subprocess.DEVNULL, capture_output=True, timeout=checks.LIMIT
    )


def shown_commands(count):
    for shown in pages.of(pages.COMMAND_LINE):
        folder = os.path.join(TOP, os.path.dirname(shown.page).removeprefix("docs"))
        ran, wanted = run(shown.text, folder), (0, 1) if " judge " in shown.text else (0,)
        count.check(shown.name(), ran.returncode in wanted and ran.stdout, (ran.returncode, ran.stderr[-300:]))
        if shown.output:
            count.check(f"{shown.name()}: what it writes", ran.stdout.decode() == shown.output, ran.stdout[-600:])


def statuses(count):
    rows = STATUS.findall(text_of("docs", "COMMANDS.md"))
    count.check("a row for each status", [status for status, *_ in rows] == ["0", "1", "2", "3"], rows)
    for status, _, words in rows:
        ran = run(f"serf-replay {words}", TOP)
        count.check(f"status {status}: {words}", ran.returncode == int(status), (ran.returncode, ran.stderr))


def help_of(count, words):
    """What `--help` prints, and nothing else."""
    status, out, err = checks.run_program([*words, "--help"])
    count.check(" ".join([*words, "--help"]), status == 0 and out and not err, (status, out, err))
    return out.decode()


def parts_of(text, head, name):
    """The parts of a page after their heads, by the name that each begins with; a part without a name is left out."""
    parts = re.split(head, text, flags=re.M)[1:]
    return {found[1]: part for part in parts if (found := re.match(name, part))}


def sections():
    """The sections of COMMANDS.md, by their commands."""
    return parts_of(text_of("docs", "COMMANDS.md"), r"^## ", r"`([a-z-]+)`")


def manual_and_page(count):
    """The manual says what COMMANDS.md says about each command, and nothing else."""
    page, told = text_of("docs", "COMMANDS.md"), sections()
    parts = parts_of(text_of(MANUAL).replace("\\-", "-"), r"^\.SH ", r"([A-Z ]+)\n")
    commands = parts_of(parts.get("COMMANDS", ""), r"^\.SS ", r"([a-z-]+)\n")
    count.check(
        "the manual's parts",
        list(parts) == ["NAME", "SYNOPSIS", "DESCRIPTION", "COMMANDS", "EXIT STATUS", "FILES", "EXAMPLES", "SEE ALSO"],
        list(parts),
    )
    count.check("a part of the manual for each command", list(commands) == list(told), (list(commands), list(told)))
    for name, section in told.items():
        options = [
            (option, value.replace('"', "").strip()) for option, value in MANUAL_OPTION.findall(commands.get(name, ""))
        ]
        wanted = [(option, value.strip()) for option, value in OPTION.findall(section)]
        count.check(f"the options of {name} in the manual", options == wanted, (options, wanted))
        count.check(
            f"{name} in the manual's synopsis",
            re.search(rf"^\\fBserf-replay {name}\b", parts.get("SYNOPSIS", ""), re.M),
        )
    rows = [(status, when) for status, when, _ in STATUS.findall(page)]
    count.check("the manual's statuses", MANUAL_STATUS.findall(parts.get("EXIT STATUS", "")) == rows, rows)
    shown = re.findall(r"^[^.\n].*$", parts.get("EXAMPLES", "").partition("\n")[2], re.M)
    count.check(
        "the manual's examples", len(shown) == len(told) and all(f"\n    {line}\n" in page for line in shown), shown
    )
    if shutil.which("groff"):
        result = subprocess.run(
            ["groff", "-man", "-Tutf8", "-ww", MANUAL],
            cwd=TOP,
            stdin=subprocess.DEVNULL,
            capture_output=True,
            timeout=checks.LIMIT,
        )
        count.check("groff reads the manual", result.returncode == 0 and not result.stderr, result.stderr)


def help_and_page(count):
    """COMMANDS.md and README name what --help names, and nothing else."""
    readme, told = text_of("README.md"), sections()
    commands = [name for name in HELP_COMMAND.findall(help_of(count, [])) if name != "help"]
    count.check("a section for each command, in one order", list(told) == commands, (list(told), commands))
    count.check("from which number actions and agents count", "Actions count from 1, agents from 0." in help_of(count, []))
    for name in commands:
        own = help_of(count, [name])
        options = set(HELP_OPTION.findall(own)) - {"help"}
        values = re.findall(r"--[a-z-]+ <([^>]*)>", own)
        count.check(f"the words for values of {name} are upper case", all(value == value.upper() for value in values), values)
        wanted = {option for option, _ in OPTION.findall(told.get(name, ""))}
        count.check(f"the options of {name}", options == wanted, (sorted(options), sorted(wanted)))
        count.check(
            f"an example of {name}",
            re.search(rf"^Example: .*serf-replay {name}\b", own, re.M) and f"serf-replay {name}" in told.get(name, ""),
            own,
        )
        count.check(f"README names {name}", f"serf-replay {name}" in readme)


def refused(count):
    status, out, err = checks.run_program(["--version"])
    count.check("--version", status == 0 and out and not err, (status, out, err))
    many = [[*words, "--agents", count] for words in (["random", "1"], ["conform", "--random", "1"]) for count in ("65", "1000000")]
    for words in ([], ["bogus"], ["replay", "a", "b"], ["decode", "a", "b"], ["clocks"], *many):
        status, out, err = checks.run_program(words)
        count.check("refused: " + " ".join(words), status == 2 and err and not out, (status, out, err))


def bad_words(count):
    """The program prints which values an option accepts."""
    for words, may in (
        (["draw", "--as", "png"], "--as accepts svg or mermaid"),
        (["conform", "x", "--save", "y"], "--save accepts a file, and only with --shrink, or with a schedule and --without"),
        (["conform", "x", "--go-on", "2"], "--go-on accepts a number, and only with --random and without --shrink"),
    ):
        told = (2, b"", f"error: {may}\n".encode())
        count.exactly("a bad word: " + " ".join(words), words, *told)
    for words in (["random", "1"], ["random", "1", "--agents", "0"]):
        count.check("as many agents as the seed says: " + " ".join(words), checks.run_program(words) == checks.run_program(["random", "1"]))


def full_device(count):
    """A write that fails is an error for each command."""
    given = {"replay": checks.read("examples", "deploy_gossiped_twice.schedule"), "clocks": b"clock: 1\n"}
    there = os.path.exists("/dev/full")
    count.check("there is a full device", there)
    if not there:
        return
    for words in (["replay"], ["decode", "06ff"], ["clocks", "-"], ["--help"], ["--version"], ["decode", "--help"]):
        command = [checks.PROGRAM, *words]
        with open("/dev/full", "wb") as full:
            result = subprocess.run(command, input=given.get(words[0], b""), stdout=full, stderr=subprocess.PIPE, timeout=checks.LIMIT)
        count.check(
            "a full device: " + " ".join(words),
            (result.returncode, result.stderr) == (3, b"write failed: No space left on device (os error 28)\n"),
            result,
        )


def reader_that_went(count):
    """If nobody reads the pipe any more, as after `head`, the command ends and reports nothing."""
    schedule = checks.read("examples", "deploy_gossiped_twice.schedule")
    given = {
        "replay": schedule,
        "explain": schedule,
        "draw": schedule,
        "decode": b"06ff\n",
        "encode": b"foreign 6\n\n",
        "clocks": b"clock: 1\n",
    }
    for words in (
        ["replay"],
        ["replay", "--stream"],
        ["replay", "--summary"],
        ["explain"],
        ["draw"],
        ["random", "1"],
        ["decode"],
        ["decode", "06ff"],
        ["encode"],
        ["clocks", "-"],
    ):
        reader, writer = os.pipe()
        os.close(reader)
        with os.fdopen(writer, "wb") as gone:
            result = subprocess.run(
                [checks.PROGRAM, *words], input=given.get(words[0], b""), stdout=gone, stderr=subprocess.PIPE, timeout=checks.LIMIT
            )
        count.check("a reader that closed the pipe: " + " ".join(words), (result.returncode, result.stderr) == (3, b""), result)


def main(words):
    if words == ["read"]:
        return checks.run(manual_and_page)
    return checks.over_program(manual_and_page, shown_commands, statuses, help_and_page, refused, bad_words, full_device, reader_that_went)


if __name__ == "__main__":
    sys.exit(main(sys.argv[1:]))
