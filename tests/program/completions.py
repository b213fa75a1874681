"""docs/completions: each file is what tools/completions.py generates from the program's help, and the shells complete by it.

bash has to be installed; zsh and fish are tried if they are on PATH.
"""

import os
import re
import shutil
import subprocess
import sys

sys.dont_write_bytecode = True
sys.path.insert(0, os.path.dirname(os.path.dirname(os.path.abspath(__file__))))
import checks
from checks import TOP
import completions

FOLDER = os.path.join(TOP, "docs", "completions")

# Calls bash's function for the words that can follow a line, whose last word is being typed.
IN_BASH = """
source "$1"; shift
COMP_WORDS=("$@"); COMP_CWORD=$(($# - 1)); COMPREPLY=()
_serf_replay
printf '%s\\n' "${COMPREPLY[@]}"
"""

# Runs zsh's file with stand-ins for its helpers, which print their arguments.
IN_ZSH = """
compdef() { : }
_describe() { print -l -- ${(P)2} }
_arguments() { print -l -- "$@" }
words=("${@:2}"); CURRENT=$(($# - 1))
source "$1"
"""


def said_by(words, folder):
    """The lines that a shell prints, also the reason if it fails."""
    result = subprocess.run(words, cwd=folder, stdin=subprocess.DEVNULL, capture_output=True, text=True, timeout=checks.LIMIT)
    return [line for line in (result.stdout + result.stderr).split("\n") if line]


def flags(command):
    return [f"--{option.name}" for option in command.options]


def completed_after(shell, line, folder=TOP):
    """What a shell completes after a line; the user is still typing the part after its last space."""
    words = line.split(" ")
    if shell == "bash":
        return said_by(["bash", "--norc", "-c", IN_BASH, "bash", os.path.join(FOLDER, "serf-replay.bash"), *words], folder)
    return [
        found.partition("\t")[0]
        for found in said_by(["fish", "--no-config", "-c", f"source {FOLDER}/serf-replay.fish; complete -C '{line}'"], folder)
    ]


def completed(count, shell, all_commands, outer):
    """The commands, each command's options, the words of those that have some, and files if a command accepts one."""
    names = [one.name for one in all_commands]
    wanted = sorted(names + ([f"--{one.name}" for one in outer] if shell == "bash" else []))
    count.check(f"{shell}: the commands", sorted(completed_after(shell, "serf-replay ")) == wanted, completed_after(shell, "serf-replay "))
    examples = os.path.join(TOP, "examples", "snapshots")
    for command in all_commands:
        if command.name == "help":
            continue
        own = completed_after(shell, f"serf-replay {command.name} --")
        count.check(f"{shell}: the options of {command.name}", sorted(own) == sorted(flags(command)), own)
        offered = completed_after(shell, f"serf-replay {command.name} after", examples)
        count.check(f"{shell}: files of {command.name}", ("after_a_crash.clocks" in offered) == command.takes_file, offered)
        for option in command.options:
            if option.words():
                own = completed_after(shell, f"serf-replay {command.name} --{option.name} ")
                count.check(f"{shell}: the words of {command.name} --{option.name}", sorted(own) == sorted(option.words()), own)


def in_bash(count, all_commands, outer):
    completed(count, "bash", all_commands, outer)
    kept = completed_after("bash", "serf-replay judge --kept b = after", os.path.join(TOP, "examples", "snapshots"))
    count.check("bash: a snapshot after NODE=", "after_a_crash.snapshot" in kept, kept)
    count.check("bash: nothing after an option for a number", completed_after("bash", "serf-replay random --agents ") == [])


def in_zsh(count, all_commands, _):
    def asked(*words):
        return said_by(["zsh", "-f", "-c", IN_ZSH, "zsh", os.path.join(FOLDER, "_serf-replay"), "serf-replay", *words], TOP)

    named = [line.partition(":")[0] for line in asked("") if not line.startswith("--")]
    count.check("zsh: the commands", named == [one.name for one in all_commands], named)
    for command in all_commands:
        if command.name != "help":
            said = asked(command.name, "")
            own = [found[1] for line in said if (found := re.match(r"\*?(--[a-z-]+)\[", line))]
            count.check(f"zsh: the options of {command.name}", own == flags(command), said)
            words = [re.search(r"\(([^()]*)\)$", line) for line in said if line.lstrip("*").startswith("--")]
            wanted = [option.words() for option in command.options]
            count.check(f"zsh: the words of {command.name}", [found[1].split(" ") if found else [] for found in words] == wanted, said)


def whole(count):
    found = completions.commands()
    for name, form in completions.FORMS.items():
        made = checks.text_of("docs", "completions", name) == form(*found)
        count.check(f"{name} is up to date: tools/completions.py generates it", made)
    in_bash(count, *found)
    for shell, part in (("zsh", in_zsh), ("fish", lambda *words: completed(words[0], "fish", *words[1:]))):
        if shutil.which(shell):
            part(count, *found)
        else:
            print(f"not run: completions in {shell}, which isn't on PATH")


if __name__ == "__main__":
    sys.exit(checks.over_program(whole))
