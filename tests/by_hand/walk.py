"""By hand, since it needs gdb: which functions of the crates the last line of a schedule enters.

    python3 tests/by_hand/walk.py SCHEDULE [--list]

The unproved program replays the schedule under gdb, which records each function that is entered after the program has read the
last line, up to the end of what the line did. A generic function counts once, whatever its types. Functions that only proofs call
(laws, and those that let a proof know something: their bodies do nothing) and those that let values go are counted
separately. --list prints the functions in the order in which they were entered.
"""

import os
import re
import shlex
import subprocess
import sys

TOP = os.path.dirname(os.path.dirname(os.path.dirname(os.path.abspath(__file__))))
sys.dont_write_bytecode = True
sys.path.insert(0, os.path.join(TOP, "tools"))
PROGRAM = "serf_replay_program"

# A line begins when it is parsed, and ends when the next one is taken.
FIRST, NEXT = "serf_schedule::parse::say_line", "serf_schedule::run::Run::take_line"

# Functions that only proofs need.
FOR_PROOFS = re.compile(r"::laws::|::know_\w+$|::(?:look_at\w*|read_numbers)$")


def symbols(program):
    """The crates' functions in a program, by their addresses there."""
    said = subprocess.run(["nm", program], check=True, stdout=subprocess.PIPE, text=True).stdout
    found = (re.match(r"([0-9a-f]+) [tT] (serf_.*)", line) for line in said.split("\n"))
    return {int(it[1], 16): it[2] for it in found if it}


class Walk:
    """The program under gdb, which this file runs in."""

    def __init__(self, gdb, words, program):
        self.gdb, self.program, self.names = gdb, program, symbols(program)
        for setting in ("pagination off", "confirm off", "startup-with-shell off"):
            gdb.execute(f"set {setting}")
        gdb.execute(f"file {words[0]}")
        gdb.execute(f"set args {shlex.join(words[1:])}")
        gdb.execute("catch syscall openat")
        gdb.execute("run", to_string=True)
        self.base = self.loaded_at()
        gdb.execute("delete")
        gdb.execute("catch syscall exit_group")

    def loaded_at(self):
        """Continues until the program is loaded."""
        while True:
            with open(f"/proc/{self.gdb.selected_inferior().pid}/maps", encoding="utf-8") as maps:
                found = re.search(rf"^([0-9a-f]+)-\S+ r\S+ 00000000 .*{re.escape(self.program)}$", maps.read(), re.M)
            if found:
                return int(found[1], 16)
            self.gdb.execute("continue", to_string=True)

    def stop_at(self, address):
        self.gdb.Breakpoint(f"*{self.base + address}", internal=True, temporary=True)

    def go_on(self):
        """Continues to the next stop, and returns the function there; None at the end."""
        self.gdb.execute("continue", to_string=True)
        return self.names.get(int(self.gdb.selected_frame().pc()) - self.base)

    def of_line(self, number):
        """The functions that the line of this number enters, in order."""
        first = next(address for address, name in self.names.items() if name == FIRST)
        for _ in range(number):
            self.stop_at(first)
            self.go_on()
        for address in self.names:
            self.stop_at(address)
        entered, name = [FIRST], self.go_on()
        while name and name != NEXT:
            entered.append(name)
            name = self.go_on()
        return entered


def in_gdb(gdb):
    words, lines = os.environ["WALK_WORDS"].split("\n"), int(os.environ["WALK_LINES"])
    walk = Walk(gdb, words, next(word for word in words if word.endswith("/program")))
    with open(os.environ["WALK_FOUND"], "w", encoding="utf-8") as found:
        found.write("\n".join(walk.of_line(lines)))


def command():
    """The words that start the unproved program."""
    tool = os.path.join(TOP, "tools", "unproved.py")
    launcher = subprocess.run([sys.executable, tool, PROGRAM], check=True, stdout=subprocess.PIPE, text=True).stdout.strip()
    with open(launcher, encoding="utf-8") as file:
        words = shlex.split(file.read().split("exec ", 1)[1])
    return [word for word in words if not word.startswith("$")] + [os.path.join(os.path.dirname(launcher), "program")]


def files_of():
    """The crate and the file of each function, by its path."""
    import edits

    crates = os.listdir(os.path.join(TOP, "crates"))
    return {
        f"{crate}::{name}": (crate, path)
        for crate in crates
        for path in edits.source_files(crate)
        for _, name, _ in edits.functions_in(crate, path)
    }


def main(words):
    schedules = [word for word in words if word != "--list"]
    if len(schedules) != 1:
        print(__doc__.strip(), file=sys.stderr)
        return 2
    with open(schedules[0], encoding="utf-8") as file:
        lines = len(file.read().rstrip("\n").split("\n"))
    found = os.path.join(TOP, "crates", PROGRAM, "out", "walk.txt")
    env = {"WALK_WORDS": "\n".join([*command(), "replay", os.path.abspath(schedules[0])]), "WALK_LINES": str(lines), "WALK_FOUND": found}
    subprocess.run(
        ["gdb", "-nx", "-batch", "-x", os.path.abspath(__file__)],
        check=True,
        stdout=subprocess.DEVNULL,
        stderr=subprocess.DEVNULL,
        env={**os.environ, **env},
    )
    with open(found, encoding="utf-8") as file:
        entered = list(dict.fromkeys(re.sub(r"::<.*", "", line) for line in file.read().split("\n")))
    files = files_of()
    known = [name for name in entered if name in files and not name.endswith("::drop")]
    own = [name for name in known if not FOR_PROOFS.search(name)]
    if "--list" in words:
        print("\n".join(f"{name}  {files[name][0]}/{files[name][1]}" for name in own))
    print(
        f"{len(own)} functions in {len({files[name] for name in own})} files of {len({files[name][0] for name in own})} crates; and {len(known) - len(own)} for proofs"
    )
    return 0


if __name__ == "__main__":
    try:
        import gdb
    except ImportError:
        sys.exit(main(sys.argv[1:]))
    in_gdb(gdb)
