"""Power cuts: every power cut that a host's calls allow, over the stores of C, Python, Go, Rust and `FileStore`.

    tests/library/power_cuts.py [--seed N] [--only STORE] [--library FILE] [--over-ci]

A process that is killed loses no page of the system's cache, so no kill shows what a power cut does. Here a host runs
under strace, and the system calls that it made are read back, in order. After each of them the power is cut, in
each way that tests/library/power_cuts/disks.py simulates: a file has its bytes up to its last sync, and any prefix of the
rest or zeros in its place; of bytes that were written over older ones, any sectors are new, and of one of them a prefix; a folder has
its entries up to its last sync, and any prefix of the changes since.

- Level a, a store driven by lines: nothing that was answered is lost, and no line that says something is there that wasn't written
  whole (this is checked in all levels).
- Level b, an agent over it: each text that a cut leaves is opened again and offered every packet again. Nothing is
  handed out twice, and what is fired then is later than everything that was handed out.
- Level c, the order: when an event or a query is handed out, or a packet handed over, its line is on the disk.
- Level d, an agent that keeps its events (`keep_events`): levels b and c hold for it too, each event and each query has its own line
  on the disk when it is handed out, and the next life misses none of those that it is offered again. What was in flight is
  counted separately: its line was whole, and it wasn't handed out yet. The same texts are also opened without the setting. Then
  nothing is handed out twice either, and more is missed. What a join that ignores old events refused stays refused.

- Level e, a host that tracks its handlers, by the lines about them (not over `FileStore`): at each cut each event that was handed out is
  done, or its handler has begun, or it waits. None waits whose handler began, none is open whose end was flushed, and none is
  silent. The open events are in the order in which they were handed out, also those that have left the window, and over compactions. Of the
  texts that the cuts leave, some are opened again: the next life reports what the agent in Python reads there, what waits
  can run then, and after everything ended nothing is open.

Full disks and failing syncs are simulated at calls that the seed selects. Then bugs are planted into copies of
the stores, each a sync that is missing or late, or, in a store that keeps filler after its text, a wrong step of that; and into the hosts
that track their handlers. Each of them has to be found.

--seed selects other lines, packets and failing calls. --only tries one store. --library and --over-ci are those of
tests/library/embed.py. A language that isn't installed is left out, and the script prints that.
"""

import argparse
import os
import shutil
import sys
import tempfile
import time

sys.dont_write_bytecode = True
sys.path.insert(0, os.path.dirname(os.path.dirname(os.path.abspath(__file__))))
import checks
import c_library
import filler

sys.path.insert(0, os.path.join(checks.TOP, "tests", "library", "power_cuts"))
import faults
import file_store
import handled
import hosts
import kept
import lives
import scripts
import simulated
import traces

# If nothing of a file has to reach a real disk, the system's syncs take no time.
MEMORY = "/dev/shm"

# How many failing calls are tried in the lines of a store, and in a life of an agent.
FAILING = 3

# How many of the texts that cuts leave are opened again if a bug is planted.
OPENED = 40

# How a file begins when a bug is on, if it isn't made.
FAULTY_BEGINNINGS = {"opened_text": "a file that was never synced", "opened_filler": "a file with filler"}

# The minimum number of cuts that have to be tried for each store and level.
MINIMUMS = {"a": 150, "b": 150, "c": 100, "d": 150, "e": 1500}


class Count(checks.Checks):
    """Checks; how many cuts were tried, by store and level; and how many texts were opened again, by store."""

    def __init__(self):
        super().__init__()
        self.cuts, self.opened = {}, {}
        # for each store, what lives that keep their events missed, and what others missed on the same texts
        self.missed, self.missed_without = {}, {}

    def seen(self, store, level, name, seen):
        """Checks that a run has no error, and adds its cuts."""
        self.cuts[store, level] = self.cuts.get((store, level), 0) + seen.cuts
        self.check(
            f"{store}, level {level}, {name}",
            not seen.faults,
            f"{len(seen.faults)} errors in {seen.cuts} cuts: {seen.faults[:2]}",
        )


class Trial:
    """A store under test."""

    def __init__(self, count, store, seed, room):
        self.count, self.store, self.seed, self.room = count, store, seed, room

    def drawn(self, *names):
        return lives.drawn_for(self.seed, *names)

    def run(self, lines, beginning, **more):
        return lives.Run(self.store, lines, beginning, self.room, **more)

    def failing(self, run, drawn):
        """Some of the calls that can fail, of as many kinds as possible."""
        places = run.failing_places()
        kinds = sorted(places)
        drawn.shuffle(kinds)
        return [drawn.choice(places[kind]) for kind in kinds[:FAILING]]

    def errors_once(self, ran, words, where):
        """A failing call is an error of the store once, unless it only prepares or removes filler."""
        allowed = (0, 1) if words.startswith(("pwrite64", "ftruncate")) else (1,)
        self.count.check(f"{self.store.name}: {words} is an error once{where}", ran.faults() in allowed, ran.answers())

    def of_store(self):
        """Level a: from each beginning, and with calls that fail."""
        name = self.store.name
        for beginning in scripts.BEGINNINGS:
            drawn = self.drawn("store", beginning)
            lines = lives.store_lines(drawn)
            run = self.run(lines, beginning)
            self.count.check(f"{name}: no error, {beginning}", run.faults() == 0, run.answered)
            self.count.seen(name, "a", beginning, lives.of_store(run))
        for words in self.failing(run, drawn):
            ran = self.run(lines, beginning, failing=words)
            self.errors_once(ran, words, "")
            self.count.seen(name, "a", words, lives.of_store(ran))
        if self.store.has_filler:
            lines = lives.store_lines(self.drawn("appending"), scripts.appending)
            self.count.seen(name, "a", "appends alone", lives.of_store(self.run(lines, "a file with filler")))
        self.of_full_disk()

    def of_full_disk(self):
        """Level a with a disk that has room for only a part of a line, until the text is replaced by a shorter one."""
        lines = [line for line in lives.store_lines(self.drawn("full")) if not line.startswith("replace ")]
        lines[-1:-1] = ["replace 610a", "append 620a"]
        size = len(scripts.OLD) + len(bytes.fromhex(lines[1].split()[1])) + 5
        ran = self.run(lines, "a file", before=lives.with_room(size))
        in_part = [
            call for call in ran.calls
            if call.name in ("write", "pwrite64") and 0 <= call.result < len(filler.text_of(b"".join(call.texts)))
        ]
        self.count.check(
            f"{self.store.name}: a line is written in part", len(in_part) == 1 and ran.faults() > 0, ran.answers()
        )
        self.count.check(
            f"{self.store.name}: a shorter text has room",
            [answer for _, answer in ran.answers()[-3:]] == ["ok"] * 3,
            ran.answers(),
        )
        self.count.seen(self.store.name, "a", "a full disk", lives.of_store(ran))

    def of_life(self, name, run, drawn):
        """Levels b and c of a life."""
        whole, order, left = lives.of_agent(run, drawn)
        left = lives.some_of(left, drawn, self.store.max_opened)
        opened = lives.open_again(whole, self.store, left, run.packets(), self.room)
        self.count.opened[self.store.name] = self.count.opened.get(self.store.name, 0) + opened
        self.count.seen(self.store.name, "b", name, whole)
        self.count.seen(self.store.name, "c", name, order)

    def of_agent(self):
        """Levels b and c: lives from each beginning, one that compacts after each call, some with failing calls."""
        for beginning in scripts.BEGINNINGS:
            drawn = self.drawn("life", beginning)
            lines = lives.agent_lines(scripts.of_an_agent(drawn))
            run = self.run(lines, beginning)
            self.count.check(f"{self.store.name}: a life without an error, {beginning}", run.faults() == 0, run.answered)
            self.of_life(f"a life from {beginning}", run, drawn)
        for words in self.failing(run, drawn):
            ran = self.run(lines, beginning, failing=words)
            self.errors_once(ran, words, " in a life")
            self.of_life(f"a life with {words}", ran, drawn)
        drawn = self.drawn("compacting")
        self.of_life(
            "a compaction after each call", self.run(lives.agent_lines(scripts.compacting(drawn)), "a file"), drawn
        )
        if self.store.has_bursts:
            self.of_bursts()

    def of_bursts(self):
        """Levels b and c: a life in bursts, and the same life with a system call that fails."""
        drawn = self.drawn("bursting")
        lines = lives.agent_lines(scripts.bursting(drawn))
        run = self.run(lines, "a file")
        self.count.check(f"{self.store.name}: bursts without an error", run.faults() == 0, run.answered)
        flushes = run.syncs_of_lines()
        # (a burst for which there is too little filler also flushes the end of the file)
        maximum = 2 if self.store.has_filler else 1
        self.count.check(f"{self.store.name}: one flush of each burst", max(flushes) <= maximum and sum(flushes) > 5, flushes)
        self.of_life("bursts", run, drawn)
        syncs = [words for name, places in run.failing_places().items() if name == "fdatasync" for words in places]
        ran = self.run(lines, "a file", failing=drawn.choice(syncs))
        self.count.check(f"{self.store.name}: a failed sync of a burst is an error once", ran.faults() == 1, ran.answers())
        self.of_life("bursts with a failed sync", ran, drawn)

    def of_keeping(self):
        """Level d: lives that keep their events, from each beginning, some with failing calls, one that compacts after each call, one
        with joins that ignore old events, and one in bursts."""
        missed, without = kept.Missed(), kept.Missed()
        self.count.missed[self.store.name], self.count.missed_without[self.store.name] = missed, without
        for name, run, drawn in self.keeping_lives():
            whole, order, left = lives.of_agent(run, drawn, keeps_events=True)
            left = lives.some_of(left, drawn, self.store.max_opened)
            opened, own, others = lives.open_again_kept(whole, self.store, left, run, self.room)
            self.count.opened[self.store.name] += 2 * opened
            missed.add(own)
            without.add(others)
            self.count.seen(self.store.name, "d", f"{name}, kept", whole)
            self.count.seen(self.store.name, "d", f"{name}, kept, in order", order)
        self.count.check(f"{self.store.name}: something was in flight", missed.in_flight > 0, missed.said())
        self.count.check(f"{self.store.name}: more is missed without the setting", without.others > 0, without.said())

    def keeping_lives(self):
        """Lives that keep their events: the name, the run and the random choices of each."""
        for beginning in scripts.BEGINNINGS:
            drawn = self.drawn("keeping", beginning)
            lines = lives.agent_lines(scripts.of_an_agent(drawn), "O")
            run = self.run(lines, beginning)
            self.count.check(f"{self.store.name}: a life that keeps events, {beginning}", run.faults() == 0, run.answered)
            yield f"a life from {beginning}", run, drawn
        for words in self.failing(run, drawn):
            yield f"a life with {words}", self.run(lines, beginning, failing=words), drawn
        drawn = self.drawn("keeping and joining")
        lines = lives.agent_lines(scripts.joining(drawn), "O")
        run = self.run(lines, "a file")
        self.count.check(f"{self.store.name}: joins set a minimum time", max(run.min_after()) > 0, run.answered)
        yield "joins", run, drawn
        for words in self.failing(run, drawn):
            yield f"joins with {words}", self.run(lines, "a file", failing=words), drawn
        drawn = self.drawn("keeping and compacting")
        lines = lives.agent_lines(scripts.compacting(drawn), "O")
        yield "a compaction after each call", self.run(lines, "a file"), drawn
        if self.store.has_bursts:
            drawn = self.drawn("keeping and bursting")
            yield "bursts", self.run(lives.agent_lines(scripts.bursting(drawn), "O"), "a file"), drawn

    def of_tracking(self):
        """Level e: lives of hosts that track their handlers, from each beginning, one that compacts often, and one in which the line of a
        handler that begins can't be flushed."""
        for name, run, drawn in self.tracking_lives():
            seen, texts, counts = handled.of_run(run, drawn)
            handled.open_again(seen, self.store, drawn.sample(texts, min(OPENED, len(texts))), self.room)
            self.count.opened[self.store.name] += min(OPENED, len(texts))
            self.count.seen(self.store.name, "e", f"{name}, tracked", seen)
            self.count.check(f"{self.store.name}: events wait, and handlers are cut off, {name}", min(counts) > 10, counts)

    def tracking_lives(self):
        for beginning in scripts.TRACKED:
            drawn = self.drawn("tracking", beginning)
            run = self.run(lives.agent_lines(scripts.tracking(drawn), "t"), beginning)
            self.count.check(f"{self.store.name}: a life that tracks handlers, {beginning}", run.faults() == 0, run.answered)
            yield f"a life from {beginning}", run, drawn
        words = drawn.choice(handled.begun_syncs(run))
        ran = self.run(run.lines_as_written, beginning, failing=words)
        self.count.check(f"{self.store.name}: a handler whose line isn't flushed is an error once", ran.faults() == 1, ran.answers())
        yield "a line of a handler that can't be flushed", ran, drawn
        drawn = self.drawn("tracking and compacting")
        yield "compactions", self.run(lives.agent_lines(scripts.tracking(drawn, 0.8), "t"), "a file with open events"), drawn

    def found_in_handlers(self, fault):
        """The first errors in level e if this bug of a host is on."""
        drawn = self.drawn("planted", fault)
        lines, failing = lives.agent_lines(scripts.tracking(drawn), "t"), None
        if fault == "begun_error":
            failing = drawn.choice(handled.begun_syncs(self.run(lines, "a file")))
        return handled.of_run(self.run(lines, "a file", fault=fault, failing=failing), drawn, is_planted=True)[0].faults

    def found(self, fault):
        """How much is wrong in each level if this bug is on: in a store's lines, and in an agent's life."""
        began = FAULTY_BEGINNINGS.get(fault, "no file")
        drawn = self.drawn("planted", fault)
        draw = scripts.appending if fault in faults.FILLER_FAULTS else scripts.of_a_store
        store = lives.of_store(self.run(lives.store_lines(drawn, draw), began, fault=fault))
        life = self.run(lives.agent_lines(scripts.of_an_agent(drawn)), began, fault=fault)
        whole, order, left = lives.of_agent(life, drawn)
        lives.open_again(whole, self.store, lives.some_of(left, drawn, OPENED), life.packets(), self.room)
        return {level: len(seen.faults) for level, seen in zip("abc", (store, whole, order))}

    def plants(self):
        """Each bug that can be planted is found; and if none is on, nothing is found."""
        for fault in self.store.plants:
            found = self.found(fault)
            if fault == faults.NONE:
                self.count.check(
                    f"{self.store.name}: nothing is found if no bug is on", not any(found.values()), found
                )
                continue
            what = {**faults.FAULTS, **faults.FILLER_FAULTS}[fault]
            print(f"planted in {self.store.name}, {what}: found by {found}", flush=True)
            self.count.check(f"{self.store.name}: {what} is found", any(found.values()))
        for fault, what in handled.BUGS.items() if self.store.tracks_handlers else ():
            found = self.found_in_handlers(fault)
            print(f"planted in the host over {self.store.name}, {what}: {'found' if found else 'not found'}", flush=True)
            self.count.check(f"{self.store.name}: {what} is found", found)

    def all(self):
        self.of_store()
        self.of_agent()
        self.of_keeping()
        if self.store.tracks_handlers:
            self.of_tracking()
        for level, minimum in MINIMUMS.items():
            if level == "e" and not self.store.tracks_handlers:
                continue
            looked = self.count.cuts[self.store.name, level]
            self.count.check(
                f"{self.store.name}, level {level}: enough cuts", looked >= minimum, f"{looked}, and {minimum} are needed"
            )
        self.plants()


def try_store(count, name, places, seed, room):
    """All parts of one store; the time that it took is printed."""
    kind, command = hosts.STORES[name]
    if command and shutil.which(command) is None:
        print(f"not run: {name}, since {command} isn't on PATH")
        return
    began, used = time.monotonic(), spent()
    try:
        store = kind(places)
        built, took = time.monotonic(), spent()
        Trial(count, store, seed, room).all()
    except (hosts.NotBuilt, file_store.NotCompiled, faults.NotThere, traces.Unread) as fault:
        count.check(f"{name} is tried", False, fault)
        return
    print(
        f"{name}: {took - used:.0f} processor seconds to build, {spent() - took:.0f} to try; "
        f"{time.monotonic() - built:.0f} of {time.monotonic() - began:.0f} seconds to try",
        flush=True,
    )


def spent():
    """The processor seconds of this process and of those that it waited for."""
    return sum(os.times()[:4])


def table(count):
    print("cuts            a       b       c       d       e   texts opened again")
    for name in hosts.STORES:
        looked = [count.cuts.get((name, level), 0) for level in MINIMUMS]
        if any(looked):
            print(f"{name:<10}" + "".join(f"{it:>8,}" for it in looked) + f"{count.opened[name]:>8,}")
    print(f"{sum(count.cuts.values()):,} cuts")
    for name, missed in count.missed.items():
        print(f"{name}, with keep_events, {missed.said()}")
        print(f"{name}, on the same texts without it, {count.missed_without[name].said()}")


def main():
    parser = argparse.ArgumentParser(description=__doc__, formatter_class=argparse.RawDescriptionHelpFormatter)
    parser.add_argument("--seed", type=int, default=1)
    parser.add_argument("--only", choices=hosts.STORES, action="append")
    parser.add_argument("--library")
    parser.add_argument("--over-ci", action="store_true")
    options = parser.parse_args()
    count = Count()
    simulated.try_all(count)
    fault = None if shutil.which("strace") else "strace isn't on PATH, and nothing can be traced without it"
    if not fault and not options.library:
        fault = c_library.fault_of_library(options.over_ci)
    if fault:
        count.check("everything that it needs is installed", False, fault)
        return count.finish()
    room = MEMORY if os.access(MEMORY, os.W_OK) else None
    with tempfile.TemporaryDirectory(prefix="power-cuts-") as folder:
        places = hosts.Places(folder, os.path.abspath(options.library or c_library.LIBRARY))
        for name in options.only or hosts.STORES:
            try_store(count, name, places, options.seed, room)
    table(count)
    return count.finish()


if __name__ == "__main__":
    sys.exit(main())
