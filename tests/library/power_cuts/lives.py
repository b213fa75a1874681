"""Lives of a store, traced: its lines, which of its calls fail, and what is checked."""

import itertools
import os
import random
import tempfile

import disks
import kept
import levels
import scripts
import traces

# The errors of the system calls that are made to fail.
ERRORS = {
    "write": "ENOSPC",
    "pwrite64": "ENOSPC",
    "ftruncate": "EIO",
    "openat": "ENOSPC",
    "rename": "ENOSPC",
    "renameat": "ENOSPC",
    "renameat2": "ENOSPC",
    "fsync": "EIO",
    "fdatasync": "EIO",
}


def with_room(size):
    """The words before those of a host whose files may have so many bytes: a write beyond them succeeds in part, and the
    next one fails."""
    return ["env", "--ignore-signal=XFSZ", "prlimit", f"--fsize={size}"]


class Run:
    """A store driven by lines from a beginning on: its system calls, and each line with what it handed out and
    its answer. After an error it is opened again, as its user has to do."""

    def __init__(self, store, lines, beginning, room, fault=None, failing=None, before=()):
        self.store, self.beginning, self.lines_as_written = store, beginning, lines
        with tempfile.TemporaryDirectory(dir=room) as folder:
            self.folder, self.path = os.path.realpath(folder), os.path.join(folder, "snapshot")
            self.text, self.is_synced = {**scripts.BEGINNINGS, **scripts.TRACKED}[beginning]
            if self.text is not None:
                with open(self.path, "wb") as file:
                    file.write(self.text)
            self.lines = [line.replace("PATH", self.path) for line in lines]
            self.calls, self.answered = traces.traced(
                [*before, *store.words(fault)], store.env(fault), self.drive, failing
            )

    def drive(self, host):
        answered = []
        for line in self.lines:
            answered.append((line, *host.says(line)))
            if answered[-1][2] != "ok":
                answered.append((self.lines[0], *host.says(self.lines[0])))
        return answered

    def walk(self):
        disk = disks.Disk(self.folder, os.path.basename(self.path), self.store.has_filler)
        if self.text is not None:
            disk.put(disk.name, self.text, self.is_synced)
        return disks.Walk(disk, self.calls)

    def answers(self):
        return [(line, answer) for line, _, answer in self.answered]

    def min_after(self):
        """The minimum time that joins have set by each answer."""
        joined = (scripts.join_clock(line) if answer == "ok" else 0 for line, _, answer in self.answered)
        return list(itertools.accumulate(joined, max))

    def faults(self):
        """How often a call was answered by an error."""
        return sum(answer != "ok" for _, _, answer in self.answered)

    def syncs_of_lines(self):
        """How often the lines that a burst appended were synced, for each burst."""
        counts, syncs = [], 0
        for call in self.calls:
            syncs += call.name == "fdatasync"
            if disks.is_saying(call) and call.texts[0] in (b"ok\n", b"Failed\n"):
                counts.append(syncs)
                syncs = 0
        return [count for line, count in zip([line for line, _, _ in self.answered], counts) if line.startswith("b ")]

    def packets(self):
        """The packets that it got, and those that it handed over, as the network sends them back."""
        handed = [said for _, handed, _ in self.answered for said in handed]
        own = ["r " + said[2:] for said in handed if said.startswith("p ") and levels.is_sent_on(said)]
        return list(dict.fromkeys([*scripts.packets_in(self.lines), *own]))

    def failing_places(self):
        """The system calls that can be made to fail, after the first opening: strace's words for each, by the
        name of the call and the file that it is for."""
        walk, counts, found, opened = self.walk(), {}, {}, False
        for call in self.calls:
            counts[call.thread, call.name] = counts.get((call.thread, call.name), 0) + 1
            is_said = disks.is_saying(call)
            opened |= is_said
            if not is_said and call.result >= 0 and walk.does(call) and opened and call.name in ERRORS:
                words = f"{call.name}:error={ERRORS[call.name]}:when={counts[call.thread, call.name]}"
                found.setdefault(call.name, []).append(words)
        return found


def store_lines(drawn, draw=scripts.of_a_store):
    return ["open PATH", *draw(drawn), "close"]


def agent_lines(calls, opening="o"):
    return [f"{opening} PATH", *calls, "x"]


def of_store(run):
    """Level a of a run."""
    walk = run.walk()
    return levels.of_store(walk, walk.disk.text_of(run.text or b""), run.answers(), disks.each_length)


def of_agent(run, drawn, keeps_events=False):
    """Levels b and c of a run, without the openings."""
    return levels.of_agent(run.walk(), disks.few_lengths(drawn), keeps_events, run.min_after())


class Openings:
    """Texts that cuts left, each opened again by the store's own host, without a planted bug, in one process."""

    def __init__(self, store, room):
        self.store, self.room = store, room

    def of(self, texts, packets, opening="o"):
        """For each text, what the agent that is opened on it hands out when all packets are offered to it, and the times at
        which it fires and queries before any is offered. opening: the word of a line that opens an agent."""
        with tempfile.TemporaryDirectory(dir=self.room) as folder:
            lines = []
            for number, text in enumerate(texts):
                again, first = (os.path.join(folder, f"{number}.{kind}") for kind in ("again", "first"))
                for path in (again, first):
                    with open(path, "wb") as file:
                        file.write(text)
                lines += [f"{opening} {again}", *packets, "x", f"{opening} {first}", "f 66", "q 71", "x"]
            with traces.Host(self.store.words(None), self.store.env(None)) as host:
                return self.read(host.say_all(lines), len(texts), len(packets))

    def read(self, answered, count, packets):
        found, each = [], packets + 6
        for number in range(count):
            own = answered[number * each : (number + 1) * each]
            if any(answer != "ok" for _, answer in own):
                raise traces.Unread(f"{self.store.name}: an opening after a cut ends with an error: {own}")
            again = {line for handed, _ in own[: packets + 1] for line in handed if line[0] in "eh"}
            times = [
                int(line.split()[1])
                for handed, _ in own[packets + 3 : packets + 5]
                for line in handed
                if line[0] in "eh"
            ]
            found.append((frozenset(again), *times))
        return found


def some_of(left, drawn, maximum):
    """So many of the texts that cuts left, with what was handed out before; all of them if `maximum` is None."""
    if maximum is None:
        return left
    return {it: left[it] for it in drawn.sample(list(left), min(maximum, len(left)))}


def open_again(seen, store, left, packets, room):
    """Level b: each text that a cut left is opened again, and compared with what was handed out before that cut. Returns how
    many texts there were."""
    texts = list(dict.fromkeys(text for text, _ in left))
    after = dict(zip(texts, Openings(store, room).of(texts, packets)))
    for (text, before), largest in left.items():
        levels.of_opening(seen, text, before, largest, after[text])
    return len(texts)


def open_again_kept(seen, store, left, run, room):
    """Level d: each text that a cut left of a life that kept its events is opened again, with the setting and without it. Returns
    how many texts there were, and what each of the two missed."""
    texts, wanted = list(dict.fromkeys(text for text, _ in left)), kept.wanted_of(run)
    missed = {opening: kept.Missed() for opening in ("O", "o")}
    for opening, of_opening in missed.items():
        after = dict(zip(texts, Openings(store, room).of(texts, run.packets(), opening)))
        for (text, before), largest in left.items():
            levels.of_opening(seen, text, before, largest, after[text])
            if opening == "O":
                kept.of_opening(seen, text, before, wanted, after[text][0], of_opening, largest[2])
            else:
                of_opening.note(text, before, wanted, after[text][0])
    return len(texts), missed["O"], missed["o"]


def drawn_for(seed, *names):
    """The random choices of one part, from the seed."""
    return random.Random(" ".join([str(seed), *names]))
