"""Stock Serf on a snapshot's file with filler, and what our store in Go makes of the file after Serf.

    tests/library/filler_stock_serf.py [--library FILE] [--over-ci]

A host over our store in Go fires events and is killed, so that the file has filler after its text. A stock agent is started on it: it
restores the clocks of the text, warns about no line, and appends its own lines. It is killed, and our host continues after its times. The
same is done with a line that a power cut tore over filler: its time counts for nobody. A stock agent is also started on a file
that our host closed, which has no filler.

Go and Debian's package `serf` have to be installed (`tools/packages`); otherwise the script prints what is missing, and checks nothing.
--library names another static library than that of crates/serf_agent_c, which is built otherwise; --over-ci builds it over what `rt ci`
left, as the gate does.
"""

import argparse
import os
import re
import shutil
import sys
import tempfile
import time

sys.dont_write_bytecode = True
sys.path.insert(0, os.path.dirname(os.path.dirname(os.path.abspath(__file__))))
import checks
import c_library
import filler

sys.path[:0] = [os.path.join(checks.TOP, "tests", *names) for names in (("library", "power_cuts"), ("program",))]
import hosts
import traces
from judge_stock_serf import FLUSHED, Agent, free_ports, until

EVENTS = 5


class Trial:
    def __init__(self, count, folder, host):
        self.count, self.folder, self.host = count, folder, host

    def fire(self, path, names, is_killed):
        """Opens an agent of ours on a file, fires events and ends it: the times of the events."""
        with traces.Host(self.host.words(None), self.host.env(None)) as host:
            said = [host.says(f"o {path}"), *(host.says(f"f {name.encode().hex()}") for name in names)]
            if is_killed:
                host.kill()
            else:
                said.append(host.says("x"))
        return [int(line.split()[1]) for handed, _ in said for line in handed if line.startswith("e ")]

    def stock(self, path, name):
        """Starts a stock agent on a file, fires an event, and kills it: the event clock that it began with, and what it logged."""
        folder = os.path.join(self.folder, name)
        os.mkdir(folder)
        # (what judge_stock_serf reads of the handler's log is about this name)
        serf = Agent(folder, "gamma", *free_ports(2))
        serf.snapshot = path
        try:
            serf.start()
            first = int(re.search(rb"event_time = (\d+)", serf.call("info").stdout)[1])
            serf.call("event", "-coalesce=false", "stock", "p")
            until("its event is handed out", lambda: serf.events())
            time.sleep(FLUSHED)
            # (a line is flushed with one that is written later)
            serf.call("event", "-coalesce=false", "stock", "q")
            until("its second event is handed out", lambda: len(serf.events()) == 2)
        finally:
            serf.kill()
            serf.said.close()
        with open(serf.said.name, "rb") as file:
            return first, file.read()

    def both(self, name, torn=b""):
        """Ours, killed; a stock agent; and ours again. torn: what a power cut left of a line over the filler."""
        path = os.path.join(self.folder, f"{name}.snapshot")
        times = self.fire(path, [f"e{number}" for number in range(EVENTS)], is_killed=True)
        with open(path, "rb") as file:
            data = file.read()
        text = filler.text_of(data)
        self.count.check(f"{name}: a kill leaves filler", len(text) + 1000 < len(data), len(data))
        left = text + torn + data[len(text) + len(torn) :]
        with open(path, "wb") as file:
            file.write(left)
        first, said = self.stock(path, name)
        self.count.check(f"{name}: Serf begins after our last event", first == times[-1] + 1, (first, times))
        warned = [line for line in said.splitlines() if b"snapshot line" in line or b"clock time" in line]
        self.count.check(f"{name}: Serf warns about no other line", len(warned) == bool(torn), warned)
        with open(path, "rb") as file:
            data = file.read()
        self.count.check(f"{name}: Serf appends its lines", data.startswith(left) and len(data) > len(left), data[-200:])
        again = self.fire(path, ["again"], is_killed=False)
        self.count.check(f"{name}: ours continues after Serf's event", again[0] > first, (again, first))
        with open(path, "rb") as file:
            data = file.read()
        lines = b"event-clock: %d\nevent-clock: %d\n" % (first, again[0])
        self.count.check(f"{name}: all lines are in the file", data.startswith(left) and filler.text_of(data) == data, lines)

    def closed(self):
        path = os.path.join(self.folder, "closed.snapshot")
        times = self.fire(path, ["e"], is_killed=False)
        with open(path, "rb") as file:
            data = file.read()
        self.count.check("a file that is closed has no filler", data == b"event-clock: %d\n" % times[0], data[:200])
        first, _ = self.stock(path, "closed")
        self.count.check("Serf begins after our last event", first == times[0] + 1, (first, times))


def main():
    parser = argparse.ArgumentParser(description=__doc__, formatter_class=argparse.RawDescriptionHelpFormatter)
    parser.add_argument("--library")
    parser.add_argument("--over-ci", action="store_true")
    options = parser.parse_args()
    count = checks.Checks()
    missing = [name for name in ("go", "serf") if shutil.which(name) is None]
    if missing:
        print(f"not run: {', '.join(missing)} isn't on PATH")
        return count.finish()
    fault = None if options.library else c_library.fault_of_library(options.over_ci)
    if fault:
        count.check("the library for C is there", False, fault)
        return count.finish()
    with tempfile.TemporaryDirectory(prefix="filler-") as folder:
        places = hosts.Places(folder, os.path.abspath(options.library or c_library.LIBRARY))
        trial = Trial(count, folder, hosts.InGo(places, with_little_filler=False))
        trial.both("whole")
        trial.both("torn", b"event-clock: 99")
        trial.closed()
    return count.finish()


if __name__ == "__main__":
    sys.exit(main())
