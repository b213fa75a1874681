"""By hand, since it kills and starts an agent for minutes: what becomes of each event that an agent with `-keep-events` confirmed.

    tests/by_hand/once.py [--kills N] [--seed S] [--events N] [--rerun | --without] [--slow-flush MILLISECONDS] [--agent PROGRAM]
                          [--library FOLDER] [--keep]

Fires numbered events at one agent by `serf event`, faster than its handler runs, and kills it by SIGKILL at random moments, every
second time together with the handler. The handler takes 10 to 90 milliseconds, and writes a line when it begins and when it ends.
Each start is on the same snapshot. After the last start, the script waits until no event is open.

Then each event that `serf event` confirmed ran once, or its handler began, was cut off, and a start reported that. No event began
twice: with `--rerun`, the handler may run again after it was cut off, and then one event may begin twice. An event that was not
confirmed may have run too, once at most. `--events` is the number of events of each life. `--without` turns the tracking of handlers
off, as a measure, and the script then fails: most of what was waiting is lost. With `--slow-flush`, `strace` makes each flush of the
agent take longer by so many milliseconds. Then many kills come while the shell of a handler has started and waits for the flush of the
line of its beginning; the script counts these kills. It needs Go, memberlist and Debian's `serf`, or `--agent` and `serf`.
"""

import argparse
import os
import random
import re
import shutil
import signal
import sys
import tempfile
import time
from concurrent import futures

sys.path.insert(0, os.path.dirname(os.path.abspath(__file__)))
sys.dont_write_bytecode = True
import agent_cluster_kit as kit
from agent_cluster_kit import Agent, until

# How many `serf event` run at once. The agent handles one event at a time, so the others wait for their handlers.
CLIENTS = 6

# What a start reports about a handler that was cut off, with the event's payload: its number, and the handler's milliseconds.
REPORTED = re.compile(r'\[WARN\] agent: a handler of user-event: n \(time \d+, payload "(\d+) \d+"\) began')

HANDLER = 'read number milliseconds; echo begin $number >>"{0}"; sleep 0.0$milliseconds; echo end $number >>"{0}"'


def children(pid):
    """The processes that a process has started. (The list of each thread is read, since a search of all processes takes longer than a
    handler.)"""
    found = []
    for thread in os.listdir(f"/proc/{pid}/task"):
        try:
            with open(f"/proc/{pid}/task/{thread}/children", encoding="utf-8") as file:
                found += map(int, file.read().split())
        except OSError:
            pass
    return found


def is_held(pid):
    """Whether the shell of a handler waits for the flush: it reads from its pipe."""
    try:
        with open(f"/proc/{pid}/wchan", encoding="utf-8") as file:
            return file.read().endswith("pipe_read")
    except OSError:
        return False


def with_slow_flushes(program, milliseconds):
    """The words that start a program whose flushes take longer. The tracer isn't its parent, and doesn't trace what the program starts."""
    slower = f"inject=fdatasync:delay_enter={milliseconds * 1000}"
    return ["strace", "-D", "-f", "-b", "execve", "-qq", "-o", "/dev/null", "-e", "trace=fdatasync,execve", "-e", slower, program]


class Run:
    """An agent, the events that were fired at it, and what became of them."""

    def __init__(self, folder, program, options):
        self.random = random.Random(options.seed)
        self.handled = os.path.join(folder, "handled")
        filters = "rerun:n" if options.rerun else "user:n"
        self.agent = Agent(folder, program, "once", 1, net="127.0.9")
        self.agent.words = ["-snapshot", self.agent.snapshot, "-keep-events", "-event-handler", f"{filters}={HANDLER.format(self.handled)}"]
        self.agent.words += ["-track-handlers=false"] if options.without else []
        self.fired, self.confirmed = 0, []
        # in how many kills the shell of a handler waited for a flush
        self.held = 0

    def fire(self, number):
        """Fires an event, and returns its number if it was confirmed."""
        time.sleep(self.random.random() * 0.05)
        payload = f"{number} {self.random.randint(10, 90)}"
        status = kit.run_serf(["serf", "event", f"-rpc-addr={self.agent.rpc}", "-coalesce=false", "n", payload])[0]
        return number if status == 0 else None

    def life(self, events, kills_handler):
        """A life of the agent: it is killed while it handles events, after a random number of them was fired."""
        self.agent.start()
        numbers = range(self.fired, self.fired + events)
        self.fired += events
        with futures.ThreadPoolExecutor(CLIENTS) as pool:
            firings = [pool.submit(self.fire, number) for number in numbers]
            enough = self.random.randrange(1, events)
            until(lambda: sum(firing.done() for firing in firings) >= enough, 60)
            time.sleep(self.random.random() * 0.1)
            # (so the agent starts no other handler meanwhile)
            self.agent.process.send_signal(signal.SIGSTOP)
            handlers = children(self.agent.process.pid)
            self.held += any(map(is_held, handlers))
            self.agent.process.kill()
            for pid in handlers if kills_handler else []:
                try:
                    os.killpg(pid, signal.SIGKILL)
                except OSError:
                    pass
            self.agent.process.wait()
            self.confirmed += [firing.result() for firing in firings if firing.result() is not None]

    def open_events(self):
        """How many events are open or wait for their handlers, or None if the agent doesn't answer."""
        found = re.findall(r"(?:events_open|handlers_waiting) = (\d+)", self.agent.serf("info")[1])
        return sum(map(int, found)) if found else None

    def finish(self):
        """Starts the agent once more, and waits until no event is open. Returns whether that is so."""
        self.agent.start()
        is_done = until(lambda: self.open_events() == 0, 600)
        self.agent.end(signal.SIGTERM)
        # (a handler that outlived its agent may still run)
        time.sleep(1)
        return is_done

    def handler_lines(self, word):
        with open(self.handled, encoding="utf-8") as file:
            return [int(line.split()[1]) for line in file if line.startswith(f"{word} ")]

    def reported(self):
        with open(self.agent.log, encoding="utf-8", errors="replace") as file:
            return [int(number) for number in REPORTED.findall(file.read())]


def repeated(numbers, times=1):
    """The numbers that occur more than so many times."""
    return sorted(number for number in set(numbers) if numbers.count(number) > times)


def judge(run, is_done, is_rerun):
    """Prints what became of the events, and returns what must not be."""
    began, ended, reported = run.handler_lines("begin"), set(run.handler_lines("end")), run.reported()
    print(
        f"{run.fired} events were fired, and {len(run.confirmed)} confirmed. {len(set(began))} began, {len(ended)} ended. "
        f"{len(set(reported))} were reported as cut off, of which {len(set(reported) & ended)} ended nevertheless. "
        f"In {run.held} kills, the shell of a handler was waiting."
    )
    return {
        "events are still open": [] if is_done else [run.open_events()],
        "began too often": repeated(began, 2 if is_rerun else 1),
        "began twice, and were not reported": [number for number in repeated(began) if number not in reported],
        "were confirmed, and neither ended nor were reported": [
            number for number in run.confirmed if number not in ended and number not in reported
        ],
        "began and did not end, and were not reported": [number for number in set(began) if number not in ended and number not in reported],
    }


def main():
    parser = argparse.ArgumentParser(description=__doc__.split("\n")[0])
    parser.add_argument("--kills", type=int, default=30)
    parser.add_argument("--seed", type=int, default=1)
    parser.add_argument("--events", type=int, default=40)
    parser.add_argument("--rerun", action="store_true")
    parser.add_argument("--without", action="store_true")
    parser.add_argument("--slow-flush", type=int)
    parser.add_argument("--agent")
    parser.add_argument("--library")
    parser.add_argument("--keep", action="store_true")
    options = parser.parse_args()
    missing = kit.missing_command(["serf", *["go"] * (not options.agent), *["strace"] * bool(options.slow_flush)])
    if missing:
        sys.exit(f"not installed: {missing}")
    folder = tempfile.mkdtemp(prefix="once.")
    program = options.agent or kit.build(folder, options.library, ())
    run = Run(folder, with_slow_flushes(program, options.slow_flush) if options.slow_flush else program, options)
    try:
        for number in range(options.kills):
            run.life(options.events, number % 2 == 1)
        wrong = judge(run, run.finish(), options.rerun)
    finally:
        run.agent.end()
        if options.keep:
            print(f"kept: {folder}")
        else:
            shutil.rmtree(folder, ignore_errors=True)
    failed = {what: numbers for what, numbers in wrong.items() if numbers}
    for what, numbers in failed.items():
        print(f"FAILED: {len(numbers)} {what}: {numbers[:20]}")
    print(f"{len(wrong) - len(failed)} passed, {len(failed)} failed")
    sys.exit(1 if failed else 0)


if __name__ == "__main__":
    main()
