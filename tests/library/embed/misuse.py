"""The binding in Python, used as it mustn't be: numbers that don't fit, moments that go back, an agent without a reference,
and forks. Prints a line `FAILED ..` for each check that fails, and 'N passed, M failed'.

    misuse.py FOLDER
"""

import gc
import os
import signal
import subprocess
import sys
import threading

sys.path.insert(0, os.path.join(os.path.dirname(os.path.abspath(__file__)), "..", "..", "..", "bindings", "python"))
from serf_agent import Agent, AgentError, Broken, Code, Forked, Ignored, Library, Locked, MissingFolder, Settings, Store
from serf_agent.store import lock_owner

FOLDER = sys.argv[1]
passed = failed = 0


def check(name, holds, said=""):
    global passed, failed
    if holds:
        passed += 1
    else:
        failed += 1
        print(f"FAILED {name}: {said}")


def refused(name, wanted, call, *words, **more):
    """A call that has to raise exactly this."""
    try:
        said = call(*words, **more)
    except Exception as error:
        said = type(error)
    check(name, said is wanted, f"{said}, expected {wanted}")


def path(name):
    return os.path.join(FOLDER, name)


# Values that don't fit an unsigned number of so many bits.
def out_of(bits):
    return (-1, 1 << bits, (1 << bits) + 7, -(1 << bits))


def settings():
    for field in ("event_buffer", "query_buffer", "event_limit", "query_limit", "response_limit", "responders", "per_time"):
        for value in out_of(64):
            refused(f"{field} of {value}", OverflowError, Agent, b"a", path("a"), Settings(**{field: value}))
        refused(f"{field} of 1.0", TypeError, Agent, b"a", path("a"), Settings(**{field: 1.0}))
    for field in ("ignore_old", "keep_events"):
        for value in ("no", 1, None):
            refused(f"{field} of {value!r}", TypeError, Agent, b"a", path("a"), Settings(**{field: value}))
    refused("a name that is a text", TypeError, Agent, "a", path("a"))
    check("nothing was made", not os.path.exists(path("a")))


def numbers():
    with Agent(b"b", path("b")) as agent:
        for name, bits in {"port": 16, "relay_factor": 8}.items():
            for value in out_of(bits):
                refused(f"{name} of {value}", OverflowError, agent.query, 1, 7, b"q", timeout=9, **{name: value})
        for value in out_of(32):
            refused(f"an ID of {value}", OverflowError, agent.query, 1, value, b"q", timeout=9)
        for value in (1 << 63, -(1 << 63) - 1):
            refused(f"a timeout of {value}", OverflowError, agent.query, 1, 7, b"q", timeout=value)
        refused("a timeout below 0", AgentError, agent.query, 1, 7, b"q", timeout=-1)
        for value in out_of(64):
            refused(f"a limit of {value}", OverflowError, agent.should_compact, value)
            refused(f"a status time of {value}", OverflowError, agent.local_state, [(b"c", value)])
            refused(f"the number {value}", OverflowError, agent.respond, 1, value)
            for call, words in {"receive": [b"\x03\x80"], "query": [7, b"q"], "respond": [1], "close_due": []}.items():
                refused(f"{call} at {value}", OverflowError, getattr(agent, call), value, *words)
        refused("a moment of 1.5", TypeError, agent.close_due, 1.5)
        refused("a number that is a text", TypeError, agent.respond, 1, "1")
        check("nothing was fired", (agent.clocks().event, agent.clocks().query, agent.open_queries()) == (1, 1, 0))
        maximum = agent.query(1, (1 << 32) - 1, b"q", timeout=9, port=(1 << 16) - 1, relay_factor=255).query
        check(
            "the largest values are accepted",
            (maximum.id, maximum.port, maximum.relay_factor) == ((1 << 32) - 1, (1 << 16) - 1, 255),
            maximum,
        )


def flags_and_bytes():
    with Agent(b"c", path("c")) as agent:
        state = agent.local_state()
        for value in ("no", 1, 0, None, b""):
            refused(f"coalesce of {value!r}", TypeError, agent.fire, b"x", coalesce=value)
            refused(f"join of {value!r}", TypeError, agent.merge, state, join=value)
            for name in ("want_ack", "no_broadcast", "tags_pass"):
                refused(f"{name} of {value!r}", TypeError, agent.query, 1, 7, b"q", timeout=9, **{name: value})
        # (bytes would make five zeros of the first one)
        for value in (5, "x", [120], None):
            refused(f"an event of {value!r}", TypeError, agent.fire, value)
            refused(f"a payload of {value!r}", TypeError, agent.fire, b"x", value)
            refused(f"a packet of {value!r}", TypeError, agent.receive, 1, value)
            refused(f"a filter of {value!r}", TypeError, agent.query, 1, 7, b"q", timeout=9, filters=[b"", value])
            refused(f"a member of {value!r}", TypeError, agent.local_state, [(b"a", 1)], [value])
        check("nothing was fired", agent.clocks().event == 1 and agent.clocks().query == 1)
        check("nobody was named", agent.local_state() == state)
        check("a value that is like bytes is accepted", agent.fire(bytearray(b"x"), memoryview(b"y")).event.payload == b"y")


def moments():
    with Agent(b"d", path("d")) as agent:
        packet = agent.fire(b"x").packet
        check("at 5", isinstance(agent.receive(5, packet), Ignored))
        check("at 5 again", isinstance(agent.receive(5, packet), Ignored))
        for call, words in {"receive": [packet], "query": [7, b"q"], "respond": [1], "close_due": []}.items():
            refused(f"{call} at 4", ValueError, getattr(agent, call), 4, *words)
        said = []
        # (its moment was read before the others, and its call is made after them)
        thread = threading.Thread(target=lambda: said.append(type(agent.receive(3, packet))))
        thread.start()
        thread.join()
        check("another thread's moment", said == [Ignored], said)
        check("at the largest moment", agent.close_due((1 << 64) - 1) == [])


def opens(name):
    """The result of another opening of the file."""
    try:
        Agent(name, path(name.decode())).close()
    except Exception as error:
        return type(error)
    return True


def let_go():
    agent = Agent(b"e", path("e"))
    check("it is locked", opens(b"e") is Locked)
    kept = agent.clocks
    del agent
    gc.collect()
    check("its method keeps it", opens(b"e") is Locked and kept().event == 1)
    del kept
    gc.collect()
    check("it was let go", opens(b"e") is True, opens(b"e"))
    try:
        Agent(b"", path("e"))
    except AgentError as error:
        said = "the name has 0 bytes, and must have 1 to 128 (BAD_CONFIG)"
        check("a refused opening", (error.code, str(error)) == (Code.BAD_CONFIG, said) and opens(b"e") is True, error)


class Named:
    """A path of this kind for `os.fspath`."""

    def __init__(self, path):
        self.path = path

    def __fspath__(self):
        return self.path


def paths():
    """A file may be named by a text, by bytes, and by an object that has either. Its name needn't be UTF-8."""
    wanted = path("named")
    for name in (wanted, os.fsencode(wanted), Named(wanted), Named(os.fsencode(wanted))):
        with Agent(b"p", name) as agent:
            time = agent.fire(b"x").event.time
            agent.compact()
            refused(f"a second agent on {name!r}", Locked, Agent, b"p", name)
    check("all were one file", time == 4 and os.path.isfile(wanted), time)
    odd = os.fsencode(FOLDER) + b"/\xff\n"
    with Agent(b"p", odd) as agent:
        agent.fire(b"x")
        agent.compact()
        said = locked_by(odd)
    check("a name that isn't UTF-8", os.path.isfile(odd) and isinstance(said, Locked), said)
    refused("a folder of bytes that isn't there", MissingFolder, Store, os.fsencode(path("none/a")))
    refused("a number as a path", TypeError, Store, 5)


def locked_by(name):
    """The error of an opening of this file, which has to be refused."""
    try:
        Store(name).close()
    except Locked as error:
        return error
    return None


def is_listed(pid):
    """Whether the system's list shows a lock of this process. (In some containers it shows none.)"""
    with open("/proc/locks", encoding="ascii") as file:
        return any(line.split()[1:2] == ["FLOCK"] and line.split()[4] == str(pid) for line in file)


# What the system's list of locks may have of the file in question (at PLACE): nothing, another kind of lock, a lock that somebody
# waits for, and its lock.
LOCKS = (
    ("", None),
    ("1: POSIX  ADVISORY  WRITE 71 PLACE 0 EOF\n", None),
    ("1: FLOCK  ADVISORY  WRITE 71 00:00:1 0 EOF\n1: -> FLOCK  ADVISORY  WRITE 72 PLACE 0 EOF\n\n", None),
    ("1: FLOCK  ADVISORY  WRITE 71 00:00:1 0 EOF\n2: FLOCK  ADVISORY  WRITE 73 PLACE 0 EOF\n", 73),
)


def owners():
    """The error of a locked file says which process has it."""
    with Store(path("owned")) as store:
        error = locked_by(path("owned"))
        said = f"{store.path}: another agent has the file, in this process"
        if is_listed(os.getpid()):
            check("a lock of this process", (error.pid, str(error)) == (os.getpid(), said), error)
        own = os.stat(path("owned"))
        place = f"{os.major(own.st_dev):02x}:{os.minor(own.st_dev):02x}:{own.st_ino}"
        for text, wanted in LOCKS:
            with open(path("locks"), "w", encoding="ascii") as file:
                file.write(text.replace("PLACE", place))
            check(f"the owner by {text!r}", lock_owner(path("owned"), path("locks")) == wanted, lock_owner(path("owned"), path("locks")))
        check("the owner without a list", lock_owner(path("owned"), path("no list")) is None)
    check("the owner of no file", lock_owner(path("none")) is None)


def bounds():
    """Each setting is accepted at its bounds; beyond them the error names it."""
    of_counts = dict.fromkeys(("event_buffer", "query_buffer", "responders", "per_time"), (1, 65536))
    for field, (minimum, maximum) in {**of_counts, **dict.fromkeys(("event_limit", "query_limit", "response_limit"), (0, 9216))}.items():
        for value in (minimum, maximum):
            Agent(b"bounds", path("bounds"), Settings(**{field: value})).close()
        for value in {0, maximum + 1, (1 << 64) - 1} - {minimum}:
            try:
                said = Agent(b"bounds", path("bounds"), Settings(**{field: value}))
            except AgentError as error:
                said = str(error)
            check(f"{field} of {value}", said == f"{field} is {value}, and must be between {minimum} and {maximum} (BAD_CONFIG)", said)
    Agent(b"n" * 128, path("longest")).close()
    refused("a longer name", AgentError, Agent, b"n" * 129, path("longer"))


CALLS = {
    "fire": [b"x"],
    "receive": [1, b"\x03\x80"],
    "merge": [b"\x02\x80"],
    "local_state": [],
    "query": [1, 7, b"q"],
    "respond": [1, 1],
    "close_due": [1],
    "save_member_clock": [],
    "compact": [],
    "clocks": [],
    "next_deadline": [],
    "open_queries": [],
    "should_compact": [],
}


def in_child(done):
    """What a forked child answers, as a text."""
    reading, writing = os.pipe()
    child = os.fork()
    if child == 0:
        os.write(writing, done().encode())
        os._exit(0)
    os.close(writing)
    with os.fdopen(reading) as file:
        output = file.read()
    os.waitpid(child, 0)
    return output


def said_of(call, words):
    try:
        return str(call(*words))
    except Exception as error:
        return type(error).__name__


def forks():
    with Agent(b"f", path("f")) as agent, Store(path("store")) as store:
        first = agent.fire(b"one").event
        for name, words in CALLS.items():
            said = in_child(lambda: said_of(getattr(agent, name), words))
            check(f"{name} in a forked child", said == Forked.__name__, said)
        said = in_child(lambda: said_of(store.append, [b"x"]))
        check("a store in a forked child", said == Broken.__name__, said)

        def closed():
            agent.close()
            return said_of(agent.fire, [b"x"])

        check("close in a forked child", in_child(closed) == Forked.__name__)
        check("it is locked still", opens(b"f") is Locked)
        second = agent.fire(b"two").event
        check("the parent continues", (first.time, second.time) == (1, 2) and store.append(b"y") is None)
    with open(path("f"), encoding="utf-8") as file:
        check(
            "each time is once in the file",
            sorted(file.read().split()) == sorted("event-clock: 1 event-clock: 2".split()),
        )


class Held(Library):
    """A library whose next firing takes a long time."""

    def __init__(self):
        super().__init__()
        self.whole, self.begun, self.over = self.fire, threading.Event(), threading.Event()
        self.fire = self.held

    def held(self, *words):
        self.begun.set()
        self.over.wait()
        return self.whole(*words)


def fork_in_a_call():
    library = Held()
    with Agent(b"h", path("h"), library=library) as agent:
        thread = threading.Thread(target=agent.fire, args=[b"x"])
        thread.start()
        library.begun.wait()

        def closed():
            # nobody frees in the child what the thread holds in the parent
            signal.alarm(10)
            said = said_of(agent.clocks, [])
            agent.close()
            return said

        said = in_child(closed)
        check("a fork while a thread is in a call", said == Forked.__name__, said)
        library.over.set()
        thread.join()
        check("that call ends well", agent.clocks().event == 2)


def folders():
    """A store that is closed, or that was never opened, has no descriptor of its file or its folder."""

    def descriptors():
        gc.collect()
        return len(os.listdir("/proc/self/fd"))

    before = descriptors()
    for _ in range(3):
        with Store(path("closed")) as store:
            store.replace(b"x")
            check("a store has its file and its folder", descriptors() == before + 2, descriptors())
        check("a closed store has nothing", descriptors() == before, (before, descriptors()))
    refused("a folder that isn't there", MissingFolder, Store, path("none/file"))
    with Store(path("closed")):
        refused("a file that another has", Locked, Store, path("closed"))
    check("what wasn't opened has nothing", descriptors() == before, (before, descriptors()))


class Starved(Library):
    """A library in which allocations fail for a member of this name."""

    def __init__(self):
        super().__init__()
        self.whole, self.add_status = self.add_status, self.starved

    def starved(self, handle, name, *words):
        return Code.OUT_OF_MEMORY if bytes(name) == b"full" else self.whole(handle, name, *words)


def stale_members():
    """The members of a state that failed aren't in the next one, whether somebody left or not."""
    with Agent(b"s", path("s"), library=Starved()) as agent:
        wanted = agent.local_state([(b"b", 2)])
        for left in ([], [b"gone"]):
            refused("a state without memory", AgentError, agent.local_state, [(b"stale", 1), (b"full", 1)], left)
            check("the next state contains its own members", agent.local_state([(b"b", 2)]) == wanted, left)


# A parent that forks a child, prints its number, and waits, as the child does.
PARENT = """
import os, sys, time
sys.path.insert(0, sys.argv[1])
from serf_agent import Agent
agent = Agent(b"g", sys.argv[2])
child = os.fork()
if child == 0:
    time.sleep(60)
    os._exit(0)
print(child, flush=True)
time.sleep(60)
"""


def lock_of_a_parent():
    binding = os.path.join(os.path.dirname(os.path.abspath(__file__)), "..", "..", "..", "bindings", "python")
    with subprocess.Popen(
        [sys.executable, "-c", PARENT, binding, path("g")], stdout=subprocess.PIPE, text=True
    ) as parent:
        child = int(parent.stdout.readline())
        # (the child closes its copy in its first step, which may be after its parent's line)
        os.kill(child, 0)
        error = locked_by(path("g"))
        check("it is locked", isinstance(error, Locked) and error.pid in (parent.pid, None), error)
        wanted = f": another agent has the file, in process {parent.pid}" if is_listed(parent.pid) else "/proc/locks doesn't show"
        check("the error names its process", wanted in str(error), error)
        parent.kill()
        parent.wait()
        said = next((True for _ in range(100) if opens(b"g") is True or threading.Event().wait(0.05)), opens(b"g"))
        check("the lock ends with the parent", said is True, said)
        os.kill(child, signal.SIGKILL)


for part in (
    settings,
    numbers,
    flags_and_bytes,
    moments,
    let_go,
    paths,
    owners,
    bounds,
    forks,
    fork_in_a_call,
    folders,
    stale_members,
    lock_of_a_parent,
):
    part()
print(f"{passed} passed, {failed} failed")
sys.exit(1 if failed else 0)
