"""The hosts of the five stores, unchanged and with planted bugs.

A host is driven by lines of its standard input. It answers each by what the line hands out, and then by `ok` or `Failed`;
each line that it prints is one write, so a trace has it.

    open PATH, append HEX, replace HEX, close     a store alone
    o PATH, O PATH, x                             an agent over the store at this path, one that keeps its events and whose joins
                                                  ignore old ones, and its end
    r HEX, m HEX, f NAME, q NAME                  it receives a packet, merges a state, fires an event, fires a query
    j HEX                                         it merges a state as it joins
    b rHEX fNAME qNAME ..                         it receives and fires in one burst
    p, c, k                                       it answers the query handed out last, compacts, saves the member clock
    t PATH                                        an agent that keeps its events, in a host that tracks their handlers
    s, d                                          the handler of the first event that waits begins; the one that began first ends

    e TIME NAME      an event is handed out
    h TIME ID        a query is handed out
    p HEX            a packet is handed over to be sent
    w TIME NAME      an opening finds that an event waits for its handler
    u TIME NAME      an opening finds that the handler of an event began, and not that it ended
    b TIME NAME      a handler begins
    d TIME NAME      a handler has ended
"""

import os
import shutil
import sys

import c_library
import faults
import file_store

# How many of the texts that the cuts of a life over filler leave are opened again.
MAX_OPENED = 400

OWN = os.path.dirname(os.path.abspath(__file__))
BINDINGS = os.path.join(c_library.TOP, "bindings")


class NotBuilt(Exception):
    """A host could not be built; the text says why."""


class Store:
    """A store: its hosts' words and environment, without a bug or with one of those that can be planted."""

    def __init__(self, name, plants):
        self.name, self.plants = name, plants
        # how many of the texts that cuts leave in a life are opened again, if not all are
        self.max_opened = None
        # whether its host supports bursts, whether it tracks handlers, and whether the store keeps filler after its text
        self.has_bursts = self.tracks_handlers = True
        self.has_filler = False

    def words(self, fault):
        raise NotImplementedError

    def env(self, fault):
        return dict(os.environ, PYTHONDONTWRITEBYTECODE="1", **({faults.FAULT_NAME: fault} if fault else {}))


def build_or_raise(words, **more):
    status, output = c_library.ran(words, **more)
    if status:
        raise NotBuilt(f"{' '.join(words)[:200]}: {output[-1500:]}")


class InC(Store):
    def __init__(self, places):
        super().__init__("C", [faults.NONE, *faults.FAULTS])
        copy = places.copy("c", os.path.join(BINDINGS, "c"))
        self.paths = {False: places.of("c_host"), True: places.of("c_planted")}
        for is_planted, path in self.paths.items():
            if is_planted:
                faults.edit(copy, faults.C)
            sources = [
                *(os.path.join(OWN, name) for name in ("host.c", "tracking.c")),
                *(os.path.join(copy, name) for name in ("serf_agent_store.c", "serf_agent_heap.c")),
            ]
            build_or_raise([os.environ.get("CC", "cc"), *c_library.STRICT, "-O1", "-o", path, *sources, places.library])

    def words(self, fault):
        return [self.paths[fault is not None]]


class InPython(Store):
    def __init__(self, places):
        super().__init__("Python", [faults.NONE, *faults.FAULTS])
        self.shared = places.shared()
        self.packages = {
            False: os.path.join(BINDINGS, "python"), True: places.copy("python", os.path.join(BINDINGS, "python"))
        }
        faults.edit(self.packages[True], faults.PYTHON)

    def words(self, fault):
        return [sys.executable, os.path.join(OWN, "host.py")]

    def env(self, fault):
        return dict(super().env(fault), SERF_AGENT_LIBRARY=self.shared, PYTHONPATH=self.packages[fault is not None])


class InGo(Store):
    def __init__(self, places, with_little_filler=True):
        super().__init__("Go", [faults.NONE, *faults.FAULTS, *faults.FILLER_FAULTS])
        self.has_filler, self.max_opened = True, MAX_OPENED
        module = places.of("go")
        shutil.copytree(os.path.join(BINDINGS, "go"), module)
        os.mkdir(os.path.join(module, "power_cuts"))
        for name in ("host.go", "tracking.go"):
            shutil.copyfile(os.path.join(OWN, name), os.path.join(module, "power_cuts", name))
        c_library.put_beside(os.path.join(module, "serfagent"), places.library)
        env = dict(os.environ, GOFLAGS="-mod=mod", GOPROXY="off", GO111MODULE="on", **c_library.LEAN_GO)
        self.paths = {False: places.of("go_host"), True: places.of("go_planted")}
        # (so little filler that a life prepares some again and again)
        if with_little_filler:
            faults.edit(module, {"serfagent/filler.go": [("const fillerBytes = 64 << 10", "const fillerBytes = 60")]})
        for is_planted, path in self.paths.items():
            if is_planted:
                faults.edit(module, faults.GO)
            build_or_raise(["go", "build", "-o", path, "./power_cuts"], cwd=module, env=env)

    def words(self, fault):
        return [self.paths[fault is not None]]


class InRust(Store):
    def __init__(self, places):
        super().__init__("Rust", [faults.NONE, *faults.FAULTS])
        crate, target = places.of("rust"), places.of("target")
        shutil.copytree(
            os.path.join(BINDINGS, "rust"), crate, ignore=shutil.ignore_patterns("target", "examples", "tests")
        )
        os.makedirs(os.path.join(crate, "examples", "host"))
        for name, to in (("host.rs", "main.rs"), ("tracking.rs", "tracking.rs")):
            shutil.copyfile(os.path.join(OWN, name), os.path.join(crate, "examples", "host", to))
        env = dict(os.environ, SERF_AGENT_LIBRARY=places.library, CARGO_TARGET_DIR=target)
        self.paths = {False: places.of("rust_host"), True: places.of("rust_planted")}
        for is_planted, path in self.paths.items():
            if is_planted:
                faults.edit(crate, faults.RUST)
            build_or_raise(["cargo", "build", "--quiet", "--offline", "--example", "host"], cwd=crate, env=env)
            shutil.copyfile(os.path.join(target, "debug", "examples", "host"), path)
            os.chmod(path, 0o755)

    def words(self, fault):
        return [self.paths[fault is not None]]


class InRattle(Store):
    def __init__(self, places):
        super().__init__("FileStore", list(faults.FILE_STORE))
        # (the host is slow, since it checks each access)
        self.max_opened = 40
        self.has_bursts = self.tracks_handlers = False
        self.program = file_store.program(places.of("file_store"), OWN)

    def words(self, fault):
        return [*self.program, file_store.crate_with(fault)]


class Places:
    """The places of what is built and run here."""

    def __init__(self, folder, library):
        self.folder, self.library = folder, library

    def of(self, name):
        return os.path.join(self.folder, name)

    def copy(self, name, source):
        return shutil.copytree(source, self.of(name), ignore=shutil.ignore_patterns("__pycache__"))

    def shared(self):
        path = self.of("libserf_agent.so")
        fault = c_library.fault_of_shared(path, self.library)
        if fault:
            raise NotBuilt(fault)
        return path


# Each store, with the command that has to be installed to build its host.
STORES = {
    "C": (InC, None),
    "Python": (InPython, None),
    "Go": (InGo, "go"),
    "Rust": (InRust, "cargo"),
    "FileStore": (InRattle, "rt"),
}
