"""Builds the static library of the agent for C, and compiles hosts that use it, for tests."""

import fcntl
import hashlib
import os
import shutil
import subprocess
import tempfile

import libraries
import machine
import toolchain

TOP = os.path.dirname(os.path.dirname(os.path.abspath(__file__)))
CRATE = os.path.join(TOP, "crates", "serf_agent_c")
LIBRARY = os.path.join(CRATE, "out", "libserf_agent_c.a")
INCLUDE = os.path.join(TOP, "include")
BINDINGS_C = os.path.join(TOP, "bindings", "c")

# The flags with which every host in C is compiled.
STRICT = ["-std=c11", "-Wall", "-Wextra", "-Werror", f"-I{INCLUDE}", f"-I{BINDINGS_C}"]
# Settings with which Go's compilers take fewer processor seconds: one thread each, and rare garbage collection. Their output is the
# same. No test runs with them.
LEAN_GO = {"GOMAXPROCS": "1", "GOGC": "400"}
# What every host is linked with, in addition to the library.
STORE = os.path.join(BINDINGS_C, "serf_agent_store.c")
HEAP = os.path.join(BINDINGS_C, "serf_agent_heap.c")


def ran(words, **more):
    """Runs a command. Returns its status and its output."""
    done = subprocess.run(
        words, stdin=subprocess.DEVNULL, stdout=subprocess.PIPE, stderr=subprocess.STDOUT, text=True, errors="replace", **more
    )
    return done.returncode, done.stdout


def fault_of_library(over_ci=False):
    """Proves and builds the library. Returns what went wrong, or None. With `over_ci` it uses what `rt ci` has just proved, of the
    library itself and of those below it, as the gate does. A library that was built from the same sources before is reused."""
    os.makedirs(os.path.dirname(LIBRARY), exist_ok=True)
    with open(f"{LIBRARY}.lock", "w", encoding="utf-8") as lock:
        # If two tests need the library at once, the first one builds it.
        fcntl.flock(lock, fcntl.LOCK_EX)
        if is_noted() or taken():
            return None
        status, said = built(over_ci)
        if status or not os.path.exists(LIBRARY):
            return said[-2000:] or "rt lib made no library"
        note()
        keep()
    return None


def crate_of(rt):
    return next(it for it in rt.rtlib.crates_below(TOP) if it.folder == CRATE)


def built(over_ci):
    """Builds the library, and proves it unless `rt ci` left its proof. Returns the status and the output."""
    if not over_ci:
        return ran(["rt", "lib"], cwd=CRATE)
    rt = toolchain.load()
    if rt is None:
        return 3, toolchain.MISSING
    crate = crate_of(rt)
    fault = libraries.fault_of([crate])
    if fault:
        return 1, fault
    with tempfile.TemporaryFile("w+", errors="replace") as crate.out:
        words = crate.words(["--jobs", "1"], keeps=False)
        status = 0 if is_checked(crate) else crate.call(rt.rtlib.RATTLE, "check", *words, "-o", toolchain.CHECKED)
        for flag in ("--logic-built", "--jobs"):
            at = words.index(flag)
            words = [*words[:at], *words[at + 2 :]]
        checked = ["--crate-checked", toolchain.CHECKED, "--toolchain", f"{rt.rtlib.KIT}/toolchain", "--backend", "llvm"]
        status = status or crate.call(rt.rtlib.RATTLE, "build", *words, *checked, "-o", f"out/{os.path.basename(LIBRARY)}")
        crate.out.seek(0)
        return status, crate.out.read()


def note_checked(crate):
    """Records, after `rt ci`, from which sources it proved the library."""
    if os.path.isdir(os.path.join(crate.folder, toolchain.CHECKED)):
        with open(os.path.join(crate.folder, f"{toolchain.CHECKED}.of_ci"), "w", encoding="utf-8") as file:
            file.write(crate.stamp())


def drop_checked(crate):
    """Removes what an earlier `rt ci` left."""
    shutil.rmtree(os.path.join(crate.folder, toolchain.CHECKED), ignore_errors=True)


def is_checked(crate):
    """Whether what `rt ci` proved is there, and is from the current sources."""
    try:
        with open(os.path.join(crate.folder, f"{toolchain.CHECKED}.of_ci"), encoding="utf-8") as file:
            return file.read() == crate.stamp() and os.path.isdir(os.path.join(crate.folder, toolchain.CHECKED))
    except OSError:
        return False


def of_sources():
    """A hash of the toolchain and of all sources that the library is made from."""
    said = [ran(words)[1] for words in (["rt", "version"], [os.path.join(TOP, "tools", "sources"), os.path.basename(CRATE)])]
    return hashlib.sha256("".join(said).encode()).hexdigest()


def hash_of(path):
    with open(path, "rb") as file:
        return hashlib.sha256(file.read()).hexdigest()


def state():
    """A hash of what the library is made from, and a hash of the library itself."""
    return f"{of_sources()} {hash_of(LIBRARY)}\n"


def note():
    with open(f"{LIBRARY}.sources", "w", encoding="utf-8") as file:
        file.write(state())


def is_noted():
    """Whether the library is there, and was built from the current sources."""
    try:
        with open(f"{LIBRARY}.sources", encoding="utf-8") as file:
            return file.read() == state()
    except OSError:
        return False


def kept_at():
    return os.path.join(machine.FOLDER, f"libserf_agent_c-{of_sources()}")


def keep():
    """Keeps the library on this machine with its hash, as `rt ci` keeps its proofs, if the folder can be written."""
    try:
        machine.write(kept_at(), [LIBRARY, f"{LIBRARY}.sources"])
    except OSError:
        pass


def taken():
    """Copies the library that an earlier run on this machine built from the same sources, if its hash is still right."""
    try:
        for name in (LIBRARY, f"{LIBRARY}.sources"):
            shutil.copyfile(os.path.join(kept_at(), os.path.basename(name)), name)
    except OSError:
        return False
    return is_noted()


def fault_of_host(to, source, library=LIBRARY, more=()):
    """Compiles a host in C. Returns the compiler's output if it failed, or None."""
    cc = os.environ.get("CC", "cc")
    status, said = ran([cc, *STRICT, "-O2", *more, "-o", to, source, STORE, HEAP, library])
    return said[-2000:] or f"{cc} failed" if status else None


def go_flags(library):
    """The environment variables that name a library's folder to Go. There are none for the folder that the module finds by itself,
    because a flag for all packages makes Go compile its own packages again for each folder."""
    return {} if os.path.realpath(library) == os.path.realpath(LIBRARY) else {"CGO_LDFLAGS": f"-L{os.path.dirname(library)}"}


def go_env(*paths, own=os.environ):
    """The environment of Go's compiler with packages from folders like Debian's. The first folder that has a package is used."""
    return {**own, "GO111MODULE": "off", "GOFLAGS": "-trimpath", "GOPATH": os.pathsep.join(paths), **LEAN_GO}


def linked_packages(path, *packages, bindings=os.path.join(TOP, "bindings", "go")):
    """Lets Go find packages of bindings/go by their own paths in a folder, which it returns. Without names, these are all of them."""
    own = os.path.join(path, "src", "kitchenrue.example")
    os.makedirs(own if packages else os.path.dirname(own), exist_ok=True)
    for name in packages:
        os.symlink(os.path.join(bindings, name), os.path.join(own, name))
    if not packages:
        os.symlink(bindings, own)
    return path


def put_beside(module, library):
    """Makes a copy of Go's module serfagent use another library, which is found first if it is next to the sources. Unlike a flag
    with a folder, this doesn't make Go compile its own packages again."""
    os.symlink(os.path.abspath(library), os.path.join(module, os.path.basename(LIBRARY)))


def fault_of_shared(to, library=LIBRARY):
    """Makes the shared library for other languages, as bindings/c does, in a file named libserf_agent.so. Returns what went wrong,
    or None."""
    status, said = ran(["make", "-s", "-C", BINDINGS_C, f"OUT={os.path.dirname(to)}", f"LIBRARY={library}", to])
    return said[-2000:] or "make failed" if status else None
