"""By hand, since it takes a network and some minutes: a release's packages in bare chroots of Debian 12, which have nothing but what
debootstrap makes and the Debian packages that a row names.

    tests/by_hand/bare_chroots.py RELEASE [--arch amd64|arm64] [--only ROW] [--work FOLDER] [--mirror ADDRESS]

RELEASE is the folder with a release's files. Each row has its own chroot: the base of --arch with the row's packages, which apt-get
installed there. Then a user who isn't root runs the row's commands there, in a new shell, with an empty home, without the network, and
without anything of this machine. Each row ends with a program of docs/START.md, or with the agent's first handler. The script prints a
line for each row: PASS or FAIL, and how long the commands took, and before them the packages.

It needs root and Debian's debootstrap; for the other processor, also qemu-user-static. The chroots are overlays, so no row changes the
base or the packages of another one. With --work, the bases and the packages stay in that folder, downloaded and installed: under
emulation, apt-get takes minutes. The mirror is the first of this machine's own apt-get. The status is 1 if a row fails.
"""

import argparse
import contextlib
import glob
import os
import re
import shlex
import shutil
import subprocess
import sys
import tempfile
import time

TOP = os.path.dirname(os.path.dirname(os.path.dirname(os.path.abspath(__file__))))
SUITE = "bookworm"
MACHINES = {"amd64": "x86_64", "arm64": "aarch64"}
BINFMT = "/proc/sys/fs/binfmt_misc"

# What a C compiler is in Debian, and what apt-get does without.
CC = "gcc libc6-dev"
APT = [
    "apt-get",
    "-y",
    "-q",
    "--no-install-recommends",
    "-o",
    "Acquire::Languages=none",
    "-o",
    "DPkg::Options::=--force-unsafe-io",
    "-o",
    "Dir::Cache::archives=/debs",
]

TWICE = ("handled deploy at 1", "handled deploy at 2")
PYTHON = "\n".join(["own/bin/python host.py", "own/bin/python host.py"])
UNPACK = "tar xzf serf-replay-*.tar.gz\nmv serf-replay-*-linux release"
CRATE = """cargo new -q --vcs none app
echo 'serf_agent = { path = "../release/bindings/rust" }' >>app/Cargo.toml
cp src/main.rs app/src/main.rs
cd app
cargo build -q --offline
target/debug/app
target/debug/app"""
CMAKE = """cmake_minimum_required(VERSION 3.10)
project(host C)
find_package(serf_agent CONFIG REQUIRED)
add_executable(host host.c)
target_link_libraries(host PRIVATE serf_agent::serf_agent)
"""
AGENT = """kitchenrue-agent -node alpha -bind 127.0.0.1 -snapshot alpha.snapshot -event-handler user:deploy='read text; echo "handled deploy $text" >>ran' >log 2>&1 &
for _ in $(seq 300); do grep -q 'Log data will now stream' log && break; sleep 0.2; done
serf event -coalesce=false deploy v1
for _ in $(seq 300); do [ -s ran ] && break; sleep 0.2; done
cat ran
kill %1
wait || true"""


class Row:
    """How a package is installed and used: the Debian packages that it needs, the release's files by their patterns, the commands, and
    the lines that these have to print. `as_root` are commands of root's before them, which have no network either."""

    def __init__(self, needs, files, commands, lines=TWICE, as_root=""):
        self.needs, self.files, self.commands, self.lines, self.as_root = needs.split(), files, commands, lines, as_root


ROWS = {
    "wheel": Row(
        "python3-venv",
        ["serf_agent-*_{machine}.whl"],
        f"python3 -m venv own\nown/bin/pip install -q --no-index ./serf_agent-*.whl\n{PYTHON}",
    ),
    "wheel, without a venv": Row(
        "python3-pip",
        ["serf_agent-*_{machine}.whl"],
        "pip install -q --no-index --break-system-packages ./serf_agent-*.whl\npython3 host.py\npython3 host.py",
    ),
    "source package": Row(
        f"python3-venv {CC}",
        ["serf_agent-*.tar.gz"],
        f"python3 -m venv own\nown/bin/pip install -q --no-index ./serf_agent-*.tar.gz\n{PYTHON}",
    ),
    "crate": Row("cargo", ["serf-replay-*-linux.tar.gz"], f"{UNPACK}\n{CRATE}"),
    "crate, by clang-16": Row("cargo clang-16", ["serf-replay-*-linux.tar.gz"], f"{UNPACK}\nexport SERF_AGENT_FROM_SOURCE=1\n{CRATE}"),
    "Go module": Row(
        f"golang-go {CC}",
        ["serf-replay-*-linux.tar.gz"],
        f"{UNPACK}\nmkdir app\ncp main.go app\ncd app\nexport GOFLAGS=-mod=mod GOPROXY=off\ngo mod init host.example/host\n"
        "go mod edit -require={modules}/serfagent@v0.0.0 -replace={modules}/serfagent=../release/bindings/go/serfagent\ngo build -o host .\n./host\n./host",
    ),
    "C, by pkg-config": Row(
        f"make pkg-config {CC}",
        ["serf-replay-*-linux.tar.gz"],
        f"{UNPACK}\ncd release\nmake -s -C bindings/c {{library}} install PREFIX=$HOME/.local\ncd\nexport PKG_CONFIG_PATH=$HOME/.local/lib/pkgconfig\n"
        "cc -o host host.c $(pkg-config --cflags --libs serf_agent) -Wl,-rpath,$HOME/.local/lib\n./host\n./host",
    ),
    "C, by CMake": Row(
        f"make cmake {CC}",
        ["serf-replay-*-linux.tar.gz"],
        f"{UNPACK}\ncd release\nmake -s -C bindings/c {{library}} install PREFIX=$HOME/.local\ncd\nmkdir cmake\ncp host.c CMakeLists.txt cmake\n"
        "cmake -S cmake -B build -DCMAKE_PREFIX_PATH=$HOME/.local >/dev/null\ncmake --build build >/dev/null\nbuild/host\nbuild/host",
    ),
    "library, by clang-16": Row(
        f"clang-16 {CC}",
        ["serf-replay-*-linux.tar.gz"],
        f"{UNPACK}\nCLANG=clang-16 release/bindings/source/build serf_agent_c.o\nCLANG=clang-16 release/bindings/source/build libserf_agent_c.a\n"
        "cc -Irelease/include -Irelease/bindings/c -o host host.c release/bindings/c/serf_agent_store.c release/bindings/c/serf_agent_heap.c libserf_agent_c.a\n"
        './host\n./host\n[ "object $(sha256sum <serf_agent_c.o | cut -d " " -f 1)" = "$(grep ^object release/bindings/source/{machine}/digests)" ]\necho the digest is right',
        (*TWICE, "the digest is right"),
    ),
    "Debian package": Row(
        "serf", ["kitchenrue-agent_*_{arch}.deb"], AGENT, ("handled deploy v1",), "apt-get install -y -q ./kitchenrue-agent_*.deb"
    ),
    "program": Row(
        "",
        ["serf-replay-*-linux.tar.gz"],
        f"{UNPACK}\nrelease/install ~/.local >/dev/null\n~/.local/bin/serf-replay replay release/examples/deploy_gossiped_twice.schedule >trace\n"
        "cmp trace release/examples/deploy_gossiped_twice.trace\necho the trace is right",
        ("the trace is right",),
    ),
}


class Stopped(Exception):
    """Why a row can't be run."""


def run_command(words, **more):
    """The status of a command, and what it prints."""
    result = subprocess.run(
        words, stdin=subprocess.DEVNULL, stdout=subprocess.PIPE, stderr=subprocess.STDOUT, text=True, errors="replace", **more
    )
    return result.returncode, result.stdout


def need(words, **more):
    status, output = run_command(words, **more)
    if status:
        raise Stopped(f"{' '.join(words)}: {output[-3000:]}")


def mirror():
    """The first mirror of this suite that this machine's apt-get uses."""
    _, said = run_command(["apt-get", "indextargets", "--format", "$(RELEASE) $(COMPONENT) $(REPO_URI)", "Created-By: Packages"])
    found = re.search(rf"^{SUITE} main (\S+)$", said, re.M)
    if not found:
        raise Stopped(f"this machine's apt-get has no mirror of {SUITE}: name one by --mirror")
    return found[1]


def programs():
    """The programs of docs/START.md, by their names."""
    with open(os.path.join(TOP, "docs", "START.md"), encoding="utf-8") as file:
        text = re.sub(r"^ {4}", "", file.read(), flags=re.M)
    return dict(re.findall(r"^cat >(\S+) <<'END'\n(.*?^)END$", text, re.M | re.S))


def can_run(arch):
    """Lets the system run programs for this processor, as systemd does when it boots with qemu-user-static."""
    if MACHINES[arch] == os.uname().machine:
        return
    if not os.path.exists(os.path.join(BINFMT, "register")):
        need(["mount", "-t", "binfmt_misc", "binfmt_misc", BINFMT])
    if not os.path.exists(os.path.join(BINFMT, f"qemu-{MACHINES[arch]}")):
        rule = f"/usr/lib/binfmt.d/qemu-{MACHINES[arch]}.conf"
        if not os.path.exists(rule):
            raise Stopped("qemu-user-static isn't installed: install it with apt-get")
        with open(rule, "rb") as file, open(os.path.join(BINFMT, "register"), "wb", buffering=0) as register:
            register.write(file.read().strip())


def base(work, arch, address):
    """The base of a processor, which is made if it isn't in the folder yet."""
    root = os.path.join(work, f"base-{arch}")
    if not os.path.exists(os.path.join(root, "made")):
        shutil.rmtree(root, ignore_errors=True)
        began = time.monotonic()
        need(["debootstrap", f"--arch={arch}", "--variant=minbase", SUITE, root, address])
        for path, text in (("usr/sbin/policy-rc.d", "#!/bin/sh\nexit 101\n"), ("made", "")):
            with open(os.path.join(root, path), "w", encoding="utf-8") as file:
                file.write(text)
        os.chmod(os.path.join(root, "usr/sbin/policy-rc.d"), 0o755)
        shutil.copy("/etc/resolv.conf", os.path.join(root, "etc"))
        need(["chroot", root, "apt-get", "update", "-q"])
        need(["chroot", root, "useradd", "--create-home", "--shell", "/bin/sh", "user"])
        print(f"      {arch}: debootstrap took {time.monotonic() - began:.0f} seconds", flush=True)
    return root


@contextlib.contextmanager
def chroot(work, layers, changes):
    """A chroot of layers, the highest first, whose changes are kept in a folder. The base is the lowest layer."""
    root, own = f"{changes}.root", f"{changes}.overlay"
    if os.path.ismount(root):
        # (an earlier run was killed)
        need(["umount", root])
    for folder in (changes, root, own):
        shutil.rmtree(folder, ignore_errors=True)
        os.makedirs(folder)
    need(["mount", "-t", "overlay", "overlay", "-o", f"lowerdir={':'.join(layers)},upperdir={changes},workdir={own}", root])
    try:
        yield root
    finally:
        need(["umount", root])
        for folder in (root, own):
            shutil.rmtree(folder, ignore_errors=True)


def installed(work, arch, needs, address):
    """The layers of a chroot with these packages. apt-get installs them over the largest part of them that is installed already."""
    if not needs:
        return [base(work, arch, address)]
    folder, debs = os.path.join(work, f"packages-{arch}"), os.path.join(work, f"debs-{arch}")
    os.makedirs(os.path.join(debs, "partial"), exist_ok=True)
    own = os.path.join(folder, "+".join(sorted(needs)))
    done = os.path.join(own, "below")
    if not os.path.exists(done):
        others = [set(os.path.basename(os.path.dirname(path)).split("+")) for path in glob.glob(os.path.join(folder, "*", "below"))]
        below = installed(work, arch, max((other for other in others if other < set(needs)), key=len, default=()), address)
        os.makedirs(own, exist_ok=True)
        with chroot(work, below, os.path.join(own, "changes")) as root:
            status, output = inside(root, shlex.join([*APT, "install", *sorted(needs)]), "root", True, debs)
        if status:
            raise Stopped(f"apt-get: {output[-3000:]}")
        with open(done, "w", encoding="utf-8") as file:
            file.write("\n".join(below))
    with open(done, encoding="utf-8") as file:
        return [os.path.join(own, "changes"), *file.read().splitlines()]


def inside(root, script, user, net, debs):
    """Runs a script in a new shell in a chroot. It sees its own processes, and no network unless it is given one."""
    os.makedirs(os.path.join(root, "debs"), exist_ok=True)
    own = f"mount -t proc proc {root}/proc && mount --bind {debs} {root}/debs && "
    own += "" if net else "ip link set lo up && "
    enter = ["chroot", root, "su", "-", user, "-s", "/bin/bash", "-c", f"set -e\n{script}"]
    words = ["unshare", "--mount", "--pid", "--fork", *([] if net else ["--net"]), "sh", "-c", own + 'exec "$@"', "sh", *enter]
    return run_command(
        words,
        env={
            "PATH": "/usr/local/sbin:/usr/local/bin:/usr/sbin:/usr/bin:/sbin:/bin",
            "LANG": "C.UTF-8",
            "DEBIAN_FRONTEND": "noninteractive",
        },
    )


def filled(text, arch):
    """A text with the machine's name and the like in place of the words in braces."""
    machine = MACHINES[arch]
    with open(os.path.join(TOP, "PUBLISHER"), encoding="utf-8") as file:
        modules = re.search(r"^modules (.*)$", file.read(), re.M)[1]
    library = (
        ""
        if machine == "x86_64"
        else f"LIBRARY=$PWD/lib/{machine}/libserf_agent_c.a SHARED=out/libserf_agent.so STATIC=out/libserf_agent.a"
    )
    for name, value in (("machine", machine), ("arch", arch), ("modules", modules), ("library", library)):
        text = text.replace(f"{{{name}}}", value)
    return text


def tried(row, arch, release, root, debs):
    """Runs a row in its chroot. Returns what is wrong, or None."""
    home = os.path.join(root, "home", "user")
    os.makedirs(os.path.join(home, "src"))
    for pattern in row.files:
        found = glob.glob(os.path.join(release, filled(pattern, arch)))
        if len(found) != 1:
            return f"the release has {len(found)} files {filled(pattern, arch)}"
        shutil.copy(found[0], home)
        shutil.copy(found[0], os.path.join(root, "root"))
    for name, text in {**programs(), "CMakeLists.txt": CMAKE}.items():
        with open(os.path.join(home, name), "w", encoding="utf-8") as file:
            file.write(text)
    need(["chroot", root, "chown", "-R", "user:user", "/home/user"])
    printed = ""
    for user, script in (("root", row.as_root), ("user", row.commands)):
        if script:
            status, output = inside(root, filled(script, arch), user, False, debs)
            printed += output
            if status:
                return f"status {status}: {printed[-3000:]}"
    at = -1
    for line in row.lines:
        at = printed.find(line, at + 1)
        if at < 0:
            return f"it didn't print {line!r}: {printed[-3000:]}"
    return None


def rows(arch, only, release, work, address):
    """Runs the rows of a processor. Returns how many passed and how many failed."""
    can_run(arch)
    passed = failed = 0
    for name, row in ROWS.items():
        if only not in (None, name) or (name == "program" and arch != "amd64"):
            continue
        began = prepared = time.monotonic()
        try:
            layers = installed(work, arch, row.needs, address)
            prepared = time.monotonic()
            with chroot(work, layers, os.path.join(work, "row")) as root:
                fault = tried(row, arch, release, root, os.path.join(work, f"debs-{arch}"))
        except Stopped as why:
            fault = str(why)
        took = time.monotonic() - prepared
        shutil.rmtree(os.path.join(work, "row"), ignore_errors=True)
        print(f"{'FAIL' if fault else 'PASS'}  {arch}  {name:24}  {took:6.1f} s  (packages: {prepared - began:.0f} s)", flush=True)
        if fault:
            print(f"      {fault}", flush=True)
        passed, failed = passed + (not fault), failed + bool(fault)
    return passed, failed


def main():
    parser = argparse.ArgumentParser(description=__doc__, formatter_class=argparse.RawDescriptionHelpFormatter)
    parser.add_argument("release")
    parser.add_argument("--arch", choices=MACHINES, default="amd64")
    parser.add_argument("--only", choices=ROWS)
    parser.add_argument("--work")
    parser.add_argument("--mirror")
    options = parser.parse_args()
    lacks = [name for name in ("debootstrap", "unshare", "ip") if shutil.which(name) is None]
    if os.geteuid() != 0 or lacks:
        print(f"bare_chroots: it needs root{''.join(f' and {name}' for name in lacks)}", file=sys.stderr)
        return 3
    try:
        with tempfile.TemporaryDirectory(prefix="chroots-") as own:
            passed, failed = rows(
                options.arch, options.only, options.release, os.path.abspath(options.work or own), options.mirror or mirror()
            )
    except Stopped as why:
        print(f"bare_chroots: {why}", file=sys.stderr)
        return 3
    print(f"{passed} passed, {failed} failed")
    return 1 if failed else 0


if __name__ == "__main__":
    sys.exit(main())
