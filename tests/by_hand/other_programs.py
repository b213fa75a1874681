"""By hand, since it downloads Debian's sources: programs that nobody here wrote, over Serf's package `serf` and over ours.

    tests/by_hand/other_programs.py [--in FOLDER] [--library FOLDER] [--only NAME]

Docker 20.10 uses Serf's package in two places: `libnetwork/networkdb` its Lamport clock, and the overlay driver a whole node. Their
sources are Debian's (`apt-get source docker.io`), unchanged, and what they import is from Debian's packages, which are unpacked into the
folder and not installed. Both are compiled over Serf's package and over ours, and their tests run over both, in a network namespace with an
interface eth0. Whatever passes over Serf's package has to pass over ours. Some of these tests depend on pauses: on a busy machine
TestNetworkDBCRUDTableEntries fails three times in four, over either package. So a test that fails is run again, up to twelve times in all.

Debian has no Consul for the overlay driver's test: a package that registers an empty store is in its place, in both builds.

goiardi isn't compiled: it uses only Serf's client, which ours doesn't replace.

It needs Go, root's rights, and apt's sources of packages. The system's own lists of apt stay as they are.
"""

import argparse
import glob
import os
import re
import shutil
import subprocess
import sys
import tempfile

sys.dont_write_bytecode = True
sys.path.insert(0, os.path.dirname(os.path.abspath(__file__)))
import agent_cluster_kit
import c_library
import checks
import serf_package

# Debian's packages of what the two import, and memberlist and Serf, which tools/packages installs.
PACKAGES = """
golang-dbus-dev golang-etcd-server-dev golang-github-armon-go-radix-dev golang-github-coreos-bbolt-dev golang-github-coreos-go-systemd-dev
golang-github-deckarep-golang-set-dev golang-github-docker-go-connections-dev golang-github-docker-go-events-dev
golang-github-docker-libkv-dev golang-github-gogo-protobuf-dev golang-github-google-go-cmp-dev golang-github-google-shlex-dev
golang-github-gotestyourself-gotest.tools-dev golang-github-ishidawataru-sctp-dev golang-github-moby-sys-dev
golang-github-opencontainers-runc-dev golang-github-pkg-errors-dev golang-github-samuel-go-zookeeper-dev golang-github-sirupsen-logrus-dev
golang-github-vishvananda-netlink-dev golang-github-vishvananda-netns-dev golang-golang-x-net-dev golang-golang-x-sys-dev
""".split()

# The folders with tests, below Docker's libnetwork, and the minimum number of tests that have to pass over Serf's package.
TESTED = {"networkdb": 14, "drivers/overlay": 5}

# How often a test is run until it passes, and how long all tests of a folder may take, in seconds.
TRIES, LIMIT = 12, 900

CONSUL = """// Package consul replaces libkv's, which Debian doesn't have.
package consul

import (
	"github.com/docker/libkv"
	"github.com/docker/libkv/store"
)

type empty struct{ store.Store }

func (empty) Close() {}

// Register registers a store that has no server.
func Register() {
	libkv.AddStore(store.CONSUL, func([]string, *store.Config) (store.Store, error) { return empty{}, nil })
}
"""

IN_NAMESPACE = """ip link set lo up
ip link add eth0 type veth peer name eth1
ip link set eth1 up
ip addr add 10.9.0.1/24 dev eth0
ip link set eth0 up
exec "$@"
"""

RESULT = re.compile(r"^--- (PASS|FAIL): (\w+)", re.M)


def run_command(words, **more):
    result = subprocess.run(
        words, stdin=subprocess.DEVNULL, stdout=subprocess.PIPE, stderr=subprocess.STDOUT, text=True, errors="replace", **more
    )
    return result.returncode, result.stdout


class Sources:
    """Debian's sources and packages, in a folder."""

    def __init__(self, folder):
        self.folder = folder
        self.env = dict(os.environ, APT_CONFIG=os.path.join(folder, "apt.conf"))

    def of(self, *names):
        return os.path.join(self.folder, *names)

    def get(self, *words):
        """Runs apt-get, over lists in the folder that also have sources. Returns what went wrong, or None."""
        status, output = run_command(["apt-get", "-qq", *words], env=self.env, cwd=self.of("got"))
        return output[-1500:] if status else None

    def prepare(self):
        for name in ("got", "lists/partial", "sources", "packages", "go/src/github.com/docker"):
            os.makedirs(self.of(name), exist_ok=True)
        for path in glob.glob("/etc/apt/sources.list.d/*.sources"):
            with open(path, encoding="utf-8") as file, open(self.of("sources", os.path.basename(path)), "w", encoding="utf-8") as to:
                to.write(re.sub(r"^Types:.*$", "Types: deb deb-src", file.read(), flags=re.M))
        for path in ("/etc/apt/sources.list", *glob.glob("/etc/apt/sources.list.d/*.list")):
            if os.path.exists(path):
                with open(path, encoding="utf-8") as file, open(self.of("sources", os.path.basename(path)), "w", encoding="utf-8") as to:
                    to.write("".join(line + line.replace("deb ", "deb-src ", 1) for line in file if line.startswith("deb ")))
        with open(self.of("apt.conf"), "w", encoding="utf-8") as file:
            file.write(
                f'Dir::Etc::sourcelist "/dev/null";\nDir::Etc::sourceparts "{self.of("sources")}";\n'
                f'Dir::State::lists "{self.of("lists")}";\nDir::Cache::pkgcache "";\nDir::Cache::srcpkgcache "";\nAPT::Sandbox::User "root";\n'
            )
        return self.get("update")

    def docker(self):
        """Docker's sources, and what they import. Returns what went wrong, or None."""
        if not os.path.exists(self.of("docker")):
            fault = self.get("source", "--download-only", "docker.io") or self.get("download", *PACKAGES)
            if fault:
                return fault
            described = glob.glob(self.of("got", "docker.io_*.dsc"))[0]
            status, output = run_command(["dpkg-source", "--no-check", "-x", described, self.of("docker")])
            if status:
                return output[-1500:]
        for path in glob.glob(self.of("got", "*.deb")):
            subprocess.run(["dpkg-deb", "-x", path, self.of("packages")], check=True)
        consul = self.of("packages", "usr/share/gocode/src/github.com/docker/libkv/store/consul")
        os.makedirs(consul, exist_ok=True)
        with open(os.path.join(consul, "consul.go"), "w", encoding="utf-8") as file:
            file.write(CONSUL)
        for name, source in {"libnetwork": "libnetwork", "docker": "engine"}.items():
            link = self.of("go/src/github.com/docker", name)
            if not os.path.islink(link):
                os.symlink(self.of("docker", source), link)
        return None

    def paths(self):
        return [self.of("go"), self.of("packages", "usr/share/gocode")]

    def used_by_goiardi(self):
        """The packages of Serf that goiardi's sources import, or what went wrong."""
        # (of a source package that isn't complete on a mirror, the program's own sources may be there)
        fault = self.get("source", "--download-only", "goiardi")
        archives = glob.glob(self.of("got", "goiardi_*.orig.tar.*"))
        if not archives:
            return fault
        os.makedirs(self.of("goiardi"), exist_ok=True)
        subprocess.run(["tar", "xf", archives[0], "-C", self.of("goiardi")], check=True)
        _, said = run_command(["grep", "-rhoE", "--include=*.go", '"github.com/hashicorp/serf/[^"]+"', self.of("goiardi")])
        return sorted(set(said.split()))


def results(program, cwd, names=None):
    """The names of the tests that pass and of those that fail, and what the program printed."""
    words = [program, "-test.v", *([f"-test.run=^({'|'.join(names)})$"] if names else [])]
    status, output = run_command(["timeout", str(LIMIT), "unshare", "-n", "sh", "-c", IN_NAMESPACE, "sh", *words], cwd=cwd)
    found = {name: result for result, name in RESULT.findall(output)}
    passed = {name for name, result in found.items() if result == "PASS"}
    return passed, set(found) - passed, f"status {status}: {output[-1500:]}"


def passing(program, cwd):
    """The tests that pass in one of the tries, and those that don't."""
    passed, failed, said = results(program, cwd)
    for _ in range(TRIES - 1):
        if failed:
            again, failed, said = results(program, cwd, sorted(failed))
            passed |= again
    return passed, failed, said


def try_docker(count, sources, library):
    fault = sources.docker()
    count.check("Docker's sources are there", fault is None, fault)
    if fault:
        return
    envs = {"Serf's": {**serf_package.laid(sources.of("ours"), library)}}
    envs["ours"] = dict(envs["Serf's"])
    envs["Serf's"]["GOPATH"] = os.pathsep.join([*sources.paths(), agent_cluster_kit.GOCODE])
    envs["ours"]["GOPATH"] = os.pathsep.join([sources.of("ours", "go"), *sources.paths(), agent_cluster_kit.GOCODE])
    for name, minimum in TESTED.items():
        cwd, found = sources.of("go/src/github.com/docker/libnetwork", name), {}
        for kind, env in envs.items():
            program = sources.of(f"{os.path.basename(name)}-{'ours' if kind == 'ours' else 'stock'}")
            status, output = run_command(
                ["go", "test", "-c", "-o", program, f"github.com/docker/libnetwork/{name}"], env=env, cwd=sources.folder
            )
            count.check(f"{name} is compiled over {kind}", status == 0, output[-1500:])
            if status == 0:
                found[kind] = passing(program, cwd)
        if len(found) == 2:
            (stock, failed, output), (ours, not_ours, our_words) = found["Serf's"], found["ours"]
            print(
                f"{name}: {len(stock)} tests pass over Serf's package, {len(ours)} over ours; over Serf's {sorted(failed)} fail, over ours {sorted(not_ours)}",
                flush=True,
            )
            count.check(f"{name}: enough tests pass over Serf's package", len(stock) >= minimum, output)
            count.check(f"{name}: the same tests pass over ours", stock <= ours, our_words)


def try_goiardi(count, sources, _):
    used = sources.used_by_goiardi()
    print(f"goiardi imports of Serf: {used}", flush=True)
    count.check("goiardi uses only Serf's client", used == ['"github.com/hashicorp/serf/client"'], used)


PROGRAMS = {"docker": try_docker, "goiardi": try_goiardi}


def main():
    parser = argparse.ArgumentParser(description=__doc__, formatter_class=argparse.RawDescriptionHelpFormatter)
    parser.add_argument("--in", dest="folder", help="a folder that keeps what was downloaded")
    parser.add_argument("--library", default=os.path.dirname(c_library.LIBRARY))
    parser.add_argument("--only", choices=PROGRAMS)
    options = parser.parse_args()
    missing = [name for name in ("go", "apt-get", "dpkg-source", "unshare", "ip") if shutil.which(name) is None]
    if missing or os.geteuid() != 0:
        sys.exit(f"it needs root's rights, and {', '.join(missing) or 'nothing else'}")
    count = checks.Checks()
    folder = os.path.abspath(options.folder or tempfile.mkdtemp(prefix="other-programs-"))
    try:
        sources = Sources(folder)
        fault = sources.prepare()
        count.check("apt's lists are there", fault is None, fault)
        for name, attempt in PROGRAMS.items():
            if fault is None and options.only in (None, name):
                attempt(count, sources, os.path.join(os.path.abspath(options.library), "libserf_agent_c.a"))
    finally:
        if options.folder is None:
            shutil.rmtree(folder)
        else:
            shutil.rmtree(os.path.join(folder, "ours"), ignore_errors=True)
    return count.finish()


if __name__ == "__main__":
    sys.exit(main())
