"""By hand, since it needs Debian's serf and root: the incident of examples/partition, on real Serf.

    tests/by_hand/partition.py FOLDER

Four agents run in two network namespaces with a link between. The link is cut, both sides fire, delta is killed and started
again, and the link is mended. FOLDER gets handlers.log, the snapshot of each agent as it was when delta was killed
(NAME.killed) and as it is at the end (NAME.snapshot), and each agent's own log.
"""

import os
import shutil
import subprocess
import sys
import time

TOP = os.path.dirname(os.path.dirname(os.path.dirname(os.path.abspath(__file__))))
HANDLER = os.path.join(TOP, "examples", "serf_log_handler.sh")
SIDES = {"left": ["alpha", "beta"], "right": ["gamma", "delta"]}
ADDRESS = {name: f"10.77.0.{number}" for number, name in enumerate(["alpha", "beta", "gamma", "delta"], 1)}
MOMENT = 1.2


def ip(*words):
    subprocess.run(["ip", *words], check=True)


class Incident:
    def __init__(self, folder):
        self.folder = os.path.abspath(folder)
        self.spaces = {side: f"serf_{side}_{os.getpid()}" for side in SIDES}
        self.links = {side: f"sf{side[0]}{os.getpid()}" for side in SIDES}
        self.running = {}

    def __enter__(self):
        left, right = self.links.values()
        for space in self.spaces.values():
            ip("netns", "add", space)
        ip("link", "add", left, "type", "veth", "peer", "name", right)
        for side, names in SIDES.items():
            space, link = self.spaces[side], self.links[side]
            ip("link", "set", link, "netns", space)
            for name in names:
                ip("-n", space, "addr", "add", f"{ADDRESS[name]}/24", "dev", link)
            ip("-n", space, "link", "set", "lo", "up")
            ip("-n", space, "link", "set", link, "up")
        return self

    def __exit__(self, *_):
        for agent in self.running.values():
            agent.kill()
            agent.wait()
        for space in self.spaces.values():
            ip("netns", "del", space)

    def link(self, is_whole):
        """Cuts or mends the link: while it is cut, each side has link-layer addresses for the other side that nobody has."""
        for side, names in SIDES.items():
            for beyond in sorted(set(ADDRESS) - set(names)):
                about = (
                    ["dev", self.links[side]] if is_whole else ["lladdr", "02:00:00:00:00:99", "nud", "permanent", "dev", self.links[side]]
                )
                ip("-n", self.spaces[side], "neigh", "del" if is_whole else "replace", ADDRESS[beyond], *about)

    def inside(self, name):
        (side,) = [side for side, names in SIDES.items() if name in names]
        return ["ip", "netns", "exec", self.spaces[side]]

    def start(self, name, *more):
        address = ADDRESS[name]
        with open(os.path.join(self.folder, "serf.json"), "w", encoding="utf-8") as file:
            file.write('{"reconnect_interval": "2s"}\n')
        words = ["serf", "agent", f"-node={name}", f"-bind={address}:7946", f"-rpc-addr={address}:7373", "-config-file=serf.json"]
        words += [f"-snapshot={name}.snapshot", f"-event-handler=user={HANDLER}", *more]
        env = {**os.environ, "SERF_LOG": os.path.join(self.folder, "handlers.log")}
        with open(os.path.join(self.folder, f"{name}.agent.log"), "a", encoding="utf-8") as log:
            self.running[name] = subprocess.Popen(
                [*self.inside(name), *words], cwd=self.folder, env=env, stdin=subprocess.DEVNULL, stdout=log, stderr=log
            )

    def fire(self, name, event, payload):
        subprocess.run(
            [*self.inside(name), "serf", "event", f"-rpc-addr={ADDRESS[name]}:7373", "-coalesce=false", event, payload],
            check=True,
            stdout=subprocess.DEVNULL,
        )
        time.sleep(MOMENT)

    def alive(self, name):
        words = [*self.inside(name), "serf", "members", f"-rpc-addr={ADDRESS[name]}:7373", "-status=alive"]
        return len(subprocess.run(words, stdout=subprocess.PIPE, stderr=subprocess.DEVNULL, text=True).stdout.splitlines())

    def wait_for(self, count):
        until = time.monotonic() + 60
        while any(self.alive(name) != count for name in self.running):
            if time.monotonic() > until:
                raise SystemExit(f"partition: not all agents see {count}")
            time.sleep(0.5)

    def keep(self):
        for name in ADDRESS:
            shutil.copy(os.path.join(self.folder, f"{name}.snapshot"), os.path.join(self.folder, f"{name}.killed"))


def main(words):
    if len(words) != 1:
        print(__doc__.strip(), file=sys.stderr)
        return 2
    with Incident(words[0]) as incident:
        for name in ADDRESS:
            incident.start(name, *(["-join=10.77.0.1"] if name != "alpha" else []))
            time.sleep(MOMENT)
        incident.wait_for(4)
        incident.fire("alpha", "build", "41")
        incident.link(is_whole=False)
        incident.wait_for(2)
        incident.fire("alpha", "deploy", "v2")
        incident.fire("gamma", "reload", "n1")
        incident.fire("gamma", "reload", "n2")
        incident.running["delta"].kill()
        incident.running.pop("delta").wait()
        incident.keep()
        incident.start("delta")
        time.sleep(2 * MOMENT)
        incident.link(is_whole=True)
        incident.wait_for(4)
        # (each agent exchanges its whole state with another one every 30 seconds)
        time.sleep(120)
    with open(os.path.join(words[0], "handlers.log"), encoding="utf-8") as file:
        print(file.read(), end="")
    return 0


if __name__ == "__main__":
    sys.exit(main(sys.argv[1:]))
