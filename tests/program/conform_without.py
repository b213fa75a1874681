"""`conform --without`: which calls are left out of a schedule and of seeds, that the others have the same packets, that an agent
without these calls is compared to its end, and what is refused.

    tests/program/conform_without.py [PROGRAM]

The agents are conformance/python/agent.py and its wrong bodies. A filter in front of them replies `unsupported` to some of their
calls, and keeps a list of all.
"""

import os
import re
import sys

sys.dont_write_bytecode = True
sys.path.insert(0, os.path.dirname(os.path.dirname(os.path.abspath(__file__))))
import checks
import traced_agents
from piped_agents import PYTHON_AGENT, compare

# An agent that appends its calls to a file, and replies `unsupported` to the calls of a list and to packets of some types:
# SUBJECT FILE CALLS TYPES [WORDS], with the words of the agent in Python.
SUBJECT = f"""import os, sys
sys.path.insert(0, {os.path.dirname(PYTHON_AGENT)!r})
from serf_agent import pipe, switches
path, calls, types = sys.argv[1:4]
for name in sys.argv[4:]:
    switches.choose(name)
agent = pipe.Pipe()
with open(path, "a") as file:
    for line in sys.stdin.buffer:
        words = line.decode().split()
        file.write(line.decode())
        file.flush()
        is_out = words[0] in calls.split(",") or words[0] in ("deliver", "merge") and words[1][:2] in types.split(",")
        lines = ["unsupported"] if is_out else agent.reply(line.rstrip(b"\\n"))
        sys.stdout.write("".join(text + "\\n" for text in lines) + "\\n")
        sys.stdout.flush()
"""

# What is left out: the calls of the option, the calls that are left out with them, and the types of the packets whose deliveries
# and merges are left out with them (04 is a query, and 05 an ack or a response).
LEFT_OUT = {
    "query,respond,close": ("query respond close", "04 05"),
    "query": ("query close", "05"),
    "respond": ("respond", "04"),
    "close": ("close", ""),
    "fire,state": ("fire state", ""),
    "merge,save,compact,restart,break": ("merge save compact restart break", ""),
    "deliver": ("deliver", ""),
}

# The calls of an agent that has no queries, and the types of the packets that it doesn't read.
NO_QUERIES = ["query,respond,close", "04,05"]


class Agents:
    """Agents with the filter in front of them, and the calls that they got."""

    def __init__(self, cases):
        self.subject, self.path = (os.path.join(cases.folder, name) for name in ("filter.py", "calls"))
        with open(self.subject, "w") as file:
            file.write(SUBJECT)

    def compared(self, words, calls="none", types="none", *wrong):
        """Compares an agent. Returns the status, the report and the calls of each agent that was opened."""
        with open(self.path, "w"):
            pass
        status, output = compare(words, [sys.executable, self.subject, self.path, calls, types, *wrong])
        with open(self.path) as file:
            lines = [line.split() for line in file]
        opened = []
        for line in lines:
            if line[0] == "open":
                opened.append([])
            elif line[0] != "look":
                opened[-1].append(line)
        return status, output, opened


def is_left(call, option):
    calls, types = LEFT_OUT[option]
    return call[0] not in calls.split() and not (call[0] in ("deliver", "merge") and call[1][:2] in types.split())


def left_out(cases):
    """Exactly the calls that are left out are missing, in schedules and in seeds, and the others have the same packets."""
    agents = Agents(cases)
    example = os.path.join(checks.EXAMPLES, "a_query_with_acks_and_answers.schedule")
    for words in ([example], *(["--random", "1-3", "--kind", kind, "--actions", "80"] for kind in ("mixed", "queries", "restarts"))):
        whole = agents.compared(words)
        cases.count.check(f"all calls of {words}", whole[0] == 0, whole[:2])
        for option in LEFT_OUT:
            status, output, opened = agents.compared([*words, "--without", option])
            wanted = [[call for call in calls if is_left(call, option)] for calls in whole[2]]
            compared = sum(map(len, wanted)) + len(wanted)
            holds = opened == wanted and f"\ncompared: {compared} calls of {len(wanted)} agents\n" in output
            holds = holds and status == (0 if any(wanted) else 1)
            cases.count.check(f"{words} without {option}", holds, (status, output))


def without_queries(cases):
    """An agent without queries is compared to its end, and a wrong body of it is found, with fewer calls too."""
    agents, saved = Agents(cases), os.path.join(cases.folder, "left.schedule")
    words, without = ["--random", "1-6", "--kind", "queries"], ["--without", "query,respond,close"]
    ended = agents.compared(words, *NO_QUERIES)[1]
    cases.count.check("it ends at queries otherwise", "ended at an unsupported call\n" in ended, ended)
    status, output, _ = agents.compared([*words, *without], *NO_QUERIES)
    cases.count.check("without queries", status == 0 and "unsupported call" not in output, (status, output))
    wrong, words = [*NO_QUERIES, "never_seen"], ["--random", "1-60"]
    status, output, _ = agents.compared([*words, *without], *wrong)
    seed, lines = re.search(r"(?m)^seed (\d+): .*\n((?:.*\n)*?)compared: ", output).groups()
    cases.count.check("a wrong agent without queries", status == 1 and "  reason: " in lines, (status, output))
    path = os.path.join(cases.folder, "whole.schedule")
    with open(path, "wb") as file:
        file.write(checks.run_program(["random", seed])[1])
    agent = re.match(r"agent (\d+): ", lines)[1]
    status, output, _ = agents.compared([path, "--agent", agent, *without, "--save", saved], *wrong)
    cases.count.check("its seed as a schedule", status == 1 and output.startswith(lines), (output, lines))
    status, output, _ = agents.compared([saved, "--agent", agent], *wrong)
    cases.count.check("what is left, as a schedule", status == 1 and output.startswith(lines), (output, lines))
    with open(saved) as file:
        text = file.read()
    number = int(re.search(r", line (\d+): ", lines)[1])
    cases.count.check("its line", text.split("\n")[number - 1].startswith(f"deliver {agent} "), (number, text))
    cases.count.check("no queries are left", not re.search(r"(?m)^(?:query|respond|close) ", text), text)
    status, output, _ = agents.compared([*words, *without, "--shrink", "--save", saved], *wrong)
    cases.count.check("fewer calls", status == 1 and "shrunk to " in output, output)
    status, output, opened = agents.compared([saved], *wrong)
    cases.count.check("fewer calls, once more", status == 1 and len(opened) == 1 and len(opened[0]) < 6, output)


def refused(cases):
    """Words that name no calls, and --save if nothing is left out."""
    example = os.path.join(checks.EXAMPLES, "deploy_gossiped_twice.schedule")
    said = ["error: --without accepts calls with commas between them, such as query,respond,close\n"]
    for word in ("", "que", "query,", "query respond", "Query", "inject", "agent", "look", "open"):
        cases.run(f"--without {word!r}", ["cat"], example, 2, said, ["--without", word])
    save = ["error: --save accepts a file, and only with --shrink, or with a schedule and --without\n"]
    path = os.path.join(cases.folder, "refused.schedule")
    cases.run("--save of seeds", ["cat"], "--random", 2, save, ["1", "--without", "query", "--save", path])
    cases.run("--save of everything", ["cat"], example, 2, save, ["--save", path])
    cases.count.check("nothing is saved", not os.path.exists(path), path)
    agent = [sys.executable, PYTHON_AGENT]
    cases.run("all calls", agent, example, 1, ["no call but open was compared\n"], ["--without", "fire,deliver"])
    cases.run("a folder", agent, example, 3, ["write failed: Is a directory"], ["--without", "fire", "--save", cases.folder])


PARTS = (left_out, without_queries, refused)


if __name__ == "__main__":
    sys.exit(traced_agents.run(PARTS, sys.argv[1:]))
