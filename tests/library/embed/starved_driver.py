"""Calls in Python that may run out of memory, as described in starved_driver.c."""

import os
import sys

sys.dont_write_bytecode = True
sys.path.insert(0, os.path.join(os.path.dirname(os.path.abspath(__file__)), "..", "..", "..", "bindings", "python"))
from serf_agent import Agent, AgentError, Code


def merge(agent, state):
    try:
        events, end = agent.merge(state), "ok"
    except AgentError as error:
        if error.code is not Code.OUT_OF_MEMORY:
            raise
        events, end = error.events, "out of memory"
    for event in events:
        print(event.time, event.name.decode())
    print(end)


def packet_of(call, *words, **more):
    try:
        return call(*words, **more).hex()
    except AgentError as error:
        if error.code is not Code.OUT_OF_MEMORY:
            raise
        return "refused"


def query(agent, letter):
    nodes = [b"\0\x91\xa7node-%s%d" % (letter, number) for number in (1, 2)]
    print("query", packet_of(lambda: agent.query(1, 7, b"load", timeout=9, filters=nodes).packet))


def state(agent, letter):
    first, second = (b"node-%s%d" % (letter, number) for number in (1, 2))
    print("state", packet_of(agent.local_state, [(first, 3), (second, 4)], [second]))


def main():
    one, other = (os.path.join(sys.argv[1], name + ".snapshot") for name in ("one", "other"))
    with Agent(b"one", one) as agent:
        for number in range(5):
            agent.fire(b"e%d" % number)
        whole, load = agent.local_state(), agent.query(1, 8, b"load", timeout=9).packet
    with Agent(b"other", other) as agent:
        merge(agent, whole)
        merge(agent, whole)
        query(agent, b"a")
        agent.receive(1, load)
        query(agent, b"b")
        query(agent, b"c")
        for letter in (b"a", b"b", b"c"):
            state(agent, letter)


if __name__ == "__main__":
    main()
