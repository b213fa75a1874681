"""A host over the package of bindings/python, driven by lines that hosts.py describes."""

import sys

sys.dont_write_bytecode = True
from serf_agent import Agent, AgentError, FiredQuery, Fired, ReceivedEvent, ReceivedQuery, Settings
from serf_agent.store import Store, StoreError
from tracking import Tracking


def say(*words):
    """Each line is one write."""
    sys.stdout.write(" ".join(words) + "\n")
    sys.stdout.flush()


class Host:
    """A store, or an agent over one, and the number of the query that was handed out last."""

    def __init__(self):
        self.store = self.agent = self.asked = self.tracking = None

    def end(self):
        for part in (self.store, self.agent, self.tracking):
            if part is not None:
                part.close()
        self.store = self.agent = self.asked = self.tracking = None

    def track(self, path):
        """Opens an agent whose handlers are tracked."""
        self.agent = Agent(b"host", path, Settings(event_buffer=8, keep_events=True))
        self.tracking = Tracking(path, self.agent, say)

    def tell_events(self, events):
        for event in events:
            say("e", str(event.time), event.name.hex())
            if self.tracking is not None:
                self.tracking.hand_out(event)

    def tell_query(self, handed, ack):
        if handed is not None:
            self.asked = handed.number
            say("h", str(handed.time), str(handed.id))
        if ack is not None:
            say("p", ack.hex())

    def tell(self, outcome):
        """The result of a packet, an event or a query."""
        if isinstance(outcome, (Fired, ReceivedEvent)):
            self.tell_events([outcome.event])
        if isinstance(outcome, (Fired, FiredQuery)):
            say("p", outcome.packet.hex())
        if isinstance(outcome, (FiredQuery, ReceivedQuery)):
            self.tell_query(outcome.query, outcome.ack)

    def burst(self, words):
        with self.agent.burst() as burst:
            for word in words.split():
                self.call(burst, word[0], bytes.fromhex(word[1:]))
        for outcome in burst.outcomes:
            self.tell(outcome)

    @staticmethod
    def call(to, kind, data):
        """Receives or fires, by an agent or by a burst."""
        if kind == "r":
            return to.receive(0, data)
        if kind == "f":
            return to.fire(data)
        return to.query(0, 7, data, timeout=1000, want_ack=True)

    def respond(self):
        if self.asked is not None:
            number, self.asked = self.asked, None
            say("p", self.agent.respond(0, number).hex())

    def do(self, call, word):
        data = b"" if call in ("open", "o", "O", "b", "t") else bytes.fromhex(word)
        if call in ("open", "o", "O", "t", "close", "x"):
            self.end()
        if call == "open":
            self.store = Store(word)
        elif call in ("append", "replace"):
            getattr(self.store, call)(data)
        elif call in ("o", "O"):
            self.agent = Agent(b"host", word, Settings(keep_events=call == "O", ignore_old=call == "O"))
        elif call in ("m", "j"):
            self.tell_events(self.agent.merge(data, join=call == "j"))
        elif call == "t":
            self.track(word)
        elif call == "s":
            self.tracking.begin()
        elif call == "d":
            self.tracking.end()
        elif call == "c":
            self.agent.compact() if self.tracking is None else self.tracking.compact(self.agent)
        elif call == "k":
            self.agent.save_member_clock()
        elif call == "p":
            self.respond()
        elif call == "b":
            self.burst(word)
        elif call in ("r", "f", "q"):
            self.tell(self.call(self.agent, call, data))


def main():
    host = Host()
    for line in sys.stdin:
        call, _, word = line.rstrip("\n").partition(" ")
        try:
            host.do(call, word)
            say("ok")
        except (StoreError, AgentError, OSError):
            say("Failed")


if __name__ == "__main__":
    main()
