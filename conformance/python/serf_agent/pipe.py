"""The pipe: calls as lines in, replies as lines out."""

from .agent import DEFAULT_QUERY_LIMIT, DEFAULT_RESPONSE_LIMIT, Agent, Config, Refusal, Reply
from .snapshot import SinkError


def unhexed(word):
    return b"" if word == b"-" else bytes.fromhex(word.decode("ascii"))


# For each MODE, whether a join ignores old events, and whether events are kept across a restart.
MODES = {b"keep": (False, False), b"ignore": (True, False), b"keep+events": (False, True), b"ignore+events": (True, True)}


def settings(words):
    """The settings of an `open` call, beginning with the name. The two limits of packets may be left out."""
    numbers = [int(word) for word in words[1:5]]
    limits = [int(word) for word in words[7:]] or [DEFAULT_QUERY_LIMIT, DEFAULT_RESPONSE_LIMIT]
    ignore_old, keeps = MODES[words[5]]
    return Config(unhexed(words[0]), *numbers, ignore_old, int(words[6]), *limits, keeps)


class Pipe:
    """Passes calls to the agent that the last `open` made."""

    def __init__(self):
        self.agent, self.keeps = None, False

    def reply(self, line):
        """Makes a call, and returns the lines of its reply."""
        words = line.split(b" ")
        try:
            return self.call(words[0].decode("latin-1"), words[1:]).lines()
        except Refusal as refusal:
            return [f"refused {refusal}"]
        except SinkError:
            return ["refused SinkFault"]

    def call(self, name, words):
        if name == "keeps":
            self.keeps = True
            return Reply("keeps")
        if name == "open":
            return self.opened(words)
        if self.agent is None or name not in CALLS:
            return Reply("unsupported")
        return CALLS[name](self.agent, words)

    def opened(self, words):
        """Makes an agent. It keeps its events if its MODE says so, or if the call before was `keeps`."""
        config = settings(words[:-1])
        config = config._replace(keeps=config.keeps or self.keeps)
        self.keeps = False
        self.agent = Agent(config, unhexed(words[-1]))
        return Reply("opened", *self.agent.clocks())


CALLS = {
    "fire": lambda agent, words: agent.fire(unhexed(words[0]), unhexed(words[1]), words[2] == b"1"),
    "deliver": lambda agent, words: agent.deliver(unhexed(words[0]), int(words[1])),
    "state": lambda agent, words: agent.state(),
    "merge": lambda agent, words: agent.merge(unhexed(words[0]), words[1] == b"join"),
    "query": lambda agent, words: agent.query(
        int(words[0]),
        int(words[1]),
        unhexed(words[2]),
        unhexed(words[3]),
        int(words[4]),
        int(words[5]),
        [unhexed(word) for word in words[6:]],
    ),
    "respond": lambda agent, words: agent.respond(int(words[0]), int(words[1]), unhexed(words[2])),
    "close": lambda agent, words: agent.close(int(words[0])),
    "save": lambda agent, words: agent.save(),
    "compact": lambda agent, words: agent.compact(),
    "restart": lambda agent, words: agent.restart(unhexed(words[0])),
    "break": lambda agent, words: agent.fail(words[0].decode("ascii"), int(words[1])),
    "look": lambda agent, words: agent.look(),
}


def serve(lines, out):
    """Answers each call, until the calls end."""
    pipe = Pipe()
    for line in lines:
        reply = pipe.reply(line.rstrip(b"\n"))
        out.write("\n".join([*reply, "", ""]).encode("ascii"))
        out.flush()
