"""What a capture shows, in order: the lines of a written schedule."""

import collections

import gossip
import memberlist

# When a node didn't run: from `begin`, or from before the capture if that is None, up to its start at `end`, or up to the capture's
# end if that is None. A log cuts its moments off: each can have been later, by less than its slack.
Down = collections.namedtuple("Down", "node begin end begin_slack end_slack")

# An agent of the schedule: a node, and whether it is the life on the file that --kept names.
Agent = collections.namedtuple("Agent", "node is_again")

# What an agent does: the moment, the two parts of its line between which its name is, and the sender of its packet, an agent or an
# address; None if it is started.
Step = collections.namedtuple("Step", "time agent verb rest sender")


def quoted(name):
    """A name as a written schedule has it between quotes."""
    return "".join(chr(b) if 32 <= b < 127 and b not in b'"\\' else f"\\x{b:02x}" for b in name.encode())


def name_list(names, word="and"):
    """Names as a sentence lists them."""
    names = [f'"{quoted(name)}"' for name in names]
    return f" {word} ".join(filter(None, [", ".join(names[:-1]), *names[-1:]])) or "none"


def count_of(number, thing):
    return f"{number} {thing}" if number == 1 else f"{number} {thing}s"


class Downs:
    """When which node was down."""

    def __init__(self, downs, sent):
        """`sent` has the moments at which each node sent a packet. A node ran until the last of these within the slack of its
        end, and was started before the first one within the slack of its start."""
        self.downs = []
        for down in downs:
            begin, end, times = down.begin, down.end, sorted(sent.get(down.node, ()))
            if begin is not None:
                last_possible_begin = begin + down.begin_slack if end is None else min(begin + down.begin_slack, end)
                begin = max([begin, *(at + 1 for at in times if begin <= at < last_possible_begin)])
            if end is not None:
                end = next((at for at in times if end <= at < end + down.end_slack), end)
            self.downs.append(down._replace(begin=begin, end=end))

    def spans_of(self, node):
        """Returns the spans in which a node was down."""
        return [down for down in self.downs if down.node == node]

    def is_down(self, node, time):
        return any((down.begin or 0) <= time and (down.end is None or time < down.end) for down in self.spans_of(node))

    def last_start(self, node):
        """When a node was started for the last time; None if it never was."""
        return max((down.end for down in self.spans_of(node) if down.end is not None), default=None)


class Story:
    """The steps of each agent, which events came to which node or from it, how often what was left out, and what doesn't fit together."""

    def __init__(self, names, key, downs, kept, ignoring):
        self.names, self.key, self.downs, self.kept, self.ignoring = names, key, downs, kept, ignoring
        self.steps, self.acting, self.has, self.carried, self.left_out = [], set(), set(), set(), {}
        self.unreadable, self.sent_while_down, self.unknown_callers = 0, {}, []
        for down in downs.downs:
            if down.end is not None:
                self.add_start(down)

    def add_start(self, down):
        """The line of a start: on what the agent's own disk keeps, or on the file that --kept names of the last start."""
        is_again = down.node in self.kept and down.end == self.downs.last_start(down.node)
        tail = f" tail {self.kept[down.node][0].hex() or '-'}" if is_again else ""
        self.add_step(down.end, down.node, "restart", f"{tail} # at {down.end}us", None)

    def add_step(self, time, node, verb, rest, sender):
        """Adds a step of the agent that the node has at this time."""
        agent = self.agent_at(node, time)
        self.steps.append(Step(time, agent, verb, rest, sender))
        self.acting.add(agent)

    def agent_at(self, node, time):
        return Agent(node, node in self.kept and time >= self.downs.last_start(node))

    def sender_at(self, address, time):
        """The agent at an address, or the address itself if no node has it."""
        name = self.names.get(address)
        return f"{address[0]}:{address[1]}" if name is None else self.agent_at(name, time)

    def leave_out(self, why):
        self.left_out[why] = self.left_out.get(why, 0) + 1

    def is_running(self, node, time):
        """Whether a node runs that gets a packet; that it doesn't is counted."""
        if self.downs.is_down(node, time):
            self.leave_out("packets to a node that was down")
            return False
        return True

    def note_sender(self, node, time):
        """Notes that a node sends something: one that is down can't."""
        if node is not None and self.downs.is_down(node, time):
            self.sent_while_down.setdefault(node, []).append(time)

    def add_delivery(self, time, address, message, sender):
        """Adds that the node at an address got a message."""
        node = self.names.get(address)
        if node is None:
            return self.leave_out("messages to an address without a name: name it by --node")
        if self.is_running(node, time):
            self.add_step(time, node, "give", f" {message.hex()} at {time}us", self.sender_at(sender, time))
            self.has.add((self.agent_at(node, time), message))

    def add_sent(self, time, address, message):
        """A node that passes on what it never got has fired it."""
        node = self.names.get(address)
        if node is not None and message[0] in gossip.PASSED_ON and (self.agent_at(node, time), message) not in self.has:
            self.add_delivery(time, address, message, address)

    def add_user_message(self, time, sender, receiver, message):
        """Adds that one end sent a message of Serf, and that the other got it."""
        if not message or message[0] not in gossip.READ:
            return self.leave_out("messages of Serf's other parts")
        event = gossip.event_of(message)
        self.carried |= {(self.names.get(end), event) for end in (sender, receiver) if event}
        self.add_sent(time, sender, message)
        self.add_delivery(time, receiver, message, sender)

    def add_packet(self, time, sender, receiver, payload):
        """Adds the messages of a UDP packet."""
        self.note_sender(self.names.get(sender), time)
        for message in memberlist.messages_of(payload, self.key):
            if message[:1] == bytes([memberlist.USER]):
                self.add_user_message(time, sender, receiver, message[1:])

    def add_side(self, time, connection, is_answer, payload, callers):
        """What one side of a connection sent: a whole state, which the other side merges, or a user message."""
        caller, listener = callers.caller_of(connection), self.names.get(connection.listener)
        self.note_sender(listener if is_answer else caller, time)
        parsed_state = memberlist.state_of(payload, self.key)
        if parsed_state is None:
            return
        kind, is_join, content = parsed_state
        ends = [self.end_of(connection, caller), connection.listener]
        sender, receiver = reversed(ends) if is_answer else ends
        if kind == memberlist.USER:
            return self.add_user_message(time, sender, receiver, content)
        state, name = gossip.state_of(content) if content else None, self.names.get(receiver)
        self.carried |= {(name, event) for event in state.events} if state else set()
        if name is None and is_answer and content:
            return self.nobody_merges(time, connection, callers)
        if name is None or not content:
            return self.leave_out("states to an address without a name: name it by --node")
        if self.is_running(name, time):
            rest = f" {content.hex()} {'join' if is_join else 'sync'} # at {time}us"
            self.add_step(time, name, "take", rest, self.sender_at(sender, time))

    def end_of(self, connection, caller):
        """The caller as an address at which it listens, or the end from which it called."""
        return next((address for address, name in self.names.items() if name == caller), connection.caller)

    def nobody_merges(self, time, connection, callers):
        """An answer to a caller that isn't known. It is counted if it can change nothing, and reported otherwise."""
        if callers.caller_lacks_news(connection):
            self.unknown_callers.append((time, connection, callers.possible.get(connection, [])))
        else:
            self.leave_out("states that had nothing new for their caller, which is not known")

    def ordered_steps(self):
        """The steps in the order of time."""
        return sorted(self.steps, key=lambda step: step.time)

    def agents(self):
        return sorted(self.acting)

    def agent_name(self, agent):
        """An agent's name: its node's, and of a second life of the node another one."""
        if not agent.is_again or Agent(agent.node, False) not in self.acting:
            return agent.node
        name = f"{agent.node} again"
        return name + " and again" if name in self.names.values() else name

    def step_line(self, step):
        """A step as a line of the schedule, with its sender as a comment."""
        head = f'{step.verb} "{quoted(self.agent_name(step.agent))}"{step.rest}'
        if step.sender is None:
            return head
        comment = "" if " # " in step.rest else " #"
        sender = step.sender if isinstance(step.sender, str) else self.agent_name(step.sender)
        return f"{head}{comment} its own" if step.sender == step.agent else f'{head}{comment} from "{quoted(sender)}"'

    def lines(self):
        """The agents, in the order of their names, and what they do, in the order of time."""
        for agent in self.agents():
            keeps = agent.node in self.kept and self.kept[agent.node][1]
            settings = " keep-events" * keeps + " ignore" * (agent.node in self.ignoring)
            yield f'agent "{quoted(self.agent_name(agent))}"{settings}'
        yield from map(self.step_line, self.ordered_steps())

    def actions(self):
        """The step of each action of the schedule, and whether it only injects the packet: a packet is two actions."""
        for step in self.ordered_steps():
            if step.sender is not None:
                yield step, True
            yield step, False

    def remarks(self):
        """What the options say and the capture shows otherwise, and what had to be left out for all that it matters."""
        for node, times in sorted(self.sent_while_down.items()):
            span = " and ".join(f"{at / 1e6:.6f} s" for at in sorted({min(times), max(times)}))
            span = f"at {span}" if len(times) < 3 else f"between {span}"
            advice = "and --down says that it didn't run then: correct its FROM or its TO"
            yield f"contradiction: {quoted(node)} sent {count_of(len(times), 'packet')} {span}, {advice}"
        for time, connection, possible in self.unknown_callers:
            end = "{}:{}".format(*connection.caller)
            which = f"can be {name_list(possible, 'or')}" if possible else "is not known"
            yield (
                f"left out: at {time / 1e6:.6f} s a node merged a state that had something new for it. It called from {end}, and {which}:"
                f" say which node it is by --node NAME={end}"
            )
