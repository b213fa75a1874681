"""One agent, and its answer to each call."""

from collections import namedtuple

from . import kept, messages
from .messagepack import WireError
from .messages import MAX_UINT64, PushPull, Query, Response, Slot, Texts, UserEvent
from .snapshot import SinkError, Snapshot
from .switches import wrong
from .windows import Window

# The maximum size of a received event's texts, in bytes.
MAX_EVENT = 9216

# The maximum sizes of a query's packet and of a response's if the settings don't have them, in bytes.
DEFAULT_QUERY_LIMIT = DEFAULT_RESPONSE_LIMIT = 1024


def limit_of(limit, name):
    """A limit, or one byte less or more if the switch with that name is chosen."""
    if wrong(f"{name}_one_less"):
        return limit - 1
    return limit + 1 if wrong(f"{name}_one_more") else limit


# Flags of a query: it requests acks, and must not be sent on. Flag 1 of a response means that it is an ack.
ACK = 1
NO_BROADCAST = 2

SETTINGS = "name events queries limit responders ignore_old per_time query_limit response_limit keeps"

# The last setting, whether the agent keeps its events across a restart, may be left out. Then it doesn't.
Config = namedtuple("Config", SETTINGS, defaults=[False])


class Refusal(Exception):
    """Why a call is refused, in the words of a trace."""


class Reply:
    """The lines of a reply."""

    def __init__(self, *answer):
        self.answer = " ".join(str(word) for word in answer)
        self.counted, self.packets, self.events, self.handed, self.kept = [], [], [], [], []

    def lines(self):
        return [self.answer, *self.counted, *(f"sent {hexed(one)}" for one in self.packets), *self.events, *self.handed, *self.kept]


def hexed(data):
    return data.hex() or "-"


class OpenQuery:
    """A query that this agent fired, and the nodes that answered it."""

    def __init__(self, query_id, deadline, wants_acks):
        self.id, self.deadline, self.wants_acks = query_id, deadline, wants_acks
        self.acks, self.responses = set(), set()


class PendingQuery:
    """A query that was handed out, until it is answered."""

    def __init__(self, time, query_id, deadline):
        self.time, self.id, self.deadline = time, query_id, deadline


class Agent:
    """An agent with its snapshot's text, through its lives."""

    def __init__(self, config, text):
        self.config = config
        self.events = self.queries = None
        self.pending_queries = []
        self.live(text)

    # Lives

    def live(self, text):
        """Begins a life on a snapshot's text."""
        before = self.events, self.queries
        self.snapshot = Snapshot(text, self.config.keeps)
        values = self.snapshot.values
        self.member = self.clock_after(values["clock"])
        self.events = self.window(self.config.events, values["event-clock"])
        self.queries = self.window(self.config.queries, values["query-clock"])
        if wrong("restart_keeps_windows") and before[0]:
            self.events.slots, self.queries.slots = before[0].slots, before[1].slots
        if self.config.keeps:
            self.resume(text)
        self.open = {}
        if not wrong("answers_survive_restart"):
            self.pending_queries = []

    def clock_after(self, value):
        return max(value, 1) if wrong("restart_at_the_line") else value + 1

    def window(self, slots, value):
        return Window(slots, self.config.per_time, self.clock_after(value), value + 1)

    def resume(self, text):
        """Restores the windows of the life before, from what the text keeps."""
        last = self.snapshot.values
        self.events.resume(last[kept.EVENTS], kept.min_in(text, kept.EVENTS))
        self.queries.resume(last[kept.QUERIES], kept.min_in(text, kept.QUERIES))
        for time, name, payload in kept.events_in(text):
            if self.is_kept(time, last[kept.EVENTS]):
                reason = self.judge_event(time, name, payload, self.events.clock)
                self.events.restore(time, self.event_entry(name, payload), reason)
        for time, query_id in kept.queries_in(text):
            if self.is_kept(time, last[kept.QUERIES]):
                key = self.query_key(query_id)
                self.queries.restore(time, key, self.queries.judge(time, key, self.queries.clock))
        for window in (self.events, self.queries):
            window.minimum = max(window.minimum, window.reach())

    def is_kept(self, time, last):
        """Whether a line with this time is valid: it is not above the last clock line."""
        return time <= last or wrong("line_above_the_clock_line_restored")

    def clocks(self):
        return self.member, self.events.clock, self.queries.clock

    def restart(self, tail):
        disk = self.snapshot.disk
        self.live(disk.durable + (b"" if wrong("tail_is_lost") else tail))
        if wrong("restart_keeps_the_plan"):
            self.snapshot.disk.plan, self.snapshot.disk.keeps_new = disk.plan, disk.keeps_new
        reply = Reply("restarted", *self.clocks())
        if self.config.keeps and wrong("restored_is_handed_out"):
            reply.events = [event_line(time, *texts, False) for time, (_, texts) in self.events.held_from(0)]
        return reply

    def fail(self, call, count):
        self.snapshot.disk.plan_failure(call, count)
        return Reply("broken")

    def look(self):
        reply = Reply("looked", *self.clocks(), self.events.minimum, self.queries.minimum)
        reply.kept.append(f"kept {hexed(self.snapshot.disk.durable)}")
        return reply

    def packet_limits(self):
        """The maximum sizes of a query's packet and of a response's."""
        query, response = self.config.query_limit, self.config.response_limit
        if wrong("query_limit_not_read"):
            query = DEFAULT_QUERY_LIMIT
        if wrong("response_limit_not_read"):
            response = DEFAULT_RESPONSE_LIMIT
        if wrong("limits_of_packets_turned"):
            query, response = response, query
        return limit_of(query, "query_limit"), limit_of(response, "response_limit")

    def running(self):
        if self.snapshot.stopped:
            raise Refusal("Stopped")

    # Events

    def event_key(self, name, payload):
        if wrong("seen_by_time_alone"):
            return ()
        if wrong("seen_by_name_alone"):
            return (name,)
        if wrong("seen_by_payload_alone"):
            return (payload,)
        return name, payload

    def fire(self, name, payload, coalesce):
        self.running()
        time = self.events.clock + 1 if wrong("fires_at_the_next_time") else self.events.clock
        packet = messages.encode_event(UserEvent(time, name, payload, coalesce))
        limit = self.config.limit - 1 if wrong("limit_is_below") else self.config.limit
        sizes = [len(name) + len(payload)]
        if not wrong("limit_of_texts_alone"):
            sizes.append(len(packet))
        if time >= MAX_UINT64 and wrong("exhausted_before_too_large"):
            raise Refusal("Exhausted")
        if max(sizes) > limit and not wrong("fires_without_limit"):
            raise Refusal("TooLarge")
        if time >= MAX_UINT64:
            raise Refusal("Exhausted")
        self.keep_event(time, name, payload, is_inserted=not wrong("own_event_not_kept"))
        reply = Reply("fired", time)
        reply.packets.append(packet)
        if not wrong("own_event_not_handed_out"):
            reply.events.append(event_line(time, name, payload, coalesce))
        return reply

    def event_entry(self, name, payload):
        """What the window holds of an event: what distinguishes it from others, and its texts."""
        return self.event_key(name, payload), (name, payload)

    def append_lines(self, kind, value, line):
        """Writes the clock line of what is accepted, and, if events are kept, its own line too."""
        if self.config.keeps:
            self.snapshot.append_kept(kind, value, line)
        else:
            self.snapshot.append_clock(kind, value)

    def keep_event(self, time, name, payload, is_inserted=True):
        """Accepts an event: its line first, then its entry and the clock."""
        clock = self.events.observed(time)
        if wrong("failed_line_moves_clock"):
            self.events.clock = clock
        if not wrong("no_line_for_events"):
            value = clock if wrong("line_of_the_clock") else time
            self.append_lines(kept.EVENTS, value, kept.event_line(time, name, payload))
        if is_inserted:
            self.events.insert(time, self.event_entry(name, payload))
        self.events.clock = clock

    def judge_event(self, time, name, payload, clock):
        """Why an event isn't accepted, or None."""
        max_size = limit_of(MAX_EVENT, "size_limit")
        if len(name) + len(payload) > max_size and not wrong("no_size_limit_on_receipt"):
            return "Oversize"
        key = self.event_key(name, payload)
        taken = [kept for kept, _ in self.events.entries(time)]
        entry = next(((kept, held) for kept, held in self.events.entries(time) if kept == key), None)
        if wrong("never_seen") or key not in taken:
            entry = object()
        return self.events.judge(time, entry, clock)

    def accept_event(self, time, name, payload):
        """Accepts an event if it is new. Returns why it isn't, or None."""
        clock = self.events.observed(time)
        reason = self.judge_event(time, name, payload, clock)
        if reason is None:
            self.keep_event(time, name, payload)
        elif not wrong("ignored_moves_no_clock") and not wrong(f"{reason}_moves_no_clock"):
            self.events.clock = clock
        return reason

    def receive_event(self, event, packet):
        reason = self.accept_event(event.LTime, event.Name, event.Payload)
        if reason is not None:
            return Reply("ignored", reason)
        reply = Reply("new")
        if wrong("event_sent_on_anew"):
            packet = messages.encode_event(event)
        if not wrong("event_not_sent_on"):
            reply.packets.append(packet)
        reply.events.append(event_line(event.LTime, event.Name, event.Payload, event.CC and not wrong("coalesce_lost")))
        return reply

    # States

    def state(self):
        self.running()
        clock = self.events.clock - 1 if wrong("state_of_next_clock") else self.events.clock
        slots = [None if held is None else Slot(held[0], [Texts(*texts) for _, texts in held[1]]) for held in self.slots_of_state()]
        if wrong("state_without_events"):
            slots = [None for _ in slots]
        reply = Reply("state")
        reply.packets.append(messages.encode_state(PushPull(self.member, [], [], clock, slots, self.queries.clock)))
        return reply

    def slots_of_state(self):
        """The slots that a state contains."""
        slots, window = self.events.slots, self.events
        if wrong("state_in_order_of_times"):
            slots = sorted(slots, key=lambda held: (held is None, held and held[0]))
        if wrong("state_without_old_slots"):
            slots = [held if held and held[0] + window.size >= window.clock else None for held in slots]
        return slots

    def merge(self, packet, join):
        self.running()
        state = self.message(packet)
        if not isinstance(state, PushPull):
            raise Refusal("NotPushPull")
        return self.merged(state, join, Reply("merged"))

    def merge_clocks(self, state):
        if not wrong("merge_moves_no_clock"):
            self.member = max(self.member, state.LTime + wrong("member_clock_is_witnessed"))
            self.events.observe_before(state.EventLTime)
            if not wrong("merge_moves_no_query_clock"):
                self.queries.observe_before(state.QueryLTime)

    def merged(self, state, join, reply):
        if wrong("failed_join_is_heard_of"):
            self.merge_clocks(state)
        self.write_join(state, join)
        if not wrong("merge_moves_clocks_at_its_end"):
            self.merge_clocks(state)
        before = self.events.minimum
        self.lift_minimum(state, join)
        try:
            self.merge_slots(state.Events, reply)
            if wrong("merge_moves_clocks_at_its_end"):
                self.merge_clocks(state)
        except SinkError:
            reply.answer = "refused SinkFault"
            if wrong("refused_join_lifts_nothing"):
                self.events.minimum = before
            if wrong("merge_forgets_what_it_handed_out"):
                reply.events = []
        return reply

    def ignores_old(self, join):
        """Whether a merge ignores what is below the other agent's event clock."""
        if not self.config.ignore_old or wrong("join_ignores_nothing"):
            return False
        return join or wrong("every_merge_ignores")

    def write_join(self, state, join):
        """Writes the minimum that a join sets, if events are kept. If this fails, the merge changes nothing."""
        if not self.config.keeps or not self.ignores_old(join) or wrong("join_writes_no_minimum"):
            return
        if state.EventLTime > self.events.minimum or not wrong("join_line_only_if_it_rises"):
            self.snapshot.append_kept(kept.EVENTS, 0, kept.min_line(kept.EVENTS, state.EventLTime))

    def lift_minimum(self, state, join):
        if not self.ignores_old(join):
            return
        minimum = self.events.clock if wrong("minimum_of_own_clock") else state.EventLTime
        self.events.minimum = minimum if wrong("join_sets_minimum") else max(self.events.minimum, minimum)

    def merge_slots(self, slots, reply):
        if wrong("merge_in_order_of_times"):
            slots = sorted(slots, key=lambda held: held.LTime)
        for held in slots:
            events = held.Events[:1] if wrong("merge_takes_first_of_slot") else held.Events
            for event in events:
                reason = self.accept_event(held.LTime, event.Name, event.Payload)
                if reason is None and not wrong("merge_hands_out_nothing"):
                    reply.events.append(event_line(held.LTime, event.Name, event.Payload, False))
                if reason is not None and wrong("merge_stops_at_an_ignored_event"):
                    return

    def save(self):
        self.running()
        self.snapshot.append_clock("clock", self.member if wrong("clock_line_of_the_clock") else self.member - 1)
        return Reply("saved")

    def compact(self):
        self.running()
        self.snapshot.compact(self.kept_lines())
        return Reply("compacted")

    def kept_lines(self):
        """The lines that a compaction leaves of what the windows hold, of each kind after its minimum. Without kept events, none."""
        if not self.config.keeps:
            return b""
        events = self.lines_held(kept.EVENTS, self.events, lambda time, entry: kept.event_line(time, *entry[1]))
        return events + self.lines_held(kept.QUERIES, self.queries, kept.query_line)

    def lines_held(self, kind, window, line):
        minimum = self.compacted_minimum(window, kind)
        held = window.held_from(0 if wrong("compaction_leaves_old_lines") else minimum)
        if wrong("compaction_drops_a_held_line"):
            held = held[1:]
        front = b"" if wrong("compaction_writes_no_minimum") else kept.min_line(kind, minimum)
        return front + b"".join(line(time, entry) for time, entry in held)

    def compacted_minimum(self, window, kind):
        """The minimum that a compaction writes: times below it must not be accepted, or the window has passed them.

        The next life begins one above the last clock line. So the window is counted from there: the clock can be far above it.
        """
        last = self.snapshot.values[kind]
        reach = max(last + 1 - window.size, 0)
        if wrong("compaction_writes_the_minimum_alone"):
            reach = 0
        if wrong("compaction_counts_from_the_clock"):
            reach = min(window.reach(), last + 1)
        if wrong("compaction_forgets_what_a_join_set"):
            return min(max(window.minimum, reach), last + 1)
        return max(window.minimum, reach)

    # Queries

    def query_key(self, query_id):
        return 0 if wrong("query_same_by_time") else query_id

    def query(self, now, query_id, name, payload, timeout, flags, filters):
        self.running()
        time = self.queries.clock
        query = Query(time, query_id, b"", 0, self.config.name, filters, flags, 0, timeout, name, payload)
        packet = messages.encode_query(query)
        max_size = 512 if wrong("query_limit_512") else self.packet_limits()[0]
        if timeout == 0 and wrong("zero_timeout_before_too_large"):
            raise Refusal("ZeroTimeout")
        if len(packet) > max_size and not wrong("query_of_any_size"):
            raise Refusal("TooLarge")
        if timeout == 0 and not wrong("zero_timeout_accepted"):
            raise Refusal("ZeroTimeout")
        if time >= MAX_UINT64:
            raise Refusal("Exhausted")
        opened = OpenQuery(query_id, min(now + timeout, MAX_UINT64), bool(flags & ACK))
        if wrong("failed_query_is_open"):
            self.open[time] = opened
        self.keep_query(time, query_id)
        self.open[time] = opened
        if wrong("own_ack_counts") and flags & ACK:
            opened.acks.add(self.config.name)
        reply = Reply("queried", time)
        reply.packets.append(packet)
        if not wrong("own_query_not_handed_out"):
            self.hand_out(query, now, reply)
        return reply

    def keep_query(self, time, query_id):
        """Accepts a query: its line first, then its entry and the clock."""
        self.append_lines(kept.QUERIES, time, kept.query_line(time, query_id))
        self.queries.insert(time, self.query_key(query_id))
        self.move_query_clock(self.queries.observed(time))

    def move_query_clock(self, clock):
        window = self.events if wrong("query_moves_event_clock") else self.queries
        window.clock = max(window.clock, clock) if wrong("query_moves_event_clock") else clock

    def hand_out(self, query, now, reply):
        """Hands a query out if its filters let this node pass, with an ack if the query requests one."""
        if not messages.passes(query.Filters, self.config.name):
            return
        ack_id = (query.ID + 1) % (1 << 32) if wrong("ack_to_another_id") else query.ID
        asks = query.Flags == ACK if wrong("ack_for_its_flag_alone") else query.Flags & ACK
        if (asks or wrong("ack_always")) and not wrong("ack_never"):
            ack = messages.encode_response(Response(query.LTime, ack_id, self.config.name, ACK, b""))
            reply.packets.insert(0 if wrong("ack_before_the_query") else len(reply.packets), ack)
        deadline = min(now + max(query.Timeout, 0), MAX_UINT64)
        if query.Timeout < 0 and wrong("negative_timeout_never_ends"):
            deadline = MAX_UINT64
        self.pending_queries.append(PendingQuery(query.LTime, query.ID, deadline))
        number = len(self.pending_queries) - 1
        reply.handed.append(f"handed {number} {query.LTime} {query.ID} {hexed(query.Name)} {hexed(query.Payload)}")

    def receive_query(self, query, packet, now):
        clock = self.queries.observed(query.LTime)
        reason = self.queries.judge(query.LTime, self.query_key(query.ID), clock)
        if reason is not None:
            if not wrong("ignored_query_moves_no_clock"):
                self.move_query_clock(clock)
            return Reply("ignored", reason)
        passes = messages.passes(query.Filters, self.config.name)
        if passes or not wrong("excluded_query_not_kept"):
            self.keep_query(query.LTime, query.ID)
        reply = Reply("query")
        sends_on = not query.Flags & NO_BROADCAST or wrong("query_always_sent_on")
        if sends_on and (passes or not wrong("excluded_query_not_sent_on")):
            reply.packets.append(packet)
        self.hand_out(query, now, reply)
        return reply

    # Answers

    def respond(self, number, now, payload):
        if wrong("stopped_refuses_respond"):
            self.running()
        if number >= len(self.pending_queries) or self.pending_queries[number] is None:
            raise Refusal("NoQuery")
        query = self.pending_queries[number]
        packet = messages.encode_response(Response(query.time, query.id, self.config.name, 0, payload))
        if is_past(now, query.deadline):
            raise Refusal("PastDeadline")
        if len(packet) > self.packet_limits()[1] and not wrong("response_of_any_size"):
            raise Refusal("TooLarge")
        if not wrong("respond_twice"):
            self.pending_queries[number] = None
        reply = Reply("replied")
        reply.packets.append(packet)
        return reply

    def judge_answer(self, answer, is_ack, now):
        """Why an answer isn't counted, or None."""
        query = self.open.get(answer.LTime)
        if query is None:
            return "NotOpen"
        if query.id != answer.ID and not wrong("answer_to_any_id"):
            return "OtherId"
        if is_past(now, query.deadline):
            return "NotOpen" if wrong("closed_is_not_open") else "Closed"
        if is_ack and not query.wants_acks and not wrong("ack_counts_unrequested"):
            return "AckNotAsked"
        if is_ack and answer.From in query.acks and not wrong("ack_counts_twice"):
            return "AckTwice"
        others = query.acks | query.responses if wrong("acks_and_responses_are_one") else query.responses
        if not is_ack and answer.From in others and not wrong("response_counts_twice"):
            return "ResponseTwice"
        return None

    def receive_answer(self, answer, now):
        is_ack = bool(answer.Flags & ACK)
        reason = self.judge_answer(answer, is_ack, now)
        if reason is not None:
            return Reply("ignored", reason)
        query = self.open[answer.LTime]
        names = query.acks if is_ack else query.responses
        counted = len(query.acks) + len(query.responses) if wrong("acks_fill_responses") else len(names)
        if counted >= self.config.responders and not wrong("any_number_of_responders"):
            raise Refusal("RespondersFull")
        names.add(answer.From)
        kind = "ack" if is_ack else "response"
        reply = Reply(kind)
        tail = "" if is_ack else f" {hexed(answer.Payload)}"
        reply.counted.append(f"counted {kind} {answer.LTime} {answer.ID} {hexed(answer.From)}{tail}")
        return reply

    def close(self, now):
        if wrong("stopped_refuses_close"):
            self.running()
        last = now + 1 if wrong("close_at_deadline") else now
        due = [] if wrong("closes_nothing") else [time for time, query in self.open.items() if query.deadline < last]
        for time in due:
            del self.open[time]
        return Reply("closed", len(due))

    # Packets

    def message(self, packet):
        try:
            return messages.decode(packet)
        except WireError as error:
            raise Refusal(f"Wire {error}") from None

    def deliver(self, packet, now):
        if not self.is_taken_stopped(packet):
            self.running()
        message = self.message(packet)
        if wrong("stopped_reads_first"):
            self.running()
        if isinstance(message, UserEvent):
            return self.receive_event(message, packet)
        if isinstance(message, Query):
            return self.receive_query(message, packet, now)
        if isinstance(message, Response):
            return self.receive_answer(message, now)
        if isinstance(message, PushPull):
            if wrong("push_pull_merged_as_packet"):
                return self.merged(message, False, Reply("push-pull"))
            return Reply("push-pull")
        return Reply("foreign", message.type)

    def is_taken_stopped(self, packet):
        """Whether a packet is read although the disk failed."""
        if wrong("stopped_takes_packets") or wrong("stopped_reads_first"):
            return True
        return wrong("stopped_takes_foreign") and packet[:1] and packet[0] in messages.FOREIGN


def is_past(now, deadline):
    """Whether a moment is after a deadline."""
    if wrong("no_deadline"):
        return False
    return now >= deadline if wrong("deadline_is_past") else now > deadline


def event_line(time, name, payload, coalesce):
    return f"event {time} {hexed(name)} {hexed(payload)} {int(coalesce)}"
