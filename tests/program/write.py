"""`write`: schedules that a person wrote, each example in both forms; each error with its line, word and sentence."""

import ast
import os
import subprocess
import sys

sys.dont_write_bytecode = True
sys.path.insert(0, os.path.dirname(os.path.dirname(os.path.abspath(__file__))))
import checks

AGENTS = b"agent a\nagent b\n"
NAME = b"expected the agent's name, which no agent above has"
IN_QUOTES = b"expected the agent's name; a word of digits is an agent's number, so a name of digits is written in quotes"
SETTING = b"expected events=N, queries=N, limit=N, querylimit=N, responselimit=N, responders=N, pertime=N, keep, ignore or keep-events"
BOUNDS = b"a name has 1 to 128 bytes, each limit is at most 9216, and the other numbers of an agent are 1 to 65536"
COMMAND = (
    b"expected agent, fire, deliver, state, merge, query, respond, restart, break, inject, close, save, compact, "
    b"give or take"
)
AGENT = b"expected the name of an agent above, or an agent's number"
PACKET = (
    b"expected the label of a line above that sent a packet, as in d2, or in d2/1 for its second packet; "
    b"or a packet's number"
)
BYTES = b"expected a text in quotes, bytes in hex digits, or - for none"
PAYLOAD = b"expected a text in quotes, bytes in hex digits, or - for none; or coalesce, or the end of the line"
NUMBER = b"expected a number"
COUNT = b"expected a number of at least 1"
MODE = b"expected join or sync"
CALL = b"expected append, flush, replace-old or replace-new"
COALESCE = b"expected coalesce or the end of the line"
TAIL = b"expected tail with its bytes, or the end of the line"
AT = b"expected at with a moment, or the end of the line"
TIME = b"expected a time, as in 10ms: a number followed by ns, us, ms or s"
OPTION = b"expected id=N, timeout=TIME, ack, quiet or filter=FILTER, or the end of the line"
FILTER = (
    b"expected filter=node:NAME,NAME, filter=tag:NAME=EXPRESSION or filter=HEX; a name or an expression may be a text "
    b"in quotes"
)
END = b"expected the end of the line before this word"
QUOTE = b"the text that begins here needs a closing quote; a quote within a text is written \\x22"
ESCAPE = b"in a text, a backslash has to be followed by x and two hex digits, as in \\x0a"
LABEL = b"expected a label: a new word that is not a number and has no slash, followed by a colon"
FIRST = b"all agents have to be before the first action"

# A text, and the line, the word and the sentence of its error.
FAULTS = [
    (b"agent\n", 1, 2, NAME),
    (b"agent a\nagent a\n", 2, 2, NAME),
    (b'agent a\nagent "a"\n', 2, 2, NAME),
    (b"agent a events\n", 1, 3, SETTING),
    (b"agent a keep events=4 size=4\n", 1, 5, SETTING),
    (b"agent a events=x\n", 1, 3, SETTING),
    (b'agent a "events"\n', 1, 3, SETTING),
    (b"agent 1\n", 1, 2, IN_QUOTES),
    (b'agent "1"\nagent 007 events=0\n', 2, 2, IN_QUOTES),
    (b"agent a\nagent a events=x\n", 2, 2, NAME),
    (b'agent "" events=x\n', 1, 2, BOUNDS),
    (b"agent a events=0\n", 1, 3, BOUNDS),
    (b"agent a limit=9217\n", 1, 3, BOUNDS),
    (b"agent a keep querylimit=9217\n", 1, 4, BOUNDS),
    (b"agent a responselimit=9217 keep\n", 1, 3, BOUNDS),
    (b"agent a queries=65536 responders=65537 size=4\n", 1, 4, BOUNDS),
    (b"agent a pertime=0 pertime=1\n", 1, 3, BOUNDS),
    (b"agent a keep querylimit\n", 1, 4, SETTING),
    (b"agent a responselimit=x\n", 1, 3, SETTING),
    (b"agent a keep+events\n", 1, 3, SETTING),
    (b"agent a Keep-events\n", 1, 3, SETTING),
    (b"agent a keep-event\n", 1, 3, SETTING),
    (b"agent a ignore-events\n", 1, 3, SETTING),
    (b"agent a keep-events keep-events=1\n", 1, 4, SETTING),
    (b'agent ""\n', 1, 2, BOUNDS),
    (AGENTS + b"state a\nagent c\n", 4, 1, FIRST),
    (b"agents a\n", 1, 1, COMMAND),
    (b'"agent" a\n', 1, 1, COMMAND),
    (AGENTS + b"d: agent c\n", 3, 2, COMMAND),
    (AGENTS + b"d:\n", 3, 2, COMMAND),
    (AGENTS + b"state c\n", 3, 2, AGENT),
    (AGENTS + b"state\n", 3, 2, AGENT),
    (AGENTS + b"d: state c\n", 3, 3, AGENT),
    (AGENTS + b"deliver b d\n", 3, 3, PACKET),
    (AGENTS + b"d: state a\ndeliver b d/1\n", 4, 3, PACKET),
    (AGENTS + b"d: save a\ndeliver b d\n", 4, 3, PACKET),
    (AGENTS + b"d: state a\ndeliver b d/\n", 4, 3, PACKET),
    (AGENTS + b"deliver b d\nd: state a\n", 3, 3, PACKET),
    (AGENTS + b"fire a xx\n", 3, 3, BYTES),
    (AGENTS + b"fire a\n", 3, 3, BYTES),
    (AGENTS + b"fire a - abc\n", 3, 4, PAYLOAD),
    (AGENTS + b"fire a - Coalesce\n", 3, 4, PAYLOAD),
    (AGENTS + b"fire a - coalesce -\n", 3, 5, END),
    (AGENTS + b"fire a coalesce\n", 3, 3, BYTES),
    (AGENTS + b'fire a - "coalesce" x\n', 3, 5, COALESCE),
    (AGENTS + b"fire a - - 1\n", 3, 5, COALESCE),
    (AGENTS + b"fire a - - coalesce now\n", 3, 6, END),
    (AGENTS + b"respond a x -\n", 3, 3, NUMBER),
    (AGENTS + b"break a flush 0\n", 3, 4, COUNT),
    (AGENTS + b"break a fsync\n", 3, 3, CALL),
    (AGENTS + b"merge a 0\n", 3, 4, MODE),
    (AGENTS + b"restart a -\n", 3, 3, TAIL),
    (AGENTS + b"restart a tail\n", 3, 4, BYTES),
    (AGENTS + b"deliver a 0 10ms\n", 3, 4, AT),
    (AGENTS + b"deliver a 0 at\n", 3, 5, TIME),
    (AGENTS + b"deliver a 0 at 10m\n", 3, 5, TIME),
    (AGENTS + b"deliver a 0 at ms\n", 3, 5, TIME),
    (AGENTS + b"close a at 18446744074s\n", 3, 4, TIME),
    (AGENTS + b"query a - - ack=1\n", 3, 5, OPTION),
    (AGENTS + b"query a - - id=4294967296\n", 3, 5, OPTION),
    (AGENTS + b"query a - - at 1s timeout=9223372037s\n", 3, 7, OPTION),
    (AGENTS + b"query a - - filter=0\n", 3, 5, FILTER),
    (AGENTS + b"query a - - filter=nodes:a\n", 3, 5, FILTER),
    (AGENTS + b"query a - - filter=Node:a\n", 3, 5, FILTER),
    (AGENTS + b"query a - - filter=node\n", 3, 5, FILTER),
    (AGENTS + b"query a - - ack filter=node:\n", 3, 6, FILTER),
    (AGENTS + b"query a - - filter=node:a,\n", 3, 5, FILTER),
    (AGENTS + b"query a - - filter=node:a,,b\n", 3, 5, FILTER),
    (AGENTS + b"query a - - filter=node:a, b\n", 3, 5, FILTER),
    (AGENTS + b'query a - - filter=node:"a"b\n', 3, 5, FILTER),
    (AGENTS + b'query a - - filter=node:a"b"\n', 3, 5, FILTER),
    (AGENTS + b'query a - - filter=node:"a""b"\n', 3, 5, FILTER),
    (AGENTS + b'query a - - filter="node:a"\n', 3, 5, FILTER),
    (AGENTS + b"query a - - filter=tag:role\n", 3, 5, FILTER),
    (AGENTS + b"query a - - filter=tag:=web\n", 3, 5, FILTER),
    (AGENTS + b"query a - - filter=tag:role=\n", 3, 5, FILTER),
    (AGENTS + b'query a - - filter=tag:"role=web"\n', 3, 5, FILTER),
    (AGENTS + b'query a - - filter=node:"a\\n"\n', 3, 5, ESCAPE),
    (AGENTS + b'query a - - filter=tag:role="\\d"\n', 3, 5, ESCAPE),
    (AGENTS + b'query a - - filter=node:"a b" "c"\n', 3, 6, OPTION),
    (AGENTS + b'query a - - filter=node:"a b","c d",e acks\n', 3, 6, OPTION),
    (AGENTS + b'd: query a - - filter=node:"a b",c filter=tag:"a b"="c d" id=x\n', 3, 8, OPTION),
    (AGENTS + b'query a - - filter=node:"a b",c filter=node:"d\n', 3, 6, QUOTE),
    (AGENTS + b'query a - - filter=node:"a b" "c\n', 3, 6, QUOTE),
    (AGENTS + b"save a b\n", 3, 3, END),
    (AGENTS + b'fire a "b\n', 3, 3, QUOTE),
    (AGENTS + b'fire a "b" "\n', 3, 4, QUOTE),
    (AGENTS + b'fire a "\\n"\n', 3, 3, ESCAPE),
    (AGENTS + b'fire a "\\x4"\n', 3, 3, ESCAPE),
    (AGENTS + b"d: state a\nd: state a\n", 4, 1, LABEL),
    (AGENTS + b"5: state a\n", 3, 1, LABEL),
    (AGENTS + b"d/1: state a\n", 3, 1, LABEL),
    (AGENTS + b": state a\n", 3, 1, LABEL),
    (b"agent a\r\nstate b\r\n", 2, 2, AGENT),
    (b"\n# a comment\n   \nstate 0 x", 4, 3, END),
    (b"a\nb\n", 1, 1, COMMAND),
    (b"\x00\xff", 1, 1, COMMAND),
    (b"\xef\xbb\xbfagent\n", 1, 2, NAME),
    (b"\xef\xbb\xbf\xef\xbb\xbfagent a\n", 1, 1, COMMAND),
    (b"agent a\n\xef\xbb\xbfagent b\n", 2, 1, COMMAND),
    (b"\xef\xbbagent a\n", 1, 1, COMMAND),
]

DEFAULTS = b"agent 61 512 512 512 1024 keep 1024\n"

# A text, and the schedule that it means.
TEXTS = [
    (b"", b""),
    (b"# nothing\n\n", b""),
    (b"agent a\n", DEFAULTS),
    (b"agent a", DEFAULTS),
    (b"\xef\xbb\xbfagent a", DEFAULTS),
    (b"\xef\xbb\xbf", b""),
    (b'agent "1"\nsave "1"\nsave 0\n', DEFAULTS.replace(b"61", b"31") + b"save 0\nsave 0\n"),
    (b"agent 1a\nagent -\n", DEFAULTS.replace(b"61", b"3161") + DEFAULTS.replace(b"61", b"2d")),
    (b"agent a events=5 events=65536 limit=0\n", b"agent 61 65536 512 0 1024 keep 1024\n"),
    (b"agent a # its name\r\n", DEFAULTS),
    (b"agent a events=1 queries=2 limit=3 responders=4 pertime=5 ignore\n", b"agent 61 1 2 3 4 ignore 5\n"),
    (b"agent a querylimit=0 ignore responselimit=9216\n", b"agent 61 512 512 512 1024 ignore 1024 0 9216\n"),
    (b"agent a keep-events\n", b"agent 61 512 512 512 1024 keep+events 1024\n"),
    (b"agent a keep-events ignore keep-events pertime=2\n", b"agent 61 512 512 512 1024 ignore+events 2\n"),
    (b"agent a querylimit=2000\n", b"agent 61 512 512 512 1024 keep 1024 2000 1024\n"),
    (b"agent a responselimit=7 pertime=3\n", b"agent 61 512 512 512 1024 keep 3 1024 7\n"),
    (b"agent a querylimit=1024 responselimit=1024\n", DEFAULTS),
    (b"agent a querylimit=7 limit=8 querylimit=1024\n", b"agent 61 512 512 8 1024 keep 1024\n"),
    (b'agent "a b"\nsave "a b"\n', b"agent 612062 512 512 512 1024 keep 1024\nsave 0\n"),
    (b'agent a\nfire a "v 2\\x22#" "#"\n', DEFAULTS + b"fire 0 7620322223 23 0\n"),
    (b'agent a\nfire a cafe "cafe"\n', DEFAULTS + b"fire 0 cafe 63616665 0\n"),
    (b"agent a\nfire a 00ff\nfire 7 - - coalesce\n", DEFAULTS + b"fire 0 00ff - 0\nfire 7 - - 1\n"),
    (b'agent a\nfire a 00ff coalesce\nfire a 00 "coalesce"\n', DEFAULTS + b"fire 0 00ff - 1\nfire 0 00 636f616c65736365 0\n"),
    (b'agent a\nfire a"x""y"#z\nfire a "x"#y\n', DEFAULTS + b"fire 0 78 79 0\nfire 0 78 - 0\n"),
    (
        b"agent a\nclose a\nclose a at 7\nclose a at 7ns\nclose a at 7us\nclose a at 7ms\nclose a at 7s\n",
        DEFAULTS + b"close 0 0\nclose 0 7\nclose 0 7\nclose 0 7000\nclose 0 7000000\nclose 0 7000000000\n",
    ),
    (
        b'agent a\nquery a "q" "p"\nquery a "q" - at 3us id=7 timeout=2ms quiet filter=00 ack filter=-\n',
        DEFAULTS + b"query 0 0 0 71 70 1000000000 0\nquery 0 3000 7 71 - 2000000 3 00 -\n",
    ),
    (
        b"agent a\nbreak a append\nbreak a replace-new 3\nrespond a 2 - at 1s\ncompact a\n",
        DEFAULTS + b"break 0 append 1\nbreak 0 replace-new 3\nrespond 0 2 1000000000 -\ncompact 0\n",
    ),
    (
        b"agent a\ntake a 00 sync\nd: take a 01 join\ngive a 02\ngive a 03 at 1us\ndeliver a d\n",
        DEFAULTS
        + b"inject 00\nmerge 0 0 sync\ninject 01\nmerge 0 1 join\ninject 02\ndeliver 0 2 0\n"
        + b"inject 03\ndeliver 0 3 1000\ndeliver 0 1 0\n",
    ),
    (
        b"agent a\ninject 00\nq: query a - - ack\ndeliver a q\ndeliver a q/1\ndeliver a q/0\ndeliver a 9\n",
        DEFAULTS
        + b"inject 00\nquery 0 0 0 - - 1000000000 1\ndeliver 0 1 0\ndeliver 0 2 0\ndeliver 0 1 0\ndeliver 0 9 0\n",
    ),
]


def plain(schedule):
    """A schedule without its comments, with the last number of each agent written out."""
    lines = []
    for line in schedule.splitlines():
        if line and not line.startswith(b"#"):
            lines.append(line + (b" 1024" if line.startswith(b"agent ") and len(line.split()) == 7 else b""))
    return b"".join(line + b"\n" for line in lines)


def examples(count):
    names = checks.names_in(checks.EXAMPLES, ".written")
    count.check("ten examples", len(names) >= 10)
    for name in names:
        path = os.path.join(checks.EXAMPLES, name)
        text = checks.read(path + ".written")
        schedule = count.exactly(name, ["write", path + ".written"], 0, plain(checks.read(path + ".schedule")), b"")
        count.exactly(name + " on standard input", ["write"], 0, schedule, b"", text)
        count.exactly(name + " with CRLF", ["write", "-"], 0, schedule, b"", text.replace(b"\n", b"\r\n"))
        count.exactly(name + " replayed", ["replay"], 0, checks.read(path + ".trace"), b"", schedule)


# How the incident's traces end, without the packets: what real Serf handed out again, and this project's agents don't.
ENDS = {
    "as_flushed": [b"restarted 1 4 1", b"state", b"merged"],
    "as_serf_kept": [b"restarted 2 3 1", b"state", b"merged", b"event 1 3 6465706c6f79 7632 0"],
}


def incident(count):
    for name, end in ENDS.items():
        text = checks.read("examples", "incident", name + ".written")
        written = checks.run_program(["write"], text)
        replayed = checks.run_program(["replay"], written[1])
        said = [line.split(b" ", 1)[1] for line in replayed[1].splitlines()]
        last = [line for line in said if not line.startswith(b"sent ")][-len(end) :]
        is_short = len(text.splitlines()) <= 25
        count.check(name, is_short and written[0] == replayed[0] == 0 and last == end, (written, replayed))


def texts(count):
    for text, schedule in TEXTS:
        count.exactly(repr(text), ["write"], 0, schedule, b"", text)


LONG = b"x" * 40

# The options of a query, and the type and the value of each of its filters.
FILTERS = [
    (b"filter=node:a", [(0, [b"a"])]),
    (b"filter=node:a,b", [(0, [b"a", b"b"])]),
    (b'filter=node:"web 1",b', [(0, [b"web 1", b"b"])]),
    (b'filter=node:a,"b,\\x22=",""', [(0, [b"a", b'b,"=', b""])]),
    (b"filter=node:tag:a=b,\\x41", [(0, [b"tag:a=b", b"\\x41"])]),
    (b"filter=node:" + b",".join([LONG] * 16), [(0, [LONG] * 16)]),
    (b"filter=tag:role=web", [(1, {b"Expr": b"web", b"Tag": b"role"})]),
    (b"filter=tag:role=^web\\d{1,3}=.:$", [(1, {b"Expr": b"^web\\d{1,3}=.:$", b"Tag": b"role"})]),
    (b'filter=tag:"a b\\x3d"="c \\x5cd" ack', [(1, {b"Expr": b"c \\d", b"Tag": b"a b="})]),
    (b'filter=tag:a="" id=0', [(1, {b"Expr": b"", b"Tag": b"a"})]),
    (b"filter=tag:" + LONG + b"=" + LONG, [(1, {b"Expr": LONG, b"Tag": LONG})]),
    (b'filter=node:"a b" filter=0091a161 filter=tag:a=b # "', [(0, [b"a b"]), (0, [b"a"]), (1, {b"Expr": b"b", b"Tag": b"a"})]),
]


# Prints the bytes of the values that it reads, in the old form of MessagePack, which Serf writes.
PACK = "import ast, msgpack, sys; print([msgpack.packb(value, use_bin_type=False) for value in ast.literal_eval(sys.stdin.read())])"


def packed(values):
    """The bytes of each value as Python's MessagePack writes them, or None if no Python here has it."""
    for python in (sys.executable, "/usr/bin/python3"):
        end = subprocess.run(
            [python, "-c", PACK], input=repr(values), stdout=subprocess.PIPE, stderr=subprocess.DEVNULL, text=True, check=False
        )
        if end.returncode == 0:
            return ast.literal_eval(end.stdout)
    return None


def filters(count):
    values = packed([value for options, wanted in FILTERS for kind, value in wanted])
    count.check("a Python here has the package msgpack (python3-msgpack)", values is not None)
    rest = iter(values or ())
    for options, wanted in FILTERS:
        words = b"".join(b" %02x%b" % (kind, next(rest, b"").hex().encode()) for kind, value in wanted)
        flags = b"1" if b" ack" in options else b"0"
        schedule = DEFAULTS + b"query 0 0 0 6c6f6164 - 1000000000 " + flags + words + b"\n"
        count.exactly(repr(options), ["write"], 0, schedule, b"", b'agent a\nquery a "load" "" ' + options + b"\n")


# Three agents, of which the first fires a query that each of them receives, and which agents the query is handed to.
HANDED = [
    (b"", [0, 1, 2]),
    (b'filter=node:"web 1",a', [0, 1]),
    (b'filter=node:a,b filter=node:"b"', [2]),
    (b"filter=node:c", []),
    (b"filter=tag:role=.", []),
]


def handed(count):
    for options, agents in HANDED:
        text = b'agent a\nagent "web 1"\nagent b\nq: query a "load" "" %b\ndeliver "web 1" q\ndeliver b q\n' % options
        written = checks.run_program(["write"], text)
        replayed = checks.run_program(["replay"], written[1])
        found = [int(line.split()[2]) for line in replayed[1].splitlines() if line.split()[1] == b"handed"]
        count.check(repr(options), written[0] == replayed[0] == 0 and found == agents, (written, replayed))


def faults(count):
    for text, line, word, sentence in FAULTS:
        count.exactly(repr(text), ["write"], 1, b"", b"bad line %d word %d: %s\n" % (line, word, sentence), text)
    path = os.path.join(checks.EXAMPLES, "none")
    count.exactly("no such file", ["write", path], 3, b"", os.fsencode(path) + b": no such file\n")
    count.exactly("too long", ["write"], 1, b"", b"the input is too long: it has more than 16777216 bytes\n", b"#" * (checks.LONGEST + 1))


if __name__ == "__main__":
    sys.exit(checks.over_program(examples, incident, texts, filters, handed, faults))
