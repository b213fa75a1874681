"""The wrong bodies of the node that the simulation has to find.

They are edits of the copies of the packages (build.py). One program has them all, and `cluster -planted NAME` selects the one that is on.
Without any of them, the copies do what the packages do.
"""

from collections import namedtuple

# A wrong body: what it does, its edits by file (texts that are in the file exactly once, and their replacements), and for how long there
# are failures in its runs. Edits of several wrong bodies are together if they are of the same function.
Fault = namedtuple("Fault", "what edits length", defaults=("4m",))


def unless(name, call):
    """A statement of Go's that isn't reached if the wrong body is on. It returns an error, as the call does."""
    return f'func() error {{\n\t\tif planted.IsOn("{name}") {{\n\t\t\treturn nil\n\t\t}}\n\t\treturn {call}\n\t}}()'


FAULTS = {
    "line": Fault(
        "The flush of a line is left out.",
        {
            "serfagent/store.go": [
                ("\t\treturn flushData(s.file)\n", f'\t\treturn {unless("line", "s.flushLine()")}\n'),
                (
                    "// Replace replaces the file's content durably.\n",
                    "func (s *Store) flushLine() error {\n"
                    '\tif err := flushData(s.file); err != nil && !planted.IsOn("flush-ok") {\n'
                    "\t\treturn err\n\t}\n\treturn nil\n}\n\n// Replace replaces the file's content durably.\n",
                ),
            ]
        },
    ),
    "flush-ok": Fault("A failed flush is reported as Ok.", {}),
    "write-ok": Fault(
        "A failed write is reported as Ok.",
        {
            "serfagent/filler.go": [
                (
                    "func (s *Store) writeWithoutFiller(data []byte) error {\n\tif _, err := s.file.WriteAt(data, s.end); err != nil {",
                    "func (s *Store) writeWithoutFiller(data []byte) error {\n"
                    '\tif _, err := s.file.WriteAt(data, s.end); err != nil && !planted.IsOn("write-ok") {',
                )
            ]
        },
    ),
    "late": Fault(
        "Events are handed out before the flush.",
        {
            "serfagent/agent.go": [
                (
                    "\t\terr = a.store.Append(data)\n",
                    '\t\tif planted.IsOn("late") {\n\t\t\tgo a.store.Append(append([]byte(nil), data...))\n\t\t} else {\n'
                    "\t\t\terr = a.store.Append(data)\n\t\t}\n",
                )
            ]
        },
    ),
    "name": Fault(
        "A compaction doesn't flush the folder after the rename.",
        {"serfagent/store.go": [("\t\treturn syncFolder(s.path)\n", f'\t\treturn {unless("name", "syncFolder(s.path)")}\n')]},
    ),
    "not-restored": Fault(
        "The snapshot isn't restored at a start.",
        {
            "serfagent/agent.go": [
                (
                    "\tagent, err := open(name, store, text, settings)\n",
                    '\tif planted.IsOn("not-restored") {\n\t\ttext = nil\n\t}\n\tagent, err := open(name, store, plantedText(text), settings)\n',
                ),
                (
                    "// memoryStore keeps nothing.\n",
                    "func plantedText(text []byte) []byte {\n"
                    '\tswitch {\n\tcase planted.IsOn("no-queries"):\n'
                    '\t\treturn bytes.ReplaceAll(text, []byte("query-clock: "), []byte("#uery-clock: "))\n'
                    '\tcase planted.IsOn("no-kept"):\n'
                    '\t\treturn bytes.ReplaceAll(text, []byte("#event "), []byte("#vent "))\n'
                    '\tcase planted.IsOn("last-line"):\n'
                    '\t\treturn text[:bytes.LastIndexByte(bytes.TrimSuffix(text, []byte("\\n")), \'\\n\')+1]\n'
                    "\t}\n\treturn text\n}\n\n// memoryStore keeps nothing.\n",
                ),
                ('import (\n\t"runtime"\n', 'import (\n\t"bytes"\n\t"runtime"\n'),
            ]
        },
    ),
    "no-queries": Fault("The query clock isn't restored, so the minimum of queries isn't raised after a restart.", {}),
    "no-kept": Fault("The events that the file keeps aren't restored.", {}),
    "last-line": Fault("The last line of the snapshot isn't read.", {}),
    "disk-ignored": Fault(
        "A node continues after its disk failed.",
        {
            "serf/serf.go": [
                (
                    "\tif isClosed(err) && !s.isEnded {\n\t\ts.isEnded = true\n",
                    '\tif isClosed(err) && !s.isEnded && !planted.IsOn("disk-ignored") {\n\t\ts.isEnded = true\n',
                )
            ]
        },
    ),
    "fired-ok": Fault(
        "A firing whose burst failed is reported as fired.",
        {
            "serf/receive.go": [
                ("\t\tfiring.err = err\n", '\t\tif firing.err = err; planted.IsOn("fired-ok") {\n\t\t\tfiring.err = nil\n\t\t}\n')
            ]
        },
    ),
    "twice": Fault(
        "A received event is handed out twice.",
        {
            "serf/receive.go": [
                (
                    "\t\t\ts.stage(received.Event)\n",
                    '\t\t\ts.stage(received.Event)\n\t\t\tif planted.IsOn("twice") {\n\t\t\t\ts.stage(received.Event)\n\t\t\t}\n',
                )
            ]
        },
    ),
    "no-merge": Fault(
        "A join doesn't merge the state of the other node.",
        {
            "serf/delegate.go": [
                (
                    "\tif len(state) > 0 && !d.states.add(",
                    '\tif planted.IsOn("no-merge") {\n\t\treturn\n\t}\n\tif len(state) > 0 && !d.states.add(',
                ),
                ("isJoin && d.ignoringJoins.Load() > 0) {", 'isJoin && d.ignoringJoins.Load() > 0 || planted.IsOn("all-old")) {'),
            ]
        },
    ),
    "all-old": Fault("Each exchange of states ignores old events.", {}),
    "not-sent": Fault(
        "A fired event isn't gossiped.",
        {
            "serf/receive.go": [
                ("\ts.events.add(broadcasts...)\n", '\tif !planted.IsOn("not-sent") {\n\t\ts.events.add(broadcasts...)\n\t}\n')
            ]
        },
    ),
    "storm": Fault(
        "Each received packet is gossiped again, also one that isn't new.",
        {"serf/receive.go": [("\tif received.Rebroadcast {\n", '\tif received.Rebroadcast || planted.IsOn("storm") {\n')]},
        "30s",
    ),
    "relay-all": Fault(
        "An answer is relayed by all nodes.",
        {
            "serf/answer.go": [
                (
                    "\tif factor == 0 || s.members.size()",
                    '\tif planted.IsOn("relay-all") {\n\t\treturn s.members.pickOthers(s.members.size(), query.Source)\n\t}\n'
                    "\tif factor == 0 || s.members.size()",
                )
            ]
        },
    ),
    "any-query": Fault(
        "A response is given to any open query.",
        {
            "serf/query.go": [
                (
                    "\tif response := s.openQueries[queryKey{answer.Time, answer.ID}]; response != nil",
                    "\topen := s.openQueries[queryKey{answer.Time, answer.ID}]\n"
                    '\tfor _, other := range s.openQueries {\n\t\tif planted.IsOn("any-query") {\n\t\t\topen = other\n\t\t}\n\t}\n'
                    "\tif response := open; response != nil",
                ),
                (
                    "func (s *Serf) closeDue() error {\n",
                    'func (s *Serf) closeDue() error {\n\tif planted.IsOn("never-closed") {\n\t\treturn nil\n\t}\n',
                ),
            ]
        },
    ),
    "never-closed": Fault("Queries are never closed.", {}),
    "coalesced": Fault(
        "Coalescing keeps only the last event, whatever its name.",
        {
            "serf/coalesce.go": [
                (
                    "func (c *coalescer) withUserEvent(events []Event, e UserEvent) []Event {\n",
                    "func (c *coalescer) withUserEvent(events []Event, e UserEvent) []Event {\n"
                    '\tif planted.IsOn("coalesced") {\n\t\treturn []Event{e}\n\t}\n',
                )
            ]
        },
    ),
    "pipe-drops": Fault(
        "Events are dropped if the program reads slowly.",
        {
            "serf/pipe.go": [
                (
                    "\t\t} else {\n\t\t\tp.waiting = append(p.waiting, e)\n\t\t}\n",
                    '\t\t} else if p.size() < Waiting/4 || !planted.IsOn("pipe-drops") {\n\t\t\tp.waiting = append(p.waiting, e)\n\t\t}\n',
                )
            ]
        },
    ),
    "no-refute": Fault(
        "A node doesn't refute a message that says that it left.",
        {
            "serf/join.go": [
                ("\tif s.State() == SerfAlive {\n\t\tsignal(", '\tif s.State() == SerfAlive && !planted.IsOn("no-refute") {\n\t\tsignal(')
            ]
        },
    ),
    "goroutine": Fault(
        "A goroutine doesn't end with the node.",
        {
            "serf/join.go": [
                (
                    "\tticker := time.NewTicker(s.config.ReconnectInterval)\n\tdefer ticker.Stop()\n\tfor {\n\t\tselect {\n"
                    "\t\tcase <-s.ctx.Done():\n\t\t\treturn\n",
                    "\tticker := time.NewTicker(s.config.ReconnectInterval)\n\tdefer ticker.Stop()\n\tfor {\n\t\tselect {\n"
                    '\t\tcase <-s.ctx.Done():\n\t\t\tif planted.IsOn("goroutine") {\n\t\t\t\t<-ticker.C\n\t\t\t\tcontinue\n\t\t\t}\n'
                    "\t\t\treturn\n",
                )
            ]
        },
    ),
    "descriptor": Fault(
        "A compaction leaves the old file open.",
        {
            "serf/snapshot.go": [
                ("\tif f.file != nil {\n\t\tf.file.Close()\n", '\tif f.file != nil && !planted.IsOn("descriptor") {\n\t\tf.file.Close()\n')
            ]
        },
    ),
    "unguarded": Fault(
        "The guard passes each packet.",
        {
            "guard/around.go": [
                (
                    "if allowed := ins.inspect(packet.Buf); allowed != nil {",
                    'if allowed := ins.inspect(packet.Buf); allowed != nil || planted.IsOn("unguarded") {\n'
                    '\t\t\t\tif planted.IsOn("unguarded") {\n\t\t\t\t\tallowed = packet.Buf\n\t\t\t\t}',
                )
            ]
        },
    ),
}

# Those that the gate leaves out, since a run of them takes a minute.
SLOW = ("storm",)

# The seed that found each wrong body, if it isn't seed 1. The gate begins with it.
SEEDS = {
    "write-ok": 3,
    "no-queries": 6,
    "no-kept": 2,
    "any-query": 3,
    "coalesced": 4,
    "no-refute": 2,
    "unguarded": 4,
}
