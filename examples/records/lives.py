"""The lives in a record, each compared with the reference by `serf-replay`."""

import json
import re
import subprocess
import tempfile

import packets
from record import Call, RecordError, entries_of, files_of

# How many words each call has, and its words.
HEX, NUMBER = r"(?:-|(?:[0-9a-f]{2})+)", r"[0-9]{1,20}"
CALLS = {
    "open": rf"{HEX}(?: {NUMBER}){{4}} (?:keep|ignore)(?:\+events)? {NUMBER}(?: {NUMBER} {NUMBER})? {HEX}",
    "fire": rf"{HEX} {HEX} [01]",
    "deliver": rf"{HEX} {NUMBER}",
    "merge": rf"{HEX} (?:join|sync)",
    "state": None,
    "query": rf"{NUMBER} {NUMBER} {HEX} {HEX} {NUMBER} {NUMBER}(?: {HEX})*",
    "respond": rf"{NUMBER} {NUMBER} {HEX}",
    "close": NUMBER,
    "save": None,
    "compact": None,
}

# The size of the longest schedule that the program reads, in bytes.
MAX_SCHEDULE = 1 << 24


class Refused(Exception):
    """Why a day isn't attested."""


class ProgramError(Exception):
    """Why serf-replay can't be used."""


class Life:
    """A life in a record: the text on which its agent was opened, and its calls. `flushed` has the texts with which the file may begin
    after it, once the life was compared: the text that the reference flushed, and the one that a compaction under way may have left."""

    def __init__(self, opening):
        self.opening, self.calls = opening, []
        self.path, self.line = opening.path, opening.line
        self.name = bytes.fromhex(opening.words[1]).decode("utf-8", "replace")
        self.opened = b"" if opening.words[-1] == "-" else bytes.fromhex(opening.words[-1])
        self.keeps = opening.words[6].endswith("+events")
        self.is_compacting = False
        self.flushed = []

    def schedule(self):
        """The life as a schedule of this agent alone, in which each packet that it received is injected; and for each action, the call."""
        lines, calls, sent = [f"agent {' '.join(self.opening.words[1:-1])}", f"restart 0 {self.opening.words[-1]}"], [self.opening], 0
        for call in self.calls:
            words = call.without_tag_filters().words[1:]
            if call.kind in ("deliver", "merge"):
                lines.append(f"inject {words[0]}")
                calls.append(call)
                words, sent = [str(sent), *words[1:]], sent + 1
            lines.append(" ".join([call.kind, "0", *words]))
            calls.append(call)
            sent += len(call.sent())
        return "\n".join(lines) + "\n", calls

    def replies(self):
        """The replies of the record, as the agent on the pipe returns them."""
        yield ["opened 1 1 1"]
        for call in [self.opening, *self.calls]:
            lines = [" ".join(words) for words in call.without_tag_filters().reply]
            if call.kind == "open":
                lines[0] = lines[0].replace("opened", "restarted", 1)
            yield [without_host_part(line) for line in lines] if call.kind in ("state", "query") else lines

    def check(self, program):
        """Refuses a call with another reply than the reference's. Then it asks the reference for the text that it flushed."""
        text, calls = self.schedule()
        if len(text) > MAX_SCHEDULE:
            raise Refused(
                f"{self.path}:{self.line}: this life has {len(text)} bytes of calls, and the program reads at most {MAX_SCHEDULE}"
            )
        difference = program.first_disagreement(text, self.replies())
        if difference is not None:
            call = calls[min(max(difference["action"], 1), len(calls)) - 1]
            raise Refused(
                f"{call.path}:{call.line}: {self.name} replied to `{' '.join(call.words)[:200]}` otherwise than the reference, which replies "
                f"{difference['wanted'][:400]!r}; the record has {difference['got'][:400]!r}"
            )
        self.flushed = program.flushed(text, self.is_compacting)


def without_host_part(line):
    """A line of a reply, without the members in a state or the address in a query."""
    word, _, data = line.partition(" ")
    try:
        packet = bytes.fromhex(data) if word == "sent" else b""
        if packet[:1] == bytes([packets.STATE]):
            return f"sent {packets.without_members(packet).hex()}"
        if packet[:1] == bytes([packets.QUERY]):
            return f"sent {packets.without_address(packet).hex()}"
    except ValueError:
        pass
    return line


def lives_of(path):
    """The lives of a record. It is an error if the record is none, or begins in the middle of a life."""
    lives = []
    for name in files_of(path):
        for entry in entries_of(name):
            if not isinstance(entry, Call):
                if lives:
                    lives[-1].is_compacting = entry.text == "compacting" or lives[-1].is_compacting and entry.text.startswith("not done")
                continue
            check_words(entry)
            if entry.kind == "open" and not (entry.goes_on and lives):
                if entry.goes_on:
                    raise RecordError(f"{name}: the record begins in the middle of a life: its first file was removed (-record-size)")
                if not entry.reply:
                    break
                lives.append(Life(entry))
            elif not lives:
                raise RecordError(f"{name}:{entry.line}: the record doesn't begin with the opening of an agent")
            elif entry.kind != "open" and entry.reply:
                lives[-1].calls.append(entry)
                if entry.kind == "compact":
                    lives[-1].is_compacting = False
    if not lives:
        raise RecordError(f"{path}: this is not the record of an agent")
    return lives


def check_words(call):
    """Refuses what is no call of the format. The last call of a file may be cut off."""
    pattern = CALLS.get(call.kind, "")
    words = " ".join(call.words[1:])
    if call.reply and not (words == "" if pattern is None else pattern and re.fullmatch(pattern, words)):
        raise RecordError(f"{call.path}:{call.line}: this is no call of an agent: `{' '.join(call.words)[:200]}`")


class Program:
    """serf-replay."""

    def __init__(self, path):
        self.path = path

    def first_disagreement(self, schedule, replies):
        """Compares replies with those of the reference, and returns the first that differs as an object of conform's report, or None."""
        with tempfile.NamedTemporaryFile(
            suffix=".schedule"
        ) as file, tempfile.NamedTemporaryFile() as report, tempfile.TemporaryFile() as errors:
            file.write(schedule.encode())
            file.flush()
            command = [self.path, "conform", file.name, "--report", report.name]
            with self.start_process(command, errors) as process:
                answer_calls(process, replies)
            objects = [json.loads(line) for line in report.read().splitlines()]
            if process.returncode not in (0, 1) or not objects:
                errors.seek(0)
                raise ProgramError(f"conform ended with status {process.returncode}: {errors.read().decode(errors='replace').strip()}")
            return objects[0] if objects[0]["report"] != "end" else None

    def start_process(self, command, errors):
        """Starts a command of the program, which writes its errors to a file."""
        try:
            return subprocess.Popen(command, stdin=subprocess.PIPE, stdout=subprocess.PIPE, stderr=errors, text=True)
        except OSError as error:
            raise ProgramError(f"{self.path}: {error.strerror}") from error

    def flushed(self, schedule, is_compacting):
        """The text that the agent of a schedule has flushed at the end; and the text of a compaction there, if one may have been done."""
        texts, text = [], b""
        for entry in self.json_objects(["explain", "--format", "json"], schedule + ("compact 0\n" if is_compacting else "")):
            if entry["kind"] == "state":
                texts, text = texts + [text], text[: entry["snapshot_from"]] + bytes.fromhex(entry["snapshot_hex"])
                texts = texts[-1:]
        return [text, *texts] if is_compacting else [text]

    def log_lines(self, logs):
        """The events in logs of handlers."""
        return [entry for entry in self.json_objects(["judge", *logs, "--format", "json"]) if entry["kind"] == "event"]

    def json_objects(self, arguments, text=""):
        """What a command prints as JSON. Status 1 is a verdict."""
        try:
            result = subprocess.run([self.path, *arguments], input=text, capture_output=True, text=True)
        except OSError as error:
            raise ProgramError(f"{self.path}: {error.strerror}") from error
        if result.returncode not in (0, 1) or result.stderr and not result.stdout:
            raise ProgramError(f"{arguments[0]} ended with status {result.returncode}: {result.stderr.strip()}")
        return [json.loads(line) for line in result.stdout.splitlines()]


def answer_calls(process, replies):
    """Answers calls on the pipe with replies, in order, until conform makes no more. `look` isn't in a record."""
    try:
        for line in process.stdout:
            lines = ["unsupported"] if line.startswith("look") else next(replies, None)
            if lines is None:
                break
            process.stdin.write("\n".join(lines) + "\n\n")
            process.stdin.flush()
        process.stdin.close()
    except BrokenPipeError:
        # (it has its verdict)
        pass
