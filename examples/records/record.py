"""Reads the records that `kitchenrue-agent -record` writes: the calls to a node's proved agent, and the replies.

The older files of a record are next to it (RECORD.1 and so on). README.md in this folder describes the format.
"""

import os

import packets

# What begins the first line of each life, of any version of the format.
TITLE = "# kitchenrue-agent record "

# If the member clock was advanced above a time, the record has a merge of a state with only a member clock. The state begins so.
CLOCK = "0281a54c54696d65cf"


class RecordError(Exception):
    """Why a record can't be read."""


class Call:
    """A call in a record: its moment, its words, the words of each line of its reply, and its place. The reply is empty if the call was
    cut off or not done. If `goes_on` is true, the call is an `open` with which a new file continues a life. If `tags_pass` is true, the
    call is of a query with tag filters, and the node's tags pass all of them."""

    def __init__(self, moment, words, reply, path, line):
        self.moment, self.words, self.reply = moment, words, reply
        self.path, self.line = path, line
        self.kind = words[0]
        self.goes_on = self.tags_pass = False

    @property
    def answer(self):
        """The first word of the reply, or None."""
        return self.reply[0][0] if self.reply else None

    def lines(self, word):
        """The lines of the reply that begin with a word, without this word."""
        return [line[1:] for line in self.reply if line[0] == word]

    def sent(self):
        """The packets that it sent, in hex."""
        return [line[0] for line in self.lines("sent")]

    def is_of_members(self):
        """Whether the call is only about members, so that no event depends on it."""
        return self.kind == "save" or (self.kind == "merge" and self.words[1].startswith(CLOCK) and len(self.words[1]) == 34)


    def without_tag_filters(self):
        """The call without the tag filters of its query, if the node's tags pass them. No schedule has tags: an agent in a schedule does
        without these filters what an agent does whose tags pass them. A call that was refused is returned unchanged, because no refusal
        depends on tags."""
        if not self.tags_pass or self.answer in (None, "refused"):
            return self
        try:
            words, replaced = self.without_filters_in_words()
        except ValueError as error:
            words = " ".join(self.words)[:200]
            raise RecordError(f"{self.path}:{self.line}: this is no call of a query with tag filters: `{words}`") from error
        reply = [[line[0], replaced.get(line[1], line[1])] if line[0] == "sent" else line for line in self.reply]
        return Call(self.moment, words, reply, self.path, self.line)

    def without_filters_in_words(self):
        """The words of the call without tag filters, and for each packet of its reply that is another one then, that packet."""
        if self.kind == "deliver":
            whole = self.words[1]
            bare = packets.without_tag_filters(bytes.fromhex(whole)).hex()
            # (if the node sends on the packet without the filters, that isn't the packet which it received)
            return [self.kind, bare, *self.words[2:]], {whole: bare, bare: whole}
        if self.kind != "query" or not self.sent():
            raise ValueError(self.kind)
        filters = [b"" if word == "-" else bytes.fromhex(word) for word in self.words[7:]]
        sent = self.sent()[0]
        query = bytes.fromhex(sent)
        if packets.filters_of(query) != filters:
            # (with all filters of the call, the reference makes another packet)
            return self.words, {}
        words = self.words[:7] + [word for word, found in zip(self.words[7:], filters) if not packets.is_tag_filter(found)]
        return words, {sent: packets.without_tag_filters(query).hex()}


class Note:
    """A comment in a record that says something of a call: `compacting`, or `not done: ` and the reason."""

    def __init__(self, text, path, line):
        self.text, self.path, self.line = text, path, line


def entries_of(path):
    """The calls and the notes in a file, in order."""
    block, first, moment, goes_on, tags_pass, ended = [], 0, 0, False, False, None
    with open(path, encoding="ascii", errors="replace") as file:
        for number, line in enumerate(file, 1):
            if ended:
                # (an empty line is before each life but the first. If there is no other one, the kill cut this call off at the end of
                # a line)
                ended.reply = [] if line.startswith(TITLE) else ended.reply
                yield ended
                ended = None
            words = line.split()
            if words and line.endswith("\n") and not line.startswith("#"):
                if words[0] == "at" and not block:
                    moment = int(words[1]) if words[1:] and words[1].isdigit() else 0
                else:
                    first = first if block else number
                    block.append(words)
                continue
            if block:
                is_whole = not words and len(block) > 1
                call = Call(moment, block[0], block[1:] if is_whole else [], path, first)
                call.goes_on, call.tags_pass, goes_on, tags_pass = goes_on, tags_pass, False, False
                ended = call if is_whole else None
                if not is_whole:
                    yield call
            block = []
            goes_on = goes_on or line.startswith("# goes on")
            tags_pass = tags_pass or line.startswith("# tags pass")
            if line.startswith(("# not done", "# compacting")):
                yield Note(line[2:].rstrip("\n"), path, number)
    if ended:
        yield ended
    if block:
        yield Call(moment, block[0], [], path, first)


def calls_of(path, warn):
    """The whole calls in a file. A call that was cut off is reported by a sentence."""
    for entry in entries_of(path):
        if isinstance(entry, Call) and entry.reply:
            yield entry
        elif isinstance(entry, Call):
            warn(f"{path}: the call `{entry.kind}` was cut off")


def files_of(path):
    """The files of a record, beginning with the oldest."""
    numbers = []
    while os.path.exists(f"{path}.{len(numbers) + 1}"):
        numbers.append(len(numbers) + 1)
    return [f"{path}.{number}" for number in reversed(numbers)] + [path]
