"""Wrong bodies, as edits: the edits that are tried from the files of crates/NAME/mutants/ (tools/edit_files.py reads them), and
the functions that each edit changes.

An edit's texts are applied one after another, a later pair to the result of the earlier ones. Its lines 'turns:' name the
functions whose contracts have to refuse it. Without such a line, these are the functions that contain its texts. For an edit of a
definition, in specs/, they name the law that the wrong definition breaks. A neutral twin makes the same change of shape, but
doesn't change the meaning.
"""

import os
import re
from collections import Counter

import edit_files
from edit_files import BadEdit

TOP = os.path.dirname(os.path.dirname(os.path.abspath(__file__)))

# A line that begins or names a function.
FUNCTION = re.compile(r'^(\s*)((?:pub(?:\([^)]*\))? )?(?:const )?(?:unsafe )?(?:extern "C" )?)fn (\w+)')

KEYWORD = re.compile(r"(?:if|else|match|let|for|while|loop|return|break|continue)$")

# A clause of a contract.
CLAUSE = re.compile(r"^ *(requires|ensures|ghost)\b")

# The head of an impl: its type, and the trait.
IMPL = re.compile(r"^impl(?P<generic><[^{]*?>)? (?:(?P<trait>[\w:]+)(?:<(?P<with>\w+)[^{]*>)? for )?(?:&(?:'\w+ )?)?(?P<type>\w+)(?:<(?P<of>\w+)>)?", re.M)

# The parts that make the shape of a text: branches, bindings, exits and calls.
SHAPE = re.compile(r"\"(?:[^\"\\]|\\.)*\"|'(?:[^'\\]|\\.)'|(\b(?:if|else|match|let|for|while|loop|return|break|continue)\b|&&|\|\||\?|\|(?=[\w, ]*\|)|\w+!?(?=\())")


def text_of(crate, file):
    with open(os.path.join(TOP, "crates", crate, file), encoding="utf-8") as text:
        return text.read()


class Edit:
    """An edit: its place, its pairs of texts by file, its twin, and the functions that it changes."""

    def __init__(self, crate, written):
        self.crate = crate
        self.name = written.name
        self.pairs = written.pairs
        self.twins = written.twins
        self.functions = list(written.turns)
        if not self.pairs:
            raise BadEdit(f"{self.name}: it has no 'old:' and 'new:' pair")
        if self.is_definition and not self.functions:
            raise BadEdit(f"{self.name}: it edits a definition, and no line 'turns:' names the law that has to refuse it")
        if not self.functions:
            self.functions = list(dict.fromkeys(function_at(self.crate, file, old) for file, old, _ in self.pairs))

    @property
    def is_definition(self):
        return not all(file.startswith("src/") for file, _, _ in self.pairs)

    @property
    def keeps_shape(self):
        """Whether no text has more branches, bindings, exits or calls than the text that it replaces."""
        return all(not shape_of(new) - shape_of(old) for _, old, new in self.pairs)

    def twin(self):
        """The neutral twin, as an edit, or None."""
        if not any(self.twins):
            return None
        other = object.__new__(Edit)
        other.crate, other.name, other.functions, other.twins = self.crate, f"{self.name} (twin)", self.functions, []
        other.pairs = [(file, old, new if twin is None else twin) for (file, old, new), twin in zip(self.pairs, self.twins)]
        return other

    def spans(self):
        """What it replaces, if it is applied alone: by file, the beginning and the end of each piece, and its new text."""
        spans = {}
        for file in dict.fromkeys(file for file, _, _ in self.pairs):
            before = after = text_of(self.crate, file)
            pairs = [(old, new) for name, old, new in self.pairs if name == file]
            for old, new in pairs:
                if after.count(old) != 1:
                    raise BadEdit(f"{self.name}: its text stands {after.count(old)} times in {file}: {old}")
                after = after.replace(old, new)
            if all(before.count(old) == 1 for old, _ in pairs):
                spans[file] = [(before.index(old), before.index(old) + len(old), new) for old, new in pairs]
            else:
                # A later pair changes the result of the earlier ones.
                begin = len(os.path.commonprefix([before, after]))
                end = len(os.path.commonprefix([before[begin:][::-1], after[begin:][::-1]]))
                spans[file] = [(begin, len(before) - end, after[begin : len(after) - end])]
        return spans


def shape_of(text):
    """How many branches, bindings, exits and calls a text has of each kind. The names of calls don't matter."""
    found = (match[1] for match in SHAPE.finditer(text))
    return Counter("call" if re.match(r"\w+!?$", word) and not KEYWORD.match(word) else word for word in found if word)


def edits_of(crate):
    """The edits of a crate, by name."""
    return [Edit(crate, written) for written in edit_files.written_in(os.path.join(TOP, "crates", crate, "mutants"))]


def overlap(one, other):
    """Whether two edits replace the same text."""
    others = other.spans()
    return any(begin < end_2 and begin_2 < end for file, spans in one.spans().items() for begin, end, _ in spans for begin_2, end_2, _ in others.get(file, []))


def applied(batch):
    """The texts of the files with all edits of a batch."""
    spans = {}
    for edit in batch:
        for file, own in edit.spans().items():
            spans.setdefault(file, []).extend(own)
    texts = {}
    for file, of_file in spans.items():
        text = text_of(batch[0].crate, file)
        for begin, end, new in sorted(of_file, reverse=True):
            text = text[:begin] + new + text[end:]
        texts[file] = text
    return texts


def batches_of(edits):
    """The edits in as few lists as possible, so that no two of a list change the same function. An edit of a definition is alone."""
    batches = [[edit] for edit in edits if edit.is_definition]
    alone = len(batches)
    for edit in edits:
        if edit.is_definition:
            continue
        for batch in batches[alone:]:
            if not any(set(edit.functions) & set(other.functions) or overlap(edit, other) for other in batch):
                batch.append(edit)
                break
        else:
            batches.append([edit])
    return batches


def source_files(crate):
    """The paths of a crate's source files without its tests, relative to the crate's folder."""
    source = os.path.join(TOP, "crates", crate, "src")
    for folder, _, files in sorted(os.walk(source)):
        for file in sorted(files):
            path = os.path.relpath(os.path.join(folder, file), os.path.dirname(source))
            if not re.search(r"/tests(/|\.rt$)", path):
                yield path


def function_at(crate, file, old):
    """The path of the function that contains a text, as the toolchain names it below the crate."""
    text = text_of(crate, file)
    if text.count(old) != 1:
        raise BadEdit(f"{crate}: a text stands {text.count(old)} times in {file}: {old}")
    at = text.index(old)
    own = re.search(r"\bfn \w+", old)
    found = [name for begin, name, _ in functions_in(crate, file) if begin <= (at + own.start() if own else at)]
    if not found:
        raise BadEdit(f"{crate}: no function stands before this text of {file}: {old}")
    return found[-1]


def functions_in(crate, file):
    """The line at which each function of a file begins, its path, and whether it is in a cycle of calls."""
    text, head, found = text_of(crate, file), None, []
    in_cycle = False
    for line in re.finditer(r".*\n", text):
        words = line[0]
        if re.match(r"(pub(\(.*?\))? )?(impl|trait)\b", words):
            head = IMPL.match(words) or words
        elif words.startswith("}"):
            head = None
        in_cycle = in_cycle or "#[cycle(" in words
        function = FUNCTION.match(words)
        if function and (head is None or not isinstance(head, str)):
            found.append((line.start() + function.start(3) - 3, path_of(crate, file, head, function[3]), in_cycle))
        if function:
            in_cycle = False
    return found


def path_of(crate, file, head, name):
    module = module_of(file)
    if head is None:
        return "::".join([*module, name])
    # If a trait's argument is the impl's own type, it is not in the name.
    at_trait = head["with"] if head["with"] and head["with"] != head["type"] else ""
    # A `drop` is named like one of the type's own functions.
    trait = head["trait"].split("::")[-1] + at_trait if head["trait"] not in (None, "Drop") else ""
    # An impl of a generic type for one type argument has that type in its name.
    at_type = f"+{head['of']}" if head["of"] and not head["generic"] else ""
    if not trait and not at_type:
        module = home_of(crate, head["type"]) or module
    own = head["type"][0].upper() + head["type"][1:]
    return "::".join([*module, own + at_type + trait, name])


def module_of(file):
    return [part for part in file[len("src/") : -len(".rt")].split("/") if part not in ("lib", "main", "mod")]


def home_of(crate, name):
    """The module that contains a type of the crate."""
    for path in source_files(crate):
        if re.search(rf"^(?:pub(?:\([^)]*\))? )?(?:struct|enum) {name}\b", text_of(crate, path), re.M):
            return module_of(path)
    return None


def body_at(lines, at):
    """The lines that open and close the body of the function whose head begins at a line, or None if it has no body."""
    indent = re.match(r" *", lines[at])[0]
    open_braces = 0
    for begin in range(at, len(lines)):
        # A clause may have several lines.
        is_clause = open_braces or CLAUSE.match(lines[begin])
        if is_clause:
            open_braces += lines[begin].count("{") - lines[begin].count("}")
        if not open_braces and lines[begin].endswith((";", "{}")):
            return None
        if is_clause:
            continue
        # A body begins at the head's end, or on a separate line after the clauses.
        if lines[begin] == indent + "{" or lines[begin].endswith(" {"):
            return begin, lines.index(indent + "}", begin)
    return None
