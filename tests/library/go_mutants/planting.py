"""Plants wrong bodies into sources in Go: all wrong bodies of a function are compiled into it, and an environment variable selects the
one that runs.

An edit (tools/edit_files.py) replaces a text by another. Each function that contains such a text begins with a `switch`, which has a case
with the changed body for each edit; after the `switch` the original body follows:

    func (q *queue) add(data []byte) bool {
        switch plantedBody {
        case "name_of_an_edit":
            the changed body
        }
        the body
    }

So one build has all wrong bodies, and without the variable it does what the sources say.
"""

import os
import re

# The environment variable with the name of the wrong body that runs. The tests of serf wait for a shorter time if it is set.
VARIABLE = "SERF_WRONG_BODY"

# This file is added to each package with wrong bodies.
ADDED = "planted_body.go"
SOURCE = f"""package {{}}

import "os"

// plantedBody is the name of the wrong body that runs, or empty.
var plantedBody = os.Getenv("{VARIABLE}")
"""


class NotPlanted(Exception):
    """Why an edit can't be planted."""


class Function:
    """A function of a source: the places at which it and its body begin and end, and whether it has results."""

    def __init__(self, text, begin):
        at = begin + len("func ")
        if text[at] == "(":
            at = after_parentheses(text, at) + 1
        at = after_parentheses(text, text.index("(", at))
        results = at
        if text.startswith(" (", at):
            at = after_parentheses(text, at + 1)
        opened = text.index(" {", at) + 2
        self.begin, self.body = begin, opened
        self.has_results = bool(text[results : opened - 2].strip())
        line_end = text.index("\n", opened)
        self.end = text.index("\n}", opened) + 1 if line_end == opened else line_end - 1

    def contains(self, at, length):
        return self.body <= at and at + length <= self.end

    def planted(self, text, bodies):
        """The function with these bodies, by the names of their edits."""
        cases = []
        for name, body in bodies.items():
            left = "" if self.has_results else "\n\t\treturn"
            cases.append(f'\n\tcase "{name}":\n{body.strip(chr(10))}{left}')
        return (
            f"{text[self.begin : self.body]}\n\tswitch plantedBody {{{''.join(cases)}\n\t}}\n{text[self.body : self.end].strip(chr(10))}\n"
        )


def after_parentheses(text, at):
    """The place after the parentheses that open at this place."""
    depth = 0
    for place in range(at, len(text)):
        depth += {"(": 1, ")": -1}.get(text[place], 0)
        if depth == 0:
            return place + 1
    raise NotPlanted(f"the parentheses of {text[at : at + 40]!r} don't end")


def functions(text):
    return [Function(text, found.start()) for found in re.finditer(r"^func ", text, re.M)]


def changed_bodies(text, edits):
    """The changed bodies of a source, by function and by the name of the edit. An edit is a name and its pairs of texts."""
    found, own = {}, functions(text)
    for name, pairs in edits:
        for old, new in pairs:
            if text.count(old) != 1:
                raise NotPlanted(f"{name}: this text is in the source {text.count(old)} times: {old.strip()}")
            at = text.index(old)
            inside = [function for function in own if function.contains(at, len(old))]
            if not inside:
                raise NotPlanted(f"{name}: this text isn't within the body of a function: {old.strip()}")
            function = inside[0]
            bodies = found.setdefault(function, {})
            bodies[name] = bodies.get(name, text[function.body : function.end]).replace(old, new)
    return found


def with_bodies(text, edits):
    """A source with the wrong bodies of these edits."""
    for function, bodies in sorted(changed_bodies(text, edits).items(), key=lambda found: -found[0].begin):
        text = text[: function.begin] + function.planted(text, bodies) + text[function.end :]
    return text


def plant(folder, edits):
    """Plants edits into the sources of a folder, and adds the file with the variable to each package that has some."""
    by_file = {}
    for edit in edits:
        for path, old, new in edit.pairs:
            by_file.setdefault(path, {}).setdefault(edit.name, []).append((old, new))
    for path, of_file in by_file.items():
        place = os.path.join(folder, path)
        with open(place, encoding="utf-8") as file:
            text = file.read()
        with open(place, "w", encoding="utf-8") as file:
            file.write(with_bodies(text, of_file.items()))
        package = re.search(r"^package (\w+)$", text, re.M)[1]
        with open(os.path.join(os.path.dirname(place), ADDED), "w", encoding="utf-8") as file:
            file.write(SOURCE.format(package))
