"""The table of names: what each file's identifiers become.

tools/rename/table/*.rows has the rows, three words each: a scope, what is there now, and what it becomes.

- A scope is `*` (all crates), crates without their `serf_`, joined by commas, or a path, perhaps with `*` in it. Among rows for one
  word, a path overrides a crate, and a crate overrides `*`.
- `parts.rows`: a part of identifiers of two parts or more, of snake_case or of CamelCase (`least` is a part of `least_line`, and
  `Least` of `LeastTimes`).
- `names.rows`: a whole identifier, which overrides its parts. It may be two identifiers with what joins them (`type Asked`,
  `Self::Asked`). If the new word is the old one, the identifier stays.
- `moves.rows`: a file outside the crates that gets another name.
- `modules.rows`: a module of a crate, which isn't renamed as an identifier is: its file, its folder of proofs, and paths through it.
- `texts.rows`: a word that means one thing wherever it is, in any file: C's names, crates and files.
"""

import fnmatch
import os
import re

import tokens

HERE = os.path.dirname(os.path.abspath(__file__))
TOP = os.path.dirname(os.path.dirname(HERE))
FOLDER = os.path.join(HERE, "table")


class BadTable(Exception):
    """Why the table can't be used."""


def rows(name):
    """The rows of a file of the table."""
    with open(os.path.join(FOLDER, name), encoding="utf-8") as file:
        for number, line in enumerate(file, 1):
            line = line.split(" # ")[0].rstrip() if not line.startswith("#") else ""
            if not line:
                continue
            words = re.split(r"\t+| {2,}", line.strip())
            if len(words) != 3:
                raise BadTable(f"{name}:{number}: a row has a scope, an old and a new name, with two blanks or a tab between them")
            yield words


def crate_of(path):
    """The crate that a file is of, without its `serf_`, or None."""
    found = re.match(r"crates/serf_(\w+)/", path)
    return found[1] if found else None


def is_path(scope):
    return "/" in scope or scope.endswith(".md")


def weight(scope, path):
    """The rank of a scope's rows in a file; 0 if they don't apply."""
    if is_path(scope):
        return 3 if fnmatch.fnmatch(path, scope) else 0
    crate = crate_of(path)
    if scope == "*":
        return 1
    return 2 if crate in scope.split(",") else 0


def capital(word):
    """A word, or several that underscores join, as humps."""
    return "".join(part[:1].upper() + part[1:] for part in word.split("_"))


class Table:
    """The table, and what it makes of words."""

    def __init__(self):
        self.parts, self.names, self.texts = list(rows("parts.rows")), list(rows("names.rows")), list(rows("texts.rows"))
        self.shared, self.modules = list(rows("shared.rows")), list(rows("modules.rows"))
        self.raw = {old: new for _, old, new in self.texts}
        # (Go names a struct of C and an enum so)
        self.raw.update({f"{kind}_{old}": f"{kind}_{new}" for _, old, new in self.texts for kind in ("struct", "enum")})
        self.moves = {old: new for _, old, new in rows("moves.rows")}
        self.memo, self.by_path, self.own_memo = {}, {}, {}

    def in_force(self, table, path):
        """The rows of a table that count in a file, by what is there now."""
        found = {}
        for scope, old, new in table:
            heavy = weight(scope, path)
            if heavy and heavy >= found.get(old, (0, None))[0]:
                found[old] = (heavy, new)
        return {old: new for old, (_, new) in found.items()}

    def of_file(self, path):
        """What identifiers become in a file: whole ones, parts, and pairs."""
        if path in self.by_path:
            return self.by_path[path]
        key = (crate_of(path), tuple(scope for scope, _, _ in self.parts + self.names if is_path(scope) and fnmatch.fnmatch(path, scope)))
        if key not in self.memo:
            names = self.in_force(self.names, path)
            pairs = {old: new for old, new in names.items() if not tokens.WORD.fullmatch(old)}
            whole = {old: new for old, new in names.items() if old not in pairs}
            self.memo[key] = Map(whole, self.in_force(self.parts, path), pairs, self.of_modules(crate_of(path)))
        self.by_path[path] = self.memo[key]
        return self.memo[key]

    def own_of(self, path):
        """The rows whose scope is this path."""
        if path not in self.own_memo:
            self.own_memo[path] = {old: new for scope, old, new in self.names if is_path(scope) and weight(scope, path)}
        return self.own_memo[path]

    def of_modules(self, own):
        """The paths through modules that are renamed, as a crate's files (or files of none) have them."""
        for crate, old, new in self.modules:
            front = self.raw.get(f"serf_{crate}", f"serf_{crate}")
            for part in ("specs.declared", "specs.contracts", "proofs"):
                yield re.compile(rf"Rattle\.serf_{crate}\.{re.escape(part)}\.{old}(?![\w-])"), f"Rattle.{front}.{part}.{new}"
            if own == crate:
                yield re.compile(rf"(?<![\w-])mod {old}(?=;)"), f"mod {new}"
                yield re.compile(rf"(?<![\w-])crate::{old}(?=::)"), f"crate::{new}"
                yield re.compile(rf"(?<![\w-])crate::proofs::{old}(?=::)"), f"crate::proofs::{new}"
                yield re.compile(rf"(?<=use ){old}(?=::)"), new
                yield re.compile(rf"(?<=src/){old}(?=\.rt)"), new
                yield re.compile(rf"(?m)(?<=^ ){old}(?=::)"), new


def several(old):
    """The pattern of several identifiers with what joins them, none of which is a part of a longer one."""
    return re.compile((r"(?<![\w-])" if old[0].isalnum() else "") + re.escape(old) + (r"(?!\w)" if old[-1].isalnum() else ""))


class Map:
    """What identifiers become in a file."""

    def __init__(self, whole, parts, pairs, modules):
        self.whole, self.parts, self.memo = whole, parts, {}
        self.pairs = [(several(old), new) for old, new in sorted(pairs.items(), key=lambda pair: -len(pair[0]))] + list(modules)

    def word(self, word):
        """What an identifier becomes."""
        if word not in self.memo:
            self.memo[word] = self.made_of(word)
        return self.memo[word]

    def made_of(self, word):
        if word in self.whole:
            return self.whole[word]
        found = tokens.parts(word)
        if "".join(found) != word or sum(part != "_" for part in found) < 2:
            return word
        return "".join(self.part(part) for part in found)

    def part(self, part):
        if part in self.parts:
            return self.parts[part]
        small = part.lower()
        if small != part and small in self.parts:
            return self.parts[small].upper() if part.isupper() and len(part) > 1 else capital(self.parts[small])
        return part
