"""Renames identifiers in the whole repository by a table (tools/rename/table.py), file by file and token by token.

    python3 tools/rename/rename.py             renames, in the tree that it is in
    python3 tools/rename/rename.py --check     says what the table would do wrong, and changes nothing
    python3 tools/rename/rename.py --list      prints each identifier of each crate that changes, and what it becomes

It refuses a table by which two identifiers of a crate would become one, or by which two items of a module would differ only in
the case of their letters. Names that come from libraries outside the repository stay. The next steps are those of after.py.
"""

import os
import re
import subprocess
import sys

sys.dont_write_bytecode = True
import table
import tokens
from table import TOP, BadTable, crate_of

# What is not renamed: what records the past, what is made of other files, and formats.
LEFT = re.compile(
    r"^tools/rename/|^tests/refused/|/CALLING\.md$|^docs/completions/"
    r"|\.(?:schedule|trace|svg|log|snapshot|written|hex|reasons|pcap|jsonl|png|1|3)$"
    r"|^docs/WRONG_BODIES\.md$|^bindings/go/serfagent/serf_agent\.h$|^examples/|^conformance/schedules/"
)

# The head of an impl of a trait: its proofs and edits name it by the type and the trait, in one word.
IMPL = re.compile(r"^impl(?:<[^{]*?>)? (?P<trait>[\w:]+)(?:<(?P<with>\w+)[^{]*>)? for (?:&(?:'\w+ )?)?(?P<type>\w+)", re.M)

ITEM = re.compile(r"(?m)^(?:pub(?:\(\w+\))? )?(?:const |unsafe |extern \"C\" )*(?:fn|struct|enum|trait|type|mod) (\w+)")
FOREIGN = re.compile(r"^\s*(?:pub |unfoldable |ghost )*use Rattle\.(?!serf_)[^{};\n]*?\{([^}]*)\}", re.M)
FOREIGN_RUST = re.compile(r"^\s*(?:pub )?use (?!crate|self|super|serf_)(\w+)(?:::\w+)*::(?:\{([^}]*)\}|(\w+));", re.M)

OWN = re.compile(r"^\s*(?:pub |unfoldable |ghost )*use Rattle\.serf_(\w+)\.([^;\n]*(?:\n[^\n]*?)*?)(?=\}|;|\n(?:\S|$))", re.M)
OWN_RUST = re.compile(r"^\s*(?:pub )?use serf_(\w+)::([^;]*);", re.M)

# What only a block of code of the crates has, and a line of a comment in it.
OF_CODE = re.compile(r"^\s*(?:abbrev|pub|data|record)\b|\bfn \w+\(|::", re.M)
COMMENT = re.compile(r"\s*(?:--|//|#|/?\*)")

# A variable that a format's string names.
SHOWN = re.compile(r"(?<=(?<!\{)\{)[a-z_]\w*(?=[:}])")

# Names of the language, of derives and of traits of std whose methods the repository's types have.
RESERVED = set(
    "as in data where fn let mut ref self Self match if else for while loop return use mod pub impl trait struct enum type const "
    "static move ghost ensures requires abbrev record with then cond refl".split()
)


def tracked():
    result = subprocess.run(["git", "ls-files", "-co", "--exclude-standard"], cwd=TOP, stdout=subprocess.PIPE, text=True, check=True)
    found = sorted(path for path in set(result.stdout.splitlines()) if not LEFT.search(path))
    return [path for path in found if os.path.isfile(os.path.join(TOP, path)) and not os.path.islink(os.path.join(TOP, path))]


def read(path):
    try:
        with open(os.path.join(TOP, path), encoding="utf-8") as file:
            return file.read()
    except UnicodeDecodeError:
        return None


def is_code(path):
    return path.endswith((".rt", ".rattle", ".antt", ".edits", ".edit"))


def pattern_of(path):
    return tokens.PROOF if path.endswith(".antt") else tokens.CODE


def code_of_edits(text):
    """The lines of a file of edits that are code, each with a blank in place of its key; a path is code too."""
    return "\n".join(re.sub(r"^\w+:", " ", line) for line in text.split("\n") if re.match(r"(file|turns|old|new|twin):", line))


class Tree:
    """The repository's files, with the identifiers of each crate."""

    def __init__(self):
        self.table = table.Table()
        self.texts = {path: text for path in tracked() if (text := read(path)) is not None}
        self.raw = self.table.raw
        self.words, self.foreign, self.foreign_names = {}, {}, set()
        modules = {f"{crate_of(path)}/{os.path.basename(path)[:-3]}" for path in self.texts if path.endswith(".rt")}
        for path, text in self.texts.items():
            crate = crate_of(path)
            if crate is None or not is_code(path):
                continue
            code = code_of_edits(text) if path.endswith((".edits", ".edit")) else text
            for pattern, _ in self.table.of_file(path).pairs:
                code = pattern.sub(" ", code)
            self.words.setdefault(crate, {})[path] = tokens.words_of(code, pattern_of(path))
            own = self.foreign.setdefault(crate, set())
            for found in FOREIGN.findall(text):
                self.add_foreign(own, re.split(r"[,\s]+", found))
            for library, many, one in FOREIGN_RUST.findall(text):
                if f"{crate}/{library}" not in modules:
                    self.add_foreign(own, re.split(r"[,\s:{}]+", many or one))
        self.vocabulary = {crate: set().union(*files.values()) for crate, files in self.words.items()}
        self.formats = set()
        for path, text in self.texts.items():
            if path.endswith(".rt") and crate_of(path):
                for kind, part in tokens.stretches(text, tokens.CODE):
                    self.formats.update(tokens.WORD.findall(part) if kind == "kept" and '"' in part else ())
        self.impls = {}
        for path, text in self.texts.items():
            if path.endswith(".rt") and crate_of(path):
                self.add_impls(path, text)
        self.union_memo, self.image_memo, self.unsure = {}, {}, {}

    def add_impls(self, path, text):
        """Adds the names that impls get: `impl Sink for MemSink` is `MemSinkSink`."""
        for found in IMPL.finditer(text):
            words = [found["type"], found["trait"].split("::")[-1]]
            new_words = [self.word_in(path, word) for word in words]
            old, new = ("".join(word[0].upper() + word[1:] for word in given) for given in (words, new_words))
            if old != new:
                self.impls.setdefault(crate_of(path), {})[old] = new

    def add_foreign(self, own, names):
        for name in names:
            if "-" in name:
                self.foreign_names.add(name)
            elif name:
                own.update(tokens.WORD.findall(name))

    # What a word becomes.

    def word_in(self, path, word):
        """What an identifier of a file becomes."""
        crate = crate_of(path)
        if word in self.raw:
            return self.raw[word]
        if word in self.impls.get(crate, ()):
            return self.impls[crate][word]
        return self.table.of_file(path).word(word) if word not in self.foreign.get(crate, ()) else word

    def union(self, path, word):
        """What an identifier becomes in a file that is of no crate: what it becomes in all crates that have it."""
        if word in self.raw:
            return self.raw[word]
        own = self.table.own_of(path)
        if word in own:
            return own[word]
        if word not in self.union_memo:
            # (no test uses the program's names)
            self.union_memo[word] = set().union(*(self.images(crate, word) for crate in self.words if crate != "replay_program"))
        images = self.union_memo[word]
        if len(images) > 1:
            self.unsure.setdefault(word, (images, set()))[1].add(path)
        return next(iter(images)) if len(images) == 1 else word

    def stretch(self, path, text, word):
        """A stretch of code, renamed."""
        pairs = self.table.of_file(path).pairs
        for number, (pattern, _) in enumerate(pairs):
            text = pattern.sub(f"\0{number}\0", text)

        def name(found):
            if "-" in found[0] and found[0] in self.foreign_names:
                return found[0]
            return tokens.WORD.sub(lambda part: word(path, part[0]), found[0])

        text = tokens.NAME.sub(name, text)
        return re.sub("\0(\\d+)\0", lambda found: pairs[int(found[1])][1], text)

    def prose(self, path, text, word):
        """Prose, renamed: what it quotes, and what can only be an identifier."""
        out = []
        for kind, part in tokens.quoted(text):
            if kind == "prose" or (path.endswith(".md") and not part.startswith("`") and not OF_CODE.search(part)):
                out.append(self.plain(path, part, word))
            elif path.endswith(".md") and part.startswith((" ", "```")):
                # (a block of code: its comments are prose)
                out += [self.plain(path, one, word) if COMMENT.match(one) else self.page(path, one, word) for one in part.splitlines(True)]
            else:
                out.append(self.page(path, part, word) if path.endswith(".md") else self.stretch(path, part, word))
        return "".join(out)

    def plain(self, path, text, word):
        def one(found):
            return word(path, found[0]) if tokens.is_unmistakable(found[0]) and found[0] not in self.formats else found[0]

        return tokens.WORD.sub(one, text)

    def page(self, path, text, word):
        """What a page quotes: the words of formats stay, unless a path says that they are items."""
        def one(path, found):
            return found if found in self.formats else word(path, found)

        text = re.sub(r"(?<=::)[A-Za-z_]\w*|[A-Za-z_]\w*(?=::)", lambda found: word(path, found[0]), text)
        return self.stretch(path, text, one)

    def code(self, path, text, word):
        """Code, renamed, its comments too."""
        out = []
        for kind, part in tokens.stretches(text, pattern_of(path)):
            if kind == "kept":
                # (a format's string names variables)
                out.append(SHOWN.sub(lambda found: word(path, found[0]), part) if not path.endswith(".antt") else part)
            else:
                out.append(self.stretch(path, part, word) if kind == "code" else self.prose(path, part, word))
        return "".join(out)

    def edits(self, path, text):
        lines = []
        for line in text.split("\n"):
            found = re.match(r"(file|turns|old|new|twin)(: ?)(.*)$", line)
            why = re.match(r"(why: )(.*)$", line)
            if found:
                # (a line that names a function begins with its module, as a line does that turns one)
                front = " " if found[1] == "turns" else ""
                lines.append(found[1] + found[2] + self.code(path, front + found[3], self.word_in)[len(front):])
            elif why:
                lines.append(why[1] + self.prose(path, why[2], self.word_in))
            else:
                lines.append(line)
        return "\n".join(lines)

    def raw_text(self, path, text):
        """Any other file: what means one thing everywhere, what the table has of this path, and paths of files."""
        rows = self.table.own_of(path)
        for old in sorted((old for old in rows if not tokens.WORD.fullmatch(old)), key=len, reverse=True):
            text = text.replace(old, rows[old])

        def one(found):
            return rows.get(found[0], self.raw.get(found[0], found[0]))

        for old, new in self.moves().items():
            for front in ("crates/", ""):
                if old.startswith(front) and old[len(front):] in text:
                    text = text.replace(old[len(front):], new[len(front):])
        return tokens.WORD.sub(one, text)

    def renamed(self, path, text):
        if path.endswith((".edits", ".edit")):
            return self.edits(path, text)
        if is_code(path):
            return self.code(path, text, self.word_in if crate_of(path) else self.union)
        if path.endswith(".md"):
            return self.prose(path, self.raw_text(path, text), self.union)
        return self.raw_text(path, text)

    # Paths.

    def moves(self):
        """The files that move, by their paths now."""
        if not hasattr(self, "moved"):
            self.moved = {}
            for path in self.texts:
                new = self.new_path(path)
                if new != path:
                    self.moved[path] = new
        return self.moved

    def new_path(self, path):
        crate = crate_of(path)
        if crate is None:
            return self.table.moves.get(path, path)
        front, *rest = path.split("/", 2)[1:]
        front = self.raw.get(front, front)
        if not is_code(path):
            return f"crates/{front}/{rest[0]}"
        components = rest[0].split("/")
        if len(components) > 1 and components[0] in ("src", "proofs"):
            stem, dot, end = components[1].partition(".")
            for own, old, new in self.table.modules:
                if own == crate and old == stem and (components[0] == "src" or not dot):
                    components[1] = new + dot + end
                    rest = [part if part.endswith((".rt", ".antt")) else self.stretch(path, part, self.word_in) for part in components[2:]]
                    return "/".join(["crates", front, *components[:2], *rest])
        last, dot, end = components[-1].rpartition(".")
        components[-1] = last
        new = [components[0], *(self.stretch(path, part, self.word_in) for part in components[1:])]
        return "crates/" + "/".join([front, *new]) + dot + end

    # What is wrong with the table.

    def faults(self):
        for crate, files in self.words.items():
            became = {}
            for path, words in files.items():
                for word in words:
                    became.setdefault(self.word_in(path, word), {}).setdefault(word, path)
            for new, olds in sorted(became.items()):
                if len(olds) > 1 and not self.is_shared(crate, new, olds, files):
                    yield f"serf_{crate}: {new} would be {', '.join(f'{old} ({path})' for old, path in sorted(olds.items()))}"
                if new in RESERVED and set(olds) != {new}:
                    yield f"serf_{crate}: {new}, which {', '.join(olds)} would be, is reserved"
        for scope, old, new in self.table.names:
            if old != new and "/" not in scope and tokens.WORD.fullmatch(old):
                for crate in scope.split(",") if scope != "*" else self.foreign:
                    if crate in self.foreign and old in self.foreign[crate]:
                        yield f"serf_{crate}: {old} comes from a library outside, and stays"
        for path, text in self.texts.items():
            if path.endswith(".rt") and crate_of(path):
                items = {}
                for item in set(ITEM.findall(text)):
                    items.setdefault(self.word_in(path, item).lower(), []).append(item)
                for item, olds in items.items():
                    if len(olds) > 1:
                        yield f"{path}: {' and '.join(olds)} would differ only in case, as {item}"
        yield from self.torn_imports()
        places = {}
        for path in self.texts:
            if crate_of(path):
                places.setdefault(self.new_path(path).lower(), []).append(path)
        for new, olds in places.items():
            if len(olds) > 1:
                yield f"{new}: {' and '.join(olds)} would be one file"

    def torn_imports(self):
        """Names that a crate imports from one below it, and that would be other names there."""
        for path, text in self.texts.items():
            crate = crate_of(path)
            if crate is None or not is_code(path):
                continue
            for pattern, _ in self.table.of_file(path).pairs:
                text = pattern.sub(" ", text)
            for other, names in [*OWN.findall(text), *OWN_RUST.findall(text)]:
                if other != crate and other in self.words:
                    for name in set(tokens.WORD.findall(names)):
                        there = self.images(other, name)
                        if there and self.word_in(path, name) not in there:
                            yield f"{path}: {name} would be {self.word_in(path, name)}, and in serf_{other} {' or '.join(sorted(there))}"

    def images(self, crate, word):
        """What an identifier becomes in the files of a crate that have it."""
        key = (crate, word)
        if key not in self.image_memo:
            self.image_memo[key] = {self.word_in(path, word) for path, words in self.words[crate].items() if word in words}
        return self.image_memo[key]

    def is_shared(self, crate, new, olds, files):
        """Whether two identifiers of a crate may become one: the table says that they are of other files, and they are."""
        if not any(scope == crate and new in (old, to) for scope, old, to in self.table.shared):
            return False
        return not any(sum(self.word_in(path, old) == new for old in olds.keys() & words) > 1 for path, words in files.items())


def left_behind(tree):
    """The files of crates whose folder moves that are made of others, and so aren't renamed: they move as they are."""
    result = subprocess.run(["git", "ls-files", "crates"], cwd=TOP, stdout=subprocess.PIPE, text=True, check=True)
    for path in result.stdout.splitlines():
        front = path.split("/")[1]
        if front in tree.raw and path not in tree.texts:
            yield path, path.replace(front, tree.raw[front], 1)


def main(words):
    tree = Tree()
    if words == ["--list"]:
        for crate, vocabulary in tree.vocabulary.items():
            for path, names in tree.words[crate].items():
                pass
            for word in sorted(vocabulary, key=str.lower):
                news = {tree.word_in(path, word) for path, names in tree.words[crate].items() if word in names}
                if news != {word}:
                    print(f"{crate}\t{word}\t{' '.join(sorted(news))}")
        return 0
    faults = list(tree.faults())
    for fault in faults:
        print(fault)
    if faults or words == ["--check"]:
        print(f"{len(faults)} faults", file=sys.stderr)
        return 1 if faults else 0
    new = {path: tree.renamed(path, text) for path, text in tree.texts.items()}
    changed = [path for path in new if new[path] != tree.texts[path]]
    for path in changed:
        with open(os.path.join(TOP, path), "w", encoding="utf-8") as file:
            file.write(new[path])
    for old, to in {**tree.moves(), **dict(left_behind(tree))}.items():
        os.makedirs(os.path.dirname(os.path.join(TOP, to)), exist_ok=True)
        os.rename(os.path.join(TOP, old), os.path.join(TOP, to))
    for folder, _, _ in sorted(os.walk(os.path.join(TOP, "crates")), reverse=True):
        if not os.listdir(folder):
            os.rmdir(folder)
    for word, (images, paths) in sorted(tree.unsure.items()):
        print(f"unsure: {word} may be {' or '.join(sorted(images))} in {', '.join(sorted(paths))}", file=sys.stderr)
    print(f"{len(changed)} files changed, {len(tree.moves())} moved")
    return 0


if __name__ == "__main__":
    try:
        sys.exit(main(sys.argv[1:]))
    except BadTable as bad:
        print(bad, file=sys.stderr)
        sys.exit(2)
