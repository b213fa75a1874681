"""What the check of an edit reads: a hash of everything that can be reached by imported names, step by step, from what it edits.

An edit's hash covers

- its own texts, and the line of crates.txt of its crate;
- the edited functions: their bodies, contracts and attributes;
- their proof files, and the lemma files that these import, and so on. A file is hashed without its imports, but with the origin
  of each imported name that it uses, however many files of proofs re-export the name;
- each definition of specs/, type, trait, constant and contract that can be reached from these by names. Each name means what its
  own file imports under it, in the crate and in the crates below it. A type reaches those of its methods whose names are in
  the edited function, and the whole of its trait impls. An impl of one of the repository's own traits counts only if the trait is
  reached, or one of the impl's functions is named in the edited function.

Other bodies, other proofs, comments, layout and the texts of errors don't count. A hash can't see a set of lemmas that a tactic uses by
a wide name, or an instance that is found and not named. The gate's drawn share of all edits covers these.
"""

import hashlib
import os
import re

import edits

NAME = re.compile(r"[^\s(){}\[\],;:.&<>'\"=+*/|!?#`@^%~λ→≡≤∷∧∨¬×◌$-][^\s(){}\[\],;:.&'\"`@#]*")
WORD = re.compile(r"\w+")

# An import of a file of definitions or proofs, in such a file and in code.
USE = re.compile(r"^(?:pub |unfoldable )*use\s+([^\s{};]+?)(?:\.\{([^}]*)\})?(?:\s+as\s+(\S+))?$", re.M)
MOD = re.compile(r"(?:pub )?mod \S+$")
GHOST_USE = re.compile(r"ghost use\s+([^\s{};]+?)(?:\.\{([^}]*)\})?(?:\s+as\s+(\S+?))?;")
MODULE = re.compile(r"Rattle\.(serf_\w+)\.(specs|proofs)\.?(.*)")

# An import of code.
RUST_USE = re.compile(
    r"^\s*(?:pub(?:\([^)]*\))? )?use\s+((?:crate|super|self|serf_\w+)[\w:]*?)(?:::\{([^;]*)\}|::(\w+))?(?:\s+as\s+(\w+))?;", re.M
)

TRAIT = re.compile(r"(?:pub(?:\([^)]*\))? )?(?:unsafe )?trait\b")
IMPL_HEAD = re.compile(r"(pub(\(.*?\))? )?(unsafe )?impl\b")
NAMED_ITEM = re.compile(r"\b(?:fn|struct|enum|trait|const|static|type)\s+(\w+)")
SKIPPED = ("//", "#", " ", "}", "use ", "pub use", "ghost use", "mod ", "pub mod", "pub(crate) mod")


def sha(*texts):
    total = hashlib.sha256()
    for text in texts:
        total.update(text.encode())
        total.update(b"\0")
    return total.hexdigest()


# The text of an error, which thiserror's derive prints. What the derive writes has no contract, so no proof reads it.
ERROR_TEXT = re.compile(r'#\[error\("(?:[^"\\]|\\.)*"')


def plain_code(text):
    """Code without comments, layout, texts of errors, and hints to the compiler."""
    out = []
    for line in text.split("\n"):
        at = line.find("//")
        if at >= 0 and line[:at].count('"') % 2 == 0:
            line = line[:at]
        out.append(line)
    return ERROR_TEXT.sub('#[error(""', re.sub(r"#\[inline[^\]]*\] ?", "", " ".join(" ".join(out).split())))


def plain_proof(text):
    """A file of definitions or proofs without comments and blank lines. Its layout has a meaning."""
    out = []
    for line in text.split("\n"):
        at = 0 if line.startswith("-- ") or line == "--" else line.find(" -- ")
        out.append(line[:at].rstrip() if at >= 0 else line.rstrip())
    return "\n".join(line for line in out if line)


def one_line_uses(text):
    """A file of definitions or proofs with each import on one line."""
    return re.sub(r"\n\s+(?=[^\n]*\})", " ", text)


def without_uses(text):
    """The lines of a file of proofs that are not imports, and name no other file."""
    return "\n".join(line for line in one_line_uses(text).split("\n") if not USE.match(line) and not MOD.match(line))


def without_bodies(text):
    """Code without the bodies of its functions, except const functions."""
    lines, out, at = text.split("\n"), [], 0
    while at < len(lines):
        function = edits.FUNCTION.match(lines[at])
        body = body_at(lines, at) if function and "const" not in function[2] else None
        if body:
            out += [*lines[at : body[0] + 1], lines[body[1]]]
            at = body[1] + 1
        else:
            out.append(lines[at])
            at += 1
    return "\n".join(out)


def body_at(lines, at):
    try:
        return edits.body_at(lines, at)
    except ValueError:
        return None


def functions_of(text):
    """Each function of a file with its whole text, including attributes."""
    lines, at = text.split("\n"), 0
    while at < len(lines):
        function = edits.FUNCTION.match(lines[at])
        body = body_at(lines, at) if function else None
        if body:
            begin = at
            while begin and re.match(r"\s*#\[", lines[begin - 1]):
                begin -= 1
            yield function[3], "\n".join(lines[begin : body[1] + 1])
            at = body[1] + 1
        else:
            at += 1


def definitions_of(text):
    """The definitions of a file of specs/: the names that reach each, and its text. Imports have no names."""
    groups = []
    for line in plain_proof(text).split("\n"):
        if line.startswith((" ", "\t", "}")) and groups:
            groups[-1].append(line)
        else:
            groups.append([line])
    by_name = {}
    for group in groups:
        if re.match(r"(pub |unfoldable )*use\b|pub mod|mod ", group[0]):
            continue
        words = re.sub(r"^((?:pub|abbrev|unfoldable|opaque|data|record|ruleset|infix[lr]? \d+|unfolding)\s+)*", "", group[0])
        name = re.match(r"[^\s(){}:]+", words)
        by_name.setdefault(name[0] if name else group[0], []).append("\n".join(group))
    for name, texts in by_name.items():
        names = {name, *name.split("◌")} - {""}
        if re.match(r"(pub |abbrev )*(data|record)", texts[0]):
            names |= set(re.findall(r"^\s+(?:\| )?([^\s:(){}]+)\s*:", texts[0], re.M))
        yield names, "\n".join(texts)


def names_of(edit):
    """The names of the functions that an edit changes, without their modules."""
    return {name.split("::")[-1] for name in edit.functions}


class Sources:
    """The sources of all crates. Each file is read once."""

    def __init__(self, top):
        self.uses, self.lines, self.texts = {}, {}, {}
        with open(os.path.join(top, "crates.txt"), encoding="utf-8") as file:
            for line in file:
                if ":" in line and not line.startswith("#"):
                    name, _, words = line.partition(":")
                    self.uses[name.split()[0]], self.lines[name.split()[0]] = words.split(), " ".join(line.split())
        for crate in self.uses:
            for part in ("src", "specs", "proofs"):
                for folder, _, names in os.walk(os.path.join(top, "crates", crate, part)):
                    for name in names:
                        path = os.path.join(folder, name)
                        with open(path, encoding="utf-8") as file:
                            self.texts[os.path.relpath(path, os.path.join(top, "crates"))] = file.read()
        self.by_crate = {}
        for path in sorted(self.texts):
            crate, part, _ = path.split("/", 2)
            self.by_crate.setdefault((crate, part), []).append(path)
        self.below_memo, self.function_texts = {}, {}

    def files(self, crate, *parts):
        return [path for part in parts for path in self.by_crate.get((crate, part), [])]

    def below(self, crate):
        """The crates below a crate, directly or indirectly."""
        if crate not in self.below_memo:
            found = {}
            for name in self.uses.get(crate, []):
                if name in self.uses:
                    found.update(dict.fromkeys([name, *self.below(name)]))
            self.below_memo[crate] = sorted(found)
        return self.below_memo[crate]

    def attributes(self, path, functions):
        """The texts of a file of code in which attributes may name lemmas: those of these functions, and what is in no function; or all
        of it, if there are no functions."""
        text = self.texts[path]
        if functions is None or "crate::proofs::" not in text:
            return [text]
        if path not in self.function_texts:
            self.function_texts[path] = list(functions_of(text))
        own = self.function_texts[path]
        outside = text
        for _, part in own:
            outside = outside.replace(part, "", 1)
        return [outside, *(part for name, part in own if name in functions)]

    def proof_files(self, crate, edit):
        """The proof files of the functions that an edit changes, and the lemma files that these import, directly or indirectly."""
        base = f"{crate}/proofs/"
        proofs = self.files(crate, "proofs")
        found = [path for path in proofs for name in edit.functions if path.startswith(base + name.replace("::", "/") + "/")]
        is_in_cycle = any(
            "/+" in path and path.startswith(base + name.rpartition("::")[0].replace("::", "/"))
            for path in proofs
            for name in edit.functions
        )
        if edit.is_definition or is_in_cycle:
            found += [path for path in proofs if "/+" in path or "/laws/" in path]
        # An attribute of an edited function, or of the crate, may name lemmas. A definition is read by other functions as well.
        attributes = [
            text for path in self.files(crate, "src") for text in self.attributes(path, None if edit.is_definition else names_of(edit))
        ]
        named = [re.findall(r"crate::proofs::([\w:]+)", text) for text in attributes]
        found += [base + name.rpartition("::")[0].replace("::", "/") + ".antt" for names in named for name in names]
        found = [path for path in dict.fromkeys(found) if path in self.texts]
        for path in found:
            for module in re.findall(rf"Rattle\.{crate}\.proofs\.([\w.+-]+)", self.texts[path]):
                other = base + module.rstrip(".").replace(".", "/") + ".antt"
                if other in self.texts and other not in found:
                    found.append(other)
        return sorted({*found, *({base + "Lib.antt"} & self.texts.keys())})


class Reach:
    """What each name reaches, over the sources of all crates."""

    def __init__(self, top):
        self.sources = Sources(top)
        # The text of each item, by its key, and the file that contains it.
        self.items = {}
        # The items that a name in a crate's code stands for, and the methods of a crate's types.
        self.code, self.methods = {}, {}
        # The traits of the repository, the trait of each impl, and the names of its functions.
        self.own_traits, self.impls, self.called = set(), {}, {}
        # For each file: what it imports, what it imports whole or as an operator, its own definitions, and its crate.
        self.files = {}
        # For each file of proofs: the origin of each name that it imports, or each module that it imports whole.
        self.origins = {}
        # For each file of code: what its imports of code stand for, and the attributes of the whole file.
        self.rust = {}
        self.memo = {}
        for crate in self.sources.uses:
            for file in self.sources.files(crate, "specs", "proofs"):
                self.read_proof(crate, file)
            for file in self.sources.files(crate, "src"):
                self.read_code(crate, file)

    @staticmethod
    def imports_of(text, pattern):
        """What each imported name stands for: its crate, part, module and name there, None for the whole module."""
        found, always = {}, set()
        for use in pattern.finditer(text):
            module = MODULE.match(use[1])
            if not module:
                continue
            crate, part, path = module[1], module[2], module[3].rstrip(".")
            if use[2] is None:
                found[use[3] or path.split(".")[-1]] = (crate, part, path, None)
                always.add((crate, part, path, None))
                continue
            for word in filter(None, (word.strip() for word in use[2].split(","))):
                name, _, local = word.partition(" as ")
                target = (crate, part, path, name.strip())
                local = (local or name).strip()
                found[local] = target
                if "◌" in local:
                    always.add(target)
        return found, always

    @staticmethod
    def origins_of(uses):
        """Each name that a file gets from imports, with the module that it is from, and its name there."""
        for use in USE.finditer(uses):
            if use[2] is None:
                yield use[3] or use[1].split(".")[-1], (use[1], None)
                continue
            for word in filter(None, (word.strip() for word in use[2].split(","))):
                name, _, local = word.partition(" as ")
                yield (local or name).strip(), (use[1], name.strip())

    def origin(self, module, name, depth=0):
        """The origin of an imported name, however many files of proofs re-export it."""
        passing = re.match(r"Rattle\.(serf_\w+)\.proofs\.(.+)$", module)
        own = self.origins.get(f"{passing[1]}/proofs/{passing[2].replace('.', '/')}.antt", {}) if passing else {}
        return self.origin(*own[name], depth + 1) if name in own and depth < 6 else f"{module} {name}"

    def read_proof(self, crate, file):
        text = self.sources.texts[file]
        uses = one_line_uses(plain_proof(text))
        imports, always = self.imports_of(uses, USE)
        own = {}
        _, part, module = file[: -len(".antt")].split("/", 2)
        if part == "proofs":
            self.origins[file] = dict(self.origins_of(uses))
        if part == "specs":
            for number, (names, item) in enumerate(definitions_of(text)):
                key = ("definition", crate, module.replace("/", "."), number)
                self.items[key] = (file, item)
                for name in names:
                    own.setdefault(name, []).append(key)
        self.files[file] = (imports, always, own, crate)

    def read_code(self, crate, file):
        text = self.sources.texts[file]
        imports, always = self.imports_of(text, GHOST_USE)
        self.files[file] = (imports, always, {}, crate)
        lines = without_bodies(text).split("\n")
        code = self.code_imports(crate, text)
        self.rust[file] = (code, " ".join(line for line in lines if line.startswith("#![")))
        at = 0
        while at < len(lines):
            if not lines[at] or lines[at].startswith(SKIPPED):
                at += 1
                continue
            end = at
            while end + 1 < len(lines) and not (
                lines[end] == "}" or (lines[end].endswith((";", "{}", "}")) and not lines[end].startswith(" "))
            ):
                end += 1
            begin = at
            while begin and lines[begin - 1].startswith(("#[", "//")):
                begin -= 1
            self.add_item(crate, file, lines[begin : end + 1], lines[at], begin, code)
            at = end + 1

    @staticmethod
    def code_imports(crate, text):
        """What each imported name of code stands for: its crate, and its name there."""
        code = {}
        for use in RUST_USE.finditer(re.sub(r"//.*", "", text)):
            other = use[1].split("::")[0]
            other = crate if other in ("crate", "super", "self") else other
            words = [use[3]] if use[3] else re.findall(r"\w+(?: as \w+)?", use[2] or use[1].split("::")[-1])
            for word in words:
                name, _, local = word.partition(" as ")
                code[use[4] or local or name] = (other, name)
        return code

    def add_item(self, crate, file, block, head, begin, code):
        """Adds an item of code. An impl is added to its type, and anything else under its own name."""
        if not IMPL_HEAD.match(head):
            name = NAMED_ITEM.search(head)
            key = ("item", crate, file, begin)
            self.items[key] = (file, plain_code("\n".join(block)))
            if name:
                self.code.setdefault((crate, name[1]), set()).add(key)
            if TRAIT.match(head):
                self.own_traits.add((crate, name[1]))
            return
        top = " ".join(block[block.index(head) :]).split("{")[0]
        is_trait = re.search(r"\bfor\b", top) is not None
        of = re.sub(r"^.*?\bfor\b", "", top) if is_trait else re.sub(r"^\s*impl(<[^{]*?>)?(?=\s)", "", top)
        owner = re.search(r"[A-Z]\w*", of)
        owner = owner[0] if owner else "?"
        owner = code.get(owner, (crate, owner))
        if not is_trait:
            self.add_methods(crate, file, block, owner, begin)
            return
        key = ("item", crate, file, begin)
        self.items[key] = (file, plain_code("\n".join(block)))
        self.code.setdefault(owner, set()).add(key)
        # If a trait is implemented for a foreign type, the impl is reached by the trait's name.
        trait = re.search(r"([A-Z]\w*)(?:<[^{]*?>)?\s+for\b", top)
        if trait:
            trait = code.get(trait[1], (crate, trait[1]))
            self.code.setdefault(trait, set()).add(key)
            self.impls[key] = trait
            self.called[key] = {function[3] for function in map(edits.FUNCTION.match, block) if function}

    def add_methods(self, crate, file, block, owner, begin):
        """Adds a type's own impl: each method, with the head of the impl, by its own name, and what else the impl has with the type."""
        head = " ".join(block).split("{")[0]
        rest, at = [], 0
        while at < len(block):
            function = edits.FUNCTION.match(block[at])
            if not function or not at:
                rest.append(block[at])
                at += 1
                continue
            start = end = at
            while start and re.match(r"\s+(#\[|//)", block[start - 1]):
                start -= 1
            while end + 1 < len(block) and not re.match(r"    \}$|.*(\{\}|;)$", block[end]):
                end += 1
            key = ("item", crate, file, begin, at)
            self.items[key] = (file, plain_code("\n".join([head, *block[start : end + 1]])))
            self.methods.setdefault(owner, {}).setdefault(function[3], set()).add(key)
            at = end + 1
        if re.search(r"\{\s*\}$", plain_code("\n".join(rest))):
            # Only methods: the head alone says nothing.
            return
        key = ("item", crate, file, begin)
        self.items[key] = (file, plain_code("\n".join(rest)))
        self.code.setdefault(owner, set()).add(key)

    def named(self, crate, part, module, name, depth=0):
        """What a name of a module stands for: definitions, or names of code."""
        if part == "proofs":
            # The module of a function, or a lemma file (which is followed as a file), or a name that a lemma file re-exports.
            file = f"{crate}/proofs/{module.replace('.', '/')}.antt"
            if file not in self.sources.texts:
                return [("name", (crate, word)) for word in module.split(".")[-2:]]
            passed = self.files[file][0].get(name) if file in self.files and depth < 6 else None
            return self.named(*passed, depth + 1) if passed else []
        if module.startswith(("declared.", "contracts.")):
            words = [word for word in module.split(".")[1:] if not word.startswith("The")]
            return [("name", (crate, word)) for word in [*words[-1:], *([name] if name else [])]]
        file = f"{crate}/specs/{module.replace('.', '/')}.antt"
        if file in self.files:
            imports, _, own, _ = self.files[file]
            if name in own:
                return own[name]
            if name in imports and depth < 6:
                return self.named(*imports[name], depth + 1)
            return [key for keys in own.values() for key in keys]
        # The name is re-exported from a crate below.
        for other in self.sources.below(crate):
            if f"{other}/specs/{module.replace('.', '/')}.antt" in self.files:
                return self.named(other, part, module, name, depth + 1)
        return []

    def reached_by(self, file, text):
        """What the names in a text reach, by the imports of its file."""
        imports, always, own, crate = self.files[file]
        names = set(NAME.findall(text)) | set(WORD.findall(text))
        found = set()
        for name in names & imports.keys():
            found.update(self.named(*imports[name]))
        for target in always:
            is_named = target[3] is not None or target[2].split(".")[-1] in names
            if is_named or any(local in names for local, other in imports.items() if other == target):
                found.update(self.named(*target))
        for name in own:
            if name in names or ("◌" in name and any(part in names for part in name.split("◌") if part)):
                found.update(own[name])
        if file in self.rust:
            code, _ = self.rust[file]
            for name in names:
                if name in code:
                    found.add(("name", code[name]))
                elif (crate, name) in self.code:
                    found.add(("name", (crate, name)))
            found.update(("name", other) for other in re.findall(r"\b(serf_\w+)::(\w+)", text))
        return found

    def once(self, key, call):
        if key not in self.memo:
            self.memo[key] = call()
        return self.memo[key]

    def starts_of(self, crate, edit):
        """The texts with which an edit's check begins, what they reach, and the words of the edited functions."""
        sources, said, todo, words = self.sources, [repr((edit.pairs, edit.functions))], set(), set()
        names = {name.split("::")[-1] for name in edit.functions}
        owners = {name.split("::")[-2] for name in edit.functions if "::" in name}
        todo.update(("name", key) for key in self.code if key[0] == crate and key[1] in owners)
        news = " ".join(new for _, _, new in edit.pairs)
        for file in sources.files(crate, "src"):
            own = [
                text
                for name, text in self.once(("functions", file), lambda file=file: list(functions_of(sources.texts[file])))
                if name in names
            ]
            if own or self.rust[file][1]:
                said.append(f"{file} {self.rust[file][1]}")
            for text in map(plain_code, own):
                said.append(text)
                todo.update(self.reached_by(file, f"{text} {news}"))
                words.update(WORD.findall(f"{text} {news}"))
        if edit.is_definition:
            for file, _, new in edit.pairs:
                todo.update(self.reached_by(f"{crate}/{file}", new))
                todo.update(key for keys in self.files[f"{crate}/{file}"][2].values() for key in keys)
        for file in sources.proof_files(crate, edit):
            text, reached = self.once(("file", file), lambda file=file: self.said_by_proof(file))
            said += [text] if text else []
            todo.update(reached)
        return said, todo, words

    def said_by_proof(self, file):
        """The content of a file of proofs: its lines, and the origins of the names in them; and what they reach. A file that only
        re-exports names has no content."""
        text = without_uses(plain_proof(self.sources.texts[file]))
        if not text:
            return "", set()
        names = set(NAME.findall(text)) | set(WORD.findall(text))
        used = {
            name: origin
            for name, origin in self.origins[file].items()
            if name in names or any(part in text for part in name.split("◌") if part and "◌" in name)
        }
        places = [f"{name} {self.origin(*used[name])}" for name in sorted(used)]
        return "\n".join([file, *places, text]), self.reached_by(file, text)

    def sum_of(self, crate, edit):
        """The hash of everything that the check of a crate's edit reads."""
        said, todo, words = self.starts_of(crate, edit)
        if any(edit.twins):
            said.append(repr(edit.twins))
        # A trait of the crate may have impls in crates above.
        allowed = {crate, *self.sources.below(crate)}
        done, found, waiting = set(), set(), set()
        while todo:
            key = todo.pop()
            if key in done:
                continue
            if self.waits(key, done, words):
                waiting.add(key)
            else:
                done.add(key)
                if key[0] == "name":
                    todo.update(self.of_name(key[1], words))
                elif key[1] in allowed:
                    found.add(key)
                    todo.update(self.once(key, lambda key=key: self.reached_by(*self.items[key])))
            if not todo:
                todo.update(key for key in waiting if not self.waits(key, done, words))
                waiting -= todo
        return sha(self.sources.lines[crate], *said, *sorted("\n".join(self.items[key]) for key in found))

    def waits(self, key, done, words):
        """Whether an item is an impl of a trait of the repository that is neither reached nor called so far."""
        trait = self.impls.get(key)
        return trait in self.own_traits and ("name", trait) not in done and not self.called[key] & words

    def of_name(self, name, words):
        """The items that a name in a crate's code stands for, with those methods of a type that these words name."""
        found = set(self.code.get(name, ()))
        own_methods = self.methods.get(name, {})
        for method in words & own_methods.keys():
            found |= own_methods[method]
        if name not in self.code:
            # Another crate re-exports the name: take it as it is in any crate below.
            found |= {("name", (other, name[1])) for other in self.sources.below(name[0]) if (other, name[1]) in self.code}
        return found
