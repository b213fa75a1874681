"""Each public function of the crates is called outside its own body: by a crate, a test, a benchmark or a binding.

A function that nobody calls is proved at each run of the gate for nothing, and no test notices what it does. A call of a function
is its name before a bracket or as an argument, or a path that ends in it; a call of a method is its name after a point, whatever
the receiver. Names in contracts, comments, texts and imports don't count. A function for C has to be called by a source in C, Go,
Python or Rust.

A law takes nothing and returns nothing, and has clauses alone. It is also used if a proof cites its clauses, if a page of docs/
states it as a promise, or if a wrong body names it as what refuses a definition. STATED has the laws that only the reader uses.
"""

import glob
import os
import re
import sys
from collections import defaultdict

sys.dont_write_bytecode = True
sys.path.insert(0, os.path.dirname(os.path.dirname(os.path.abspath(__file__))))
import checks
from checks import TOP

# The laws that no code, proof, page or wrong body names, and what each says to the reader of its crate.
STATED = {
    "serf_draw::coded_laws": "no text breaks out of its place in a diagram of Mermaid",
    "serf_draw::escape_laws": "no text breaks out of its place in a picture",
    "serf_model::handed_queries": "a delivery and a merge leave the queries that were handed to their agent",
    "serf_packets::know_texts_tell_apart": "two packets with one text are one packet",
    "serf_schedule::lines_grow": "how a schedule grows with each line that is read",
    "serf_wire::canonical_intents": "what `encode_intent` writes is read back",
    "serf_wire::exact_filters": "the filters of contracts are the relation `Passes`",
    "serf_wire::exact_intents": "reading an intent is exact",
    "serf_timeline::escape_laws": "no text breaks out of its place in a page",
}

COMMENT = re.compile(r"//[^\n]*|b?\"(?:\\.|[^\"\\])*\"|b?'(?:\\.|[^'\\])'", re.S)

# How a clause and an import begin. A clause ends with the brace that closes it, an import with its semicolon.
CLAUSE = re.compile(r"\s*(?:pub )?(?:requires|ensures|ghost(?! use))\b")
IMPORT = re.compile(r"\s*(?:pub(?:\([^)]*\))? |ghost )?use\b")

# The head of an impl or of a trait, and the head of a function.
BLOCK = re.compile(
    r"(?P<pub>pub )?(?:pub\(\w+\) )?(?P<kind>impl|trait)(?:<[^{]*?>)? "
    r"(?:[\w:]+(?:<[^{]*?>)? for )?(?:&(?:'\w+ )?)?(?P<type>\w+)"
)
FUNCTION = re.compile(
    r'\s*(?P<pub>pub )?(?:pub\(\w+\) )?(?:const )?(?:unsafe )?(?P<c>extern "C" )?fn (?P<name>\w+)'
    r"(?P<law>\(\)\s*(?:\{.*)?$)?"
)

# A name with what is before it and after it: a point, a path, a bracket that calls it, or what is around an argument.
NAME = re.compile(
    r"(?P<point>\.\s*)?(?P<path>(?<=[\w>])\s*::\s*)?\b(?P<name>[a-z]\w*)\b"
    r"(?P<call>(?:::<[^;{}()]*>)?\()?(?=(?P<comma>\s*[,)])?)"
)

SOURCES = ("crates/*/src/**/*.rt", "tests/**/*.rattle", "bench/**/*.rattle")
HOSTS = ("bindings/**/*.[ch]", "bindings/**/*.go", "bindings/**/*.py", "bindings/**/*.rs", "conformance/c/*.c", "tests/library/**/*.c")


def code_of(text):
    """A source without its comments, texts, contracts and imports. It keeps its lines."""
    # (a mark in place of the C of `extern "C"` keeps those functions apart)
    text = COMMENT.sub(lambda part: part[0] if part[0] == '"C"' else "\n" * part[0].count("\n"), text)
    found, braces, is_import = [], 0, False
    for line in text.split("\n"):
        is_clause = bool(braces or CLAUSE.match(line))
        is_import = is_import or bool(IMPORT.match(line))
        if is_clause:
            braces += line.count("{") - line.count("}")
        found.append("" if is_clause or is_import else line)
        is_import = is_import and ";" not in line
    return "\n".join(found)


def end_of(lines, at):
    """The last line of the function whose head is in line `at`."""
    indent = len(lines[at]) - len(lines[at].lstrip())
    for number in range(at + 1, len(lines)):
        words, own = lines[number].strip(), len(lines[number]) - len(lines[number].lstrip())
        if words in ("}", "{}") and own == indent:
            return number
        if words and own <= indent and words != "{" and not words.startswith((")", "where")):
            return number - 1
    return len(lines) - 1


class Function:
    """A function: its file and lines, its type if it has one, and whether it is public, for C, or a law."""

    def __init__(self, file, lines, at, head, block):
        self.file, self.name, self.begin, self.end = file, head["name"], at, end_of(lines, at)
        self.owner = block["type"] if block else None
        self.is_public = bool(head["pub"] or block and block["kind"] == "trait" and block["pub"])
        self.is_for_c, self.is_law = bool(head["c"]), bool(head["law"] and not self.owner)

    def __str__(self):
        return f"{self.file}:{self.begin + 1}: {self.owner + '::' if self.owner else ''}{self.name}"

    def is_called_by(self, file, at, name):
        """Whether a name in this line of a source calls the function."""
        if file == self.file and self.begin <= at <= self.end:
            return False
        if self.owner:
            return bool(name["path"] or name["point"] and name["call"])
        return not name["point"] and bool(name["path"] or name["call"] or name["comma"])


def functions_of(file, code):
    """The functions of a source, in order."""
    block, lines = None, code.split("\n")
    for at, line in enumerate(lines):
        if line[:1].strip():
            block = BLOCK.match(line)
        head = FUNCTION.match(line)
        if head:
            yield Function(file, lines, at, head, block)


def names_in(sources):
    """Where each name is used in these sources: the file, the line, and what is around it."""
    found = defaultdict(list)
    for file, code in sources.items():
        for at, line in enumerate(code.split("\n")):
            for name in NAME.finditer(line):
                if not line[: name.start("name")].endswith("fn "):
                    found[name["name"]].append((file, at, name))
    return found


def uncalled(sources, hosts, words):
    """Each public function of these sources, and whether it has no caller: in the sources, in a host's text, or for a law,
    in the words of proofs, pages and wrong bodies."""
    code = {file: code_of(text) for file, text in sources.items()}
    names = names_in(code)
    for file in code:
        for function in functions_of(file, code[file]) if file.startswith("crates/") else ():
            if function.is_for_c:
                yield function, not re.search(rf"\b{function.name}\s*\(", hosts)
            elif function.is_public:
                is_called = any(function.is_called_by(*use) for use in names[function.name])
                yield function, not is_called and not (function.is_law and function.name in words)


def texts_of(kinds):
    return {path: checks.text_of(path) for kind in kinds for path in sorted(glob.glob(kind, root_dir=TOP, recursive=True))}


def cited():
    """The names whose clauses proofs cite, that pages of docs/ have in backquotes, and that wrong bodies turn."""
    proofs = "\n".join(texts_of(["crates/*/proofs/**/*.antt"]).values())
    pages = "\n".join(texts_of(["docs/*.md"]).values())
    bodies = "\n".join(texts_of(["crates/*/mutants/*"]).values())
    turned = " ".join(re.findall(r"^turns: (.*)$", bodies, re.M))
    return {*re.findall(r"\b(\w+)\.ensures\b", proofs), *re.findall(r"`(?:\w+::)*(\w+)`", pages), *re.findall(r"\w+", turned)}


def called(count):
    sources = texts_of(SOURCES)
    stated = set()
    for function, is_lacking in uncalled(sources, "\n".join(texts_of(HOSTS).values()), cited()):
        name = f"{function.file.split('/')[1]}::{function.name}"
        if is_lacking and function.is_law and name in STATED:
            stated.add(name)
            is_lacking = False
        count.check(str(function), not is_lacking, "nobody calls it: remove it, or test it")
    for name in STATED:
        count.check(f"{name} is only stated", name in stated, "it is used or was removed: remove its row")


# A crate's source, another crate's, and what hosts call. The name of each function says whether it is called.
CRATE = '''
/// Calls lost_by_a_comment(1).
pub fn lost_by_a_comment(n: u64) -> u64
    ensures { result ≡ lost_in_a_clause(n) }
{
    n
}
pub fn lost_in_a_clause(n: u64) -> u64 {
    if n == 0 { 0 } else { lost_in_a_clause(n - 1) }
}
pub fn lost_in_a_text() {
    let said = "lost_in_a_text()";
    used_next_door();
}
pub fn used_next_door() {}
pub fn lost_as_a_method() {}
pub fn lost_by_a_namesake() {}
pub fn used_as_an_argument(n: u64) -> u64 { n }
pub fn used_by_a_path(n: u64) -> u64 { n }
pub fn used_by_a_test(n: u64) -> u64 { n }
fn own(n: u64) -> u64 { n }
pub(crate) fn inner(n: u64) -> u64 { n }
pub struct Packet { lost_as_a_field: u64 }
impl Packet {
    pub fn lost_as_a_field(&self) -> u64
        ensures { result ≡ self.lost_as_a_field }
    {
        self.lost_as_a_field
    }
    pub fn lost_but_for_a_variable(&self) -> u64 { 0 }
    pub fn used_after_a_point(&self) -> u64 { 0 }
    pub fn used_on_its_type() -> u64 { 0 }
}
pub trait Job {
    fn used_of_a_trait(
        &mut self,
        text: &mut Vec<u8>,
    ) -> u64
        ensures done { text.new ≡ text.old };
    fn lost_of_a_trait(&self) -> u64;
}
impl<J: Job> Job for Wrapped<J> {
    fn used_of_a_trait(&mut self, text: &mut Vec<u8>) -> u64 {
        self.0.used_of_a_trait(text)
    }
    fn lost_of_a_trait(&self) -> u64 { 0 }
}
pub extern "C" fn used_for_c(n: u64) -> u32 { 0 }
pub extern "C" fn lost_for_c(n: u64) -> u32 { 0 }
pub fn used_law_in_code()
    ensures { Laws }
{}
pub fn used_law_in_a_proof()
    ensures { Laws }
{}
pub fn lost_law()
    ensures { Laws }
{}
'''
OTHER = '''
use serf_crate::{lost_by_a_comment, used_by_a_path};
pub use serf_crate::lost_in_a_text;
fn main() {
    each(texts, used_as_an_argument);
    let read = serf_crate::used_by_a_path;
    let lost_but_for_a_variable = packet
        .used_after_a_point();
    let lost_in_a_text = Packet::used_on_its_type() + packet.lost_as_a_field;
    used_law_in_code();
    packet.lost_as_a_method();
}
fn lost_by_a_namesake() {}
'''
TEST = "fn a_test() {\n    assert(used_by_a_test::<u64>(1) == 1);\n}\n"


def planted(count):
    sources = {"crates/serf_crate/src/a.rt": CRATE, "crates/serf_other/src/main.rt": OTHER, "tests/library/units/a.rattle": TEST}
    found = {function.name: is_lacking for function, is_lacking in uncalled(sources, "used_for_c(1);", {"used_law_in_a_proof"})}
    wanted = {name: name.startswith("lost") for name in re.findall(r"\b(?:lost|used)_\w+", CRATE)}
    for name, is_lacking in wanted.items():
        count.check(f"planted: {name}", found.get(name) == is_lacking, found.get(name))
    count.check("planted: no other is public", found.keys() == wanted.keys(), found.keys() ^ wanted.keys())


if __name__ == "__main__":
    sys.exit(checks.run(called, planted))
