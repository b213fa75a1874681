"""The header compared with the library: names, arguments, numbers and layouts; and with each binding's declarations."""

import ctypes
import os
import re
import sys

import c_library

sys.path.insert(0, os.path.join(c_library.TOP, "bindings", "python"))
from serf_agent import library as binding

RUST = os.path.join(c_library.TOP, "bindings", "rust", "src")
SYS = os.path.join(c_library.TOP, "bindings", "rust", "sys", "src")

# A number's type in Rattle and in Rust, and in C.
NUMBERS = {
    **{f"{sign}{bits}": f"{'u' if sign == 'u' else ''}int{bits}_t" for sign in "ui" for bits in (8, 16, 32, 64)},
    "usize": "size_t",
    "bool": "bool",
}
SIZES = {
    "size_t": 8, "bool": 1, "void *": 8, **{f"{u}int{bits}_t": bits // 8 for u in ("u", "") for bits in (8, 16, 32, 64)}
}


class Header:
    """What include/serf_agent.h declares: functions with their arguments' types, structs with their fields, numbers."""

    def __init__(self, path):
        with open(path, encoding="utf-8") as file:
            text = re.sub(r"/\*.*?\*/", "", file.read(), flags=re.S)
        text = re.sub(r"struct \{\s*void \*at;\s*\} place;", "void *place;", text)
        self.functions = {
            name: (result, [self.type_of(one) for one in words.split(",")]) for result, name, words in re.findall(
                r"^(\w+) (serf_agent_\w+)\(([^)]*)\);", text, re.M
            )
        }
        self.structs = {
            name: [
                (re.search(r"(\w+)$", field)[1], self.type_of(field))
                for field in map(str.strip, body.split(";"))
                if field
            ]
            for name, body in re.findall(r"^struct (\w+) \{(.*?)\};", text, re.M | re.S)
        }
        self.version = int(re.search(r"^#define SERF_AGENT_VERSION (\d+)$", text, re.M)[1])
        self.numbers = {
            name: int(value)
            for body in re.findall(r"^enum \w+ \{(.*?)\};", text, re.M | re.S)
            for name, value in re.findall(r"(\w+) = (\d+)", body)
        }

    @staticmethod
    def type_of(declared):
        """A declaration's type, without its name."""
        return re.sub(r"\s+", " ", re.sub(r"\w+$", "", declared.strip())).strip()


def layout_in_c(places, header):
    """The sizes of the structs and the places of their fields, and the numbers, as the C compiler has them."""
    lines = []
    for name, fields in header.structs.items():
        lines.append(f'    printf("{name} %zu\\n", sizeof(struct {name}));')
        lines += [f'    printf("{name}.{field} %zu\\n", offsetof(struct {name}, {field}));' for field, _ in fields]
    lines += [f'    printf("{name} %d\\n", {name});' for name in header.numbers]
    path = places.of("layout.c")
    with open(path, "w", encoding="utf-8") as file:
        file.write(
            '#include "serf_agent.h"\n#include <stdio.h>\nint main(void) {\n'
            + "\n".join(lines)
            + "\n    return 0;\n}\n"
        )
    status, said = c_library.ran(["cc", *c_library.STRICT, "-o", places.of("layout"), path])
    if status:
        raise RuntimeError(said)
    _, said = c_library.ran([places.of("layout")])
    return {name: int(value) for name, value in (line.split(" ") for line in said.split("\n")[:-1])}


def layout_of(name, fields):
    """The layout of a struct by the rules of C, from the types of its fields."""
    found, at, widest = {}, 0, 1
    for field, kind in fields:
        size = SIZES[kind]
        at = (at + size - 1) // size * size
        found[f"{name}.{field}"] = at
        at, widest = at + size, max(widest, size)
    found[name] = (at + widest - 1) // widest * widest
    return found


def compare_library(count, places, header):
    """The library's global functions are exactly those of the header."""
    status, output = c_library.ran(["nm", "-g", "--defined-only", places.library])
    names = set(re.findall(r" T (\w+)$", output, re.M))
    count.check(
        "the library's functions", status == 0 and names == set(header.functions), sorted(names ^ set(header.functions))
    )


class Declared:
    """What Rust-like sources declare: functions for C, and structs in C's layout."""

    def __init__(self, texts):
        text = re.sub(r"^ghost .*|//.*", "", "\n".join(texts), flags=re.M)
        self.structs = {}
        for name, body in re.findall(r"#\[repr\(C\)\]\s*(?:#\[[^\]]*\]\s*)*pub struct (\w+) \{(.*?)\n\}", text, re.S):
            self.structs[name] = re.findall(r"^\s*(?:pub(?:\([^)]*\))? )?(\w+): ([^,{]+),", body, re.M)
        found = re.findall(r"pub (?:extern \"C\" )?fn (serf_agent_\w+)\(([^)]*)\)(?: -> (\w+))?", text)
        self.functions = {
            name: (result, [word.strip() for word in words.split(",") if word.strip()]) for name, words, result in found
        }

    def c_types(self, words, structs):
        """The types in C of a function's arguments; `structs` has C's name for each struct."""
        found = []
        for word in words:
            kind = word.partition(":")[2].strip()
            pointer = re.fullmatch(r"(&mut |&|\*mut |\*const )(.*)", kind)
            if kind == "Global":
                # (it has no bytes: C passes nothing)
                continue
            listed = re.fullmatch(r"(&mut |&)\[(\w+)\]", kind)
            if listed:
                const = "const " if listed[1] == "&" else ""
                found += [f"{const}{NUMBERS.get(listed[2]) or 'struct ' + structs.get(listed[2], listed[2])} *", "size_t"]
            elif pointer:
                const = "const " if pointer[1] in ("&", "*const ") else ""
                found.append(f"{const}{NUMBERS.get(pointer[2]) or 'struct ' + structs.get(pointer[2], pointer[2])} *")
            else:
                found.append(NUMBERS.get(kind, kind))
        return found

    def c_fields(self, name):
        """A struct's fields with their types in C, without those that have no bytes."""
        found = []
        for field, kind in self.structs[name]:
            kind = kind.strip()
            if kind in self.structs:
                # (the one struct within another: a pointer, and a part without bytes)
                found += [(field, inner) for _, inner in self.c_fields(kind)]
            elif kind != "Global":
                found.append((field, "void *" if kind.startswith("*") else NUMBERS.get(kind, kind)))
        return found


def compare_declared(count, language, declared, header, layout):
    """A language's declarations: the same functions of the same types, and structs with the same fields and offsets."""
    structs = {}
    for name, (_, words) in declared.functions.items():
        kinds = [
            re.sub(r"^(&mut |&|\*mut |\*const )|[\[\]]", "", word.partition(":")[2].strip()) for word in words
        ]
        in_c = [
            re.search(r"struct (\w+)", kind)[1] for kind in header.functions.get(name, ("", []))[1] if "struct" in kind
        ]
        structs.update(zip([kind for kind in kinds if kind in declared.structs], in_c))
    count.check(
        f"{language}: the functions",
        set(declared.functions) == set(header.functions),
        sorted(set(declared.functions) ^ set(header.functions)),
    )
    for name, (result, words) in declared.functions.items():
        said = (NUMBERS.get(result, "void"), declared.c_types(words, structs))
        count.check(
            f"{language}: {name}",
            said == header.functions.get(name),
            f"{said}, and the header has {header.functions.get(name)}",
        )
    count.check(
        f"{language}: the structs",
        set(structs.values()) == set(header.structs),
        sorted(set(structs.values()) ^ set(header.structs)),
    )
    for name, in_c in structs.items():
        fields = declared.c_fields(name)
        # (the handle's own fields are private)
        same = (
            [kind for _, kind in fields] == [kind for _, kind in header.structs[in_c]]
            and (in_c == "serf_agent" or fields == header.structs[in_c])
        )
        count.check(f"{language}: struct {in_c}", same, f"{fields}, and the header has {header.structs[in_c]}")
        own = layout_of(in_c, [(field, kind) for (field, _), (_, kind) in zip(header.structs[in_c], fields)])
        count.check(f"{language}: the layout of {in_c}", all(layout[place] == at for place, at in own.items()), own)


def compare_numbers(count, language, numbers, header, prefix=""):
    """A language's numbers of codes, kinds, reasons and packets, by their names in the header."""
    for name, value in numbers.items():
        count.check(
            f"{language}: {name}",
            header.numbers.get(prefix + name) == value,
            f"{value}, and the header has {header.numbers.get(prefix + name)}",
        )


def compare_python(count, header, layout):
    """What the Python binding declares."""
    kinds = {ctypes.c_bool: "bool", ctypes.c_void_p: "void *", ctypes.c_size_t: "size_t"}

    def c_type(kind):
        if kind is binding.DATA:
            return "uint8_t *"
        if hasattr(kind, "_type_") and not isinstance(kind._type_, str):
            inner = kind._type_
            name = next((name for name, struct in binding.STRUCTS.items() if struct is inner), None)
            return f"struct {name} *" if name else f"{c_type(inner)} *"
        # (size_t is uint64_t for ctypes)
        return (
            kinds.get(kind)
            if kind in (ctypes.c_bool,)
            else f"{'u' if kind(-1).value > 0 else ''}int{8 * ctypes.sizeof(kind)}_t"
        )

    for name, (result, words) in header.functions.items():
        wanted = [word.replace("const ", "").replace("size_t", "uint64_t") for word in words]
        said = [c_type(kind) for kind in binding.FUNCTIONS.get(name[len("serf_agent_") :], [])]
        count.check(f"Python: {name}", said == wanted and result == "uint32_t", f"{said}, and the header has {wanted}")
    count.check("Python: the functions", {"serf_agent_" + name for name in binding.FUNCTIONS} == set(header.functions))
    for name, struct in binding.STRUCTS.items():
        said = {f"{name}.{field}": getattr(struct, field).offset for field, _ in struct._fields_} | {
            name: ctypes.sizeof(struct)
        }
        wanted = {place: at for place, at in layout.items() if place == name or place.startswith(name + ".")}
        count.check(f"Python: the layout of {name}", said == wanted, f"{said}, and the compiler has {wanted}")
    numbers = {f"SERF_AGENT_{one.name}": one.value for kind in (binding.Code, binding.Reason) for one in kind}
    numbers |= {f"SERF_AGENT_RESULT_{one.name}": one.value for one in binding.Kind}
    numbers |= {f"SERF_AGENT_ERROR_{one.name}": one.value for one in binding.PacketErrorKind}
    numbers["SERF_AGENT_DEFAULT_SNAPSHOT_LIMIT"] = binding.DEFAULT_SNAPSHOT_LIMIT
    compare_numbers(count, "Python", numbers, header)
    count.check("Python: all numbers", set(numbers) == set(header.numbers), sorted(set(numbers) ^ set(header.numbers)))


def compare_limit(count, language, header, path):
    """The one number that isn't a code, as a source in Rust or Rattle has it."""
    with open(path, encoding="utf-8") as file:
        found = re.search(r"^pub const DEFAULT_SNAPSHOT_LIMIT: u64 = ([\d_]+)(?: \* (\d+))?;$", file.read(), re.M)
    compare_numbers(
        count, language, {"DEFAULT_SNAPSHOT_LIMIT": found and int(found[1]) * int(found[2] or 1)}, header, "SERF_AGENT_"
    )


def in_capitals(name):
    """A variant's name as a number's name in C: PastDeadline is PAST_DEADLINE, and NotAMap is NOT_A_MAP."""
    return re.sub(r"(?<=[a-z])(?=[A-Z])|(?<=[A-Z])(?=[A-Z][a-z])", "_", name).upper()


def compare_faults(count, language, faults, header):
    """A language's numbers of packet errors: all of the header's."""
    compare_numbers(count, language, faults, header, "SERF_AGENT_ERROR_")
    wanted = {name for name in header.numbers if name.startswith("SERF_AGENT_ERROR_")}
    count.check(f"{language}: all packet errors", len(wanted) == 12 == len(faults), faults)


def compare_rust(count, header, layout):
    """What the Rust binding declares: functions, structs, the order of its codes and reasons, and the numbers of packet errors."""
    texts = {}
    for folder, name in ((SYS, "numbers"), (SYS, "structs"), (SYS, "calls"), (RUST, "error"), (RUST, "outcome"), (RUST, "packet_error")):
        with open(os.path.join(folder, name + ".rs"), encoding="utf-8") as file:
            texts[name] = file.read()
    compare_declared(count, "Rust", Declared([texts["structs"], texts["calls"]]), header, layout)
    numbers = {name: int(value) for name, value in re.findall(r"^pub const (\w+): u\d+ = (\d+);$", texts["numbers"], re.M)}
    version = numbers.pop("SERF_AGENT_VERSION", None)
    compare_numbers(count, "serf-agent-sys", numbers, header)
    count.check("serf-agent-sys: all numbers, and the version", set(numbers) == set(header.numbers) and version == header.version, version)
    compare_limit(count, "Rust", header, os.path.join(RUST, "agent", "closing.rs"))
    for listed, kind, place in (("CODES", "Code", "error"), ("REASONS", "Reason", "outcome")):
        body = re.search(rf"const {listed}: .*? = \[(.*?)\];", texts[place], re.S)[1]
        numbers = {in_capitals(name): number for number, name in enumerate(re.findall(rf"{kind}::(\w+)", body), 1)}
        compare_numbers(count, "Rust", numbers, header, "SERF_AGENT_")
    faults = {
        in_capitals(name): int(value) for value, name in re.findall(r"(\d+) => PacketError::(\w+)", texts["packet_error"])
    }
    compare_faults(count, "Rust", faults, header)


def compare_rattle(count, crate, header, layout):
    """What the library's own sources declare, and the numbers of its codes and of packet errors."""
    texts = []
    for folder, _, files in sorted(os.walk(os.path.join(crate, "src"))):
        for name in sorted(files):
            with open(os.path.join(folder, name), encoding="utf-8") as file:
                texts.append(file.read())
    compare_declared(count, "Rattle", Declared(texts), header, layout)
    codes = {in_capitals(name): int(value) for name, value in re.findall(r"Code::(\w+) => (\d+),", "\n".join(texts))}
    codes = {"OK" if name == "DONE" else name: value for name, value in codes.items()}
    faults = re.findall(r"(?:WireError|PackError)::(\w+)(?:\([^()]*\))?\)? => (\d+),", "\n".join(texts))
    faults = {in_capitals(name): int(value) for name, value in faults}
    compare_faults(count, "Rattle", faults, header)
    wanted = {name: value for name, value in header.numbers.items() if name[len("SERF_AGENT_") :] in codes}
    compare_numbers(count, "Rattle", codes, header, "SERF_AGENT_")
    compare_limit(count, "Rattle", header, os.path.join(os.path.dirname(crate), "serf_agent", "src", "defaults.rt"))
    count.check("Rattle: all codes", len(wanted) == 18 == len(codes), codes)


def compare(count, places, path, crate):
    """Compares the header with the library, and with the sources of the crate if it is passed."""
    header = Header(path)
    layout = layout_in_c(places, header)
    print("\n".join(f"{name}: {value}" for name, value in layout.items() if name.split(".")[0] in header.structs))
    count.check(
        "the header",
        len(header.functions) >= 20 and len(header.structs) >= 8 and len(header.numbers) >= 40,
        header.functions,
    )
    compare_numbers(count, "C", {name: layout[name] for name in header.numbers}, header)
    for name, fields in header.structs.items():
        own = layout_of(name, fields)
        count.check(f"C: the layout of {name}", all(layout[place] == at for place, at in own.items()), own)
    compare_library(count, places, header)
    if crate is not None:
        compare_rattle(count, crate, header, layout)
    compare_python(count, header, layout)
    compare_rust(count, header, layout)
