#!/usr/bin/env python3
"""tools/publisher.py [NAME=VALUE..]: changes what a publisher sets in the file PUBLISHER, and in every file that has the old value.

    tools/publisher.py modules=forge.example/us/kitchenrue repository=https://forge.example/us/kitchenrue

If you name nothing, it prints the values. It changes the committed files, and formats those of Go by gofmt if that is installed, because
imports are sorted by their paths. The status is 2 if the command line is refused, and nothing is changed then.
"""

import os
import re
import shutil
import subprocess
import sys

TOP = os.path.dirname(os.path.dirname(os.path.abspath(__file__)))

# What a value may be. Each is in texts of several languages, so it has no quotes, no spaces except in the maintainer, and no backslash.
FORMS = {
    "modules": r"[a-z0-9.-]+(/[A-Za-z0-9._-]+)*",
    "repository": r"https://[A-Za-z0-9./_-]+",
    "documentation": r"https://[A-Za-z0-9./_-]+",
    "releases": r"https://[A-Za-z0-9./_-]+",
    "maintainer": r"[^<>\"'\\\n]+ <[A-Za-z0-9.+_-]+@[A-Za-z0-9.-]+>",
}


def values(top=TOP):
    """The values of the file PUBLISHER, by their names."""
    with open(os.path.join(top, "PUBLISHER"), encoding="utf-8") as file:
        return dict(line.rstrip("\n").split(" ", 1) for line in file if line.strip() and not line.startswith("#"))


def refusal(name, value):
    """Why a value can't be set, or None."""
    if name not in FORMS:
        return f"there is no setting {name}: PUBLISHER has {', '.join(FORMS)}"
    if not re.fullmatch(FORMS[name], value):
        return f"{name} can't be {value!r}: it has to have the form of {values()[name]!r}"
    return None


def replaced(text, old, new):
    """A text with the new values in place of the old ones. A value that contains another one is replaced as a whole."""
    longest = sorted(old, key=lambda name: len(old[name]), reverse=True)
    by_text = {old[name]: new[name] for name in reversed(longest)}
    form = "|".join(re.escape(old[name]) for name in longest)
    return re.sub(form, lambda found: by_text[found[0]], text)


def committed(top):
    listed = subprocess.run(["git", "ls-files", "-z"], cwd=top, check=True, stdout=subprocess.PIPE, text=True).stdout
    return [
        path
        for path in listed.split("\0")
        if path and os.path.isfile(os.path.join(top, path)) and not os.path.islink(os.path.join(top, path))
    ]


def change(new, top=TOP):
    """Sets values. Returns the paths of the files that changed."""
    old, changed = values(top), []
    new = {**old, **new}
    for path in committed(top):
        whole = os.path.join(top, path)
        with open(whole, "rb") as file:
            before = file.read()
        after = replaced(before.decode("utf-8", "surrogateescape"), old, new).encode("utf-8", "surrogateescape")
        if after != before:
            with open(whole, "wb") as file:
                file.write(after)
            changed.append(path)
    sources = [path for path in changed if path.endswith(".go")]
    if sources and shutil.which("gofmt"):
        subprocess.run(["gofmt", "-w", *sources], cwd=top, check=True)
    return changed


def main(words):
    if words[:1] in (["-h"], ["--help"]):
        print(__doc__.strip())
        return 0
    new = {}
    for word in words:
        name, sign, value = word.partition("=")
        why = refusal(name, value) if sign else f"{word!r} is not of the form NAME=VALUE"
        if why:
            print(f"publisher: {why}", file=sys.stderr)
            return 2
        new[name] = value
    print("\n".join(change(new) if new else [f"{name} {value}" for name, value in values().items()]))
    return 0


if __name__ == "__main__":
    sys.exit(main(sys.argv[1:]))
