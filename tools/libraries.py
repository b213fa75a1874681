"""The libraries that `rt ci` left, and whether they are from the current sources.

`rt ci` proves each crate with libraries that it makes itself. It leaves these libraries, but no hash of them. So `./test` removes
what an earlier run left before it calls `rt ci`. Afterwards it records two hashes of each library: one of everything that it is
made from, including the toolchain's kit, and one of the library's bytes. A script that uses the libraries checks both.
"""

import hashlib
import os
import shutil

TOP = os.path.dirname(os.path.dirname(os.path.abspath(__file__)))


def folder_of(crate):
    """The folder of a crate's library."""
    return os.path.join(crate.folder, "out", "rlib")


def hashes_path(crate):
    """The path of the file with the two hashes of a library."""
    return os.path.join(folder_of(crate), "of_ci")


def hash_of_library(crate):
    """A hash of a library's own bytes."""
    total, top = hashlib.sha256(), os.path.join(folder_of(crate), f"{crate.name}.rlib")
    for folder, folders, names in os.walk(top):
        folders.sort()
        for name in sorted(names):
            path = os.path.join(folder, name)
            with open(path, "rb") as file:
                total.update(repr((os.path.relpath(path, top), hashlib.sha256(file.read()).hexdigest())).encode())
    return total.hexdigest()


def hashes_of(crate):
    """The text of that file for the library as it is now."""
    return f"{crate.stamp()} {hash_of_library(crate)}\n"


def remove_libraries(crates):
    """Removes what earlier runs left of these crates' libraries."""
    for crate in crates:
        shutil.rmtree(folder_of(crate), ignore_errors=True)


def record_hashes(crates):
    """Records what `rt ci` has just left of these crates' libraries."""
    for crate in crates:
        if os.path.isdir(folder_of(crate)):
            with open(hashes_path(crate), "w", encoding="utf-8") as file:
                file.write(hashes_of(crate))


def is_of_ci(crate):
    """Whether a crate's library is the one that `rt ci` made from the current sources."""
    try:
        with open(hashes_path(crate), encoding="utf-8") as file:
            return file.read() == hashes_of(crate)
    except OSError:
        return False


def fault_of(crates):
    """Describes a library below these crates that `rt ci` has not made from the current sources, or returns None."""
    for below in {it.folder: it for crate in crates for it in crate.below()}.values():
        if not is_of_ci(below):
            return f"the library of {below.name} is not the one that rt ci built from the sources as they are; run ./test"
    return None
