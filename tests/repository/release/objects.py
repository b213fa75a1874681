"""The objects that clang-16 makes of the texts of a release, and what --verify says of them."""

import hashlib
import io
import os
import re
import shutil
import subprocess
import tarfile

import digests
from calls import NAME, SUMS, run_release, release, replace_with_sum, write

# The lines of --verify about the objects that clang-16 makes of the texts.
CHECKED = "".join(
    f"checked: the object that clang-16 makes for {target} has the digest of the release\n" for target in ("x86_64", "aarch64")
)


def compared(count, top, root):
    """The digests are those of clang-16. --verify compares them, and names what it doesn't compare without that clang."""
    both, copy = os.path.join(root, "both"), os.path.join(root, "copy")
    with tarfile.open(os.path.join(both, f"{NAME}.tar.gz")) as tar:
        files = {member.name.partition("/")[2]: tar.extractfile(member).read() for member in tar if member.isfile()}
    for target in ("x86_64", "aarch64"):
        folder = os.path.join(root, f"text of {target}")
        os.mkdir(folder)
        with open(os.path.join(folder, "serf_agent_c.ll"), "wb") as file:
            file.write(files[f"bindings/source/{target}/serf_agent_c.ll"])
        digest = dict(line.split(" ", 1) for line in files[f"bindings/source/{target}/digests"].decode().splitlines())
        subprocess.run(
            [digests.CLANG, *digest["flags"].split(), "serf_agent_c.ll", "-o", "made.o"], cwd=folder, check=True, stderr=subprocess.DEVNULL
        )
        with open(os.path.join(folder, "made.o"), "rb") as file:
            own = hashlib.sha256(file.read()).hexdigest()
        count.check(f"the digest of the object for {target}", digest["object"] == own and f"--target={target}" in digest["flags"], digest)
        count.check(
            f"the digest of the text for {target}",
            digest["text"] == hashlib.sha256(files[f"bindings/source/{target}/serf_agent_c.ll"]).hexdigest(),
            digest,
        )
    unsigned = "not checked: the signature, without --signers\n"
    answer = run_release(top, "--verify", both)
    count.check("--verify compares the objects", answer == (0, f"{CHECKED}{unsigned}the release is right\n"), answer)
    few = without(root, digests.CLANG)
    answer = run_release(top, "--verify", both, PATH=few)
    skipped = (
        CHECKED.replace("checked:", "not checked:")
        .replace("has the digest of the release", "")
        .replace(" \n", f": {digests.CLANG} is not on PATH\n")
    )
    count.check(
        "--verify without clang-16 names what it doesn't compare, and makes the other bytes again",
        answer == (0, f"{skipped}{unsigned}the release is right\n"),
        answer,
    )
    answer = release(top, os.path.join(root, "no clang"), PATH=few)
    count.check(
        "refused without clang-16",
        answer[0] == 3 and answer[1].startswith(f"release: {digests.CLANG} is not on PATH, and a release has the digests"),
        answer,
    )
    other = os.path.join(few, digests.CLANG)
    write(other, "#!/bin/sh\necho clang version 16.1\n")
    os.chmod(other, 0o755)
    answer = run_release(top, "--verify", both, PATH=few)
    count.check(
        "--verify with another clang-16",
        answer[0] == 0 and "for aarch64: clang-16 is 'clang version 16.1' here, and the digest is of 'Debian clang" in answer[1],
        answer,
    )
    answer = release(top, os.path.join(root, "no clang"), PATH=few)
    count.check(
        "refused with another clang-16",
        answer[0] == 3 and "is 'clang version 16.1', and not Debian's, and a release has" in answer[1],
        answer,
    )
    for what, name, change in (
        (
            "another digest",
            "digests",
            lambda text: re.sub(rb"(?<=^object )\w", lambda found: b"1" if found[0] == b"0" else b"0", text, flags=re.M),
        ),
        ("another text", "serf_agent_c.ll", lambda text: text.replace(b"ret i32 1", b"ret i32 2")),
    ):
        shutil.rmtree(copy, ignore_errors=True)
        shutil.copytree(both, copy)
        path = f"bindings/source/aarch64/{name}"
        changed = {**files, path: change(files[path])}
        sums = "".join(f"{hashlib.sha256(text).hexdigest()}  {name}\n" for name, text in sorted(changed.items()) if name != SUMS).encode()
        replace_with_sum(copy, f"{NAME}.tar.gz", packed({**changed, SUMS: sums}))
        answer = run_release(top, "--verify", copy)
        count.check(
            f"--verify: {what}",
            answer[0] == 1
            and "the object that clang-16 makes for aarch64 has another digest, or other flags, than the release says\n" in answer[1],
            answer,
        )


def without(root, name):
    """A folder with a link to each command on PATH except this one."""
    few = os.path.join(root, f"without {name}")
    os.mkdir(few)
    for folder in os.environ["PATH"].split(os.pathsep):
        for command in os.listdir(folder) if os.path.isdir(folder) else []:
            path = os.path.join(few, command)
            if command != name and not os.path.lexists(path):
                os.symlink(os.path.join(folder, command), path)
    return few


def packed(files):
    """The bytes of an archive of these files."""
    made = io.BytesIO()
    with tarfile.open(fileobj=made, mode="w:gz") as tar:
        for name, text in files.items():
            member = tarfile.TarInfo(f"{NAME}/{name}")
            member.size = len(text)
            tar.addfile(member, io.BytesIO(text))
    return made.getvalue()
