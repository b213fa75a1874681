"""The bill of materials of a release, as SPDX 2.3 in JSON: each file that is published, what the files contain, and who made it."""

import json
import os
import re
import subprocess
import time

# The licences of the Go packages that kitchenrue-agent is linked with, as agent/package/copyright lists them, and their names in SPDX.
LICENCES = ("MPL-2.0", "BSD-3-clause", "Expat", "Apache-2.0")
IN_SPDX = {"BSD-3-clause": "BSD-3-Clause", "Expat": "MIT"}

# What crates.txt names of the toolchain, in addition to the repository's crates.
CRATE = re.compile(r"^(\w+)(?: staticlib)?: ?(.*)$", re.M)


def output(*words, **more):
    """What a command prints, or an empty text if it fails or isn't there."""
    try:
        return subprocess.run(
            words, check=True, stdin=subprocess.DEVNULL, stdout=subprocess.PIPE, stderr=subprocess.DEVNULL, text=True, **more
        ).stdout
    except (OSError, subprocess.CalledProcessError):
        return ""


def identifier(name):
    return "SPDXRef-" + re.sub(r"[^A-Za-z0-9.]+", "-", name)


def package(name, version, licence, **more):
    """A package of the bill. Its version is left out if nobody knows it."""
    about = {
        "SPDXID": identifier(name),
        "name": name,
        "downloadLocation": "NOASSERTION",
        "licenseConcluded": licence,
        "licenseDeclared": licence,
    }
    return {**about, **({"versionInfo": version} if version else {}), "copyrightText": "NOASSERTION", "filesAnalyzed": False, **more}


def go_packages(top):
    """Debian's packages that kitchenrue-agent is linked with: the name, the version and the licence of each."""
    with open(os.path.join(top, "agent", "package", "copyright"), encoding="utf-8") as file:
        sections = re.split(rf"^({'|'.join(map(re.escape, LICENCES))}):\n", file.read(), flags=re.M)
    found = {}
    for licence, text in zip(sections[1::2], sections[2::2]):
        for name in re.findall(r"golang-(?:github|golang|1)[\w.-]*", text):
            own = f"{name}-go" if name.startswith("golang-1") else f"{name}-dev"
            found[own] = output("dpkg-query", "-W", "-f", "${Version}", own), IN_SPDX.get(licence, licence)
    return found


def of_toolchain(top, crate):
    """The toolchain's crates that a library or a program of this repository is linked with."""
    with open(os.path.join(top, "crates.txt"), encoding="utf-8") as file:
        uses = {name: line.split() for name, line in CRATE.findall(file.read())}
    found, waiting = set(), [crate]
    while waiting:
        more = [name for name in uses.get(waiting.pop(), []) if name not in found]
        found.update(more)
        waiting += more
    return found - set(uses)


def text_of(top, version, commit, moment, files, publisher):
    """The bill's text, for the bytes of each published file."""
    when = time.strftime("%Y-%m-%dT%H:%M:%SZ", time.gmtime(moment))
    supplier = {"supplier": f"Organization: {publisher['maintainer'].partition(' <')[0]}"}
    published = [
        package(name, version, "Apache-2.0", checksums=[{"algorithm": "SHA256", "checksumValue": digest}], packageFileName=name, **supplier)
        for name, digest in sorted(files.items())
    ]
    toolchain = package("rattle-toolchain", output("rt", "version").strip(), "NOASSERTION")
    of_library, of_program = (of_toolchain(top, crate) for crate in ("serf_agent_c", "serf_replay_program"))
    crates = {
        name: package(f"rattle-crate-{name}", "", "NOASSERTION", comment="a crate of the toolchain")
        for name in sorted(of_library | of_program)
    }
    linked = [package(name, own, licence) for name, (own, licence) in sorted(go_packages(top).items())]
    relations = [("SPDXRef-DOCUMENT", "DESCRIBES", it["SPDXID"]) for it in published]
    relations += [(it["SPDXID"], "BUILD_DEPENDENCY_OF", other["SPDXID"]) for it in (toolchain,) for other in published]
    for it in published:
        # The library is in each file, the agent for operators in the archive and its package, and the program in the archive.
        has_program = it["name"].endswith("-linux.tar.gz")
        contained = [about for name, about in crates.items() if name in of_library or has_program]
        contained += linked if has_program or it["name"].endswith(".deb") else []
        relations += [(it["SPDXID"], "CONTAINS", other["SPDXID"]) for other in contained]
    bill = {
        "spdxVersion": "SPDX-2.3",
        "dataLicense": "CC0-1.0",
        "SPDXID": "SPDXRef-DOCUMENT",
        "name": f"kitchenrue-{version}",
        "documentNamespace": f"{publisher['repository']}/spdx/{version}/{commit}",
        "creationInfo": {"created": when, "creators": [f"Organization: {publisher['maintainer'].partition(' <')[0]}", "Tool: release"]},
        "packages": [*published, toolchain, *crates.values(), *linked],
        "relationships": [{"spdxElementId": one, "relationshipType": kind, "relatedSpdxElement": other} for one, kind, other in relations],
    }
    return json.dumps(bill, indent=1) + "\n"
