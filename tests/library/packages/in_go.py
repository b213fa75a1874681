"""The module serfagent, a node over the package serf, and the folder that replaces Serf's module, by go."""

import os
import re
import shutil

import c_library
import pages
from users import AS_USER, OFF_LINE, NotRun, as_shown, by_user, env_of, refused, well, write_given

# The folder of Debian's Go packages.
GO_CODE = "/usr/share/gocode"


def in_go(count, archive):
    """The module serfagent is complete by itself: from the archive, from a vendor folder, and under another path; and a node over the
    package serf."""
    if shutil.which("go") is None:
        raise NotRun("go is not on PATH")
    home = archive.home()
    more = {
        "GOFLAGS": "-mod=mod", "GOPROXY": "off", "GOCACHE": os.path.join(archive.root, "cache"), "GOPATH": os.path.join(home, "gopath"),
        "home": home,
    }
    module, programs = archive.path("bindings", "go", "serfagent"), archive.path("bindings", "go")
    own = archive.home_of(home, "app")
    shutil.copy(os.path.join(programs, "example", "main.go"), own)
    edit = ["-require=kitchenrue.example/serfagent@v0.0.0", f"-replace=kitchenrue.example/serfagent={module}"]
    by_user(own, "go", "mod", "init", "app.example/app", **more)
    by_user(own, "go", "mod", "edit", *edit, **more)
    well(count, "the example in Go", by_user(own, "go", "run", ".", archive.home_of(home, "kept"), **more), archive.example)
    well(count, "go mod vendor", by_user(own, "go", "mod", "vendor", **more))
    well(count, "it links from the vendor folder", by_user(own, "go", "build", "-mod=vendor", "-o", "vendored", ".", **more), "")
    vet = {**more, "GOFLAGS": "-mod=readonly"}
    for folder in (module, programs):
        well(
            count, f"go vet of {os.path.basename(folder)}, without memberlist",
            by_user(folder, "go", "vet", "./...", **vet, **c_library.LEAN_GO), "",
        )
    for shown in as_shown("go"):
        line = shown.text.replace("FOLDER", archive.home_of(home, "shown"))
        well(count, shown.name(), by_user(programs, "sh", "-ec", line, **vet), archive.example)
    # (a fork changes one line, and everything next to the module still builds)
    fork = archive.copy(home, "bindings", "go")
    line = os.path.join(fork, "serfagent", "go.mod")
    by_user(fork, "sed", "-i", "1s,.*,module forge.example/fork/serfagent,", line, **more)
    well(count, "a fork's module under its own path", by_user(os.path.dirname(line), "go", "build", ".", **more), "")
    well(count, "a fork's programs", by_user(fork, "go", "build", "-o", f"{home}/", "./example", **more), "")
    by_user(own, "go", "mod", "edit", "-dropreplace=kitchenrue.example/serfagent", "-droprequire=kitchenrue.example/serfagent", **more)
    by_user(
        own, "go", "mod", "edit", "-require=forge.example/fork/serfagent@v0.0.0",
        f"-replace=forge.example/fork/serfagent={os.path.dirname(line)}", **more,
    )
    by_user(own, "sed", "-i", "s,kitchenrue.example,forge.example/fork,", "main.go", **more)
    well(count, "a user of the fork", by_user(own, "go", "build", "-o", "forked", ".", **more), "")
    refused(
        count, "without cgo", by_user(module, "go", "build", ".", **{**more, "CGO_ENABLED": "0"}),
        "serfagent_is_for_Linux_on_x86_64_or_aarch64_and_needs_cgo_with_a_C_compiler",
    )
    for system in ({"GOARCH": "arm64"}, {"GOOS": "darwin"}):
        status, output = by_user(module, "go", "build", ".", **{**more, "CGO_ENABLED": "0", **system})
        count.check(
            f"refused with one line: {system}", status != 0 and output.count(".go:") == 1 and "serfagent_is_for_Linux" in output,
            (status, output),
        )
    node_in_go(count, archive, home)


def node_in_go(count, archive, home):
    """docs/GO.md: its program, built by its lines over the archive and Debian's packages, and run twice on one file. Its address
    belongs to this run."""
    needed = os.path.join(GO_CODE, "src", "github.com", "hashicorp", "serf", "coordinate")
    if not os.path.isdir(needed):
        print(f"not run: the program of docs/GO.md, since {needed} is missing")
        return
    blocks = {text.split()[0]: text for _, text in reversed(list(pages.blocks("docs/GO.md")))}
    own = archive.home_of(home, "node")
    by_user(own, "ln", "-s", archive.top, re.search(r"\$PWD/([^/\s]+)/bindings/go", blocks["mkdir"])[1])
    write_given(own, "main.go", blocks["package"].replace("127.0.0.1", f"127.{os.getpid() >> 8 & 127 | 128}.{os.getpid() & 255}.9"))
    answer = by_user(own, "sh", "-ec", blocks["mkdir"], home=home, GOCACHE=os.path.join(archive.root, "cache"), **c_library.LEAN_GO)
    if not well(count, "the lines of docs/GO.md build its program", answer, ""):
        return
    for at in (1, 2):
        # (without a network, there is no loopback address either)
        status, output = c_library.ran([*AS_USER[len(OFF_LINE) :], "timeout", "300", os.path.join(own, "web1")], cwd=own, env=env_of(home))
        count.check(
            f"it is handed its event at {at}", status == 0 and f"handled deploy v1 at {at}\n" in output, f"{status}: {output[-1500:]}"
        )
    drop_in(count, archive, home, blocks["package"])


# A program that uses two packages of Serf's module.
TWO_PACKAGES = """package main

import (
	"fmt"

	"github.com/hashicorp/serf/client"
	"github.com/hashicorp/serf/serf"
)

func main() {
	_ = client.Config{}
	fmt.Println(serf.Waiting)
}
"""


def drop_in(count, archive, home, page):
    """bindings/go/drop_in makes a folder that replaces Serf's module: a program that imports Serf's paths is built over this package."""
    path = os.path.join("src", "github.com", "hashicorp", "serf")
    script, serf, top = archive.path("bindings", "go", "drop_in"), os.path.join(GO_CODE, path), archive.home_of(home, "drop_in")
    folder = os.path.join(top, path)
    by_user(top, "mkdir", "-p", os.path.dirname(folder))
    if not well(count, "drop_in makes the folder", by_user(top, script, serf, folder), ""):
        return
    refused(count, "a folder that exists", by_user(top, script, serf, folder), "^drop_in: .* exists already$")
    refused(
        count, "a folder without Serf's sources", by_user(top, script, home, os.path.join(top, "none")), "^drop_in: .*/client is missing"
    )
    env = {
        "GO111MODULE": "off", "GOPATH": f"{top}:{GO_CODE}", "GOCACHE": os.path.join(archive.root, "cache"), "home": home,
        **c_library.LEAN_GO,
    }
    write_given(top, "main.go", TWO_PACKAGES)
    well(count, "a program over that folder", by_user(top, "go", "run", "main.go", **env), "4096\n")
    write_given(top, "main.go", page.replace('"kitchenrue.example/serf"', '"github.com/hashicorp/serf/serf"'))
    well(count, "the program of docs/GO.md over that folder", by_user(top, "go", "build", "-o", "web1", "main.go", **env), "")
