"""What is changed in the sources of Go's runtime so that a program is in virtual time and does the same each time it runs.

Go's build tag `faketime` is the clock of the Go playground: if no goroutine can continue, the time jumps to the next timer. The rest is
here: the clock also jumps in a program with cgo, no thread is taken away from a goroutine by measured time, and what the runtime draws at
random comes from one fixed state. `go build -overlay` replaces the files for one build, so nothing is installed.

The edits are those of one release of Go. Each text has to be in its file as often as is said here, so another release is refused.
"""

import json
import os
import subprocess

# The release of Go whose runtime the edits fit.
RELEASE = "go1.19"

# In each file, the text to replace, its replacement, and how often the text is there.
HASH_RESET = ("h.hash0 = fastrand()", "h.hash0 = virtualRandom()")
EDITS = {
    "alg.go": [
        (
            "getRandomData((*[len(hashkey) * goarch.PtrSize]byte)(unsafe.Pointer(&hashkey))[:])",
            "hashkey = [4]uintptr{0x1234567, 0x89abcdf1, 0x2468ace1, 0x13579bd1}",
            1,
        ),
        ("getRandomData(aeskeysched[:])", "for i := range aeskeysched {\n\t\taeskeysched[i] = byte(i*37 + 11)\n\t}", 1),
    ],
    "map.go": [
        ("if fastrand()&mask == 0 {", "if virtualRandom()&mask == 0 {", 1),
        (*HASH_RESET, 4),
        ("r = uintptr(fastrand64())", "r = uintptr(virtualRandom()) | uintptr(virtualRandom())<<32", 1),
        ("r = uintptr(fastrand())", "r = uintptr(virtualRandom())", 1),
    ],
    "map_fast32.go": [(*HASH_RESET, 1)],
    "map_fast64.go": [(*HASH_RESET, 1)],
    "map_faststr.go": [(*HASH_RESET, 1)],
    # (the scavenger sleeps by measured time)
    "mgcscavenge.go": [
        ("\tc <- 1\n\tscavenger.park()\n", "\tc <- 1\n\tscavenger.park()\n\tfor faketime != 0 {\n\t\tscavenger.park()\n\t}\n", 1)
    ],
    "proc.go": [
        ("lo := uint32(int64Hash(uint64(mp.id), fastrandseed))", "lo := uint32(int64Hash(uint64(mp.id), 12345))", 1),
        ("hi := uint32(int64Hash(uint64(cputicks()), ^fastrandseed))", "hi := uint32(int64Hash(7, 54321))", 1),
        (
            "\ts := (*[unsafe.Sizeof(fastrandseed)]byte)(unsafe.Pointer(&fastrandseed))[:]\n\tgetRandomData(s)\n",
            "\tfastrandseed = 0x123456789abcdef\n",
            1,
        ),
        # (a program with cgo has a spare thread, which doesn't run)
        ("\tif !iscgo && cgoHasExtraM {\n\t\tmp := lockextra(true)", "\tif cgoHasExtraM {\n\t\tmp := lockextra(true)", 1),
        # (inspecting each goroutine at each jump of the time would be half of the work)
        (
            "\tgrunning := 0\n\tforEachG(func(gp *g) {\n",
            "\tgrunning := 0\n\tif faketime != 0 {\n\t\tgrunning = 1\n\t}\n"
            "\tforEachG(func(gp *g) {\n\t\tif faketime != 0 {\n\t\t\treturn\n\t\t}\n",
            1,
        ),
        ("func retake(now int64) uint32 {\n", "func retake(now int64) uint32 {\n\tif faketime != 0 {\n\t\treturn 0\n\t}\n", 1),
    ],
    "select.go": [("j := fastrandn(uint32(norder + 1))", "j := virtualRandom() % uint32(norder+1)", 1)],
}

# What is added to proc.go.
RANDOM = """
// virtualState is the state of what programs see of chance. It is one for all threads, since there is one processor.
var virtualState uint64 = 0x9e3779b97f4a7c15

//go:nosplit
func virtualRandom() uint32 {
	virtualState ^= virtualState << 13
	virtualState ^= virtualState >> 7
	virtualState ^= virtualState << 17
	return uint32(virtualState >> 16)
}
"""


class OtherRelease(Exception):
    """The edits don't fit the Go that is installed; the text says why."""


def go_env(name):
    return subprocess.run(["go", "env", name], stdout=subprocess.PIPE, text=True, check=True).stdout.strip()


def write_overlay(folder):
    """Writes the edited files into a folder, and returns the path of the file that `go build -overlay` reads."""
    release = go_env("GOVERSION")
    if release != RELEASE and not release.startswith(f"{RELEASE}."):
        raise OtherRelease(f"the overlay of the runtime is for {RELEASE}, and {release} is installed")
    runtime = os.path.join(go_env("GOROOT"), "src", "runtime")
    replaced = {}
    for name, edits in EDITS.items():
        with open(os.path.join(runtime, name), encoding="utf-8") as file:
            text = file.read()
        for old, new, count in edits:
            if text.count(old) != count:
                raise OtherRelease(f"runtime/{name} of {release} doesn't have this text {count} times: {old!r}")
            text = text.replace(old, new)
        path = os.path.join(folder, name)
        with open(path, "w", encoding="utf-8") as file:
            file.write(text + RANDOM if name == "proc.go" else text)
        replaced[os.path.realpath(os.path.join(runtime, name))] = path
        replaced[os.path.join(runtime, name)] = path
    overlay = os.path.join(folder, "overlay.json")
    with open(overlay, "w", encoding="utf-8") as file:
        json.dump({"Replace": replaced}, file)
    return overlay
