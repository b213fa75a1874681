"""Builds the package's wheel, which contains the shared library, and its source package. pyproject.toml names this script for pip.
It needs only Python, and no network; to build a wheel from the source package, it also needs a C compiler.

    pip wheel .                             pip calls the script
    python3 build_wheel.py FOLDER           you call it
    python3 build_wheel.py --sdist FOLDER   writes the source package

The shared library is the one that SERF_AGENT_LIBRARY names, that of a release's archive, or the one in a clone's bindings/c/out. The
source package has the proved agent as a static library, and the C sources of the snapshot's file; the script compiles and links these.
The wheel names the C library that its shared library needs, so that pip refuses it on an older system: there, install the source
package. The same files always make the same bytes.
"""

import base64
import gzip
import hashlib
import io
import os
import platform
import re
import shutil
import subprocess
import sys
import tarfile
import tempfile
import zipfile

HERE = os.path.dirname(os.path.abspath(__file__))
TOP = os.path.join(HERE, "..", "..")
NAME = "serf_agent"
SHARED_LIBRARIES = [os.path.join(TOP, "lib", "libserf_agent.so"), os.path.join(HERE, "..", "c", "out", "libserf_agent.so")]

# The files of the source package's folder native, and their places in a release's archive and in a clone. The first place that has
# a file is used.
STATIC_LIBRARY = "libserf_agent_c.a"
# The folders of the static library for each processor, in the folder native.
PROCESSOR_FOLDERS = {"x86_64": (), "aarch64": ("aarch64",)}
C_FILES = ("serf_agent_store.h", "serf_agent_store.c", "serf_agent_text.h", "serf_agent_text.c", "serf_agent_heap.c", "exports.map")
NATIVE_PATHS = {
    STATIC_LIBRARY: [os.path.join(TOP, "lib", STATIC_LIBRARY), os.path.join(TOP, "crates", "serf_agent_c", "out", STATIC_LIBRARY)],
    "serf_agent.h": [os.path.join(TOP, "include", "serf_agent.h")],
    **{name: [os.path.join(HERE, "..", "c", name)] for name in C_FILES},
}
# The static library for aarch64, which a clone may not have.
AARCH64_LIBRARY = f"aarch64/{STATIC_LIBRARY}"
NATIVE_PATHS[AARCH64_LIBRARY] = [
    os.path.join(TOP, "lib", AARCH64_LIBRARY),
    os.path.join(TOP, "crates", "serf_agent_c", "out", AARCH64_LIBRARY),
]
NATIVE_FOLDER = os.path.join(HERE, "native")

# The first bytes of an ELF file of 64 bits, and the processors for which the library is built, by the machine's number
# at byte 18.
ELF = b"\x7fELF\x02\x01"
PROCESSORS = {b"\x3e\x00": "x86_64", b"\xb7\x00": "aarch64"}


def read(path):
    with open(path, "rb") as file:
        return file.read()


def refuse(why):
    """Prints a sentence and ends the script."""
    raise SystemExit(f"{NAME}: {why}")


def shared_library():
    """Returns the bytes of the shared library."""
    path_in_environment = os.environ.get("SERF_AGENT_LIBRARY")
    if not path_in_environment and os.path.isdir(NATIVE_FOLDER):
        return link_shared_library()
    path = next((path for path in ([path_in_environment] if path_in_environment else SHARED_LIBRARIES) if os.path.isfile(path)), None)
    if path is None:
        refuse(
            f"there is no shared library at {path_in_environment or ' or '.join(map(os.path.normpath, SHARED_LIBRARIES))}: make it with make -C bindings/c, or set SERF_AGENT_LIBRARY to its path"
        )
    data = read(path)
    if not data.startswith(ELF) or data[18:20] not in PROCESSORS:
        refuse(f"{path} is no shared library for Linux on x86-64 or aarch64")
    return data


def link_shared_library():
    """Compiles and links the shared library from the source package's folder native, and returns its bytes."""
    platform_names = platform.system(), platform.machine()
    static_library = os.path.join(NATIVE_FOLDER, *PROCESSOR_FOLDERS.get(platform_names[1], ()), STATIC_LIBRARY)
    if platform_names[0] != "Linux" or platform_names[1] not in PROCESSOR_FOLDERS:
        refuse(
            f"the library is for Linux on x86-64 or aarch64, and this system is {' on '.join(platform_names)}: install it in a machine or a container of that kind"
        )
    if not os.path.isfile(static_library):
        refuse(f"this source package has no library for {platform_names[1]}: take the source package of a release")
    compiler = os.environ.get("CC", "cc")
    if shutil.which(compiler) is None:
        refuse(f"there is no C compiler {compiler} on PATH: install one, such as gcc with libc6-dev, or set CC to its name")
    sources = [os.path.join(NATIVE_FOLDER, name) for name in NATIVE_PATHS if name.endswith(".c")]
    with tempfile.TemporaryDirectory(prefix="serf_agent-") as folder:
        shared = os.path.join(folder, "libserf_agent.so")
        command = [
            compiler,
            "-std=c11",
            "-O2",
            "-fPIC",
            "-shared",
            f"-I{NATIVE_FOLDER}",
            f"-Wl,--version-script,{NATIVE_FOLDER}/exports.map",
            "-Wl,-z,defs",
        ]
        command += ["-o", shared, *sources, "-Wl,--whole-archive", static_library, "-Wl,--no-whole-archive"]
        result = subprocess.run(command, stdout=subprocess.PIPE, stderr=subprocess.STDOUT, text=True, errors="replace")
        if result.returncode:
            refuse(f"{compiler} can't link the library:\n{result.stdout}")
        return read(shared)


def platform_tag(shared):
    """Returns the wheel's tag: any Python 3, and the oldest glibc with every symbol version that the library uses. A library
    without any was linked with another C library, and its wheel is for this system alone."""
    minors = [int(version) for version in re.findall(rb"\0GLIBC_2\.(\d+)(?=[.\0])", shared)]
    return f"py3-none-{f'manylinux_2_{max(17, *minors)}' if minors else 'linux'}_{PROCESSORS[shared[18:20]]}"


def project_file():
    """Returns the text of pyproject.toml."""
    return read(os.path.join(HERE, "pyproject.toml")).decode()


def project_string(name):
    """Returns a string of pyproject.toml."""
    return re.search(rf'^{name} = "([^"]*)"$', project_file(), re.M)[1]


def project_list(name):
    """Returns a list of strings of pyproject.toml."""
    return re.findall(r'"([^"]*)"', re.search(rf"^{name} = \[(.*?)\]$", project_file(), re.M | re.S)[1])


def package_metadata():
    """Returns the text of METADATA and PKG-INFO: the fields, and the README."""
    fields = [
        ("Metadata-Version", "2.1"),
        ("Name", NAME),
        ("Version", project_string("version")),
        ("Summary", project_string("description")),
        ("Project-URL", f"Repository, {project_string('Repository')}"),
        ("License", "Apache-2.0"),
        ("License-File", "LICENSE"),
        *(("Classifier", each) for each in project_list("classifiers")),
        ("Requires-Python", project_string("requires-python")),
        ("Description-Content-Type", "text/markdown"),
    ]
    lines = "".join(f"{name}: {value}\n" for name, value in fields)
    return f"{lines}\n{read(os.path.join(HERE, 'README.md')).decode()}".encode()


def package_files():
    """Returns the package's own files, by their names in a wheel and in the source package."""
    names = sorted(os.listdir(os.path.join(HERE, NAME)))
    return {f"{NAME}/{name}": read(os.path.join(HERE, NAME, name)) for name in names if name.endswith(".py") or name == "py.typed"}


def wheel_contents():
    """Returns the wheel's files by their names, and the wheel's tag."""
    shared = shared_library()
    info_folder = f"{NAME}-{project_string('version')}.dist-info"
    contents = package_files()
    contents[f"{NAME}/libserf_agent.so"] = shared
    contents[f"{info_folder}/METADATA"] = package_metadata()
    contents[f"{info_folder}/LICENSE"] = read(os.path.join(HERE, "LICENSE"))
    contents[
        f"{info_folder}/WHEEL"
    ] = f"Wheel-Version: 1.0\nGenerator: {NAME}\nRoot-Is-Purelib: false\nTag: {platform_tag(shared)}\n".encode()
    sums = {name: base64.urlsafe_b64encode(hashlib.sha256(data).digest()).decode().rstrip("=") for name, data in contents.items()}
    record = "".join(f"{name},sha256={sums[name]},{len(contents[name])}\n" for name in sorted(contents))
    contents[f"{info_folder}/RECORD"] = f"{record}{info_folder}/RECORD,,\n".encode()
    return contents, platform_tag(shared)


def build_wheel(wheel_directory, config_settings=None, metadata_directory=None):
    """Writes the wheel into a folder, and returns its name."""
    contents, wheel_tag = wheel_contents()
    name = f"{NAME}-{project_string('version')}-{wheel_tag}.whl"
    with zipfile.ZipFile(os.path.join(wheel_directory, name), "w", zipfile.ZIP_DEFLATED) as wheel:
        for path in sorted(contents):
            entry = zipfile.ZipInfo(path, (1980, 1, 1, 0, 0, 0))
            entry.compress_type, entry.external_attr = zipfile.ZIP_DEFLATED, 0o100644 << 16
            wheel.writestr(entry, contents[path])
    return name


def native_file(name):
    """Returns the bytes of a file for the folder native.

    Returns None if it is the library for aarch64 and doesn't exist.
    """
    variable = {STATIC_LIBRARY: "SERF_AGENT_STATIC_LIBRARY", AARCH64_LIBRARY: "SERF_AGENT_STATIC_LIBRARY_AARCH64"}.get(name)
    path_in_environment = os.environ.get(variable) if variable else None
    paths = [path_in_environment] if path_in_environment else [os.path.join(NATIVE_FOLDER, name), *NATIVE_PATHS[name]]
    path = next((path for path in paths if os.path.isfile(path)), None)
    if path is None and name == AARCH64_LIBRARY:
        return None
    if path is None:
        refuse(f"there is no {name} at {' or '.join(map(os.path.normpath, paths))}: a release's archive has it")
    return read(path)


def build_sdist(sdist_directory, config_settings=None):
    """Writes the source package into a folder, and returns its name."""
    stem = f"{NAME}-{project_string('version')}"
    contents = {**package_files(), "PKG-INFO": package_metadata()}
    contents.update((name, read(os.path.join(HERE, name))) for name in ("pyproject.toml", "build_wheel.py", "README.md", "LICENSE"))
    contents.update((f"native/{name}", text) for name, text in ((name, native_file(name)) for name in NATIVE_PATHS) if text is not None)
    with open(os.path.join(sdist_directory, f"{stem}.tar.gz"), "wb") as file, gzip.GzipFile(
        fileobj=file, mode="wb", filename="", mtime=0
    ) as zipped:
        with tarfile.open(fileobj=zipped, mode="w", format=tarfile.PAX_FORMAT) as tar:
            for name in sorted(contents):
                member = tarfile.TarInfo(f"{stem}/{name}")
                # 1980-01-01, as in the wheel
                member.size, member.mtime, member.mode = len(contents[name]), 315532800, 0o644
                tar.addfile(member, io.BytesIO(contents[name]))
    return f"{stem}.tar.gz"


if __name__ == "__main__":
    if len(sys.argv) == 3 and sys.argv[1] == "--sdist":
        print(build_sdist(sys.argv[2]))
    elif len(sys.argv) == 2 and sys.argv[1] != "--sdist":
        print(build_wheel(sys.argv[1]))
    else:
        print("build_wheel.py [--sdist] FOLDER", file=sys.stderr)
        sys.exit(2)
