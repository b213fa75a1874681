"""The user who tries the packages: not root, without the network, and with nothing but what a command needs."""

import os
import re
import shutil

import c_library
import pages

# The words that run a command as a user who isn't root, can read root's folders (with the compilers), and has no network.
OFF_LINE = ["unshare", "--net"] if os.geteuid() == 0 and c_library.ran(["unshare", "--net", "true"])[0] == 0 else []
NOBODY = [
    *OFF_LINE,
    "setpriv",
    "--reuid=65534",
    "--regid=65534",
    "--clear-groups",
    "--inh-caps=+dac_read_search",
    "--ambient-caps=+dac_read_search",
]
AS_USER = NOBODY if os.geteuid() == 0 else []

# The words with which the machine reports another type.
ELSEWHERE = ["setarch", "i686"]


class NotRun(Exception):
    """A part can't be run here, for this reason."""


def env_of(home, **more):
    own = {name: os.environ[name] for name in ("PATH", "RUSTUP_HOME", "CC") if name in os.environ}
    if shutil.which("cargo") and "RUSTUP_HOME" not in own:
        own["RUSTUP_HOME"] = os.path.expanduser("~/.rustup")
    return {
        **own,
        "HOME": home,
        "LANG": "C.UTF-8",
        "CARGO_HOME": os.path.join(home, "cargo"),
        "CARGO_NET_OFFLINE": "true",
        "PYTHONDONTWRITEBYTECODE": "1",
        "PIP_DISABLE_PIP_VERSION_CHECK": "1",
        **more,
    }


def by_user(folder, *words, home=None, **env):
    """The status of the user's command, and what it prints."""
    return c_library.ran([*AS_USER, *words], cwd=folder, env=env_of(home or folder, **env))


def well(count, name, answer, said=None):
    """A command that has to end well, and to print exactly this."""
    holds = answer[0] == 0 and (said is None or answer[1] == said)
    count.check(name, holds, f"{answer[0]}: {answer[1][-1500:]}")
    return holds


def refused(count, name, answer, sentence):
    """A command that has to be refused, with a sentence that has these words."""
    count.check(f"refused: {name}", answer[0] != 0 and re.search(sentence, answer[1]), f"{answer[0]}: {answer[1][-1500:]}")


def as_shown(binding):
    """The commands of a binding's page."""
    return pages.of(pages.PACKAGES, f"bindings/{binding}/README.md")


def write(path, text):
    with open(path, "wb" if isinstance(text, bytes) else "w") as file:
        file.write(text)
    os.chmod(path, 0o755)
    return path


def write_given(folder, name, text):
    """A file in a folder of the user's."""
    path = write(os.path.join(folder, name), text)
    if AS_USER:
        os.chown(path, 65534, 65534)
