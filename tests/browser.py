"""A headless browser for tests: Chromium, driven over its DevTools protocol through two pipes, so that it opens no port."""

import base64
import fcntl
import json
import os
import select
import shutil
import signal
import subprocess
import tempfile
import time

NAMES = ("chromium", "chromium-browser", "google-chrome")

# A busy machine may take this long to start the browser, or to answer.
PATIENCE = 120

# The first file descriptor that this script uses for the pipes, above those that the browser uses: it reads 3 and writes 4.
FIRST = 20


class BrowserError(Exception):
    """The browser ended, or refused a command."""


def program():
    """The path of the browser, or None if none is installed."""
    return next((path for path in map(shutil.which, NAMES) if path), None)


def moved(end):
    """A file descriptor that a child process inherits, for this end of a pipe."""
    found = fcntl.fcntl(end, fcntl.F_DUPFD, FIRST)
    os.close(end)
    return found


class Browser:
    """One page in a browser, with its console's errors. It can reach no network: no name resolves, and no proxy answers."""

    def __init__(self, width=1400, height=900, dark=False):
        self.folder = tempfile.mkdtemp(prefix="browser")
        theirs_in, ours_out = os.pipe()
        ours_in, theirs_out = os.pipe()
        theirs_in, theirs_out = moved(theirs_in), moved(theirs_out)
        words = [
            program(),
            "--headless=new",
            "--no-sandbox",
            "--disable-gpu",
            "--remote-debugging-pipe",
            "--no-first-run",
            "--disable-extensions",
            "--disable-background-networking",
            "--disable-component-update",
            "--host-resolver-rules=MAP * ~NOTFOUND",
            "--proxy-server=127.0.0.1:9",
            "--disable-dev-shm-usage",
            f"--user-data-dir={self.folder}",
            "about:blank",
        ]
        shell = ["bash", "-c", 'exec 3<&"$1" 4>&"$2"; shift 2; exec "$@"', "bash", str(theirs_in), str(theirs_out), *words]
        self.process = subprocess.Popen(
            shell,
            pass_fds=(theirs_in, theirs_out),
            stdin=subprocess.DEVNULL,
            stdout=subprocess.DEVNULL,
            stderr=subprocess.DEVNULL,
            start_new_session=True,
        )
        os.close(theirs_in)
        os.close(theirs_out)
        self.input, self.output = os.fdopen(ours_in, "rb"), os.fdopen(ours_out, "wb")
        self.last, self.session, self.errors, self.events, self.buffer = 0, None, [], [], b""
        pages = []
        while not pages:
            pages = [one for one in self.call("Target.getTargets")["targetInfos"] if one["type"] == "page"]
        target = pages[0]["targetId"]
        self.session = self.call("Target.attachToTarget", targetId=target, flatten=True)["sessionId"]
        for domain in ("Page", "Runtime", "Log", "Network"):
            self.call(f"{domain}.enable")
        self.call("Page.bringToFront")
        self.size(width, height, dark)

    def __enter__(self):
        return self

    def __exit__(self, *_):
        self.close()

    def close(self):
        """Ends the browser with all of its processes, and removes what it stored."""
        for end in (self.output, self.input):
            try:
                end.close()
            except OSError:
                pass
        try:
            self.process.wait(10)
        except subprocess.TimeoutExpired:
            os.killpg(self.process.pid, signal.SIGKILL)
            self.process.wait()
        shutil.rmtree(self.folder, ignore_errors=True)

    def message(self):
        """The next message of the browser."""
        while b"\0" not in self.buffer:
            if not select.select([self.input], [], [], PATIENCE)[0]:
                raise BrowserError(f"the browser said nothing for {PATIENCE} seconds")
            more = os.read(self.input.fileno(), 1 << 20)
            if not more:
                raise BrowserError("the browser ended")
            self.buffer += more
        text, _, self.buffer = self.buffer.partition(b"\0")
        found = json.loads(text)
        self.note(found)
        return found

    def note(self, found):
        """Remembers what the page's console and its exceptions say, and what it requests."""
        name, values = found.get("method"), found.get("params", {})
        if name:
            self.events.append(name)
        if name == "Runtime.exceptionThrown":
            details = values["exceptionDetails"]
            self.errors.append(details.get("exception", {}).get("description") or details["text"])
        elif name == "Log.entryAdded" and values["entry"]["level"] == "error":
            self.errors.append(values["entry"]["text"])
        elif name == "Runtime.consoleAPICalled" and values["type"] in ("error", "assert", "warning"):
            self.errors.append(" ".join(str(one.get("value", one.get("description"))) for one in values["args"]))
        elif name == "Network.requestWillBeSent" and not values["request"]["url"].startswith(("file:", "data:", "about:")):
            self.errors.append("requested " + values["request"]["url"])
        elif name == "Page.javascriptDialogOpening":
            self.errors.append("opened a dialog: " + values["message"])

    def call(self, method, **values):
        """The result of a command of the protocol."""
        self.last += 1
        number = self.last
        command = {"id": number, "method": method, "params": values, **({"sessionId": self.session} if self.session else {})}
        self.output.write(json.dumps(command).encode() + b"\0")
        self.output.flush()
        found = self.message()
        while found.get("id") != number:
            found = self.message()
        if "error" in found:
            raise BrowserError(f"{method}: {found['error']['message']}")
        return found["result"]

    def size(self, width, height, dark=False, scripts=True):
        """The size of the window, the colours that its user prefers, and whether scripts run."""
        self.call("Emulation.setDeviceMetricsOverride", width=width, height=height, deviceScaleFactor=1, mobile=False)
        self.call("Emulation.setEmulatedMedia", features=[{"name": "prefers-color-scheme", "value": "dark" if dark else "light"}])
        self.call("Emulation.setScriptExecutionDisabled", value=not scripts)

    def open(self, path, fragment=""):
        """Opens a file. Returns the seconds until it was loaded."""
        self.errors, self.events = [], []
        start = time.monotonic()
        # The number makes each address a new one, so that a fragment alone also loads the page.
        self.call("Page.navigate", url=f"file://{os.path.abspath(path)}?{self.last}{fragment}")
        while "Page.loadEventFired" not in self.events:
            self.message()
        return time.monotonic() - start

    def run(self, code):
        """The value of an expression in the page."""
        found = self.call("Runtime.evaluate", expression=code, returnByValue=True, awaitPromise=True)
        if "exceptionDetails" in found:
            raise BrowserError(found["exceptionDetails"].get("exception", {}).get("description", "an exception"))
        return found["result"].get("value")

    def press(self, key, text=None):
        """Presses a key."""
        codes = {
            "ArrowDown": 40,
            "ArrowUp": 38,
            "ArrowLeft": 37,
            "ArrowRight": 39,
            "Home": 36,
            "End": 35,
            "PageDown": 34,
            "PageUp": 33,
            "Enter": 13,
            "Escape": 27,
            "Tab": 9,
        }
        values = {"key": key, "windowsVirtualKeyCode": codes.get(key, ord(key.upper()) if len(key) == 1 else 0)}
        if len(key) == 1:
            values["text"] = text or key
        self.call("Input.dispatchKeyEvent", type="keyDown", **values)
        self.call("Input.dispatchKeyEvent", type="keyUp", **values)

    def write(self, text):
        """Types a text."""
        self.call("Input.insertText", text=text)

    def click(self, x, y):
        """Clicks at a place of the window."""
        for kind in ("mousePressed", "mouseReleased"):
            self.call("Input.dispatchMouseEvent", type=kind, x=x, y=y, button="left", clickCount=1)

    def click_on(self, selector):
        """Clicks at the middle of the first element that a selector finds."""
        place = self.run(
            f"(() => {{ const r = document.querySelector({json.dumps(selector)}).getBoundingClientRect(); return [r.x + r.width / 2, r.y + r.height / 2]; }})()"
        )
        self.click(*place)

    def picture(self, path):
        """Writes a picture of the window as a PNG file."""
        with open(path, "wb") as file:
            file.write(base64.b64decode(self.call("Page.captureScreenshot", format="png")["data"]))
