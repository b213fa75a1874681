"""The page that `serf-replay timeline` makes, in a real browser: every example loads without an error, and its page has the program's JSON
and nothing else. Also steps, clicks, the search, the filters, what ran twice, both kinds of lanes side by side, names that try to run, the
page without its script, and a run of 100,000 actions. The fixed parts of the page are the files in `examples/timeline`.

If no Chromium is installed, the parts that need it are not run (tools/packages installs it).
"""

import atexit
import base64
import contextlib
import glob
import hashlib
import json
import os
import re
import shutil
import subprocess
import sys
import tempfile

sys.dont_write_bytecode = True
sys.path.insert(0, os.path.dirname(os.path.dirname(os.path.abspath(__file__))))
import browser
import checks
import pages

FOLDER = os.path.join(checks.EXAMPLES, "timeline")
PARTS = os.path.join(checks.TOP, "tools", "page_parts.py")
SCHEDULE = os.path.join(checks.EXAMPLES, "deploy_gossiped_twice.schedule")

INCIDENT = os.path.join(checks.EXAMPLES, "incident")
LOG = os.path.join(INCIDENT, "handlers.log")
KEPT = f"beta={os.path.join(INCIDENT, 'beta.snapshot')}"

# The most lines that the script may have.
LINES = 800

# What must never be in the script: ways for data to become markup or code.
MARKUP = re.compile(
    r"\b(innerHTML|outerHTML|insertAdjacentHTML|document\.write|eval|Function|srcdoc|createContextualFragment|import)\b\s*\(?"
)

# Names that would run if the page took them for markup.
HOSTILE = (
    "</script><script>window.ran=1</script>",
    "<img src=x onerror=window.ran=1>",
    "<!--<script>",
    "]]><svg onload=window.ran=1>",
    "\"' onmouseover=window.ran=1 x='",
    "javascript:window.ran=1",
    "&lt;b&gt;",
    "\u202etwice\u2066",
    "\\u003c/script>",
    "${window.ran=1}",
)

# The rows that the page has drawn, and the one that is selected.
DRAWN = "document.querySelectorAll('.PANE g.row').length"
SELECTED = "(document.querySelector('.PANE g.row.on') || {dataset: {}}).dataset.id"

# How many actions the long run has, and the most rows that may be drawn of it at a time.
LONG, VISIBLE = 100_000, 200

# A busy machine may take this long to show the long run, in seconds.
PATIENCE = 300


def made(folder, name, *words):
    """The path of the page for these words."""
    path = os.path.join(folder, name + ".html")
    with open(path, "wb") as file:
        subprocess.run([checks.PROGRAM, "timeline", *words], stdout=file, check=True, timeout=checks.LIMIT)
    return path


def printed(*words, given=None):
    """What the program prints. `judge` ends with 1 if something ran twice."""
    return subprocess.run([checks.PROGRAM, *words], input=given, stdout=subprocess.PIPE, timeout=checks.LIMIT).stdout


def json_of_run(path):
    schedule = checks.read(path)
    if path.endswith(".written"):
        schedule = printed("write", "-", given=schedule)
    return printed("explain", "-", "--format", "json", given=schedule)


def ended(page, pane):
    """Waits until the page has read everything."""
    for _ in range(PATIENCE * 10):
        if page.run("document.querySelector('[role=status]').textContent") == "":
            return
        page.run("new Promise((done) => setTimeout(done, 100))")
    raise browser.BrowserError(f"{pane} was not read in {PATIENCE} seconds")


def text_in(page, selector):
    return page.run(f"(document.querySelector({json.dumps(selector)}) || {{textContent: ''}}).textContent")


def pane(code, name="log"):
    return code.replace("PANE", name)


def in_page(path, name):
    """The lines of data in a page."""
    found = re.search(rf'<script type="application/json" id="{name}">\n(.*?)</script>', checks.read(path).decode(), re.S)
    return found[1] if found else ""


def page_of(*words, given=None):
    """The text of the page for these words."""
    return printed("timeline", *words, given=given).decode()


def check_source(check):
    """The script can make no markup of data, and the page allows no other script."""
    script = checks.text_of(FOLDER, "timeline.js")
    found = MARKUP.findall(script)
    check.check("the script makes no markup and no code of data", not found, found)
    check.check(f"the script has fewer than {LINES} lines", len(script.splitlines()) < LINES, len(script.splitlines()))
    result = subprocess.run([sys.executable, PARTS, "--check"], capture_output=True, text=True, timeout=checks.LIMIT)
    check.check("the program has the page's files", result.returncode == 0, result.stderr)
    page = page_of(SCHEDULE, "--title", "<b>")
    policy = re.search(r'Content-Security-Policy" content="([^"]*)"', page)[1]
    check.check(
        "only the page's own script may run",
        "default-src 'none'" in policy and policy.count("'sha256-") == 1 and "script-src 'sha256-" in policy, policy,
    )
    digest = base64.b64encode(hashlib.sha256(script.encode()).digest()).decode()
    check.check("the policy has the hash of the script", f"'sha256-{digest}'" in policy, policy)
    check.check(
        "the page has the script and the style", f"<script>{script}</script>" in page and checks.text_of(FOLDER, "timeline.css") in page
    )
    check.check("a title is text", "<b>" not in page and page.count("&lt;b&gt;") == 2)


def check_words(check):
    """What the command accepts."""
    for words, status, said in (
        ((), 2, "a schedule, or a log after --log"),
        (("--log", "no_such.log"), 3, "no_such.log: no such file"),
        (("no_such.schedule",), 3, "no_such.schedule: no such file"),
        (("--log", LOG, "--kept", "beta"), 2, "--kept needs NODE=SNAPSHOT"),
        ((LOG,), 1, "bad line"),
    ):
        result = subprocess.run([checks.PROGRAM, "timeline", *words], capture_output=True, text=True, timeout=checks.LIMIT)
        check.check(
            f"timeline {' '.join(map(os.path.basename, words))}",
            result.returncode == status and said in result.stderr and not result.stdout, result,
        )
    check.check(
        "a schedule on standard input", page_of("-", "--title", "x", given=checks.read(SCHEDULE)) == page_of(SCHEDULE, "--title", "x")
    )
    check.check("a log on standard input", "line 7" in page_of("--log", "-", given=checks.read(LOG)))
    check.check("the title names the files", f"<h1>Timeline of {LOG} {SCHEDULE}</h1>" in page_of(SCHEDULE, "--log", LOG))


def check_examples(check, page, folder):
    """Every example's page loads, has the program's JSON, and one row for each action."""
    paths = [*glob.glob(os.path.join(checks.EXAMPLES, "*.schedule")), *glob.glob(os.path.join(checks.EXAMPLES, "*", "*.written"))]
    for number, path in enumerate(sorted(paths)):
        name = os.path.relpath(path, checks.EXAMPLES)
        lines = json_of_run(path)
        at = made(folder, f"example{number}", path)
        page.open(at)
        ended(page, "run")
        actions = lines.count(b'"kind":"action"')
        rows = page.run("document.getElementById('matches').textContent")
        check.check(f"{name}: no error", not page.errors, page.errors)
        check.check(f"{name}: a row for each action", rows == f"{actions} row" + ("s" if actions != 1 else ""), rows)
        check.check(f"{name}: the page has the program's JSON", in_page(at, "run-data") == lines.decode())


def check_logs(check, page, folder):
    """Every log of the examples."""
    for number, log in enumerate(sorted(glob.glob(os.path.join(checks.EXAMPLES, "*", "handlers.log")))):
        name = os.path.relpath(log, checks.EXAMPLES)
        lines = printed("judge", log, "--format", "json")
        at = made(folder, f"log{number}", "--log", log)
        page.open(at)
        check.check(f"{name}: no error", not page.errors, page.errors)
        check.check(f"{name}: the page has the program's JSON", in_page(at, "log-data") == lines.decode())
        repeats = lines.count(b'"kind":"repeat"')
        page.run("document.querySelector('.log .scroll').scrollTop = 0")
        joined = page.run("document.querySelectorAll('.log path.again').length")
        check.check(f"{name}: what ran twice is joined", (joined > 0) == (repeats > 0) and joined <= repeats, (joined, repeats))
        missed = lines.count(b'"kind":"missed"')
        rings = page.run("document.querySelectorAll('.log .missed circle.ring').length")
        check.check(f"{name}: what was missed is a ring", (rings > 0) == (missed > 0) and rings <= missed, (rings, missed))


def check_incident(check, page, folder):
    """The deploy that ran twice: the verdict, what ran twice, and the other pane."""
    at = made(folder, "incident", os.path.join(INCIDENT, "as_serf_kept.written"), "--log", LOG, "--kept", KEPT)
    page.open(at)
    verdict = text_in(page, "#verdict")
    check.check(
        "the verdict has what ran twice, on which node, and in which lines",
        "beta ran deploy v2 @3 twice: line 6, and again line 7" in verdict, verdict,
    )
    check.check(
        "the verdict says why", "beta's snapshot keeps event clock 2" in verdict and "can run line 6 again, which has time 3" in verdict,
        verdict,
    )
    check.check("the verdict compares with the schedule", "an agent of this project is handed it once" in verdict, verdict)
    check.check("two panes", page.run("document.querySelectorAll('.pane').length") == 2)
    check.check("the schedule's pane says that it is not what happened", "not what happened" in text_in(page, ".pane.run .note"))
    selected = page.run(pane(SELECTED))
    check.check("what ran twice is selected at first", (selected or "").endswith("handlers.log:7"), selected)
    check.check(
        "its first run is in red too",
        page.run("[...document.querySelectorAll('.log g.before')].map((g) => g.dataset.id)")[0].endswith("handlers.log:6"),
    )
    check.check("the other pane marks the same event", page.run("document.querySelectorAll('.run .box.related').length") == 1)
    check.check("the details have all lines", "line 6, and again line 7" in text_in(page, ".detail"))
    page.click_on("#verdict button")
    check.check("a sentence of the verdict leads to its row", page.run(pane(SELECTED)).endswith("handlers.log:7"))
    page.open(at, "#action%206")
    check.check("an address selects a row", page.run(pane(SELECTED, "run")) == "action 6" and "Action 6" in text_in(page, ".detail h3"))
    detail = text_in(page, ".detail")
    check.check("an action's reasons", "below the minimum time 3" in detail and "new, and handed out" in detail, detail)
    check.check("an action's packet, decoded", "pushPull" in detail or "state" in detail, detail)
    check.check("what changed in its state", "3 → 4" in text_in(page, ".detail tr.changed td"), detail)
    page.run("document.querySelectorAll('.detail details').forEach((one) => { one.open = true; })")
    page.run("new Promise((done) => setTimeout(done, 50))")
    check.check(
        "its snapshot, with what the restart kept",
        "event-clock: 2\nevent-clock: 3"
        in page.run("[...document.querySelectorAll('.detail pre')].map((pre) => pre.textContent).join('\\n')"),
    )
    check.check("no error", not page.errors, page.errors)


def check_second_life(check, page, folder):
    """A node that was started on a snapshot that lacks something is a second agent of the schedule: what it is handed again is red."""
    log, written = os.path.join(folder, "second.log"), os.path.join(folder, "second.written")
    with open(log, "w", encoding="utf-8") as file:
        file.write("event alpha 1 deploy v1\nevent beta 1 deploy v1\nevent beta 1 deploy v1\n")
    with open(written, "w", encoding="utf-8") as file:
        file.write('agent alpha\nagent beta\nagent "beta again"\nv1: fire alpha "deploy" "v1"\ndeliver beta v1\ndeliver "beta again" v1\n')
    page.open(made(folder, "second", written, "--log", log))
    verdict = text_in(page, "#verdict")
    check.check(
        "the verdict has the second agent",
        "3 hand-outs" not in verdict and "1 of them again, by a second agent of the same node" in verdict, verdict,
    )
    check.check("nothing is left to compare", "in this schedule" not in verdict, verdict)
    red = page.run("[...document.querySelectorAll('.run g.again')].map((g) => g.dataset.id).join()")
    check.check(
        "what it is handed again is red, and joined",
        red == "action 3" and page.run("document.querySelectorAll('.run path.again').length") == 1, red,
    )
    page.click_on('.run g[data-id="action 2"] .label')
    check.check("both lines of the node belong to its action", page.run("document.querySelectorAll('.log .box.related').length") == 2)
    check.check("no error", not page.errors, page.errors)


def check_steps(check, page, folder):
    """Keys, the mouse, the search and the filters."""
    at = made(folder, "steps", os.path.join(checks.EXAMPLES, "deploy_gossiped_twice.schedule"))
    page.open(at)
    selected = lambda: page.run(pane(SELECTED, "run"))
    keys = [
        ("ArrowDown", 1), ("ArrowDown", 2), ("End", 3), ("ArrowDown", 3), ("ArrowUp", 2), ("Home", 1), ("j", 2), ("k", 1), ("PageDown", 3),
        ("PageUp", 1),
    ]
    for key, wanted in keys:
        page.press(key)
        check.check(f"{key} goes to action {wanted}", selected() == f"action {wanted}", selected())
    page.press("End")
    page.press("ArrowLeft")
    check.check("the left arrow goes to the action before, in the same lane", selected() == "action 2", selected())
    page.press("ArrowRight")
    check.check("the right arrow goes to the next action in the same lane", selected() == "action 3", selected())
    check.check(
        "the details follow", "was handed event 1" in text_in(page, ".detail") and "Seen" in text_in(page, ".detail"),
        text_in(page, ".detail"),
    )
    page.click_on('.run g[data-id="action 1"] .label')
    check.check("a click selects", selected() == "action 1", selected())
    shown = lambda: page.run("[...document.querySelectorAll('.run g.row')].map((g) => g.dataset.id.slice(7)).join()")
    page.click_on("#seen")
    check.check("what was ignored as seen can be hidden", shown() == "1,2", shown())
    page.press("Escape")
    check.check("Escape shows all again", shown() == "1,2,3", shown())
    chips = ".toolbar .chips:nth-of-type({}) button:nth-of-type({})"
    page.click_on(chips.format(1, 2))
    check.check("an agent can be left out", shown() == "1", shown())
    page.click_on(chips.format(1, 2))
    page.click_on(chips.format(2, 1))
    check.check("a kind can be left out", shown() == "", shown())
    page.press("Escape")
    page.press("/")
    page.write("DEPLOY v1")
    check.check("the search finds a name in any case", shown() == "1,2,3", shown())
    page.press("Escape")
    page.press("/")
    page.write("handed")
    page.press("Enter")
    check.check("Enter goes to the first row that is found", selected() == "action 2" and shown() == "2", (selected(), shown()))
    page.press("Escape")
    page.press("/")
    page.write("no such name")
    check.check("a search without a match shows nothing", shown() == "", shown())
    check.check("no error", not page.errors, page.errors)


def check_hostile(check, page, folder):
    """Names and payloads that would run if the page took them for more than text."""
    quoted = ["".join(f"%{byte:02X}" for byte in name.encode()) for name in HOSTILE]
    log, schedule = os.path.join(folder, "hostile.log"), os.path.join(folder, "hostile.schedule")
    with open(log, "w", encoding="utf-8") as file:
        for time, word in enumerate(quoted, 1):
            file.write(f"event {word} {time} {word} {word}\n" * 2)
    names = [name.encode()[:128].hex() for name in HOSTILE]
    with open(schedule, "w", encoding="utf-8") as file:
        file.writelines(f"agent {name} 4 4 512 8 keep\n" for name in names)
        file.writelines(f"fire {agent} {name} {name} 0\n" for agent, name in enumerate(names))
    at = made(folder, "hostile", schedule, "--log", log, "--title", HOSTILE[0])
    for scripts in (True, False):
        page.size(1400, 1000, scripts=scripts)
        page.open(at)
        how = "with the script" if scripts else "without the script"
        check.check(f"no name runs, {how}", page.run("window.ran") is None and not page.errors, page.errors)
        check.check(
            f"no name is markup, {how}",
            page.run("document.querySelectorAll('#app img, #app b, #verdict img, #verdict b, table img, table b, svg[onload]').length")
            == 0,
        )
        check.check(f"the title is text, {how}", text_in(page, "h1") == HOSTILE[0], text_in(page, "h1"))
    page.size(1400, 1000)
    page.open(at)
    for _ in range(len(HOSTILE)):
        page.press("ArrowDown")
    check.check(
        "the names are shown as they are",
        "</script><script>" in text_in(page, "#verdict") and "<img src=x" in text_in(page, ".log svg.rows"),
    )
    check.check("what would turn the text round is shown as a number", "\\u{202e}twice" in text_in(page, ".log svg.rows"))
    check.check("still nothing ran", page.run("window.ran") is None and not page.errors, page.errors)


def check_still(check, page, folder):
    """Without its script the page has a verdict, a table of the logs, a picture and a text of the run; light and dark; narrow."""
    at = made(folder, "still", os.path.join(INCIDENT, "as_serf_kept.written"), "--log", LOG, "--kept", KEPT)
    page.size(1200, 900, scripts=False)
    page.open(at)
    judged = printed("judge", LOG, "--kept", KEPT, "--missed").decode()
    check.check(
        "the verdict without the script is that of judge", text_in(page, "#verdict li.bad pre") == judged, text_in(page, "#verdict")
    )
    check.check(
        "a picture without the script", page.run("[...document.images].filter((one) => one.complete && one.naturalWidth > 100).length") == 1
    )
    rows = page.run(
        "[...document.querySelectorAll('#still tr')].map((row) => [...row.cells].map((cell) => cell.textContent + (cell.className && '!')).join('|')).join('\\n')"
    )
    check.check(
        "a row for each line without the script", rows.count("\n") == 7 and rows.splitlines()[7] == 'line 7||again: "deploy" "v2" @3!|',
        rows,
    )
    schedule = printed("write", os.path.join(INCIDENT, "as_serf_kept.written"))
    text = printed("replay", "-", "--format", "text", given=schedule).decode()
    check.check("the text of the run without the script", text_in(page, "#still pre") == text, text_in(page, "#still pre"))
    colours = []
    for dark in (False, True):
        page.size(420, 900, dark=dark)
        page.open(at)
        colours.append(page.run("getComputedStyle(document.body).backgroundColor"))
        wide = page.run("document.documentElement.scrollWidth")
        check.check("a narrow page needs no scrolling to the side", wide <= 420, wide)
    check.check("light and dark", colours == ["rgb(255, 255, 255)", "rgb(13, 17, 23)"], colours)
    page.size(1400, 900)


def long_run(path):
    """A page with a long run, made of lines that `explain` could have printed."""
    lines = []
    for agent, name in enumerate((b"alpha", b"beta")):
        lines.append({"kind": "agent", "agent": agent, "agent_name": name.decode(), "agent_name_hex": name.hex()})
    for action in range(1, LONG + 1, 2):
        event = {
            "time": action, "name": "deploy", "name_hex": "6465706c6f79", "payload": f"v{action}",
            "payload_hex": f"v{action}".encode().hex(),
        }
        for agent, name, call, answer, number in ((0, "alpha", "fire", "fired", action), (1, "beta", "deliver", "new", action + 1)):
            who = {"action": number, "agent": agent, "agent_name": name, "agent_name_hex": name.encode().hex()}
            given = event if call == "fire" else {"packet": action - 1, "now": number}
            lines.append({"kind": "action", **who, "call": call, "answer": answer, **given})
            lines.append({"kind": "sent", "action": number, "packet": number - 1, "packet_hex": "03" * 30, "message": "userEvent\nLTime 1"})
            lines.append({"kind": "event", **who, **event, "coalesce": False})
            lines.append({"kind": "reason", **who, "code": answer, "text": "it is new", **event})
            lines.append(
                {
                    "kind": "state", **who, "event_clock_before": action, "event_clock": action + 1, "snapshot_from": 0, "snapshot": "",
                    "snapshot_hex": "",
                }
            )
    data = "".join(json.dumps({"version": 1, **line}, separators=(",", ":")) + "\n" for line in lines)
    start, _, rest = page_of(SCHEDULE).partition('id="run-data">\n')
    with open(path, "w", encoding="utf-8") as file:
        file.write(f'{start}id="run-data">\n{data}</script>{rest.partition("</script>")[2]}')


def check_long(check, page, folder):
    """A long run stays usable: rows are drawn as they scroll into view."""
    at = os.path.join(folder, "long.html")
    long_run(at)
    seconds = page.open(at)
    shown = page.run("performance.now() / 1000")
    drawn = page.run(pane(DRAWN, "run"))
    check.check("the long run is shown before all of it is read", 0 < drawn < VISIBLE and not page.errors, (drawn, page.errors))
    ended(page, "run")
    read = page.run("performance.now() / 1000")
    print(
        f"{LONG} actions, {os.path.getsize(at) >> 20} MB: loaded in {seconds:.1f} s, shown {shown:.1f} s after it was opened, and read whole after {read:.1f} s"
    )
    check.check("all actions have a row", page.run("document.getElementById('matches').textContent") == f"{LONG} rows")
    page.press("End")
    check.check("the end is reached", page.run(pane(SELECTED, "run")) == f"action {LONG}", page.run(pane(SELECTED, "run")))
    drawn = page.run(pane(DRAWN, "run"))
    check.check("few rows are drawn at the end", 0 < drawn < VISIBLE, drawn)
    frame = page.run(
        "(() => { const pane = document.querySelector('.run .scroll'); const start = performance.now(); for (let step = 0; step < 20; step += 1) { pane.scrollTop = step * 100000; pane.dispatchEvent(new Event('scroll')); } return (performance.now() - start) / 20; })()"
    )
    print(f"a step of scrolling takes {frame:.0f} ms")
    page.press("/")
    page.write(f"v{LONG - 1} ")
    check.check(
        "the search finds one of them", page.run("document.getElementById('matches').textContent") == f"2 of {LONG} rows",
        page.run("document.getElementById('matches').textContent"),
    )
    check.check("no error", not page.errors, page.errors)


IN_BROWSER = (check_examples, check_logs, check_incident, check_second_life, check_steps, check_hostile, check_still, check_long)


def check_shown(check):
    """Runs the commands of the pages unchanged, except that their output goes elsewhere. Compares the pictures of logs next to the
    examples with what the command prints."""
    folder = tempfile.mkdtemp(prefix="timeline")
    atexit.register(shutil.rmtree, folder, ignore_errors=True)
    link = os.path.join(folder, "serf-replay")
    with open(link, "w", encoding="utf-8") as file:
        file.write(f'#!/bin/sh\nexec "{checks.PROGRAM}" "$@"\n')
    os.chmod(link, 0o755)
    paths = {**os.environ, "PATH": f"{folder}:{os.environ['PATH']}"}
    for command in pages.of(pages.TIMELINE):
        text, _, name = command.text.partition(" > ")
        at = os.path.join(folder, name)
        if name == "handlers.svg":
            for example in ("incident", "partition", "leave"):
                result = subprocess.run(
                    ["sh", "-ec", text], cwd=os.path.join(checks.EXAMPLES, example), env=paths, capture_output=True, timeout=checks.LIMIT
                )
                check.check(f"{command.name()}: {example}", result.stdout == checks.read("examples", example, name), result.stderr)
            continue
        result = subprocess.run(
            ["sh", "-ec", f"{text} > {at}"], cwd=checks.TOP, env=paths, capture_output=True, text=True, timeout=checks.LIMIT
        )
        is_whole = result.returncode == 0 and checks.read(at).endswith(b"</html>\n")
        check.check(command.name(), is_whole and not result.stderr, result.stderr)


def check_in_browser(check):
    if not browser.program():
        for part in IN_BROWSER:
            print(f"not run: {part.__name__}: no Chromium is installed")
        return
    folder = tempfile.mkdtemp(prefix="timeline")
    atexit.register(shutil.rmtree, folder, ignore_errors=True)
    with contextlib.closing(browser.Browser(1400, 900)) as page:
        for part in IN_BROWSER:
            page.size(1400, 900)
            part(check, page, folder)


if __name__ == "__main__":
    sys.exit(checks.over_program(check_source, check_words, check_shown, check_in_browser))
