"""Holds released/try.html against the native program in chromium and firefox-esr, opened from a file with every network cut off.

tools/try-ports calls try_page with its calls and their answers: each goes through web/engine.js in the page, and is compared byte by byte.
Then the page is used as a person does: by keyboard alone, wide and light, narrow and dark. What drives the browsers (tools/browsers.py)
needs Debian's python3-selenium; so this file is run as a program of a Python that has it.

    /usr/bin/python3 tools/try_browsers.py [CALLS.json] [--page FILE] [--pictures FOLDER]

CALLS.json has calls as lists of words and an input in base64. The program prints a line of JSON for each browser: {browser, skipped}, or
{browser, without_network, answers, used}; with --pictures it writes what was seen as PNG.
"""
from __future__ import annotations

import argparse
import base64
import functools
import http.server
import json
import subprocess
import sys
import tempfile
import threading
import time
from collections.abc import Callable, Sequence
from dataclasses import asdict, dataclass, field
from pathlib import Path
from typing import Any, Optional

import browsers
from browsers import CONTROL, ENTER, ESCAPE, TAB, Browser, Failed, Missing, Screen
from port_calls import Answer, Call

TOP = Path(__file__).resolve().parent.parent
PAGE = TOP / "released" / "try.html"
PYTHONS = (sys.executable, "/usr/bin/python3")
SCREENS = {"wide": Screen(), "narrow": Screen(390, 844, dark=True)}
AT_ONCE = 25  # calls
CALLS = """(async calls => {
  const text = bytes => btoa(Array.from(bytes, it => String.fromCharCode(it)).join(''));
  const told = [];
  for (const [words, input] of calls) {
    try {
      const {status, report, note} = await msp.runBytes(words, Uint8Array.from(atob(input), it => it.charCodeAt(0)));
      told.push([status, text(report), text(note)]);
    } catch (fault) {
      told.push([-1, '', btoa(String(fault))]);
    }
  }
  return told;
})"""


# A part of tools/try-ports: its title, its faults, how many tries it had.
Part = Callable[[str, list[str], int], None]
Bytes = tuple[int, str, str]  # (a status, and a report and a note in base64)


@dataclass
class Told:
    """What a browser showed: whether it had no network, the answers, what was tried by hand and what failed of it."""
    browser: str
    skipped: Optional[str] = None
    without_network: bool = False
    answers: list[Bytes] = field(default_factory=list)
    used: list[str] = field(default_factory=list)
    faults: list[str] = field(default_factory=list)


# The calls

def answers_in(browser: Browser, page: Path, calls: Sequence[tuple[list[str], str]]) -> list[Bytes]:
    """The status, the report and the note of each call, made in the page."""
    browser.open(page.as_uri())
    parts = [calls[begin:begin + AT_ONCE] for begin in range(0, len(calls), AT_ONCE)]
    return [(status, report, note) for part in parts for status, report, note in browser.evaluate(f"{CALLS}({json.dumps(part)})")]


# The page, as it is used

def example(name: str) -> str:
    """A file of examples/."""
    return (TOP / "examples" / name).read_text(encoding="utf-8")


class Use:
    """A page in a browser, and what was seen of it."""

    def __init__(self, browser: Browser, told: Told, screen: str) -> None:
        self.browser, self.told, self.screen = browser, told, screen

    def ask(self, code: str) -> Any:
        """The value of an expression of the page, in which `at` gives the element of an id."""
        return self.browser.evaluate(f"(at => ({code}))(id => document.getElementById(id))")

    def expect(self, what: str, code: str, *values: str) -> None:
        """Waits until an expression holds, in which `values` are texts."""
        self.told.used.append(f"{self.screen}: {what}")
        for _ in range(100):
            if self.ask(f"(async values => {code})({json.dumps(values)})"):
                return
            time.sleep(0.1)
        shown = self.ask("[at('note').textContent, at('status').textContent, document.activeElement.id]")
        self.told.faults.append(f"{self.screen}: {what}: {code} does not hold; note, status and focus are {shown}")

    def enter(self, command: str, words: str, text: str) -> None:
        """Puts a call into the page, and the focus into its input."""
        given = json.dumps([command, words, text])
        self.ask(f"(([command, words, text]) => {{ at('command').value = command; at('words').value = words; at('input').value = text; "
                 f"at('input').focus(); return true; }})({given})")

    def go_to(self, name: str) -> None:
        """Moves the focus to an element by the key Tab alone."""
        for _ in range(30):
            if self.ask("document.activeElement.id") == name:
                return
            self.browser.press(TAB)
        self.told.faults.append(f"{self.screen}: Tab never leads to {name}")


def use_calls(use: Use) -> None:
    """The first example, its check, a fault, an end, and what comes behind it."""
    use.go_to("run")
    use.browser.press(ENTER)
    use.expect("the first example, by keyboard", "at('report').textContent === values[0]", example("weighted-sum.answer"))
    use.expect("its status and time", "/^Status 0: .* It took [0-9.]+ ms[.]$/.test(at('status').textContent)")
    use.go_to("follow")
    use.browser.press(ENTER)
    use.expect("its schedule is checked", "/^feasible yes\\ncost 14\\n/m.test(at('report').textContent) && document.activeElement === at('report')")
    use.enter("solve", "", "msp 1\nclass 1||sumwC\njob a\nend\n")
    use.browser.press(CONTROL, ENTER)
    use.expect("a fault in words", "at('report').textContent === '' && /^msp: line 3/.test(at('note').textContent) && "
               "/^Status 3: the input has a fault[.]/.test(at('status').textContent)")
    use.enter("trial", "'Q|p=p|sumwT' 400 1", "")
    use.browser.press(CONTROL, ENTER)
    use.browser.press(ESCAPE)
    use.expect("a call that is stopped", "at('note').textContent === 'The call was stopped.' && at('stop').disabled")
    use.enter("why", "'P||Lmax'", example("known-results.csv"))
    use.browser.press(CONTROL, ENTER)
    use.expect("the call behind it", "/^label hard$/m.test(at('report').textContent)")


CONTRASTS = """(() => {
  const parts = text => text.match(/[\\d.]+/g).map(Number);
  const light = ([red, green, blue]) => [red, green, blue].map(it => it / 255).map(it => it <= 0.04045 ? it / 12.92 : ((it + 0.055) / 1.055) ** 2.4)
    .reduce((sum, it, at) => sum + it * [0.2126, 0.7152, 0.0722][at], 0);
  const ground = it => {
    const found = parts(getComputedStyle(it).backgroundColor);
    return found.length < 4 || found[3] > 0 ? found : ground(it.parentElement);
  };
  const says = it => [...it.childNodes].some(one => one.nodeType === 3 && one.data.trim());
  const seen = [...document.body.querySelectorAll('*')].filter(it => it.checkVisibility() && says(it));
  return seen.map(it => {
    const [dark, bright] = [light(parts(getComputedStyle(it).color)), light(ground(it))].sort((a, b) => a - b);
    return [it.id || it.tagName, (bright + 0.05) / (dark + 0.05)];
  }).filter(it => it[1] < 4.5);
})()"""


def use_page(use: Use) -> None:
    """What holds of the page as a whole."""
    use.expect("no wider than the window", "document.documentElement.scrollWidth <= document.documentElement.clientWidth")
    use.expect("each control has a name", "[...document.querySelectorAll('select, input, textarea, button')]"
               ".every(it => it.labels.length || it.tagName === 'BUTTON' && it.textContent.trim())")
    use.expect("contrast of 4.5 and more", f"{CONTRASTS}.length === 0")
    use.expect("nothing was fetched", "performance.getEntriesByType('resource').every(it => it.name.startsWith('blob:'))")
    use.expect("nothing can be fetched", "fetch('data:,text').then(() => false, () => true)")
    use.expect("no foreign script runs", "(() => { const it = document.createElement('script'); it.textContent = 'globalThis.foreign = 1'; "
               "document.head.append(it); return !('foreign' in globalThis); })()")


def used(browser: Browser, told: Told, screen: str, page: Path, pictures: Optional[Path]) -> None:
    """Uses the page in a browser."""
    use = Use(browser, told, screen)
    browser.open(page.as_uri())
    use_calls(use)
    use_page(use)
    if pictures:
        browser.picture(pictures / f"try-{browser.name}-{screen}.png")
    browser.open(f"{page.as_uri()}#late-jobs")
    use.expect("an example by its address", "at('input').value === values[0]", example("late-jobs.txt"))
    if screen == "wide":
        use_modules(use)


class Quiet(http.server.SimpleHTTPRequestHandler):
    """A server of the files of this clone that says nothing."""

    def log_message(self, *_: object) -> None:
        """Says nothing."""


def use_modules(use: Use) -> None:
    """The engine module by module, as a web server has it."""
    with http.server.ThreadingHTTPServer(("127.0.0.1", 0), functools.partial(Quiet, directory=str(TOP))) as server:
        threading.Thread(target=server.serve_forever, daemon=True).start()
        use.browser.open(f"http://127.0.0.1:{server.server_port}/web/types/")
        use.expect("the engine from a web server", "import('/web/engine.js').then(it => it.run(['rows'])).then(it => it.status === 0)")
        server.shutdown()


# Each browser

def tried(name: str, words: argparse.Namespace, calls: Sequence[tuple[list[str], str]], without_network: bool) -> Told:
    """What a browser shows."""
    told = Told(name, without_network=without_network)
    try:
        for screen, shape in SCREENS.items():
            with browsers.opened(name, shape) as browser:
                used(browser, told, screen, words.page, words.pictures)
                if shape == Screen():
                    told.answers = answers_in(browser, words.page, calls)
    except Missing as fault:
        return Told(name, skipped=str(fault))
    except (Failed, OSError) as fault:
        told.faults.append(f"{type(fault).__name__}: {fault}")
    return told


def main() -> int:
    """The status."""
    reader = argparse.ArgumentParser(description="Calls in a page of a browser.")
    reader.add_argument("calls", nargs="?", type=Path)
    reader.add_argument("--page", type=Path, default=PAGE)
    reader.add_argument("--pictures", type=Path)
    words = reader.parse_args()
    words.page = words.page.resolve()
    if not words.page.exists():
        reader.error(f"there is no {words.page}: tools/build-try makes the page")
    calls = json.loads(words.calls.read_text(encoding="utf-8")) if words.calls else []
    without_network = browsers.cut_off()
    for name in browsers.BROWSERS:
        print(json.dumps(asdict(tried(name, words, calls, without_network))), flush=True)
    return 0


# For tools/try-ports

def a_python() -> str:
    """A Python that has selenium."""
    for python in PYTHONS:
        if Path(python).exists() and subprocess.run([python, "-c", "import selenium, wsproto"], capture_output=True, check=False).returncode == 0:
            return python
    raise Missing("no Python here has selenium (Debian: python3-selenium)")


def is_text(call: Call) -> bool:
    """Whether the words of a call are texts, as those of a page are."""
    try:
        return all(word.decode() is not None for word in call.words)
    except UnicodeDecodeError:
        return False


def differences(cases: Sequence[tuple[Call, Answer]], answers: Sequence[Bytes]) -> list[str]:
    """Each case that was answered in another way."""
    faults = [f"{len(answers)} answers to {len(cases)} calls"] if len(answers) != len(cases) else []
    for (call, wanted), (status, report, note) in zip(cases, answers):
        found = Answer(status, base64.b64decode(report), base64.b64decode(note))
        if found != wanted:
            faults.append(f"{call}: status {status}, note {found.note[-100:]!r}; wanted: status {wanted.status}, note {wanted.note[-100:]!r}")
    return faults


def try_page(cases: Sequence[tuple[Call, Answer]], part: Part, page: Path = PAGE) -> None:
    """Holds the page in each browser against the native program; what is missing is said."""
    taken = [case for case in cases if is_text(case[0])]
    calls = [[[word.decode() for word in call.words], base64.b64encode(call.text).decode()] for call, _ in taken]
    try:
        with tempfile.NamedTemporaryFile("w", suffix=".json") as file:
            json.dump(calls, file)
            file.flush()
            made = subprocess.run([a_python(), __file__, file.name, "--page", str(page)], stdout=subprocess.PIPE, text=True, check=False)
    except Missing as fault:
        print(f"browsers: skipped: {fault}", flush=True)
        return
    if made.returncode:
        part("browsers", [f"tools/try_browsers.py ended with status {made.returncode}"], 1)
    for told in (Told(**json.loads(line)) for line in made.stdout.splitlines()):
        if told.skipped:
            print(f"{told.browser}: skipped: {told.skipped}", flush=True)
            continue
        network = "without a network" if told.without_network else "with the network of this machine, which cannot be cut off here"
        part(f"{told.browser}: cases and examples, from a file, {network}", differences(taken, told.answers), len(taken))
        part(f"{told.browser}: the page by keyboard, wide and narrow, light and dark", told.faults, max(len(told.used), len(told.faults)))


if __name__ == "__main__":
    sys.exit(main())
