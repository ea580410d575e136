"""Chromium and Firefox, driven for tests of pages: opened without a head, without a network, from files.

Chromium is driven by selenium, Firefox by its own remote protocol (WebDriver BiDi) over a WebSocket, since Debian has no geckodriver.
python3-selenium of Debian brings all that is imported here. Both answer to the same calls (Browser).
"""
from __future__ import annotations

import base64
import contextlib
import importlib
import json
import os
import re
import shutil
import socket
import subprocess
import sys
import tempfile
import time
from collections.abc import Iterator
from dataclasses import dataclass
from pathlib import Path
from typing import Any, Protocol

TAB, ENTER, CONTROL, ESCAPE, SHIFT = "\ue004", "\ue007", "\ue009", "\ue00c", "\ue008"
PATIENCE = 600  # (seconds for one answer of a page)
CUT_OFF = "MSP_TESTS_WITHOUT_NETWORK"


class Missing(Exception):
    """What is not here, and so which tests are skipped."""


class Failed(Exception):
    """A script of a page that threw."""


@dataclass(frozen=True)
class Screen:
    """The window of a page, and what the system asks for: dark colours, no motion, a language."""
    width: int = 1280
    height: int = 900
    dark: bool = False
    still: bool = False
    language: str = "en-GB"


class Browser(Protocol):
    """A browser with one page. What a page saves comes into the folder `saved`, without a question."""
    name: str
    saved: Path

    def open(self, address: str) -> None:
        """Opens a page, and waits until it is there."""

    def evaluate(self, code: str) -> Any:
        """The value of an expression in the page, awaited, as JSON has it."""

    def press(self, *keys: str) -> None:
        """Presses the keys together, as `CONTROL, ENTER`, on what has the focus."""

    def drag(self, start: tuple[float, float], end: tuple[float, float]) -> None:
        """Presses the pointer at a place of what is seen, moves it to another one, and lets it go."""

    def picture(self, file: Path) -> None:
        """Writes what is seen, as a PNG."""

    def print(self, file: Path) -> None:
        """Writes what the page prints, as a PDF."""

    def slow(self, times: int) -> bool:
        """Slows the processor for all pages from now on; whether the browser can do that."""

    def close(self) -> None:
        """Ends the browser."""


def wrapped(code: str) -> str:
    """An expression that gives a promise of a text: the value, or why there is none."""
    return f"(async () => JSON.stringify({{value: await ({code})}}))().catch(fault => JSON.stringify({{fault: String(fault)}}))"


def unwrapped(text: str) -> Any:
    """The value of what `wrapped` gave."""
    told = json.loads(text)
    if "fault" in told:
        raise Failed(told["fault"])
    return told.get("value")


# Chromium

@contextlib.contextmanager
def driven() -> Iterator[None]:
    """Says what selenium could not do."""
    try:
        yield
    except library("selenium.common.exceptions").WebDriverException as fault:
        raise Failed(f"chromium: {fault.msg}") from None
    except (OSError, library("urllib3.exceptions").HTTPError) as fault:
        raise Failed(f"chromium ended: {fault}") from None


class Chromium:
    """Chromium by selenium and chromedriver."""
    name = "chromium"

    def __init__(self, screen: Screen, folder: str) -> None:
        self.selenium, self.saved = library("selenium.webdriver"), saved_in(folder)
        options = self.selenium.ChromeOptions()
        options.binary_location = needed("chromium")
        for word in ("--headless=new", "--no-sandbox", "--disable-dev-shm-usage", "--disable-gpu", f"--user-data-dir={folder}/profile",
                     f"--accept-lang={screen.language}"):
            options.add_argument(word)
        service = library("selenium.webdriver.chrome.service").Service(needed("chromedriver"), env=environment(folder))
        with driven():
            self.driver = self.selenium.Chrome(service=service, options=options)
        try:
            self.shape(screen)
        except BaseException:
            self.close()
            raise

    @driven()
    def shape(self, screen: Screen) -> None:
        """Gives the page its window, which may be narrower than any that chromium opens, and says where files go."""
        self.driver.set_script_timeout(PATIENCE)
        self.driver.execute_cdp_cmd("Browser.setDownloadBehavior", {"behavior": "allow", "downloadPath": str(self.saved)})
        self.driver.execute_cdp_cmd("Emulation.setDeviceMetricsOverride",
                                    {"width": screen.width, "height": screen.height, "deviceScaleFactor": 1, "mobile": False})
        self.driver.execute_cdp_cmd("Emulation.setEmulatedMedia",
                                    {"features": [{"name": "prefers-color-scheme", "value": "dark" if screen.dark else "light"},
                                                  {"name": "prefers-reduced-motion", "value": "reduce" if screen.still else "no-preference"}]})

    @driven()
    def open(self, address: str) -> None:
        """Opens a page, and waits until it is there."""
        self.driver.get("about:blank")
        self.driver.get(address)

    @driven()
    def evaluate(self, code: str) -> Any:
        """The value of an expression in the page."""
        return unwrapped(self.driver.execute_async_script(f"{wrapped(code)}.then(arguments[arguments.length - 1])"))

    @driven()
    def press(self, *keys: str) -> None:
        """Presses the keys together."""
        chain = self.selenium.ActionChains(self.driver)
        for key in keys:
            chain.key_down(key)
        for key in reversed(keys):
            chain.key_up(key)
        chain.perform()

    @driven()
    def drag(self, start: tuple[float, float], end: tuple[float, float]) -> None:
        """Presses the pointer, moves it, and lets it go."""
        middle = (start[0] + end[0]) / 2, (start[1] + end[1]) / 2
        for kind, (left, top), held in (("mouseMoved", start, 0), ("mousePressed", start, 1), ("mouseMoved", middle, 1), ("mouseMoved", end, 1),
                                        ("mouseReleased", end, 0)):
            self.driver.execute_cdp_cmd("Input.dispatchMouseEvent", {"type": kind, "x": left, "y": top, "buttons": held, "clickCount": 1,
                                                                     "button": "none" if kind == "mouseMoved" else "left"})

    @driven()
    def picture(self, file: Path) -> None:
        """Writes what is seen."""
        file.write_bytes(self.driver.get_screenshot_as_png())

    @driven()
    def print(self, file: Path) -> None:
        """Writes what the page prints."""
        file.write_bytes(base64.b64decode(self.driver.execute_cdp_cmd("Page.printToPDF", {"preferCSSPageSize": True})["data"]))

    @driven()
    def slow(self, times: int) -> bool:
        """Slows the processor."""
        self.driver.execute_cdp_cmd("Emulation.setCPUThrottlingRate", {"rate": times})
        return True

    @driven()
    def close(self) -> None:
        """Ends the browser."""
        self.driver.quit()


# Firefox

class Channel:
    """A WebSocket of Firefox' remote protocol, with one question at a time."""

    def __init__(self, port: int) -> None:
        self.kinds, library_of = library("wsproto.events"), library("wsproto")
        self.connection = library_of.WSConnection(library_of.ConnectionType.CLIENT)
        self.stream = socket.create_connection(("127.0.0.1", port), timeout=PATIENCE)
        self.coming = self.events()
        self.stream.sendall(self.connection.send(self.kinds.Request(host=f"127.0.0.1:{port}", target="/session")))
        if not isinstance(next(self.coming), self.kinds.AcceptConnection):
            raise Failed("firefox refused the connection")
        self.number = 0

    def events(self) -> Iterator[Any]:
        """Each event that comes, and at the end that of the end."""
        while True:
            self.connection.receive_data(self.stream.recv(1 << 20) or None)
            yield from self.connection.events()

    def message(self) -> Any:
        """The next message."""
        text = ""
        for event in self.coming:
            if not isinstance(event, self.kinds.TextMessage):
                raise Failed(f"firefox ended the connection: {event}")
            text += event.data
            if event.message_finished:
                return json.loads(text)
        raise Failed("firefox ended the connection")

    def ask(self, method: str, **how: Any) -> Any:
        """The answer to a command; events are left alone."""
        self.number += 1
        command = json.dumps({"id": self.number, "method": method, "params": how})
        try:
            self.stream.sendall(self.connection.send(self.kinds.TextMessage(command)))
            answer = self.message()
            while answer.get("id") != self.number:
                answer = self.message()
        except (OSError, library("wsproto.utilities").ProtocolError) as fault:
            raise Failed(f"firefox ended: {method}: {fault}") from None
        if "error" in answer:
            raise Failed(f"{method}: {answer['error']}: {answer.get('message')}")
        return answer["result"]

    def close(self) -> None:
        """Ends the connection."""
        self.stream.close()


class Firefox:
    """Firefox by its remote protocol."""
    name = "firefox-esr"

    def __init__(self, screen: Screen, folder: str) -> None:
        profile, self.saved = Path(folder) / "profile", saved_in(folder)
        profile.mkdir()
        (profile / "user.js").write_text("".join(f"user_pref({json.dumps(key)}, {json.dumps(value)});\n" for key, value in {
            "layout.css.prefers-color-scheme.content-override": 0 if screen.dark else 1,
            "ui.systemUsesDarkTheme": 1 if screen.dark else 0,
            "browser.download.folderList": 2,
            "browser.download.dir": str(self.saved),
            "browser.download.always_ask_before_handling_new_types": False,
            "ui.prefersReducedMotion": 1 if screen.still else 0,
            "intl.accept_languages": screen.language,
        }.items()), encoding="utf-8")
        words = [needed("firefox-esr"), "--headless", "--no-remote", "--profile", str(profile), "--remote-debugging-port=0", "about:blank"]
        self.ending = contextlib.ExitStack()
        said = self.ending.enter_context(open(f"{folder}/said", "wb"))
        self.process = self.ending.enter_context(subprocess.Popen(words, stdout=said, stderr=said, env=environment(folder)))
        try:
            self.channel = Channel(self.port(Path(folder) / "said"))
            self.channel.ask("session.new", capabilities={})
            # (the first window never has the focus of the keyboard)
            self.context = self.channel.ask("browsingContext.create", type="window")["context"]
            self.channel.ask("browsingContext.setViewport", context=self.context, viewport={"width": screen.width, "height": screen.height})
        except BaseException:
            self.process.kill()
            self.ending.close()
            raise

    def port(self, said: Path) -> int:
        """Where Firefox listens, as it says."""
        for _ in range(600):
            found = re.search(r"listening on ws://[^:]+:(\d+)", said.read_text(encoding="utf-8", errors="replace"))
            if found:
                return int(found[1])
            if self.process.poll() is not None:
                break
            time.sleep(0.1)
        raise Failed(f"firefox-esr does not listen: {said.read_text(encoding='utf-8', errors='replace').strip()}")

    def open(self, address: str) -> None:
        """Opens a page, and waits until it is there."""
        self.channel.ask("browsingContext.navigate", context=self.context, url="about:blank", wait="complete")
        self.channel.ask("browsingContext.navigate", context=self.context, url=address, wait="complete")

    def evaluate(self, code: str) -> Any:
        """The value of an expression in the page."""
        told = self.channel.ask("script.evaluate", expression=wrapped(code), target={"context": self.context}, awaitPromise=True)
        if told["type"] != "success":
            raise Failed(told["exceptionDetails"]["text"])
        return unwrapped(told["result"]["value"])

    def press(self, *keys: str) -> None:
        """Presses the keys together."""
        actions = [{"type": "keyDown", "value": key} for key in keys] + [{"type": "keyUp", "value": key} for key in reversed(keys)]
        self.channel.ask("input.performActions", context=self.context, actions=[{"type": "key", "id": "keyboard", "actions": actions}])

    def drag(self, start: tuple[float, float], end: tuple[float, float]) -> None:
        """Presses the pointer, moves it, and lets it go."""
        places = start, ((start[0] + end[0]) / 2, (start[1] + end[1]) / 2), end
        moves = [{"type": "pointerMove", "x": round(left), "y": round(top)} for left, top in places]
        actions = [moves[0], {"type": "pointerDown", "button": 0}, *moves[1:], {"type": "pointerUp", "button": 0}]
        self.channel.ask("input.performActions", context=self.context, actions=[{"type": "pointer", "id": "mouse", "actions": actions}])

    def picture(self, file: Path) -> None:
        """Writes what is seen."""
        file.write_bytes(base64.b64decode(self.channel.ask("browsingContext.captureScreenshot", context=self.context)["data"]))

    def print(self, file: Path) -> None:
        """Writes what the page prints."""
        page, margin = {"width": 29.7, "height": 21.0}, {side: 1.2 for side in ("top", "bottom", "left", "right")}
        told = self.channel.ask("browsingContext.print", context=self.context, page=page, margin=margin)
        file.write_bytes(base64.b64decode(told["data"]))

    def slow(self, _: int) -> bool:
        """Firefox has no word for it."""
        return False

    def close(self) -> None:
        """Ends the browser."""
        with contextlib.suppress(Failed, OSError):
            self.channel.ask("browser.close")
        with contextlib.suppress(subprocess.TimeoutExpired):
            self.process.wait(30)
        self.process.kill()
        self.channel.close()
        self.ending.close()


# Both

BROWSERS: dict[str, type[Chromium] | type[Firefox]] = {Chromium.name: Chromium, Firefox.name: Firefox}


def saved_in(folder: str) -> Path:
    """The folder for what pages save."""
    saved = Path(folder) / "saved"
    saved.mkdir()
    return saved


def needed(program: str) -> str:
    """Where a program is."""
    found = shutil.which(program)
    if found is None:
        raise Missing(f"there is no {program} here")
    return found


def library(name: str) -> Any:
    """A module of Debian's python3-selenium, or of what it stands on."""
    try:
        return importlib.import_module(name)
    except ImportError:
        raise Missing(f"{sys.executable} has no {name.split('.', maxsplit=1)[0]} (Debian: python3-selenium)") from None


def environment(folder: str) -> dict[str, str]:
    """What a browser finds around it: a home of its own, and no proxy."""
    kept = {key: value for key, value in os.environ.items() if not key.lower().endswith("_proxy") and key not in ("DISPLAY", "WAYLAND_DISPLAY")}
    return {**kept, "HOME": folder, "XDG_CACHE_HOME": f"{folder}/cache", "XDG_CONFIG_HOME": f"{folder}/config"}


@contextlib.contextmanager
def opened(name: str, screen: Screen = Screen()) -> Iterator[Browser]:
    """A browser that is ended at the end, with all that it wrote."""
    folder = tempfile.mkdtemp(prefix="browser-")
    try:
        browser = BROWSERS[name](screen, folder)
        try:
            yield browser
        finally:
            browser.close()
    finally:
        shutil.rmtree(folder, ignore_errors=True)


def cut_off() -> bool:
    """Cuts this program, and all that it starts, off from networks: it begins anew where only the loopback device is. Whether it could."""
    if os.environ.get(CUT_OFF):
        return True
    tools = shutil.which("unshare"), shutil.which("ip"), shutil.which("sh")
    if None in tools or subprocess.run(["unshare", "-rn", "ip", "link", "set", "lo", "up"], check=False, capture_output=True).returncode:
        return False
    os.environ[CUT_OFF] = "1"
    return os.execvp("unshare", ["unshare", "-rn", "sh", "-c", 'ip link set lo up && exec "$@"', "sh", sys.executable, *sys.argv])
