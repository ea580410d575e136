"""Opens the page for planners and students in the browser, with an instance."""
from __future__ import annotations

import html
import tempfile
import webbrowser
from dataclasses import dataclass
from pathlib import Path
from urllib.parse import quote

from ..faults import Misfit
from ..files import need_file, read_text
from .frame import Command, Parser, Tell

SAYS = """
Opens released/msp.html in the browser: plans as pictures to drag, all classes, lessons. Nothing leaves the computer.

FILE is an instance text, as from-csv and make-instance write it; where a schedule stands behind it, as solve and to-schedule write one, it is
the plan of the page. `-` reads standard input. Lists are pasted in the page, or dropped on it.

Since many systems open files without what stands behind #, the browser is given a small file in the folder for temporary files that leads to
the page. With --address no browser is opened, and the address of the page with the instance is printed.

It ends with 1 where no browser could be opened, and with 2 where the words do not fit or the text is too long for an address.
"""
PAGE = "released/msp.html"
MOST = 1_000_000  # (bytes of an address that browsers take)
LEADING = """<!DOCTYPE html>
<meta charset="utf-8"><title>msp</title><meta http-equiv="refresh" content="0;url={address}">
<p><a href="{address}">msp</a></p>
"""


@dataclass
class Wanted:
    """The words of the call."""
    file: str | None = None
    page: str | None = None
    address: bool = False


@dataclass
class Answer:
    """The address of the page with its instance, and whether it was opened; None where it was only asked for."""
    address: str
    opened: bool | None


def address_of(page: str, text: str | None) -> str:
    """The address of the page, with a text behind it."""
    found = Path(page).resolve().as_uri() + (f"#text={quote(text, safe='')}" if text else "")
    if len(found) > MOST:
        raise Misfit(f"the text is too long for an address of {MOST} bytes: open the file in the page")
    return found


def led(address: str) -> Path:
    """A file that leads to an address. It stays, since the browser reads it later."""
    with tempfile.NamedTemporaryFile("w", prefix="msp-board-", suffix=".html", encoding="utf-8", delete=False) as file:
        file.write(LEADING.format(address=html.escape(address, quote=True)))
    return Path(file.name)


def answer(wanted: Wanted, tell: Tell) -> Answer:
    """Opens the page, or tells its address."""
    page = need_file(wanted.page, PAGE, "--page")
    address = address_of(page, read_text(wanted.file) if wanted.file else None)
    if wanted.address:
        return Answer(address, None)
    leading = led(address)
    opened = webbrowser.open(leading.as_uri())
    if not opened:
        tell(f"no browser could be opened: open {leading} by hand")
    return Answer(address, opened)


def show(found: Answer) -> None:
    """Prints the address that was asked for."""
    if found.opened is None:
        print(found.address)


def status(found: Answer) -> int:
    """1 where no browser could be opened."""
    return int(found.opened is False)


def words(parser: Parser) -> None:
    """Adds the words."""
    parser.add_argument("file", metavar="FILE", nargs="?", help="an instance text, with a schedule behind it or without; `-` is standard input")
    parser.add_argument("--page", metavar="FILE", help=f"the page; without it {PAGE}")
    parser.add_argument("--address", action="store_true", help="prints the address of the page with the instance, and opens nothing")


COMMAND = Command("board", "[FILE] [OPTION ..]", SAYS, "board instance.txt\nboard - --address < instance.txt", Wanted, words, answer, show, status)
