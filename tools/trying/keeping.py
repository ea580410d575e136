"""What leaves the page and comes back: links, files, paper, the store; and what cannot."""
from __future__ import annotations

import functools
import http.server
import json
import os
import shutil
import subprocess
import sys
import tempfile
import threading
from pathlib import Path
from typing import Any
from urllib.parse import quote

import browsers
from .page import DARK, expect, GERMAN, HERE, instance, LIST, Page, SIXTY, Skipped, Trial, WIDE

RIGHT_TO_LEFT = ("\u05de\u05d5\u05d3\u05e2\u05d5\u05ea", "\u0645\u0644\u0635\u0642\u0627\u062a 12")


def try_links(page: Page) -> None:
    """Links and saved files are opened anew; names that would be code are text."""
    evil = "<img src=x onerror=globalThis.bad=1> \"&' \u202eabc"
    page.open()
    page.do(f"trial.takeList({json.dumps(f'job;time{chr(10)}{evil};3{chr(10)}<script>bad=1</script>;2')})")
    page.until("msp.app.isBest", "a plan of such names")
    expect(page.do("!('bad' in globalThis) && document.images.length === 0"), "names are text")
    state = page.do("trial.link()")
    page.open(f"#state={state}")
    page.until("msp.app.isBest", "the link opens the plan")
    expect(page.do("msp.app.problem.rows[0].name").startswith("<img"), "with its names")
    page.open("#state=nonsense")
    expect(page.do("msp.app.state.problem.rows.length") > 0, "a link that is none leaves the page as it is")
    page.do("trial.takeFile('saved.json', trial.saved())")
    expect("was opened" in page.text(".notes"), page.text(".notes"))


def try_names(page: Page) -> None:
    """Names from right to left, with quotes, marks and signs of other languages: in the table, the chart, sentences, lists and files."""
    names = [*RIGHT_TO_LEFT, "a \u202e b", "O'Neil & \"Co\" <b>", "{0} \\ $x_1^2$ %", "=1+1", "\U0001f680 rocket"]
    page.open()
    page.do("trial.takeList(" + json.dumps("job\ttime\n" + "".join(f"{name}\t{at + 2}\n" for at, name in enumerate(names))) + ")")
    page.until(f"msp.app.isBest && msp.app.built.jobs.length === {len(names)}", "a plan of such names")
    expect(page.do("[...document.querySelectorAll('.cell-job input')].every(it => it.dir === 'auto')"), "cells know their direction")
    page.do("document.querySelectorAll('#the-plan details').forEach(it => { it.open = true; })")
    page.until("document.querySelectorAll('#the-plan table').length === 2", "the lists")
    for name in names:
        expect(name in page.do("document.querySelectorAll('#the-plan table')[1].textContent"), f"{name!r} in the list")
    page.do("trial.drag(trial.last(), -900, 0)")
    page.until("document.getElementById('broken')", "a sentence with names")
    expect("\u202e" not in page.text(".verdict"), "no sign turns the sentence")
    page.do("msp.app.store.undo()")
    page.until("msp.app.isBest", "the plan again")
    made = page.do("trial.given(['svg', 'tikz', 'csv'])")
    expect(page.do(f"trial.isXml({json.dumps(made['plan.svg'])})"), "the picture is well-formed")
    expect("\\{0\\} \\textbackslash{} \\$x\\_1\\textasciicircum{}2\\$ \\%" in made["plan.tex"] or "\\$x" in made["plan.tex"], made["plan.tex"][-400:])
    expect("'=1+1" in made["plan.csv"] and '"O\'Neil & ""Co"" <b>"' in made["plan.csv"], made["plan.csv"])
    for name in RIGHT_TO_LEFT:
        expect(name in made["plan.svg"] and name in made["plan.csv"], f"{name!r} in files")
    state = page.do("trial.link()")
    page.open(f"#state={state}")
    page.until("msp.app.isBest", "the link opens the plan")
    expect(page.do("msp.app.problem.rows.map(it => it.name)") == names, "with its names")


def try_print(page: Page) -> None:
    """What is printed: pages of A4 with the chart and the list, and no controls; each page has something on it."""
    for program in ("pdftotext", "pdftoppm"):
        if shutil.which(program) is None:
            raise Skipped(f"there is no {program} here (Debian: poppler-utils)")
    page.open()
    page.do("trial.language('de')")
    for text, names in ((LIST, ["Plakate M\u00fcller", "Binden"]), (SIXTY, [f"Auftrag {at}" for at in range(60)])):
        page.do(f"trial.takeList({json.dumps(text)})")
        page.until(f"msp.app.isBest && msp.app.built.jobs.length === {max(6, len(names))}", "a plan")
        with tempfile.TemporaryDirectory() as folder:
            look_at_print(page, Path(folder), names)


def look_at_print(page: Page, folder: Path, names: list[str]) -> None:
    """Prints the page, and looks at each page of paper."""
    file = folder / "plan.pdf"
    page.browser.print(file)
    words = subprocess.run(["pdftotext", "-layout", str(file), "-"], check=True, capture_output=True, text=True).stdout
    for said in [*names, "Der Plan als Liste", "bewiesen", "Maschine 1", "Beginn"]:
        expect(said in words, f"{said} is not printed: {words[:300]}")
    for said in ("Datei \u00f6ffnen", "Bester Plan", "Klassen", "Enter nimmt", "Pr\u00fcfen", "Schritte der Regel", "Was w\u00e4re"):
        expect(said not in words, f"{said} is printed")
    subprocess.run(["pdftoppm", "-gray", "-r", "40", str(file), str(folder / "page")], check=True)
    sheets = sorted(folder.glob("page-*.pgm"))
    page.measured.append(f"{len(names)} names on {len(sheets)} pages")
    expect(len(sheets) == 1 if len(names) < 10 else 2 <= len(sheets) <= 4, f"{len(sheets)} pages")
    for sheet in sheets:
        _, size, _, pixels = sheet.read_bytes().split(b"\n", 3)
        (width, height), dark = map(int, size.split()), sum(it < 128 for it in pixels) / len(pixels)
        expect(466 <= width <= 469 and 329 <= height <= 332, f"{sheet.name}: {width} x {height}, which is not A4")
        expect(0.001 < dark < 0.5, f"{sheet.name}: {dark:.3f} of it is dark")


def try_safe(page: Page) -> None:
    """A call is stopped, one fails, and the page goes on; no foreign code runs, nothing is fetched, nothing is stored unasked."""
    page.open("#text=" + quote((HERE / "examples/accept-group.txt").read_text(encoding="utf-8")))
    page.until("msp.app.problem.parts.environment === 'P'", "a link with a certificate")
    expect(page.do("document.getElementById('why-accepted').hidden"), "a link fills the instance, and judges nothing")
    page.take(instance("R||sumC"))
    page.until("msp.app.name === 'R||sumC' && msp.app.built.text", "an instance")
    page.do("trial.typeIn(1, 'p1', '9')")
    page.do("(document.getElementById('best').click(), document.getElementById('stop').click())")
    page.until("document.getElementById('told') && document.getElementById('told').textContent === 'Stopped.'", "a call is stopped")
    page.do("msp.app.ask = () => Promise.reject(new Error('a trap'))")
    page.do("document.getElementById('best').click()")
    page.until("/went wrong.*a trap/.test(document.getElementById('told').textContent)", "a call that fails says so")
    page.do("delete msp.app.ask")
    page.do("document.getElementById('best').click()")
    page.until("msp.app.isBest", "and the page goes on")
    policy = page.do("document.querySelector('meta[http-equiv]').content")
    expect("default-src 'none'" in policy and "unsafe-inline" not in policy and "connect-src" not in policy and "http" not in policy, policy)
    expect(page.do("trial.foreign()"), "no foreign script runs")
    expect(page.do("trial.refused()") == ["handler", "picture", "style"], page.do("trial.refused()"))
    run = "try { done(new Function('return false')()) } catch (fault) { done(true) }"
    expect(page.do(f"new Promise(done => setTimeout(() => {{ {run} }}))"), "no text is run as code")
    expect(page.do("fetch('data:,text').then(() => false, () => true)"), "nothing can be fetched")
    expect(page.do("localStorage.length === 0 && sessionStorage.length === 0 && document.cookie === ''"), "nothing is stored unasked")


def try_files(page: Page) -> None:
    """Pictures and lists as files."""
    page.open("#text=" + quote((HERE / "examples/late-orders.txt").read_text(encoding="utf-8")))
    page.until("msp.app.isBest", "a plan")
    made = page.do("trial.given(['svg', 'tikz', 'csv', 'schedule'])")
    expect(made["plan.svg"].startswith("<svg") and "shelf" in made["plan.svg"], "SVG")
    expect("\\begin{tikzpicture}" in made["plan.tex"], "TikZ")
    expect("machine 1,shelf,0,2" in made["plan.csv"], made["plan.csv"])
    expect("agree yes" in page.do(f"msp.run(['check'], {json.dumps(made['schedule.txt'])}).then(it => it.report)"), "the schedule")
    expect(page.do("trial.png()") > 2000, "PNG")
    page.take("cost 11\nbound 11\nproved\n" + made["schedule.txt"].split("end\n", 1)[1])
    page.until("msp.app.state.plan.from === 'own' && msp.app.isBest", "a plan as propose writes it")
    page.take("schedule\ncost 0\nunit 1\npiece nobody 1 1 0 3\nend\n")
    expect("other jobs" in page.text(".notes") and page.do("msp.app.isBest"), page.text(".notes"))


def try_served(page: Page) -> None:
    """From a web server, in a German browser: the page is German, a file is dropped on it, and nothing is asked of the server but the page."""
    asked: list[str] = []

    class Folder(http.server.SimpleHTTPRequestHandler):
        """The folder of the page, which keeps what it was asked for."""

        def log_message(self, format: str, *args: Any) -> None:  # pylint: disable=redefined-builtin
            asked.append(self.path)

    with http.server.ThreadingHTTPServer(("127.0.0.1", 0), functools.partial(Folder, directory=str(page.file.parent))) as server:
        threading.Thread(target=server.serve_forever, daemon=True).start()
        page.browser.open(f"http://127.0.0.1:{server.server_address[1]}/{page.file.name}")
        page.begin()
        page.until("msp.app.isBest", "the first plan")
        expect(page.text("#parts") == "PlanenKlassenLernen", page.text("#parts"))
        page.do(f"trial.drop('Auftr\u00e4ge.csv', {json.dumps(LIST)})")
        page.until("msp.app.isBest && msp.app.built.jobs.length === 6", "a file that is dropped")
        expect("6 Auftr\u00e4ge gelesen" in page.text(".notes"), page.text(".notes"))
        server.shutdown()
    expect(set(asked) <= {f"/{page.file.name}", "/favicon.ico"}, f"asked of the server: {asked}")


def try_shop(page: Page) -> None:
    """A shop's words are kept where it is asked for, seen, taken over by a fresh page, and deleted; a store that refuses is told."""
    page.open()
    page.do("trial.open('shop')")
    page.do("document.getElementById('shop-keep').click()")
    expect("no words to keep yet" in page.text("#shop") and page.do("localStorage.length") == 0, f"nothing to keep: {page.text('#shop')}")
    page.do("trial.typeInto('unit', 'h')")
    page.do("trial.typeInto('shifts', 'Mo-Fr 06:00-14:00')")
    page.do("trial.typeInto('class-name', 'F2||Cmax')")
    page.do("trial.typeInto('machineNames', 'Waschen, <b>Mangeln</b>')")
    expect(page.do("localStorage.length") == 0, "nothing is kept unasked")
    page.do("document.getElementById('shop-keep').focus()")
    page.press(browsers.ENTER)
    expect(page.do("Object.keys(localStorage).join()") == "msp-shop", "what is kept has one name")
    expect("hours" in page.text("#shop-kept") and "<b>Mangeln</b>" in page.text("#shop-kept"), page.text("#shop"))
    page.open()
    page.do("trial.open('shop')")
    begins = page.do("(it => [it.unit, it.shifts, it.machineNames.length].join())(msp.app.problem)")
    expect(begins == "h,Mo-Fr 06:00-14:00,2", f"a fresh page begins with {begins}")
    expect("begins with the words of the shop" in page.text(".notes") and page.do("!msp.app.store.past.length"), page.text(".notes"))
    page.do("trial.typeInto('unit', 'min')")
    page.do("document.getElementById('shop-take').click()")
    expect(page.do("msp.app.problem.unit") == "h", "taken over")
    page.do("document.getElementById('undo').click()")
    expect(page.do("msp.app.problem.unit") == "min", "and taken back")
    page.do("document.getElementById('shop-drop').click()")
    expect(page.do("localStorage.length") == 0 and "Deleted" in page.text("#shop") and not page.text("#shop-kept"), page.text("#shop"))
    page.open()
    expect(page.do("msp.app.problem.unit") == "", "a fresh page begins without them")
    for refusal in ("Storage.prototype.setItem = () => { throw new DOMException('full', 'QuotaExceededError') }",
                    "Object.defineProperty(globalThis, 'localStorage', { get() { throw new DOMException('shut', 'SecurityError') } })"):
        page.do(f"(() => {{ {refusal} }})()")
        page.do("trial.open('shop')")
        page.do("trial.typeInto('unit', 'min')")
        page.do("document.getElementById('shop-keep').click()")
        expect("keeps nothing for this page" in page.text("#shop"), page.text("#shop"))
        page.do("trial.typeInto('unit', 'h')")


def try_answers(page: Page) -> None:
    """A sheet of make-instance is opened, and the answer that the page saves is graded."""
    with tempfile.TemporaryDirectory() as folder:
        made = companion("make-instance", "1||sumU", "6", "7", "--due", "0.5", "--sheets", "1", "--to", f"{folder}/sheets")
        best = made.split("\n")[1].split(",")[2]
        os.mkdir(f"{folder}/answers")
        for name, far in (("Ada", 0), ("Ben", -3000)):
            page.open()
            sheet = (Path(folder) / "sheets/sheet-7.txt").read_text(encoding="utf-8")
            page.do(f"trial.takeFile('sheet-7.txt', {json.dumps(sheet)})")
            expect(page.do("msp.app.built.text") == sheet, "the sheet as it stands")
            page.do("document.getElementById('best').click()")
            page.until("msp.app.isBest && msp.app.state.plan", "a plan")
            if far:
                page.do(f"trial.drag(msp.app.state.plan.pieces.length - 1, {far}, 0)")
                page.until("document.getElementById('broken')", "a plan that does not go")
            page.do("trial.open('answer')")
            page.do(f"trial.typeInto('answer-name', '{name}')")
            for file, text in page.do("trial.given(['answer'])").items():
                (Path(folder) / "answers" / file).write_text(text, encoding="utf-8")
        ada, ben = (it.split(",") for it in companion("grade", f"{folder}/sheets", f"{folder}/answers", status=1).split("\n")[1:3])
        expect(ada == ["Ada_sheet-7", "yes", "", best, best, best, "0", "", ""], f"{ada}")
        expect(ben[:2] == ["Ben_sheet-7", "no"] and ben[2], f"{ben}")


def companion(name: str, *words: str, status: int = 0) -> str:
    """What a companion prints."""
    done = subprocess.run([sys.executable, "-B", str(HERE / "companions" / name), *words], check=False, capture_output=True, text=True)
    expect(done.returncode == status, f"{name}: {done.stderr}")
    return done.stdout


TRIALS: list[Trial] = [
    ("links", WIDE, try_links), ("files", WIDE, try_files), ("names", WIDE, try_names), ("print", DARK, try_print), ("safe", WIDE, try_safe),
    ("shop", WIDE, try_shop), ("answers", WIDE, try_answers), ("served", GERMAN, try_served)]
