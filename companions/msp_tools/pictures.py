"""Gantt charts drawn: as SVG, or with characters. Pixels and columns are rounded, nothing else."""
from __future__ import annotations

import re
import textwrap
from collections.abc import Iterator, Sequence
from fractions import Fraction
from html import escape

from .charts import Chart, clean, middle
from .dates import said_length
from .schedules import Piece

MOST_BANDS = 24
MOST_LINES = 60  # (of all bands)
MOST_LISTED = 60
TOP = 58
RED = "#c00000"


def late_texts(chart: Chart) -> list[str]:
    """For each late job when it ends and when it is due."""
    late = [it for it in chart.jobs if it in chart.late]
    return [f"{chart.names[it]}: {chart.moment(chart.ends[it], True)}, due {chart.moment(chart.late[it], True)}" for it in late]


# The picture

def colour(number: int) -> str:
    """A job's colour: hues far apart for neighbours, in three shades."""
    return f"hsl({number * 137.508 % 360:.0f} {(62, 48, 70)[number % 3]}% {(76, 84, 70)[number // 3 % 3]}%)"


def room_of(text: str, height: int) -> int:
    """The width that a bar needs for letters, which are turned where the bar is high enough."""
    return 9 if height >= 22 else len(text) * 5 + 1


class Picture:
    """A chart in pixels: its places, and the elements that are drawn. Time runs in bands, one below the other."""

    def __init__(self, chart: Chart, width: int, bands: int | None) -> None:
        self.chart, self.width, self.lines = chart, width, chart.lines()
        count = len(self.lines)
        self.height = 14 if count > 60 else 22 if count > 20 else 30
        self.small = 9 if self.height <= 20 else self.height // 2 - 2
        titles = max((len(it.title) for it in self.lines), default=1)
        self.left = min(260, width * 2 // 5, 18 + titles * self.small * 65 // 100)
        self.across = width - self.left - min(24, width // 20)
        self.bands = bands or self.bands_needed()
        self.pitch = self.height * count + 34
        self.bottom = TOP + self.pitch * self.bands - 34
        self.least_pause, self.pauses = chart.pauses(self.across * self.bands // 8)
        self.colours = {job: colour(at) for at, job in enumerate(chart.jobs)}
        self.lettered: set[str] = set()
        self.out: list[str] = []

    def bands_needed(self) -> int:
        """In how many bands time runs: one where nearly all bars have room for letters, else enough for that, as far as the page goes."""
        chart = self.chart
        if chart.by_job:
            return 1
        short = sorted(room_of(chart.letters[it.job], self.height) * chart.span / ((it.end - it.start) * self.across or 1) for it in chart.pieces)
        if sum(it > 1 for it in short) <= len(short) // 10:
            return 1
        most = max(1, min(MOST_BANDS, MOST_LINES // len(self.lines), len(short) // (8 * len(self.lines)) + 1))
        return min(most, int(-(-short[len(short) - 1 - len(short) // 50] // 1)))

    # (places)

    def top(self, band: int, line: int = 0) -> int:
        """The upper edge of a line in a band."""
        return TOP + self.pitch * band + self.height * line

    def place(self, value: Fraction | int, band: int = 0) -> float:
        """The pixel of a moment in a band."""
        return self.left + float(value * self.bands / self.chart.span - band) * self.across

    def band(self, value: Fraction | int) -> int:
        """The band of a moment."""
        return min(int(value * self.bands / self.chart.span), self.bands - 1)

    def parts(self, piece: Piece) -> Iterator[tuple[int, float, float]]:
        """The parts of a piece in the bands: each with its band, its place and its width."""
        for band in range(self.band(piece.start), self.band(piece.end) + 1):
            x = max(self.place(piece.start, band), self.left)
            wide = min(self.place(piece.end, band), self.left + self.across) - x
            if wide > 0 or band == self.band(piece.start):
                yield band, x, max(wide, 0.4)

    # (elements)

    def text(self, x: float, y: float, size: int, fill: str, said: str, more: str = "") -> None:
        """Adds a text."""
        self.out.append(f'<text x="{x:.1f}" y="{y:.1f}" font-size="{size}" fill="{fill}" text-anchor="{more or "start"}">{escape(said)}</text>')

    def turned(self, x: float, y: float, size: int, fill: str, said: str) -> None:
        """Adds a text that runs upwards."""
        turn = f'transform="rotate(-90 {x:.1f} {y:.1f})"'
        self.out.append(f'<text x="{x:.1f}" y="{y:.1f}" font-size="{size}" fill="{fill}" text-anchor="middle" {turn}>{escape(said)}</text>')

    def upright(self, x: float, y: int, height: int, style: str) -> None:
        """Adds an upright line."""
        self.out.append(f'<line x1="{x:.1f}" y1="{y}" x2="{x:.1f}" y2="{y + height}" {style}/>')

    def titled(self, title: str) -> None:
        """Begins a group with a title, which a browser shows where the mouse is."""
        self.out.append(f"<g><title>{escape(title)}</title>")

    def done(self) -> None:
        """Ends a group."""
        self.out.append("</g>")


def draw_lines(picture: Picture, band: int) -> None:
    """Draws the ground of the lines of a band, with their titles."""
    fits = max(3, (picture.left - 16) * 100 // (picture.small * 62))
    for at, line in enumerate(picture.lines):
        y = picture.top(band, at)
        ground = "#f4f4f4" if at % 2 else "#fafafa"
        picture.out.append(f'<rect x="{picture.left}" y="{y}" width="{picture.across}" height="{picture.height}" fill="{ground}"/>')
        picture.text(picture.left - 8, y + picture.height * 0.5 + picture.small * 0.35, picture.small, "#333", middle(line.title, fits), "end")


def draw_axis(picture: Picture) -> None:
    """Draws lines at round distances and at the end, with their moments where there is room; that of the end always is there."""
    chart, height = picture.chart, picture.height * len(picture.lines)
    ends = chart.moment(chart.span, True)
    most = max(2, picture.across // (6 * max(len(chart.moment(0)), len(ends)) + 22)) * picture.bands
    # (where the text of the end begins, and that of the next moment may)
    last, free = min(picture.left + picture.across, picture.width - 3 * len(ends)) - 3 * len(ends), [0.0] * picture.bands
    for at in [*(it for it in chart.ticks(most) if it < chart.span), chart.span]:
        band, said = picture.band(at), ends if at == chart.span else chart.moment(at)
        x, half = picture.place(at, band), 3 * len(said)
        picture.upright(x, picture.top(band) - 6, height + 6, 'stroke="#ccc" stroke-width="0.7"')
        centre = max(half, min(x, picture.width - half))
        fits = at == chart.span or band < picture.bands - 1 or centre + half + 8 < last
        if fits and centre - half >= free[band]:
            picture.text(centre, picture.top(band) - 11, 10, "#555", said, "middle")
            free[band] = centre + half + 8


def draw_pauses(picture: Picture) -> None:
    """Draws where the plant pauses, behind the bars."""
    for at, said in picture.pauses:
        band = picture.band(at)
        picture.titled(f"pause {said}")
        height = picture.height * len(picture.lines) + 4
        picture.upright(picture.place(at, band), picture.top(band) - 4, height, 'stroke="#999" stroke-width="1.5" stroke-dasharray="2 2"')
        picture.done()


def draw_label(picture: Picture, piece: Piece, x: float, y: int, wide: float) -> None:
    """Draws the label of a bar: a name, or letters, small or turned where there is no more room."""
    chart, size, turned = picture.chart, picture.small, False
    label = chart.label(piece, int(wide - 4) * 10 // (picture.small * 6)) if wide > 7 else ""
    if not label and not chart.by_job:
        letters, size = chart.letters[piece.job], 8
        turned = len(letters) * 5 + 1 > wide
        label = letters if wide >= (room_of(letters, picture.height) if turned else 6) else ""
    if not label:
        return
    if label == chart.letters.get(piece.job):
        picture.lettered.add(piece.job)
    ink, centre, base = "#fff" if id(piece) in chart.overlapping else "#222", y + picture.height * 0.5, size * 0.35
    if turned:
        picture.turned(x + wide / 2 + base, centre, size, ink, label)
    else:
        picture.text(x + wide / 2, centre + base, size, ink, label, "middle")


def draw_piece(picture: Picture, piece: Piece, line: int) -> None:
    """Draws a bar in each band that it runs through, with pauses and the label in the widest part."""
    chart, parts = picture.chart, list(picture.parts(piece))
    late, overlaps = piece.job in chart.late, id(piece) in chart.overlapping
    fill = f'{RED}" fill-opacity="0.55' if overlaps else picture.colours[piece.job]
    picture.titled(chart.note(piece))
    for band, x, wide in parts:
        edge = f'stroke="{RED}" stroke-width="1.6"' if late else 'stroke="#555" stroke-width="0.5"' if wide > 2 else ""
        size = f'width="{wide:.2f}" height="{picture.height - 4}"'
        picture.out.append(f'<rect x="{x:.2f}" y="{picture.top(band, line) + 2}" {size} fill="{fill}" {edge}/>')
    for at, _ in picture.pauses:
        if piece.start < at < piece.end:
            band = picture.band(at)
            picture.upright(picture.place(at, band), picture.top(band, line) + 2, picture.height - 4, 'stroke="#fff" stroke-width="2"')
    band, x, wide = max(parts, key=lambda it: it[2])
    draw_label(picture, piece, x, picture.top(band, line), wide)
    picture.done()


def draw_due(picture: Picture, job: str, line: int) -> None:
    """Draws the due date in the line of a job."""
    due = picture.chart.due.get(job)
    if due is not None and 0 <= due <= picture.chart.span:
        band = picture.band(due)
        style = f'stroke="{RED}" stroke-width="1.2" stroke-dasharray="3 2"'
        picture.upright(picture.place(due, band), picture.top(band, line) + 1, picture.height - 2, style)


def draw_columns(picture: Picture, texts: Sequence[str], y: int) -> int:
    """Draws texts in as many columns as their lengths allow, and gives the height below them."""
    longest = max(map(len, texts))
    columns = max(1, (picture.width - 16) // (longest * 6 + 18))
    for at, text in enumerate(texts):
        picture.text(8 + at % columns * (picture.width - 16) / columns, y + at // columns * 14, 10, "#555", text)
    return y + (len(texts) + columns - 1) // columns * 14


def draw_late(picture: Picture, y: int) -> int:
    """Draws which jobs are late, and gives the height below."""
    chart = picture.chart
    edged = (", edged in red" if chart.late else "") + ("; a broken line is a due date" if chart.by_job else "")
    picture.text(8, y, 11, "#a00000" if chart.late else "#222", f"late: {len(chart.late)} of {len(chart.jobs)} jobs{edged}")
    texts = late_texts(chart)
    if len(texts) > MOST_LISTED:
        texts[MOST_LISTED - 1:] = [f"and {len(texts) - MOST_LISTED + 1} more"]
    return draw_columns(picture, texts, y + 16) if texts else y + 14


def draw_legends(picture: Picture) -> int:
    """Draws what is late, and what the letters mean; gives the height of all."""
    chart, y = picture.chart, picture.bottom + 20
    if chart.overlapping:
        picture.text(8, y, 11, RED, f"{len(chart.overlapping)} pieces overlap, in red")
        y += 18
    if chart.due:
        y = draw_late(picture, y)
    if picture.lettered:
        picture.text(8, y + 6, 11, "#222", "letters of jobs")
        y = draw_columns(picture, [f"{chart.letters[it]} {chart.names[it]}" for it in chart.jobs if it in picture.lettered], y + 22)
    least = f" of at least {said_length(picture.least_pause)}" if picture.least_pause else ""
    notes = [*chart.units.notes(), *[f"dotted lines and gaps in bars: pauses of the plant{least}"] * bool(picture.pauses)]
    for note in [line for it in notes for line in textwrap.wrap(it, picture.width // 5 - 8)]:
        picture.text(8, y + 6, 10, "#555", note)
        y += 14
    return y + 6


def svg(chart: Chart, width: int = 1200, bands: int | None = None) -> str:
    """The chart as SVG, so many pixels wide; `bands` says in how many bands time runs, else the shortest bars do."""
    picture = Picture(chart, width, bands)
    picture.text(8, 22, 15, "#222", chart.title())
    for band in range(picture.bands):
        draw_lines(picture, band)
    draw_axis(picture)
    draw_pauses(picture)
    for at, line in enumerate(picture.lines):
        for piece in line.pieces:
            draw_piece(picture, piece, at)
        if line.job is not None:
            draw_due(picture, line.job, at)
    total = draw_legends(picture)
    head = [f'<svg xmlns="http://www.w3.org/2000/svg" width="{width}" height="{total}" viewBox="0 0 {width} {total}" '
            f'font-family="Helvetica, Arial, sans-serif" font-size="{picture.small}">', f'<rect width="{width}" height="{total}" fill="white"/>']
    return "\n".join([*head, *picture.out, "</svg>"])


# The text

def shown(name: str, fits: int) -> str:
    """A name, or its first signs up to a figure: a number that is cut is another one."""
    return name if len(name) <= fits else re.split("[0-9]", name[:fits])[0]


def drawn_bar(name: str, wide: int) -> str:
    """A bar of so many characters."""
    if wide < 3:
        return (shown(name, 1) or "-") + "]" * (wide - 1)
    return f"[{shown(name, wide - 2).ljust(wide - 2, '-')}]"


class Sheet:
    """A chart in characters: so many columns across, in bands."""

    def __init__(self, chart: Chart, width: int, bands: int | None) -> None:
        self.chart, self.lines = chart, chart.lines()
        titles = ["pauses"] * bool(chart.units.calendar) + [it.title for it in self.lines]
        self.left = min(20, max(map(len, titles)))
        self.across = max(10, width - self.left - 2)
        self.bands = bands or self.bands_needed()
        self.step = chart.span / (self.across * self.bands)

    def bands_needed(self) -> int:
        """In how many bands time runs, so that short pieces can still be told apart."""
        chart, bands = self.chart, 1
        shortest = min((it.end - it.start for it in chart.pieces), default=chart.span)
        while not chart.by_job and bands < MOST_BANDS and shortest * self.across * bands < 3 * chart.span:
            bands += 1
        return bands

    def axis(self, band: int) -> str:
        """The line of moments above a band; the end of all stands in the last one."""
        chart, row, free = self.chart, [" "] * (self.left + 2 + self.across), 0
        ends = f"{chart.moment(chart.span, True)}|"
        last = band + 1 == self.bands
        room = self.across - len(ends) - 1 if last else self.across
        for tick in chart.ticks(max(2, self.across * self.bands // (20 if chart.units.start else 10))):
            at, mark = int(tick / self.step) - band * self.across, f"|{chart.moment(tick)}"
            if at >= free and at + len(mark) <= room:
                row[self.left + 1 + at:self.left + 1 + at + len(mark)] = mark
                free = at + len(mark) + 1
        if last and len(ends) < self.across:
            row[self.left + 2 + self.across - len(ends):self.left + 2 + self.across] = ends
        return "".join(row).rstrip()

    def pauses(self, band: int) -> str:
        """The line that marks where the plant pauses in a band; nothing where it does not."""
        cells = [" "] * self.across
        for at, _ in self.chart.pauses(self.across * self.bands // 3)[1]:
            cell = int(at / self.step) - band * self.across
            if 0 <= cell < self.across:
                cells[cell] = "'"
        return "".join(cells).rstrip()

    def name(self, piece: Piece, wide: int) -> str:
        """What a bar of so many characters says."""
        chart = self.chart
        if chart.by_job:
            return chart.machine(piece.machine, True) if chart.machines > 1 else ""
        late, name = piece.job in chart.late, chart.names[piece.job]
        return (middle(name, wide - 2 - late) if wide > 7 else name) + "!" * late

    def cells(self, pieces: Sequence[Piece], band: int) -> str:
        """The characters of a line in a band."""
        cells, first, last = [" "] * self.across, band * self.across, (band + 1) * self.across
        for piece in pieces:
            begin, end = int(piece.start / self.step), max(int(piece.end / self.step), int(piece.start / self.step) + 1)
            drawn = drawn_bar(self.name(piece, end - begin), end - begin)
            for at in range(max(begin, first), min(end, last)):
                cells[at - first] = "#" if id(piece) in self.chart.overlapping and cells[at - first] != " " else drawn[at - begin]
        return "".join(cells)


def characters(chart: Chart, width: int = 80, bands: int | None = None) -> str:
    """The chart with characters, so many columns wide."""
    sheet, out = Sheet(chart, width, bands), [chart.title()]
    for band in range(sheet.bands):
        pauses = sheet.pauses(band)
        out += [""] * (band > 0) + [sheet.axis(band)] + [f"{'pauses'.rjust(sheet.left)} |{pauses}"] * bool(pauses)
        for line in sheet.lines:
            mark = "!" if line.job in chart.late else "|"
            out.append(f"{middle(line.title, sheet.left).rjust(sheet.left)} {mark}{sheet.cells(line.pieces, band)}".rstrip())
    if chart.overlapping:
        out.append(f"{len(chart.overlapping)} pieces overlap: # marks where")
    if chart.due:
        out.append(f"late: {len(chart.late)} of {len(chart.jobs)} jobs")
        out += [f"  {it}" for it in late_texts(chart)]
    return "\n".join(out + [clean(it) for it in chart.units.notes()])
