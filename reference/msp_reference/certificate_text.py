"""Certificate texts: reading with the exact first fault, and printing."""
from typing import Iterator, Sequence

from .certificates import Block, Certificate, Group, Levels, Line, Machine, Prices, Proof, Segments
from .instance_text import Front
from .lines import Lines
from .schedule_text import read_fraction

MOST_LINES = 20_000
GREATEST_BOUND = 10 ** 24
GREATEST_LEVEL = 400
GREATEST_HEAD = 10 ** 12
GREATEST_PRICE = 10 ** 15

KINDS = (Group, Machine, Line, Levels, Segments, Block, Prices)


def kind_of(proof: Proof) -> str:
    """The word of a proof's kind."""
    return type(proof).__name__.lower()


def certificate_lines(names: Sequence[bytes], certificate: Certificate) -> list[str]:
    """The lines of a certificate text, its `end` among them."""
    texts = [name.decode() for name in names]
    proof = certificate.proof
    return ["certificate", f"bound {certificate.bound}", f"kind {kind_of(proof)}", *_proof_lines(texts, proof), "end"]


def _proof_lines(names: Sequence[str], proof: Proof) -> Iterator[str]:
    if isinstance(proof, Machine):
        yield f"machine {proof.machine + 1}"
    elif isinstance(proof, (Group, Line)):
        for j in proof.jobs if isinstance(proof, Group) else [proof.job]:
            yield f"job {names[j]}"
    elif isinstance(proof, Segments):
        for jobs in proof.lists:
            yield "segment"
            yield from (f"job {names[j]}" for j in jobs)
    elif isinstance(proof, Levels):
        yield f"tail {proof.tail}"
        yield from (f"level {name} {level}" for name, level in zip(names, proof.level))
    elif isinstance(proof, Block):
        yield from (f"head {name} {head}" for name, head in zip(names, proof.head))
        yield from (f"job {names[j]}" for j in proof.jobs)
    else:
        yield from (f"row {name} {price}" for name, price in zip(names, proof.row))
        yield from (f"column {machine + 1} {position} {price}"
                    for (machine, position), price in sorted(proof.column.items()) if price != 0)


class _Reader:
    """Reads the lines of a kind and counts them."""

    def __init__(self, lines: Lines, front: Front) -> None:
        self.lines = lines
        self.machines = front.filed.instance.machines
        self.places = front.filed.places()
        self.used = 0

    def next(self, **counts: int) -> list[bytes]:
        """The next line, whose first word must be one of these, with its number of fields."""
        fields = self.lines.next()
        self.lines.demand(fields, *(word.encode() for word in counts))
        if fields[0] != b"end":
            self.used += 1
            if self.used > MOST_LINES:
                raise self.lines.limit("lines")
        self.lines.count(fields, counts[fields[0].decode()])
        return fields

    def read(self, kind: str) -> Proof:
        """A proof of this kind, `end` taken."""
        if kind in ("machine", "line"):
            return self._one(kind)
        if kind == "levels":
            return self._levels()
        if kind == "segments":
            return self._segments()
        if kind == "group":
            return Group(self._jobs())
        return Block(self._per_job("head", 0, GREATEST_HEAD), self._jobs()) if kind == "block" else self._prices()

    def _jobs(self) -> list[int]:
        """Job lines up to `end`, which is taken."""
        jobs: list[int] = []
        while True:
            fields = self.next(job=2, end=1)
            if fields[0] == b"end":
                return jobs
            jobs.append(self.lines.known(fields[1], self.places))

    def _per_job(self, word: str, least: int, greatest: int) -> list[int]:
        """One line `word NAME N` for each job in order."""
        numbers = []
        for j in range(len(self.places)):
            fields = self.next(**{word: 3})
            if self.lines.known(fields[1], self.places) != j:
                raise self.lines.fault("unknown name")
            numbers.append(self.lines.number(fields[2], least, greatest, "price" if word == "row" else word))
        return numbers

    def _one(self, kind: str) -> Proof:
        proof: Proof
        if kind == "machine":
            proof = Machine(self.lines.number(self.next(machine=2)[1], 1, self.machines, "machines") - 1)
        else:
            proof = Line(self.lines.known(self.next(job=2)[1], self.places))
        self.next(end=1)
        return proof

    def _levels(self) -> Proof:
        tail = self.lines.number(self.next(tail=2)[1], 0, GREATEST_LEVEL, "level")
        level = self._per_job("level", 0, GREATEST_LEVEL)
        self.next(end=1)
        return Levels(tail, level)

    def _segments(self) -> Proof:
        lists: list[list[int]] = []
        fields = self.next(segment=1, end=1)
        while fields[0] != b"end":
            if fields[0] == b"segment":
                lists.append([])
            else:
                lists[-1].append(self.lines.known(fields[1], self.places))
            fields = self.next(segment=1, job=2, end=1)
        return Segments(lists)

    def _prices(self) -> Proof:
        row = self._per_job("row", -GREATEST_PRICE, GREATEST_PRICE)
        column: dict[tuple[int, int], int] = {}
        before = (-1, 0)
        while True:
            fields = self.next(column=4, end=1)
            if fields[0] == b"end":
                return Prices(row, column)
            machine = self.lines.number(fields[1], 1, self.machines, "machines") - 1
            position = self.lines.number(fields[2], 1, len(self.places), "place")
            price = self.lines.number(fields[3], -GREATEST_PRICE, -1, "price")
            if (machine, position) <= before:
                raise self.lines.fault("name again")
            before = (machine, position)
            column[before] = price


def read_certificate(front: Front, text: bytes) -> Certificate:
    """The certificate text behind an instance text."""
    lines = Lines(text, front.place, front.line)
    lines.only(b"certificate", 1)
    bound = read_fraction(lines, lines.only(b"bound", 2)[1], GREATEST_BOUND)
    kind = lines.only(b"kind", 2)[1].decode("latin-1")
    if kind not in {made.__name__.lower() for made in KINDS}:
        raise lines.fault("key")
    proof = _Reader(lines, front).read(kind)
    lines.end_of_text()
    return Certificate(bound, proof)
