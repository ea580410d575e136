"""Splits a matrix of times into slices that a machine and a job enter at most once each."""
from typing import NamedTuple, Sequence


class Slice(NamedTuple):
    """A stretch of time, and for each row the column that it has in it, or -1."""
    length: int
    columns: list[int]


class _Split:
    """A matrix of which slices are taken away; side 0 are its rows and side 1 its columns.

    At each moment a set of cells is kept that meets every tight line, a line being tight where its sum is all the time left. A
    lost line is met again along an alternating path.
    """

    def __init__(self, cells: Sequence[Sequence[int]]) -> None:
        self.cells = [list(line) for line in cells]
        self.sums: tuple[list[int], list[int]] = ([sum(line) for line in cells], [sum(column) for column in zip(*cells)])
        self.left = max(self.sums[0] + self.sums[1])
        self.partner = ([-1] * len(self.sums[0]), [-1] * len(self.sums[1]))

    def take(self) -> Slice:
        """The next slice, taken away."""
        for side in (0, 1):
            for line, total in enumerate(self.sums[side]):
                if total == self.left and self.partner[side][line] < 0:
                    self.meet(side, line)
        length = self._length()
        columns = list(self.partner[0])
        self.left -= length
        for row, column in enumerate(columns):
            if column >= 0:
                self.cells[row][column] -= length
                self.sums[0][row] -= length
                self.sums[1][column] -= length
                if self.cells[row][column] == 0:
                    self.partner[0][row] = self.partner[1][column] = -1
        return Slice(length, columns)

    def _length(self) -> int:
        lengths = [self.left]
        for row, column in enumerate(self.partner[0]):
            lengths.append(self.cells[row][column] if column >= 0 else self.left - self.sums[0][row])
        lengths += [self.left - total for total, row in zip(self.sums[1], self.partner[1]) if row < 0]
        return min(lengths)

    def _neighbours(self, side: int, line: int) -> list[int]:
        if side == 0:
            return [column for column, time in enumerate(self.cells[line]) if time > 0]
        return [row for row, times in enumerate(self.cells) if times[line] > 0]

    def meet(self, side: int, line: int) -> None:
        """Meet a tight line: an alternating path to an unmet crossing line, or to a line not tight."""
        partner, other = self.partner[side], self.partner[1 - side]
        came_from: dict[int, int] = {}
        waiting, done = [line], 0
        while True:
            here = waiting[done]
            done += 1
            for crossing in self._neighbours(side, here):
                if crossing in came_from:
                    continue
                came_from[crossing] = here
                behind = other[crossing]
                if behind >= 0 and self.sums[side][behind] == self.left:
                    waiting.append(behind)
                    continue
                if behind >= 0:
                    partner[behind] = -1
                _turn(line, crossing, came_from, (partner, other))
                return


def _turn(line: int, crossing: int, came_from: dict[int, int], partners: tuple[list[int], list[int]]) -> None:
    """Exchanges what is kept along the path from a line to a crossing one."""
    while True:
        owner = came_from[crossing]
        before = partners[0][owner]
        partners[0][owner], partners[1][crossing] = crossing, owner
        if owner == line:
            return
        crossing = before


def split(cells: Sequence[Sequence[int]]) -> list[Slice]:
    """Slices that add up to a matrix, in the least total length."""
    whole = _Split(cells)
    slices = []
    while whole.left > 0:
        slices.append(whole.take())
    return slices
