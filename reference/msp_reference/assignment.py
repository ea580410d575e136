"""Least assignments by shortest augmenting paths with prices (Hungarian method)."""
from operator import sub
from typing import Callable, NamedTuple, Sequence

_ENDLESS = 2 ** 300


class _Prices:
    """Rows assigned one after another to columns, with prices that show the assignment least.

    The prices of a row and of a column add up to at most the cost there, and to exactly the cost where the row is assigned.
    """

    def __init__(self, cost_of: Callable[[int], Sequence[int]]) -> None:
        self.cost_of = cost_of
        self.row_price: list[int] = []
        self.column_price: list[int] = []
        self.row_of: list[int] = []             # -1 for a free column

    def add_column(self) -> None:
        """One more column, which is free."""
        self.column_price.append(0)
        self.row_of.append(-1)

    def place_next(self) -> int:
        """Assigns the next row; answers the column that was free before."""
        new_row = len(self.row_price)
        self.row_price.append(0)
        slack = [_ENDLESS] * len(self.row_of)
        came_from = [-1] * len(self.row_of)
        left = list(range(len(self.row_of)))
        visited: list[int] = []
        row, column = new_row, -1
        while row >= 0:
            reduced = list(map(sub, self.cost_of(row), self.column_price))
            price = self.row_price[row]
            for k in left:
                if reduced[k] - price < slack[k]:
                    slack[k] = reduced[k] - price
                    came_from[k] = column
            column = min(left, key=slack.__getitem__)
            delta = slack[column]
            if delta:
                self._raise(new_row, visited, delta)
                for k in left:
                    slack[k] -= delta
            left.remove(column)
            visited.append(column)
            row = self.row_of[column]
        free = column
        while came_from[column] >= 0:
            self.row_of[column] = self.row_of[came_from[column]]
            column = came_from[column]
        self.row_of[column] = new_row
        return free

    def _raise(self, new_row: int, visited: list[int], delta: int) -> None:
        self.row_price[new_row] += delta
        for column in visited:
            self.row_price[self.row_of[column]] += delta
            self.column_price[column] -= delta


def assign(table: Sequence[Sequence[int]], column_count: int) -> list[int]:
    """The columns of the rows of a least assignment; `table` has the costs of each row."""
    prices = _Prices(lambda row: table[row])
    for _ in range(column_count):
        prices.add_column()
    for _ in table:
        prices.place_next()
    column_of = [-1] * len(table)
    for column, row in enumerate(prices.row_of):
        if row >= 0:
            column_of[row] = column
    return column_of


class Positions(NamedTuple):
    """Machines and positions of jobs, the prices of jobs, and those of the positions in use."""
    places: list[tuple[int, int]]
    row_price: list[int]
    prices: dict[tuple[int, int], int]


def assign_positions(times: Sequence[Sequence[int]], machines: int) -> Positions:
    """A least assignment of jobs to positions from the end on machines, with its prices.

    `times[j][i]` is the time of job j on machine i, at least 1; position k costs k times it. A path never ends at a position
    behind the first free one of a machine, so only these are looked at.
    """
    columns: list[tuple[int, int]] = []
    prices = _Prices(lambda row: [position * times[row][machine] for machine, position in columns])
    for machine in range(machines):
        columns.append((machine, 1))
        prices.add_column()
    for _ in times:
        machine, position = columns[prices.place_next()]
        columns.append((machine, position + 1))         # the next free position of that machine
        prices.add_column()
    places = [(0, 0)] * len(times)
    used = {}
    for column, row in enumerate(prices.row_of):
        if row >= 0:
            places[row] = columns[column]
            used[columns[column]] = prices.column_price[column]
    return Positions(places, prices.row_price, used)
