"""Names of classes, as the program spells them. They fix a number of machines (P2, O3) or leave it to the instance (P).

How people write them is read by `naming`.
"""
from __future__ import annotations

from dataclasses import dataclass

# (the environments that fix the number of machines)
MACHINES = {"1": 1, "P2": 2, "P3": 3, "Q2": 2, "R2": 2, "O2": 2, "O3": 3, "F2": 2, "F3": 3, "J2": 2}
ENVIRONMENTS = ("1", "P2", "P3", "P", "Q2", "Q", "R2", "R", "O2", "O3", "O", "F2", "F3", "F", "J2", "J")
ITEMS = ("pmtn", "chains", "intree", "outtree", "prec", "r", "p=1", "p=p", "n<=2")
CRITERIA = ("Cmax", "Lmax", "fmax", "sumC", "sumwC", "sumU", "sumwU", "sumT", "sumwT")
SPELLINGS = {"chain": "chains", "in-tree": "intree", "out-tree": "outtree", "r_j": "r", "rj": "r", "n_j<=2": "n<=2", "nj<=2": "n<=2",
             "C_max": "Cmax", "L_max": "Lmax", "f_max": "fmax", "sumC_j": "sumC", "sumw_jC_j": "sumwC", "sumU_j": "sumU",
             "sumw_jU_j": "sumwU", "sumT_j": "sumT", "sumw_jT_j": "sumwT",
             **{f"p{at}={time}": f"p={time}" for at in ("_j", "j", "_ij", "ij") for time in "1p"}}
PRECEDENCE = ("chains", "intree", "outtree", "prec")


@dataclass(frozen=True)
class ClassName:
    """A class by its parts, in canonical spelling; str() gives the name."""
    environment: str
    items: tuple[str, ...]
    criterion: str

    def __str__(self) -> str:
        return f"{self.environment}|{','.join(self.items)}|{self.criterion}"

    @property
    def kind(self) -> str:
        """The environment without its number of machines: 1, P, Q, R, O, F or J."""
        return self.environment[0]

    @property
    def machines(self) -> int | None:
        """The number of machines that the environment fixes, or None."""
        return MACHINES.get(self.environment)

    @property
    def precedence(self) -> str | None:
        """chains, intree, outtree, prec, or None."""
        return next((it for it in self.items if it in PRECEDENCE), None)

    @property
    def general(self) -> bool:
        """Whether operations have times of their own."""
        return "p=1" not in self.items and "p=p" not in self.items

    @property
    def keys(self) -> str:
        """The keys that a job's line has, as letters in order: some of p, r, d and w."""
        return ("p" * (self.kind in "1PQ" and self.general) + "r" * ("r" in self.items)
                + "d" * (self.criterion == "Lmax" or self.criterion[-1] in "UT") + "w" * self.criterion.startswith("sumw"))


def class_named(text: str) -> ClassName | None:
    """The class of a name in a spelling of docs/formats.md, or None."""
    parts = text.split("|")
    if len(parts) != 3 or parts[0] not in ENVIRONMENTS or SPELLINGS.get(parts[2], parts[2]) not in CRITERIA:
        return None
    items = [SPELLINGS.get(it, it) for it in parts[1].split(",")] if parts[1] else []
    groups = ["precedence" if it in PRECEDENCE else it[:2] if it.startswith("p=") else it for it in items]
    if any(it not in ITEMS for it in items) or len(set(groups)) != len(groups) or ("n<=2" in items and parts[0][0] != "J"):
        return None
    return ClassName(parts[0], tuple(sorted(items, key=ITEMS.index)), SPELLINGS.get(parts[2], parts[2]))
