"""Deterministic machine scheduling with `msp`: lists, plans, charts, exercise sheets and known results, around a program whose answers are proved.

    >>> from msp_tools import Instance, solve
    >>> plan = solve(Instance.from_rows("1||Lmax", [{"job": "saw", "p": 3, "d": 8}, {"job": "glue", "p": 2, "d": 4}]))
    >>> plan.cost, plan.ends()
    (Fraction(-2, 1), {'glue': Fraction(2, 1), 'saw': Fraction(5, 1)})

Instance, Job       an instance: of a text, of a list by the ListWords that say how it is read, of rows, or of a frame of pandas
Schedule, Piece     a schedule: pieces, ends, lateness, costs, a table, and a chart that a notebook shows
solve, propose      a best schedule; of a class without a solver a Proposal, a good one with a bound
check               the Verdict on a schedule: feasible or what is broken first, and its cost
certify, accept     a Certificate of a least cost, and whether one shows its bound (Acceptance)
label, labels, why  what is known of classes: a Label of each, and the chains of reductions behind it (Why)
trial               the instance that a seed draws, solved (Trial)
need_program        the Program that is called, for whoever has several
Refusal             what every function raises: a Fault of a text, a Misfit of words or files, a ProgramRefusal

These names are what is promised; other modules may change. Numbers are exact: whole numbers and `Fraction`s. Moments, times and costs are in
the units of the instance, counted from its moment 0. Nothing of this package is proved: whether a schedule is feasible, what it costs, and
that none costs less is what the program says.
"""
from __future__ import annotations

import importlib
from typing import TYPE_CHECKING, Any

if TYPE_CHECKING:
    from .library import (Acceptance, Certificate, Fault, Instance, Job, Label, ListWords, Misfit, Piece, Program, ProgramRefusal, Proposal,
                          Refusal, Schedule, Trial, Verdict, Why, accept, certify, check, label, labels, need_program, propose, solve, trial, why)

__all__ = ["Acceptance", "Certificate", "Fault", "Instance", "Job", "Label", "ListWords", "Misfit", "Piece", "Program", "ProgramRefusal",
           "Proposal", "Refusal", "Schedule", "Trial", "Verdict", "Why", "accept", "certify", "check", "label", "labels", "need_program", "propose",
           "solve", "trial", "why"]


def __getattr__(name: str) -> Any:
    """A name of the library, which is loaded where one is used."""
    if name in __all__:
        return getattr(importlib.import_module(".library", __name__), name)
    raise AttributeError(f"module {__name__!r} has no attribute {name!r}")


def __dir__() -> list[str]:
    """The names of the library, for help() and for completion."""
    return sorted(__all__)
