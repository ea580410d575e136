"""Runs the turns of a comparison on all processors, with a progress line, and tells what differed."""
import multiprocessing
import sys
import time
import traceback
from typing import Callable, NamedTuple, Optional

from msp_search import Unreadable

SHOWN = 5                       # differences that are told in full


class Comparison(NamedTuple):
    """A comparison: the words that ask for it, how many turns it has, and what a turn finds wrong, or None."""
    words: str
    turns: int
    judge: Callable[[int], Optional[str]]
    stops: bool = False                         # at the first difference


_RUNNING: list[Comparison] = []                 # the comparison of this process, which the processes that it forks inherit


def _turn(turn: int) -> tuple[int, Optional[str]]:
    try:
        return turn, _RUNNING[-1].judge(turn)
    except (ValueError, LookupError, ArithmeticError, Unreadable):
        return turn, f"the program's answer cannot be read: {traceback.format_exc()}"


def _show(done: int, turns: int, failed: int, begun: float) -> None:
    """A line on standard error: rewritten on a terminal, and else one for each tenth."""
    terminal = sys.stderr.isatty()
    if done % max(1, turns // (1000 if terminal else 10)) and done < turns:
        return
    spent = time.monotonic() - begun
    line = f"{done} of {turns}, {failed} failed, {spent:.0f} s, {spent * (turns - done) / done:.0f} s to go"
    end = "" if terminal and done < turns else "\n"
    print(f"\r{line:60}" if terminal else line, end=end, file=sys.stderr, flush=True)


def run(comparison: Comparison, only: Optional[int], processes: int) -> int:
    """The status: 1 where something differs. `only` asks for a single turn, counted from 0."""
    _RUNNING.append(comparison)
    failed: dict[int, str] = {}
    if only is not None:
        _, found = _turn(only)
        print(found if found else "equal")
        return 1 if found else 0
    begun = time.monotonic()
    done = 0
    chunk = max(1, min(50, comparison.turns // (8 * processes)))
    with multiprocessing.get_context("fork").Pool(processes) as pool:
        for done, (turn, found) in enumerate(pool.imap_unordered(_turn, range(comparison.turns), chunk), 1):
            if found:
                failed[turn] = found
            _show(done, comparison.turns, len(failed), begun)
            if failed and comparison.stops:
                break
    for turn in sorted(failed)[:SHOWN]:
        print(f"reference/compare {comparison.words} --only {turn}\n{failed[turn]}\n")
    if len(failed) > SHOWN:
        print(f"and {len(failed) - SHOWN} more\n")
    print(f"{done - len(failed)} passed, {len(failed)} failed")
    return 1 if failed else 0
