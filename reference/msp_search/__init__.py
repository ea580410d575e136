"""An exhaustive search for a best schedule, with a reader, a test of feasibility and costs of its own.

`least(problem)` is the least cost of all schedules and one that has it; `read(text)` reads a problem.
"""
from .grid import least_on_grid
from .judge import Best, Piece, broken, cost_of, read_schedule, schedule_text
from .problem import Job, Operation, Problem, Unreadable, read
from .uncut import least_uncut

__all__ = ["Best", "Job", "Operation", "Piece", "Problem", "TooLarge", "Unreadable", "broken", "cost_of", "least",
           "least_on_grid", "least_uncut", "read", "read_schedule", "schedule_text"]

MOST_JOBS = 5
MOST_OPERATIONS = 9


class TooLarge(Exception):
    """A problem beyond the size that was asked for."""


def least(problem: Problem, parts: int = 1, most_jobs: int = MOST_JOBS, most_operations: int = MOST_OPERATIONS) -> Best:
    """The least cost and a schedule that has it: of all schedules, or with preemption of those on a grid of 1/parts.

    Time grows with the factorial of the jobs, so more than five, or nine operations in a shop, are searched only on request.
    """
    operations = sum(len(job.operations) for job in problem.jobs)
    if len(problem.jobs) > most_jobs or operations > max(most_operations, len(problem.jobs)):
        raise TooLarge(f"{len(problem.jobs)} jobs with {operations} operations")
    if not problem.cut:
        return least_uncut(problem)
    best = least_on_grid(problem, parts)
    if best is None:
        raise TooLarge(f"no schedule on a grid of 1/{parts}: a finer one is needed")
    return best
