"""The commands: each its arguments, a function that answers a dataclass, and its printing."""
from __future__ import annotations

import importlib
import sys

NAMES = ("atlas", "board", "check-all", "choose", "cite", "exam", "from-csv", "gantt", "grade", "make-instance",
         "plan", "print-sheet", "propose", "reduces", "replan", "to-schedule", "verify", "what-if")


def run_named() -> None:
    """Runs the command that the first word of the call names."""
    name = sys.argv[1] if len(sys.argv) > 1 else ""
    if name not in NAMES:
        print(f"usage: python3 -m msp_tools COMMAND [WORD ..]; COMMAND --help says more. Commands: {', '.join(NAMES)}",
              file=sys.stdout if name in ("-h", "--help") else sys.stderr)
        sys.exit(0 if name in ("-h", "--help") else 2)
    importlib.import_module(f".{name.replace('-', '_')}", __name__).COMMAND.run(sys.argv[2:])
