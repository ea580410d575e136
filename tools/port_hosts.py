"""The ports, as they end a call: by processes of Node that answer many, or by a process for each call."""
import base64
import json
import os
import platform
import queue
import shutil
import subprocess
import sys
from dataclasses import dataclass
from pathlib import Path
from types import TracebackType
from typing import Callable, Dict, List, NamedTuple, Optional, Tuple, Type

import port_calls
from port_calls import Answer, Call, TOP

CROSS = "/usr/aarch64-linux-gnu"
WORKERS = max(1, min(3, (os.cpu_count() or 2) - 1))


class Traced(NamedTuple):
    """How a call ended on a host that counts: what the program gave, the growths of memory asked for, the memory at the end, the time."""
    answer: Optional[Answer]
    growths: int
    memory: int
    milliseconds: float


class Host:
    """Processes of Node that answer many calls each, by ports/host.js."""

    def __init__(self, module: Path, count: int = WORKERS) -> None:
        self.words = ["node", str(TOP / "ports" / "batch.js"), str(module)]
        self.free: "queue.Queue[subprocess.Popen[str]]" = queue.Queue()
        self.all: List["subprocess.Popen[str]"] = []
        self.compiled = 0.0
        self.count = count

    def __enter__(self) -> "Host":
        self.all = [subprocess.Popen(self.words, stdin=subprocess.PIPE, stdout=subprocess.PIPE, text=True) for _ in range(self.count)]
        for one in self.all:
            assert one.stdout is not None
            line = one.stdout.readline()
            if not line:
                sys.exit(f"{' '.join(self.words)} does not begin")
            self.compiled = json.loads(line)["compiled"]
            self.free.put(one)
        return self

    def __exit__(self, kind: Optional[Type[BaseException]], fault: Optional[BaseException], trace: Optional[TracebackType]) -> None:
        for one in self.all:
            one.communicate()

    def ask(self, call: Call, **more: int) -> Traced:
        """How a call ends; `refuse` and `feign` are as ports/batch.js has them."""
        asked: Dict[str, object] = {"words": [word.decode() for word in call.words], "input": base64.b64encode(call.text).decode()}
        asked.update(more)
        one = self.free.get()
        assert one.stdin is not None and one.stdout is not None
        one.stdin.write(json.dumps(asked) + "\n")
        one.stdin.flush()
        found = json.loads(one.stdout.readline())
        self.free.put(one)
        if "fault" in found:
            return Traced(None, 0, 0, 0.0)
        answer = Answer(found["status"], base64.b64decode(found["report"]), base64.b64decode(found["note"]))
        return Traced(answer, found["growths"], found["pages"] * 65536, found["milliseconds"])


@dataclass
class Port:
    """A port: its name, how it ends a call, and by which command, where a call is a process of its own."""
    name: str
    answer: Callable[[Call], Optional[Answer]]
    command: Tuple[str, ...] = ()

    def takes(self, call: Call) -> bool:
        """Whether a call can be made: the words of ports/host.js are texts."""
        return bool(self.command) or all(is_text(word) for word in call.words)


def is_text(word: bytes) -> bool:
    """Whether a word is UTF-8."""
    try:
        word.decode()
        return True
    except UnicodeDecodeError:
        return False


def by_command(name: str, *words: str) -> Port:
    """A port whose calls are processes."""
    return Port(name, lambda call: port_calls.answer_of(words, call), words)


def node() -> Port:
    """The command line for Node."""
    return by_command("node", "node", str(TOP / "released" / "msp.mjs"))


def arm() -> Port:
    """The program for ARM."""
    words = [str(TOP / "released" / "msp-aarch64")]
    return by_command("arm", *([] if platform.machine() == "aarch64" else ["qemu-aarch64", "-L", CROSS]), *words)


def missing(name: str) -> Optional[str]:
    """What a port lacks here, or None."""
    if name == "arm":
        if platform.machine() != "aarch64" and not (shutil.which("qemu-aarch64") and Path(CROSS, "lib", "libc.so.6").exists()):
            return "there is no qemu-aarch64 with the C library of that processor (Debian: qemu-user, libc6-arm64-cross)"
    elif shutil.which("node") is None:
        return "there is no node (Debian: nodejs)"
    return None
