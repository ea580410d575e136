"""Builds wheels, installs them in virtual environments, and runs commands and the library there, without the clone's modules and without MSP.

    /usr/bin/python3 companions/tests/test_wheels.py

It needs Debian's python3-venv, python3-setuptools and python3-wheel; where they are missing, it is skipped, and so is a wheel whose program
is not in released/, or that needs Node where there is none. The program of the wheel for ARM is run by qemu-aarch64 where that is there.
"""
from __future__ import annotations

import importlib.util
import os
import platform
import re
import shutil
import subprocess
import sys
import tempfile
import unittest
import zipfile
from pathlib import Path

COMPANIONS = Path(__file__).resolve().parent.parent
RELEASED = COMPANIONS.parent / "released"
THERE = all(importlib.util.find_spec(it) for it in ("venv", "pip", "setuptools", "wheel"))
SMITH = "msp 1\nclass 1||sumwC\njob a p=3 w=1\njob b p=1 w=2\njob c p=2 w=2\nend\n"
SOLVES = f"from msp_tools import Instance, solve; print(solve(Instance.from_text({SMITH!r})).cost)"
NAMES = ("atlas", "board", "check-all", "choose", "cite", "exam", "from-csv", "gantt", "grade", "make-instance", "plan", "print-sheet", "propose",
         "reduces", "replan", "to-schedule", "verify", "what-if")


INSTALLING = ["--quiet", "--no-deps", "--no-index"]
OPTIONS = [*INSTALLING, "--no-build-isolation", "--no-cache-dir"]
FIND = "import sys; sys.path.insert(0, sys.argv[1]); from msp_tools.program import find_program; print(find_program())"
# (what runs a program for ARM Linux here)
ARM = [] if platform.machine() == "aarch64" else ["qemu-aarch64", "-L", "/usr/aarch64-linux-gnu"]
RUNS_ARM = not ARM or bool(shutil.which(ARM[0])) and os.path.isdir(ARM[2])


def run(words: list[str], folder: str, text: str = "") -> str:
    """What a command prints, called in a folder without MSP and with nothing of ours in PATH."""
    node = os.path.dirname(shutil.which("node") or "/usr/bin/node")
    settings = {it: value for it, value in os.environ.items() if it not in ("MSP", "PYTHONPATH")}
    settings["PATH"] = f"/usr/bin:/bin:{node}"
    got = subprocess.run(words, cwd=folder, env=settings, input=text, capture_output=True, text=True, check=False)
    if got.returncode != 0:
        raise AssertionError(f"{' '.join(words)}: status {got.returncode}\n{got.stdout}{got.stderr}")
    return got.stdout


def library_needed(program: str) -> int:
    """The C library that a program needs: the second number of the newest version that it names."""
    return max(int(it) for it in re.findall(rb"GLIBC_2\.([0-9]+)", Path(program).read_bytes()))


@unittest.skipUnless(THERE, "there is no venv, pip, setuptools or wheel")
class Wheels(unittest.TestCase):
    """Each wheel, installed."""

    clone: str
    built: str
    folder: str
    programs: str

    @classmethod
    def setUpClass(cls) -> None:
        """A copy of what is built from, since building writes beside the sources, and a folder for what is built."""
        cls.clone, cls.built = tempfile.mkdtemp(), tempfile.mkdtemp()
        for folder in (cls.clone, cls.built):
            cls.addClassCleanup(shutil.rmtree, folder)
        for part in ("companions", "docs", "examples", "released", "VERSION", "LICENSE"):
            here, to = COMPANIONS.parent / part, f"{cls.clone}/{part}"
            if here.is_dir():
                shutil.copytree(here, to, ignore=shutil.ignore_patterns("__pycache__", ".mypy_cache", "tests", "build", "*.egg-info"))
            else:
                shutil.copy(here, to)

    def setUp(self) -> None:
        """A folder."""
        self.folder = tempfile.mkdtemp()
        self.addCleanup(shutil.rmtree, self.folder)

    def environment(self, *words: str) -> None:
        """Makes a virtual environment in the folder. (Without a pip of its own it takes Debian's, and is made at once.)"""
        run([sys.executable, "-m", "venv", "--system-site-packages", *words, f"{self.folder}/venv"], self.folder)
        self.programs = f"{self.folder}/venv/bin"

    def wheel(self, program: str) -> str:
        """Builds the wheel with a program inside, where that was not done before; gives its path."""
        to = f"{self.built}/{program}"
        if not os.path.isdir(to):
            words = ["--config-settings", f"program={program}", "--wheel-dir", to]
            run([sys.executable, "-m", "pip", "wheel", *OPTIONS, *words, f"{self.clone}/companions"], self.folder)
        return str(next(Path(to).glob("*.whl")))

    def install(self, program: str) -> str:
        """Installs the wheel with a program inside in an environment; gives its path."""
        self.environment("--without-pip")
        wheel = self.wheel(program)
        run([f"{self.programs}/python3", "-m", "pip", "install", *INSTALLING, wheel], self.folder)
        return wheel

    def solves(self) -> None:
        """The library solves, and so do commands; the files that commands read came along."""
        self.assertEqual(run([f"{self.programs}/python3", "-c", SOLVES], self.folder), "14\n")
        self.assertIn("Lenstra, Rinnooy Kan and Brucker", run([f"{self.programs}/msp-cite", "1|r|Lmax"], self.folder))
        words = [f"{self.programs}/python3", "-m", "msp_tools", "reduces", "1||Lmax", "1|r|Lmax"]
        self.assertIn("1||Lmax reduces to 1|r|Lmax", run(words, self.folder))

    @unittest.skipUnless(platform.machine() == "x86_64" and sys.platform == "linux", "this is no x86-64 Linux")
    def test_program_inside(self) -> None:
        """One file is all."""
        self.assertTrue(self.install("x86_64").endswith("-py3-none-manylinux_2_34_x86_64.whl"))
        self.solves()
        self.assertLessEqual(library_needed(f"{self.programs}/msp"), 34)
        version = (COMPANIONS.parent / "VERSION").read_text(encoding="utf-8").strip()
        self.assertEqual(run([f"{self.programs}/msp-cite", "--version"], self.folder), f"cite (msp) {version}\n")
        self.assertEqual(sorted(it.name for it in Path(self.programs).glob("msp-*")), sorted(f"msp-{it}" for it in NAMES))
        said = run([f"{self.programs}/msp-what-if", "examples/known-strengths.csv", "1||Lmax", "easy"], self.folder)
        self.assertEqual(said, "labels 0\nend\n")
        said = run([f"{self.programs}/msp-propose", "--help"], self.folder)
        self.assertTrue(said.startswith("usage: msp-propose [FILE] "))
        self.assertIn("\n  msp-propose orders.txt > orders.plan\n  msp-propose orders.txt | msp-plan --instance orders.txt\n", said)

    @unittest.skipUnless((RELEASED / "msp.mjs").is_file() and shutil.which("node"), "there is no released/msp.mjs, or no Node")
    def test_port_inside(self) -> None:
        """The pure wheel runs the port by Node."""
        self.assertTrue(self.install("node").endswith("-py3-none-any.whl"))
        self.solves()

    @unittest.skipUnless((RELEASED / "msp-aarch64").is_file(), "there is no released/msp-aarch64")
    def test_arm(self) -> None:
        """The wheel for ARM Linux has its name and its program, which the package finds, also where pip put both into a folder."""
        wheel, arm = self.wheel("aarch64"), f"{self.folder}/arm"
        self.assertTrue(wheel.endswith("-py3-none-manylinux_2_34_aarch64.whl"))
        only = ["--platform", "manylinux_2_34_aarch64", "--only-binary", ":all:"]
        run([sys.executable, "-m", "pip", "install", *INSTALLING, *only, "--target", arm, wheel], self.folder)
        self.assertEqual(run([sys.executable, "-c", FIND, arm], self.folder), f"{arm}/bin/msp\n")
        self.assertLessEqual(library_needed(f"{arm}/bin/msp"), 34)

    @unittest.skipUnless((RELEASED / "msp-aarch64").is_file() and RUNS_ARM, "there is no released/msp-aarch64, or no qemu-aarch64 with Debian's "
                         "libc6-arm64-cross")
    def test_arm_answers(self) -> None:
        """The program of the wheel for ARM Linux solves, called as the library calls it."""
        with zipfile.ZipFile(self.wheel("aarch64")) as file:
            name = next(it for it in file.namelist() if it.endswith(".data/scripts/msp"))
            self.assertEqual(file.getinfo(name).external_attr >> 16 & 0o777, 0o755)
            Path(f"{self.folder}/msp").write_bytes(file.read(name))
        os.chmod(f"{self.folder}/msp", 0o755)
        self.assertIn("\ncost 14\n", run([*ARM, f"{self.folder}/msp", "solve"], self.folder, SMITH))

    def test_from_the_clone(self) -> None:
        """pip install of the folder gives commands and library, in an environment as people make it."""
        self.environment()
        run([f"{self.programs}/pip", "install", "--quiet", "--no-index", "--no-build-isolation", f"{self.clone}/companions"], self.folder)
        self.solves()


if __name__ == "__main__":
    unittest.main()
