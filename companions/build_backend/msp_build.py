"""Builds wheels of msp_tools with setuptools, and puts what stands elsewhere in the repository into them.

The files that commands read are those that ../data-files names. With `--config-settings program=x86_64` (or aarch64) the program for that
machine is inside, with `program=node` its port for Node, with `program=none` neither; without it that of this machine, where it is there.
"""
from __future__ import annotations

import importlib
import platform
import shutil
import sys
from dataclasses import dataclass
from pathlib import Path
from tempfile import TemporaryDirectory
from typing import Any, Mapping, Optional

COMPANIONS = Path(__file__).resolve().parent.parent
CLONE = COMPANIONS.parent
META: Any = importlib.import_module("setuptools.build_meta")
WHEEL_FILE: Any = importlib.import_module("wheel.wheelfile").WheelFile
Settings = Optional[Mapping[str, str]]

# (what setuptools does as it is)
build_sdist = META.build_sdist
get_requires_for_build_sdist = META.get_requires_for_build_sdist
get_requires_for_build_wheel = META.get_requires_for_build_wheel
prepare_metadata_for_build_wheel = META.prepare_metadata_for_build_wheel


@dataclass(frozen=True)
class Target:
    """What a wheel is for: its tag, files of released/ beside the data, and the file there that is the program."""
    tag: str
    files: tuple[str, ...] = ()
    program: str | None = None

    def missing(self) -> list[str]:
        """The files of released/ that are not there."""
        return [it for it in (*self.files, *([self.program] if self.program else [])) if not (CLONE / "released" / it).is_file()]


TARGETS = {
    "x86_64": Target("py3-none-manylinux_2_34_x86_64", program="msp"),
    "aarch64": Target("py3-none-manylinux_2_34_aarch64", program="msp-aarch64"),
    "node": Target("py3-none-any", ("msp.mjs", "msp.wasm")),
    "none": Target("py3-none-any"),
}


def target_of(settings: Settings) -> Target:
    """The target of a call."""
    named = (settings or {}).get("program")
    if named is not None and (named not in TARGETS or TARGETS[named].missing()):
        missing = ", ".join(f"released/{it}" for it in TARGETS[named].missing()) if named in TARGETS else ""
        raise SystemExit(f"msp_build: there is no {missing}" if missing else f"msp_build: program is one of {', '.join(TARGETS)}, not {named}")
    if named is not None:
        return TARGETS[named]
    machine = {"amd64": "x86_64", "arm64": "aarch64"}.get(platform.machine().lower(), platform.machine())
    here = [TARGETS[it] for it in (machine, "node") if it in TARGETS and (it == "node" or sys.platform == "linux")]
    return next((it for it in here if not it.missing()), TARGETS["none"])


def copy(name: str, to: Path, mode: int) -> None:
    """Copies a file of the repository."""
    to.parent.mkdir(parents=True, exist_ok=True)
    shutil.copyfile(CLONE / name, to)
    to.chmod(mode)


def fill(tree: Path, target: Target) -> None:
    """Puts the files of the repository into an unpacked wheel, and its tag into the head."""
    info = next(tree.glob("*.dist-info"))
    patterns = (COMPANIONS / "data-files").read_text(encoding="utf-8").split()
    names = sorted(str(it.relative_to(CLONE)) for pattern in patterns for it in CLONE.glob(pattern))
    for name in [*names, *(f"released/{it}" for it in target.files)]:
        copy(name, tree / "msp_tools" / "data" / name, 0o644)
    copy("LICENSE", info / "LICENSE", 0o644)
    if target.program:
        copy(f"released/{target.program}", tree / f"{info.stem}.data" / "scripts" / "msp", 0o755)
    lines = [it for it in (info / "WHEEL").read_text(encoding="utf-8").splitlines() if it and not it.startswith(("Tag:", "Root-Is-Purelib:"))]
    lines += [f"Root-Is-Purelib: {'false' if target.program else 'true'}", f"Tag: {target.tag}", ""]
    (info / "WHEEL").write_text("\n".join(lines), encoding="utf-8")


def build_wheel(wheel_directory: str, config_settings: Settings = None, metadata_directory: Optional[str] = None) -> str:
    """Builds a wheel, and gives its name."""
    target = target_of(config_settings)
    # (a tree of an earlier build may hold modules that are gone)
    shutil.rmtree(COMPANIONS / "build", ignore_errors=True)
    with TemporaryDirectory() as work:
        plain = META.build_wheel(work, None, metadata_directory)
        tree = Path(work) / "tree"
        with WHEEL_FILE(f"{work}/{plain}") as file:
            file.extractall(tree)
        fill(tree, target)
        name = "-".join([*plain.split("-")[:2], f"{target.tag}.whl"])
        with WHEEL_FILE(f"{wheel_directory}/{name}", "w") as file:
            file.write_files(str(tree))
    shutil.rmtree(COMPANIONS / "build", ignore_errors=True)
    return name
