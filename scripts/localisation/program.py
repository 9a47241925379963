"""Running the proved program, and reading what it answers."""

from __future__ import annotations

import re
import subprocess
from collections.abc import Iterable
from dataclasses import dataclass
from pathlib import Path

from localisation.faults import Fault

REPOSITORY = Path(__file__).resolve().parent.parent.parent
CRATE = REPOSITORY / "crates" / "localise_main"
BUILT = CRATE / "out" / "localise_main"
HOW = "build it with 'rt run' in crates/localise_main, or name one with --program"

# The most bytes that a document may have.
LIMIT = 67_108_864

DONE, NOT_JSON, SHAPE, TABLE, BUNDLE, REQUEST = 0, 3, 4, 5, 6, 7
PREFIX = "localise: "


@dataclass(frozen=True)
class Answer:
    """How a run ended, what it printed, and its fault line without the program's name."""

    status: int
    lines: bytes
    fault: str

    def numbered(self, kind: str) -> tuple[int, str] | None:
        """The number behind a word of the fault line, and what stands behind it."""
        match = re.search(rf"\b{kind} (\d+):? ?(.*)", self.fault)
        return (int(match[1]), match[2]) if match else None


@dataclass(frozen=True)
class Program:
    """The program, at its place."""

    path: Path

    def answer(self, word: str, document: Iterable[bytes]) -> Answer:
        """What it answers to a word and a document, which is handed over in pieces."""
        run = subprocess.run(
            [self.path, word], input=b"".join(document), capture_output=True, check=False
        )
        if run.returncode < 0:
            raise Fault(f"{self.path}: ended by signal {-run.returncode}")
        fault = run.stderr.decode(errors="replace").strip().removeprefix(PREFIX)
        return Answer(run.returncode, run.stdout, fault)


def found(path: Path | None) -> Program:
    """The program at a path, or where `rt run` puts it."""
    place = path or BUILT
    if not place.is_file():
        raise Fault(f"no program at {place}: {HOW}")
    return Program(place.resolve())
