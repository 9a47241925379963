"""Which catalogs the program refuses, and why: it is asked, each catalog alone.

Catalogs go to it many at a time, as bundles whose tags are made up and all different, since it
names only the first that it refuses. What stands before that one is sound; the rest is asked on.
"""

from __future__ import annotations

from collections.abc import Iterable, Iterator, Sequence
from dataclasses import dataclass
from pathlib import Path

from localisation.faults import Fault
from localisation.output import Progress
from localisation.program import BUNDLE, DONE, LIMIT, Answer, Program

LETTERS = "abcdefghijklmnopqrstuvwxyz"
# What a document holds besides the digits of a catalog, at most.
MARGIN = 100


@dataclass(frozen=True)
class Refused:
    """A catalog that the program refuses, and its cause in the program's words."""

    path: Path
    cause: str


def refused_of(program: Program, paths: Sequence[Path]) -> list[Refused]:
    """The catalogs that the program refuses."""
    progress = Progress("catalogs looked at", len(paths))
    refused = list[Refused]()
    for batch in _batches(paths):
        refused += _refused_in(program, batch)
        progress.step(len(batch))
    progress.end()
    return refused


def _batches(paths: Iterable[Path]) -> Iterator[list[Path]]:
    """Paths in lists of which each makes one document."""
    batch, size = list[Path](), MARGIN
    for path in paths:
        more = 2 * path.stat().st_size + MARGIN
        if more + MARGIN > LIMIT:
            raise Fault(f"{path}: too large for a document")
        if size + more > LIMIT or len(batch) == len(LETTERS) ** 3:
            yield batch
            batch, size = [], MARGIN
        batch.append(path)
        size += more
    if batch:
        yield batch


def _refused_in(program: Program, batch: Sequence[Path]) -> Iterator[Refused]:
    while batch:
        answer = program.answer("render", _document(batch))
        if answer.status == DONE:
            return
        fault = answer.numbered("bundle") if answer.status == BUNDLE else None
        if fault is None:
            raise unexpected(answer)
        number, cause = fault
        yield Refused(batch[number], cause.removeprefix("catalog: "))
        batch = batch[number + 1:]


def _document(paths: Iterable[Path]) -> Iterator[bytes]:
    yield b'{"requests":[],"bundles":['
    for number, path in enumerate(paths):
        first, rest = divmod(number, 26 * 26)
        tag = "".join(LETTERS[i] for i in (first, rest // 26, rest % 26))
        yield b"," if number else b""
        yield f'{{"tag":"{tag}","mo":"{path.read_bytes().hex()}"}}'.encode()
    yield b"]}"


def unexpected(answer: Answer) -> Fault:
    """An answer that what was asked leaves no room for."""
    return Fault(f"the program answered {answer.status}: {answer.fault}", answer.status or 1)
