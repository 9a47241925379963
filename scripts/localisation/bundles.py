"""A document's bundles from catalogs on disk."""

from __future__ import annotations

from collections.abc import Callable, Sequence
from dataclasses import dataclass
from pathlib import Path

from localisation.faults import Fault
from localisation.folder import Wanted
from localisation.lists import Patterns
from localisation.mo import catalog_of, disagreeing, merged, two_rules
from localisation.output import Progress
from localisation.program import BUNDLE
from localisation.refused import Refused

PatternsOf = Callable[[str], Patterns | None]


@dataclass(frozen=True)
class Bundle:
    """A bundle: its tag, its catalog, its list patterns, and the files that it was made of."""

    tag: str
    mo: bytes
    patterns: Patterns | None
    paths: tuple[Path, ...]

    def member(self) -> dict[str, object]:
        """The bundle as the document has it."""
        member: dict[str, object] = {"tag": self.tag, "mo": self.mo.hex()}
        return member | ({"list": self.patterns} if self.patterns else {})

    @property
    def name(self) -> str:
        return ", ".join(str(path) for path in self.paths)


def bundles_of(
    wanted: Sequence[Wanted], patterns_of: PatternsOf, skipped: Callable[[str], None] | None = None
) -> list[Bundle]:
    """A bundle for each locale that has a catalog.

    One file goes in as it is, byte for byte. Several are merged, the files of the first domain
    before those of the next. Files whose plural rules differ are a fault that names all of them,
    or the later is left out and told of.
    """
    progress = Progress("bundles made", len(wanted))
    bundles, differ = list[Bundle](), list[str]()
    for each in wanted:
        if each.paths:
            mo = _catalog(each.paths, skipped or differ.append)
            bundles.append(Bundle(each.tag, mo, patterns_of(each.tag), each.paths))
        progress.step()
    progress.end()
    if differ:
        raise Fault("; ".join(differ))
    return bundles


def _catalog(paths: Sequence[Path], differ: Callable[[str], None]) -> bytes:
    """The bytes of one file, or of several made one."""
    read = [(str(path), path.read_bytes()) for path in paths]
    if len(read) == 1:
        return read[0][1]
    catalogs = [catalog_of(*each) for each in read]
    for first, second in list(disagreeing(catalogs)):
        differ(two_rules(first, second))
        catalogs.remove(second)
    return merged(catalogs)


def without(wanted: Sequence[Wanted], refused: Sequence[Refused]) -> list[Wanted]:
    """The same bundles without the files that are refused."""
    faulty = {each.path for each in refused}
    return [
        Wanted(each.tag, each.names, tuple(path for path in each.paths if path not in faulty))
        for each in wanted
    ]


def fault_of(refused: Sequence[Refused], hint: str = "") -> Fault:
    """Every refused catalog with its cause, in one line, and a hint behind them."""
    told = "; ".join(f"{each.path}: {each.cause}" for each in refused)
    return Fault(f"{told} {hint}", BUNDLE)
