"""A folder of catalogs as gettext has it: LOCALE/LC_MESSAGES/DOMAIN.mo."""

from __future__ import annotations

from collections.abc import Iterable, Sequence
from dataclasses import dataclass
from pathlib import Path

from localisation.faults import Fault
from localisation.posix import tag_of


@dataclass(frozen=True)
class Wanted:
    """The files that make one bundle: those of all names that mean its tag, domain by domain."""

    tag: str
    names: tuple[str, ...]
    paths: tuple[Path, ...]


def names_in(folder: Path, domains: Sequence[str]) -> list[str]:
    """The names of locales that have a catalog of one of the domains, in their order."""
    if not folder.is_dir():
        raise Fault(f"{folder}: no such folder")
    found = set[str]()
    for domain in domains:
        paths = list(folder.glob(f"*/LC_MESSAGES/{domain}.mo"))
        if not paths:
            raise Fault(f"{folder}: no locale has a catalog {domain}.mo")
        found.update(path.parent.parent.name for path in paths)
    return sorted(found)


def wanted(folder: Path, domains: Sequence[str], names: Iterable[str]) -> list[Wanted]:
    """The bundles of names of locales: names that mean one tag make one bundle."""
    by_tag: dict[str, list[str]] = {}
    for name in names:
        by_tag.setdefault(tag_of(name), []).append(name)
    return [
        Wanted(tag, tuple(names), tuple(paths_of(folder, domains, names)))
        for tag, names in by_tag.items()
    ]


def paths_of(folder: Path, domains: Sequence[str], names: Iterable[str]) -> Iterable[Path]:
    """The files of names of locales, those of the first domain first."""
    for domain in domains:
        for name in names:
            path = folder / name / "LC_MESSAGES" / f"{domain}.mo"
            if path.is_file():
                yield path
