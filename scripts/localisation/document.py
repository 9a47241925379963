"""Making a document: tables, bundles and requests, each from where people have them."""

from __future__ import annotations

import json
from collections.abc import Iterable, Iterator, Sequence
from dataclasses import dataclass, field
from pathlib import Path
from typing import BinaryIO

from localisation import bundles, cldr, folder, registry
from localisation.bundles import Bundle
from localisation.faults import Fault
from localisation.lists import Lists, Patterns
from localisation.output import Progress, note
from localisation.program import BUNDLE, DONE, LIMIT, TABLE, Program
from localisation.refused import Refused, refused_of, unexpected
from localisation.request_lines import RequestLine

NAME = "document"


@dataclass(frozen=True)
class Sources:
    """Where tables and bundles come from; what is None is left out."""

    catalogs: Path | None = None
    domains: Sequence[str] = ()
    locales: Sequence[str] | None = None
    cldr: Path | None = None
    registry: Path | None = None
    kind: str = "and"
    length: str = "wide"
    skip_faulty: bool = False


@dataclass
class Head:
    """A document without its requests."""

    registry: registry.Tables | None = None
    fallback: cldr.Tables | None = None
    root: Patterns | None = None
    bundles: list[Bundle] = field(default_factory=list)

    def pieces(self) -> Iterator[bytes]:
        """The document's bytes up to where its requests begin."""
        yield b"{"
        for name in ("registry", "fallback", "root"):
            if (member := getattr(self, name)) is not None:
                yield f'"{name}":{compact(member)},\n'.encode()
        yield b'"bundles":['
        for number, bundle in enumerate(self.bundles):
            yield b",\n" if number else b"\n"
            yield compact(bundle.member()).encode()
        yield b'],\n"requests":['


TAIL = b"]}\n"


def compact(value: object) -> str:
    return json.dumps(value, ensure_ascii=False, separators=(",", ":"))


def head_of(sources: Sources, program: Program | None) -> Head:
    """The tables and bundles; the program has looked at each, if one is given."""
    head, patterns_of = tables_of(sources)
    if sources.catalogs:
        wanted = wanted_of(sources.catalogs, sources.domains, sources.locales)
        if program:
            wanted = _sound(sources, program, wanted)
        skipped = _told_skipped if sources.skip_faulty else None
        head.bundles = bundles.bundles_of(wanted, patterns_of, skipped)
    if program:
        _accept(head, program, sources.skip_faulty)
    return head


def tables_of(sources: Sources) -> tuple[Head, bundles.PatternsOf]:
    """A document's tables and root, and the list patterns of each tag."""
    head = Head()
    if sources.registry:
        head.registry = registry.tables_of(sources.registry)
    if not sources.cldr:
        return head, _no_patterns
    supplemental = cldr.supplemental(sources.cldr)
    lists = Lists(cldr.common(sources.cldr), supplemental, sources.kind, sources.length)
    head.fallback, head.root = supplemental.tables(), lists.root()
    return head, lists.of_tag


def _told_skipped(text: str) -> None:
    note(NAME, f"{text}; the second left out")


def _no_patterns(_tag: str) -> None:
    return None


def wanted_of(
    catalogs: Path, domains: Sequence[str], locales: Sequence[str] | None
) -> list[folder.Wanted]:
    """The bundles that are asked for, by their locales' names; all that are there without."""
    there = folder.names_in(catalogs, domains)
    if locales is None:
        return folder.wanted(catalogs, domains, _with_tag(there))
    wanted = folder.wanted(catalogs, domains, dict.fromkeys(locales))
    for each in wanted:
        if not each.paths:
            note(NAME, f"{', '.join(each.names)}: no catalog in {catalogs}; no bundle")
    if not any(each.paths for each in wanted):
        raise Fault(f"{catalogs}: no catalog of any locale that is named")
    return wanted


def _with_tag(names: Iterable[str]) -> Iterator[str]:
    """The names that mean a tag; each other is noted and left out."""
    for name in names:
        try:
            folder.tag_of(name)
        except Fault as fault:
            note(NAME, f"{fault}; left out")
        else:
            yield name


def _sound(
    sources: Sources, program: Program, wanted: Sequence[folder.Wanted]
) -> list[folder.Wanted]:
    """The same without the catalogs that the program refuses, or a fault that names them."""
    refused = refused_of(program, [path for each in wanted for path in each.paths])
    if refused and not sources.skip_faulty:
        raise bundles.fault_of(refused, "(--skip-faulty leaves out what is refused)")
    for each in refused:
        note(NAME, f"{each.path}: {each.cause}; left out")
    return bundles.without(wanted, refused)


def _accept(head: Head, program: Program, skip_faulty: bool) -> None:
    """Has the program look at tables and bundles together, as no request needs."""
    while True:
        answer = program.answer("render", [*head.pieces(), TAIL])
        if answer.status == DONE:
            return
        fault = answer.numbered("bundle") if answer.status == BUNDLE else None
        if fault is None:
            raise _table_fault(head, answer.fault) or unexpected(answer)
        number, cause = fault
        refused = Refused(head.bundles[number].paths[0], cause)
        if not skip_faulty:
            raise bundles.fault_of([refused])
        note(NAME, f"{head.bundles[number].name}: {cause}; left out")
        del head.bundles[number]


def _table_fault(head: Head, fault: str) -> Fault | None:
    """A fault of a table, with the row that it speaks of."""
    words = fault.split()
    if len(words) < 4 or words[0] != "table":
        return None
    tables = {**(head.registry or {}), **(head.fallback or {})}
    row = tables[words[1]][int(words[3].rstrip(":"))]
    return Fault(f"{fault}: {', '.join(row)}", TABLE)


def write(
    head: Head, requests: Iterable[RequestLine], file: BinaryIO, any_size: bool
) -> None:
    """Writes a document, one request a line, and stops where it grows too large for the program."""
    progress = Progress("requests written")
    size = 0
    for piece in _pieces(head, requests, progress):
        size += len(piece)
        if size > LIMIT and not any_size:
            raise Fault(
                f"the document has more than {LIMIT:,} bytes, which the program doesn't read: take "
                "fewer domains or locales, or give --any-size and let scripts/shards cut it"
            )
        file.write(piece)
    progress.end()


def _pieces(
    head: Head, requests: Iterable[RequestLine], progress: Progress
) -> Iterator[bytes]:
    yield from head.pieces()
    for number, request in enumerate(requests):
        yield (b",\n" if number else b"\n") + request.text
        progress.step()
    yield TAIL
