"""The IANA subtag registry, and the document's thirteen tables that it makes.

The registry is a text of records (RFC 5646, section 3.1). Each record goes into the table of its
type; a range of subtags stands for each subtag in it. A deprecated subtag stays a subtag, and one
with a `Preferred-Value` also has a row in the table of preferred values. A prefix is written with
the hyphen behind it, so that `de` begins `de-1996` and not `den`. What the table can't hold (a
language of four letters or more, a preferred value of another kind) is left out.
"""

from __future__ import annotations

import re
from collections.abc import Iterator
from pathlib import Path

from localisation.faults import Fault

Record = dict[str, list[str]]
Tables = dict[str, list[list[str]]]

TABLES = (
    "languages", "languages_preferred", "languages_suppress_script", "extlangs",
    "extlangs_preferred", "scripts", "scripts_preferred", "regions", "regions_preferred",
    "variants", "variants_preferred", "grandfathereds_preferred", "redundants_preferred",
)
SHAPES = {
    "language": r"[a-z]{2,3}",
    "extlang": r"[a-z]{3}",
    "script": r"[A-Z][a-z]{3}",
    "region": r"[A-Z]{2}|[0-9]{3}",
    "variant": r"[a-z0-9]{5,8}|[0-9][a-z0-9]{3}",
}
# An extlang's preferred value is a language; every other subtag's is one of its own kind.
PREFERRED_SHAPES = {**SHAPES, "extlang": SHAPES["language"]}
TAG_KINDS = ("grandfathered", "redundant")


def tables_of(path: Path) -> Tables:
    """The thirteen tables of a registry file."""
    tables: Tables = {name: [] for name in TABLES}
    seen = set[tuple[str, str]]()
    for number, record in _records(path):
        if not record:
            continue
        kind = record.get("Type", [""])[0]
        if kind not in SHAPES and kind not in TAG_KINDS:
            if "File-Date" in record:
                continue
            raise Fault(f"{path} line {number}: a record of no known type")
        for subtag in _subtags(path, number, kind, record):
            if (kind, subtag) in seen:
                raise Fault(f"{path} line {number}: {kind} {subtag} stands twice")
            seen.add((kind, subtag))
            _add(tables, kind, subtag, record)
    if not seen:
        raise Fault(f"{path}: no record of a subtag registry")
    return tables


def _records(path: Path) -> Iterator[tuple[int, Record]]:
    """The records of a file with the line in which each begins. A folded line goes on."""
    record: Record = {}
    start, name = 1, ""
    for number, line in enumerate(_lines(path), 1):
        if line == "%%":
            yield start, record
            record, start, name = {}, number + 1, ""
        elif line[:1] in (" ", "\t") and name:
            record[name][-1] += " " + line.strip()
        elif line:
            name, colon, text = line.partition(":")
            if not colon:
                raise Fault(f"{path} line {number}: no field of a registry")
            record.setdefault(name, []).append(text.strip())
    yield start, record


def _lines(path: Path) -> list[str]:
    try:
        return [line.rstrip() for line in path.read_text("utf-8").split("\n")]
    except UnicodeDecodeError:
        raise Fault(f"{path}: not UTF-8, so no subtag registry") from None


def _subtags(path: Path, number: int, kind: str, record: Record) -> Iterator[str]:
    """The subtags of a record that its table can hold, a range spelt out."""
    named = record.get("Tag" if kind in TAG_KINDS else "Subtag", [])
    if len(named) != 1:
        raise Fault(f"{path} line {number}: a record of one {kind} is wanted")
    if kind in TAG_KINDS:
        yield named[0]
        return
    first, dots, last = named[0].partition("..")
    subtags = _range(first, last) if dots else [first]
    if not subtags:
        raise Fault(f"{path} line {number}: no range of subtags: {named[0]}")
    for subtag in subtags:
        subtag = subtag.lower() if kind == "variant" else subtag
        if re.fullmatch(SHAPES[kind], subtag):
            yield subtag


def _range(first: str, last: str) -> list[str]:
    """The subtags from the first to the last, by counting its letters up."""
    if len(first) != len(last) or not (first + last).isalpha() or not first.isascii():
        return []
    subtags = [first]
    while subtags[-1] != last:
        if len(subtags) > 26**3 or subtags[-1] > last:
            return []
        subtags.append(_next(subtags[-1]))
    return subtags


def _next(subtag: str) -> str:
    head, letter = subtag[:-1], subtag[-1]
    if letter not in "zZ":
        return head + chr(ord(letter) + 1)
    return (_next(head) if head else "") + ("a" if letter == "z" else "A")


def _add(tables: Tables, kind: str, subtag: str, record: Record) -> None:
    """Puts a subtag or tag into the tables that know it."""
    preferred = record.get("Preferred-Value", [""])[0]
    prefixes = [prefix + "-" for prefix in record.get("Prefix", [])]
    if kind in TAG_KINDS:
        if preferred:
            tables[f"{kind}s_preferred"].append([subtag, preferred])
        return
    row = [subtag]
    if kind == "extlang":
        row.append("".join(prefixes[:1]))
    elif kind == "variant":
        row.append(" ".join(prefixes))
    tables[f"{kind}s"].append(row)
    if re.fullmatch(PREFERRED_SHAPES[kind], preferred):
        tables[f"{kind}s_preferred"].append([subtag, preferred])
    if kind == "language" and "Suppress-Script" in record:
        tables["languages_suppress_script"].append([subtag, record["Suppress-Script"][0]])
