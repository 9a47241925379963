"""Hostile input: the rows that are stored, and the calls that are too many to be stored."""

from __future__ import annotations

import json
import subprocess
from collections.abc import Iterable, Iterator
from itertools import chain
from pathlib import Path

from localisation import (
    hostile_catalogs, hostile_json, hostile_pipes, hostile_rings, hostile_rules
)
from localisation.outcome import NOT_JSON
from localisation.program import REPOSITORY

CRATE = REPOSITORY / "crates" / "vectors"
BUILT = CRATE / "out" / "vectors"
PARTS = (hostile_rings, hostile_catalogs, hostile_rules, hostile_pipes, hostile_json)

# A call or a heading, and the answer that is wanted.
Row = tuple[object, object]


def text_of(value: object) -> str:
    return json.dumps(value, ensure_ascii=False)


def stored() -> Iterator[Row]:
    """The rows of crates/vectors/rows/hostile, in their order."""
    return chain.from_iterable(part.rows() for part in PARTS)


def write_rows(folder: Path) -> int:
    """Writes the stored rows, and says how many they are."""
    rows = list(stored())
    for name, side in (("calls", 0), ("wanted", 1)):
        text = "".join(text_of(row[side]) + "\n" for row in rows)
        (folder / f"hostile.{name}").write_text(text, encoding="utf-8")
    return len(rows)


def rings() -> Iterator[Row]:
    for length in range(1, hostile_rings.LONGEST + 1):
        yield hostile_rings.without(length)
        yield hostile_rings.with_bundle(length)


def changed_catalogs() -> Iterator[Row]:
    """A file of one message with each of its bytes at every value."""
    for data in (hostile_catalogs.ONE, hostile_catalogs.swapped(hostile_catalogs.ONE)):
        for place in range(len(data)):
            for value in range(256):
                changed = data[:place] + bytes([value]) + data[place + 1:]
                yield from hostile_catalogs.asked(changed)


def broken_documents() -> Iterator[Row]:
    """The first document cut behind each byte, and with a byte in each place that no JSON has."""
    whole = hostile_pipes.FIRST.encode()
    for place in range(len(whole)):
        before, behind = whole[:place], whole[place:]
        for broken in (b"", b"\0" + behind, b"\0" + behind[1:], b"\xff" + behind[1:]):
            given = hostile_json.given(before + broken)
            yield ["localise_run::run", ["render"], given], NOT_JSON.answer()


# What is asked of the program of calls beside the stored rows.
UNSTORED = {
    "rings of 1 to 1000 parents, without and with a bundle": rings,
    "a catalog with each byte at every value": changed_catalogs,
    "a document cut and broken at each byte": broken_documents,
}


def differences(program: Path, rows: Iterable[Row]) -> tuple[int, list[str]]:
    """How many rows the program of calls was asked, and where it answers otherwise."""
    rows = list(rows)
    lines = "".join(text_of(call) + "\n" for call, _ in rows)
    run = subprocess.run([program], input=lines.encode(), capture_output=True, check=False)
    # Only a line feed ends a line: a text may hold other separators.
    answers = run.stdout.decode(errors="replace").split("\n")[:-1]
    found = [
        f"{text_of(call)[:200]}\n  wanted {text_of(wanted)[:200]}\n  not    {answer[:200]}"
        for (call, wanted), answer in zip(rows, answers)
        if json.loads(answer) != wanted
    ]
    if len(answers) != len(rows) or run.returncode:
        found.append(f"{len(answers)} answers, and it ended with {run.returncode}")
    return len(rows), found
