"""Sources whose reads fail, and sinks whose pushes do."""

from __future__ import annotations

import json
from collections.abc import Iterator
from itertools import accumulate

from localisation.hostile_catalogs import ONE
from localisation.hostile_json import GOOD
from localisation.outcome import (
    BAD_WORDS, NOT_JSON, READ_FAULT, Outcome, done, misshapen, refused, write_fault,
)
from make_document import FRENCH, realistic

# The document of the rows of localise_run over sources, and its bundle.
BUNDLE = {"tag": "fr", "mo": ONE.hex()}
FIRST = json.dumps({
    "bundles": [BUNDLE],
    "requests": [{"tag": "fr", "singular": "Hi", "plural": "Hi", "count": 1}],
}, separators=(",", ":"))
SALUT = done("Salut")
RUN = "localise_run::run"


def source(text: str, most: int, failing: int = 0) -> dict[str, object]:
    return {"bytes": text.encode().hex(), "most": most, "failing": failing}


def reads(text: str, most: int) -> int:
    """How many reads a run has: as many as the bytes want, and one that gives none."""
    return -(-len(text.encode()) // most) + 1


def sources() -> Iterator[tuple[object, object]]:
    # By 16 bytes a read each of its fourteen reads fails in localise_run's rows.
    yield [RUN, ["render"], source(FIRST, 16)], SALUT.answer()
    yield [RUN, ["render"], source(FIRST, 16, reads(FIRST, 16) + 1)], SALUT.answer()
    for most in (len(FIRST) - 1, len(FIRST), len(FIRST) + 1, 65_536):
        last = reads(FIRST, most)
        for failing in range(1, last + 1):
            yield [RUN, ["render"], source(FIRST, most, failing)], READ_FAULT.answer()
        yield [RUN, ["render"], source(FIRST, most, last + 1)], SALUT.answer()
    yield [RUN, ["render"], source(FIRST, 1, reads(FIRST, 1))], READ_FAULT.answer()
    for words in (["walk"], ["generate", "3"]):
        yield [RUN, words, source(FIRST, 16, reads(FIRST, 16))], READ_FAULT.answer()
    # A failed read comes before what is wrong with the bytes, words that are no command before it.
    yield [RUN, ["render"], source("{", 1, 2)], READ_FAULT.answer()
    yield [RUN, ["render"], source("{", 1)], NOT_JSON.answer()
    yield [RUN, ["render"], source("", 1, 1)], READ_FAULT.answer()
    yield [RUN, ["rendered"], source(FIRST, 16, 1)], BAD_WORDS.answer()


# The ten lines of the realistic document as they are pushed. The rules fix the lines, and that a
# push that fails takes nothing; where a line is cut they leave open. So the cut alone is taken from
# the code (matching.rt of writeable_replace, formatted.rt of icu_list): what stands before the
# placeholder, each item, each text of a pattern, empty ones too, what stands behind the
# placeholder, and the line feed. Another cut would be as right, and would change this row.
PUSHES = (
    ("Allô ", "Ana", "\n"),
    ("2", " fichiers", "\n"),
    ("0", " fichier", "\n"),
    ("Ouvrir", "\n"),
    ("Hola ", "", "Luis", " e ", "Ibiza", "", "\n"),
    ("Hola ", "", "Ana", ", ", "Luis", " y ", "Hierva", "", "\n"),
    ("1", " file", "\n"),
    ("5", " files", "\n"),
    ("Bye!", "\n"),
    ("Hello ", "\n"),
)


def outputs() -> Iterator[tuple[object, object]]:
    pushes = [push for line in PUSHES for push in line]
    fronts = list(accumulate(pushes, initial=""))
    document = realistic(len(PUSHES))
    yield [RUN, ["render"], document, "all"], fronts[:-1]
    yield [RUN, ["render"], document, [len(pushes)]], write_fault(fronts[-2]).answer()
    whole = Outcome("Done", fronts[-1])
    yield [RUN, ["render"], document, [len(pushes) + 1]], whole.answer()
    # Only the first push that fails is reached.
    yield [RUN, ["render"], document, [9, 4, 30]], write_fault("Allô Ana\n").answer()
    # Nothing is pushed where a document is refused.
    yield [RUN, ["render"], "{", [1]], NOT_JSON.answer()
    yield [RUN, ["render"], "{", "all"], []


# Refusals of every kind of fault line, and what the output takes of them.
REFUSALS = (
    (["rendered"], GOOD, BAD_WORDS),
    (["render"], "{", NOT_JSON),
    (["render"], GOOD.replace('"count":1', '"count":1.5'), misshapen("requests 0 count")),
    (["render"], GOOD[:-1] + ',"registry":{"languages":[["en"],["en"]]}}',
     Outcome("Table", fault="table languages row 1: duplicate key")),
    (["render"], '{"bundles":[{"tag":"fr","mo":""}],"requests":[]}',
     Outcome("Bundle", fault="bundle 0: catalog: unxpected end of file")),
    (["render"], json.dumps({"bundles": 2 * [BUNDLE], "requests": []}),
     Outcome("DuplicateLocale", fault="bundle 1: locale of an earlier bundle")),
    (["render"], json.dumps({"bundles": [], "requests": [], "root": {**FRENCH, "end": ""}}),
     Outcome("Root", fault="root patterns: Invalid list pattern")),
    (["walk"], GOOD[:-1] + ',"fallback":{"parents":[["fr","fr"]]}}', refused("fallback loops")),
    (["render"], GOOD.replace('"fr"', '"zh-min"'), refused("tag: Parser error: Invalid subtag")),
    (["render"], source(GOOD, 16, 2), READ_FAULT),
)


def errors() -> Iterator[tuple[object, object]]:
    """The error sink takes a front of the fault line; status and output stay as they were."""
    for words, document, ends in REFUSALS:
        answer = ends.answer()
        yield [RUN, words, document, [], "each"], {"fronts": True, "alike": True, "last": answer}
        yield [RUN, words, document, [], [1]], {**answer, "errors": ""}
    document = realistic(len(PUSHES))
    ends = write_fault("Allô Ana\n")
    yield [RUN, ["render"], document, [4], "each"], {
        "fronts": True, "alike": True, "last": ends.answer()
    }
    # Under Done nothing is told, so nothing fails.
    yield [RUN, ["render"], FIRST, [], [1, 2, 3]], SALUT.answer()


CASES = {
    "hostile sources: reads that fail, the last one too": sources,
    "hostile outputs: what was taken before each push that fails": outputs,
    "hostile error sinks: a front of the fault line, and the same status": errors,
}


def rows() -> Iterator[tuple[object, object]]:
    for heading, cases in CASES.items():
        yield heading, heading
        yield from cases()
