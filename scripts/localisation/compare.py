"""The program's lines over real catalogs against what Python's gettext says of the same files.

Each message is asked for by its own catalog alone. A line is equal to Python's text, or differs
in one of the ways that docs/DIFFERENCES.md names under 'GNU gettext'; any other is told.
"""

from __future__ import annotations

import gettext
import io
from collections import Counter
from collections.abc import Iterable, Iterator, Sequence
from dataclasses import dataclass, field
from pathlib import Path

from localisation.document import compact
from localisation.faults import Fault
from localisation.mo import UTF_8, WINDOWS_1252, Catalog, Message, catalog_of
from localisation.output import Progress
from localisation.program import DONE, LIMIT, Program
from localisation.refused import refused_of, unexpected

COUNTS = (0, 1, 2, 5, 11, 21, 100)
# Counts of a message without a plural, besides one for which the rule gives its form.
MORE_COUNTS = (5,)
OWN = "\ue001own words"

EQUAL = "equal"
WINDOWS = "ISO 8859-1 is read as windows-1252"
MISSING = "a form that is missing for the count"
BOUND = "a form past the number of plurals"
OTHER = "another difference"


@dataclass(frozen=True)
class Question:
    """A request, and each line that is right for it with the name of its difference."""

    request: dict[str, object]
    right: dict[str, str]


@dataclass
class Compared:
    """How many lines were equal or differed, by name, and the first others."""

    lines: Counter[str] = field(default_factory=Counter)
    files: Counter[str] = field(default_factory=Counter)
    others: list[str] = field(default_factory=list)

    def other(self, text: str) -> None:
        self.lines[OTHER] += 1
        if len(self.others) < 20:
            self.others.append(text)


def compared(program: Program, paths: Sequence[Path]) -> Compared:
    """Compares every message of every file that the program and Python both read."""
    result = Compared()
    refused = {each.path for each in refused_of(program, paths)}
    result.files["refused by the program"] = len(refused)
    progress = Progress("catalogs compared", len(paths))
    for batch in _batches((path for path in paths if path not in refused), result):
        _compare(program, batch, result)
        progress.step(len(batch))
    progress.end()
    return result


@dataclass(frozen=True)
class _Asked:
    path: Path
    questions: list[Question]
    body: list[str]
    size: int


def _batches(paths: Iterable[Path], result: Compared) -> Iterator[list[_Asked]]:
    """Files with their questions, in lists of which each makes one document."""
    batch, size = list[_Asked](), 0
    for path in paths:
        asked = _asked(path, result)
        if asked is None:
            continue
        if batch and size + asked.size > LIMIT - 100:
            yield batch
            batch, size = [], 0
        batch.append(asked)
        size += asked.size
    if batch:
        yield batch


def _asked(path: Path, result: Compared) -> _Asked | None:
    data = path.read_bytes()
    try:
        python = gettext.GNUTranslations(io.BytesIO(data))
    except Exception:  # whatever Python finds wrong with a file, there is nothing to compare
        result.files["not read by Python"] += 1
        return None
    result.files["compared"] += 1
    questions = list(_questions(catalog_of(str(path), data), python))
    body = [compact(question.request) for question in questions]
    size = 2 * len(data) + 200 + sum(len(text.encode()) + 20 for text in body)
    return _Asked(path, questions, body, size)


def _questions(catalog: Catalog, python: gettext.GNUTranslations) -> Iterator[Question]:
    """Requests for each message, and what Python says."""
    rule = catalog.forms_by
    first = next((n for n in range(1000) if rule.form(n) == 0), 0)
    for message in catalog.messages:
        for count in COUNTS if message.plural is not None else {first, *MORE_COUNTS}:
            request: dict[str, object] = {"tag": "", "singular": message.id, "plural": OWN}
            request["count"] = count
            if message.context is not None:
                request["context"] = message.context
            said = _said(python, message, count, _is_latin(catalog))
            own = message.id if count == 1 else OWN
            right = _right(catalog, _python_form(python, count), len(message.forms), said, own)
            yield Question(request, right)


def _python_form(python: gettext.GNUTranslations, count: int) -> int:
    """The number of the form for a count, by Python's reading of the rule."""
    return int(python.plural(count))  # type: ignore[attr-defined]


def _said(python: gettext.GNUTranslations, message: Message, count: int, latin: bool) -> str:
    """Python's text. It read the words of a key by ISO 8859-1 where the program didn't."""
    texts = (message.context or "", message.id)
    context, words = (text.translate(_CONTROLS) if latin else text for text in texts)
    if message.plural is None:
        return python.gettext(words) if message.context is None else python.pgettext(context, words)
    if message.context is None:
        return python.ngettext(words, OWN, count)
    return python.npgettext(context, words, OWN, count)


_CONTROLS = {ord(character): byte for byte, character in WINDOWS_1252.items()}


def _is_latin(catalog: Catalog) -> bool:
    return catalog.charset not in UTF_8


def _right(catalog: Catalog, number: int, forms: int, said: str, own: str) -> dict[str, str]:
    """The lines that are right, each with the name of its difference."""
    right = {said: EQUAL}
    if _is_latin(catalog):
        right.setdefault(said.translate(WINDOWS_1252), WINDOWS)
    if number >= forms:
        right.setdefault(own, MISSING)
    bound = catalog.forms_by.bound
    if bound is not None and number >= bound:
        right.setdefault(own, BOUND)
    return right


def _compare(program: Program, batch: Sequence[_Asked], result: Compared) -> None:
    answer = program.answer("render", _document(batch))
    if answer.status != DONE:
        raise unexpected(answer)
    printed, at = answer.lines.decode(), 0
    for asked in batch:
        for question in asked.questions:
            lines = (line for line in question.right if printed.startswith(line + "\n", at))
            line = max(lines, key=len, default=None)
            if line is None:
                result.other(f"{asked.path}: {compact(question.request)}: "
                             f"{printed[at:at + 200]!r}")
                # Behind a line that isn't known the next begins at the next line feed.
                at = printed.index("\n", at) + 1
                continue
            result.lines[question.right[line]] += 1
            at += len(line) + 1
    if at != len(printed):
        raise Fault(f"{batch[0].path} and on: more was printed than was asked for")


def _document(batch: Sequence[_Asked]) -> Iterator[bytes]:
    tags = [_tag(number) for number in range(len(batch))]
    yield b'{"bundles":['
    for tag, asked in zip(tags, batch):
        yield b"" if tag == tags[0] else b","
        yield f'{{"tag":"{tag}","mo":"{asked.path.read_bytes().hex()}"}}'.encode()
    yield b'],"requests":['
    separator = ""
    for tag, asked in zip(tags, batch):
        for text in asked.body:
            yield (separator + text.replace('"tag":""', f'"tag":"{tag}"', 1)).encode()
            separator = ","
    yield b"]}"


def _tag(number: int) -> str:
    first, rest = divmod(number, 26 * 26)
    return "".join(chr(ord("a") + i) for i in (first, rest // 26, rest % 26))
