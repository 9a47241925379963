"""CLDR's list patterns of a kind and length, inherited as UTS 35 says.

A pattern that a locale's file doesn't have is that of its parent's, up to `root`; there an alias
names another kind or length, which is then sought from the locale again. CLDR's files don't say
that Spanish `y` is `e` before an i, `o` is `u` before an o, and that Hebrew puts a hyphen before
what isn't Hebrew; these three, which ICU adds in its code, are added here as conditions.
"""

from __future__ import annotations

import re
from collections.abc import Iterator
from dataclasses import dataclass, field
from pathlib import Path

from localisation.cldr import Supplemental, root_of

PARTS = {"start": "start", "middle": "middle", "end": "end", "pair": "2"}
KINDS = {"and": "standard", "or": "or", "unit": "unit"}
LENGTHS = ("wide", "short", "narrow")
INHERITED = "\u2191\u2191\u2191"
ALIAS = re.compile(r"\.\./listPattern(?:\[@type='([a-z-]+)'\])?")

# For each language the words of a pattern, what stands for them, and where: on the last item.
SPECIALS = {
    "es": (
        (" y ", " e ", "^(I|i|(H|h)(I|i)([^aeAE]|$))"),
        (" o ", " u ", "^(O|o|(H|h)(O|o)|8|11([. \u00a0]?\\d\\d\\d)*(,\\d*)?$)"),
    ),
    "he": (("\u05d5{1}", "\u05d5-{1}", "^[^\u0590-\u05ff\ufb1d-\ufb4f]"),),
}

Patterns = dict[str, object]
Texts = dict[str, str]


@dataclass(frozen=True)
class FileOfPatterns:
    """What one file says: the texts of each type, and the aliases of types."""

    texts: dict[str, Texts]
    aliases: dict[str, str]


@dataclass
class Lists:
    """The patterns of a kind and length over a CLDR folder (the one with `main`)."""

    folder: Path
    supplemental: Supplemental
    kind: str = "and"
    length: str = "wide"
    read: dict[str, FileOfPatterns] = field(default_factory=dict)

    @property
    def type(self) -> str:
        return KINDS[self.kind] + ("" if self.length == "wide" else "-" + self.length)

    def root(self) -> Patterns:
        """The patterns of no locale."""
        return dict(self._texts(["root"]))

    def of_tag(self, tag: str) -> Patterns | None:
        """The patterns of a tag's locale; none where CLDR has no file of its language."""
        chain = list(self._chain(tag))
        if chain == ["root"]:
            return None
        texts = self._texts(chain)
        return {**texts, **_specials(tag.split("-")[0], texts)}

    def _texts(self, chain: list[str]) -> Texts:
        return {name: self._text(chain, self.type, part) for name, part in PARTS.items()}

    def _text(self, chain: list[str], kind: str, part: str) -> str:
        """The text of a part: of the first file that has one, or that of the kind's alias."""
        sought = kind
        for _ in range(10):
            for name in chain:
                text = self._file(name).texts.get(sought, {}).get(part, INHERITED)
                if text != INHERITED:
                    return text
            sought = self._file("root").aliases.get(sought, "standard")
        return "{0}, {1}"

    def _chain(self, tag: str) -> Iterator[str]:
        """The names of the files that a locale inherits from, its own first."""
        name = self._first_name(tag)
        while name != "root":
            if self._path(name).is_file():
                yield name
            parent = self.supplemental.parents.get(name)
            name = parent or (name.rpartition("_")[0] or "root")
        yield "root"

    def _first_name(self, tag: str) -> str:
        """CLDR's name of a tag: with its likely script where CLDR's files have it so."""
        language, *rest = tag.split("-")
        script = rest.pop(0) if rest and len(rest[0]) == 4 and rest[0].isalpha() else ""
        likely = self.supplemental.likely
        region = rest[0] if rest and re.fullmatch("[A-Z]{2}|[0-9]{3}", rest[0]) else ""
        full = script or likely.script(language, region)
        tail = [piece.upper() for piece in rest]
        with_script = "_".join([language, full, *tail])
        if full != likely.script(language):
            return with_script
        own = full and self._path("_".join([language, full, *tail[:1]])).is_file()
        return with_script if own else "_".join([language, *tail])

    def _path(self, name: str) -> Path:
        return self.folder / "main" / f"{name}.xml"

    def _file(self, name: str) -> FileOfPatterns:
        if name not in self.read:
            self.read[name] = _patterns_in(self._path(name))
        return self.read[name]


def _patterns_in(path: Path) -> FileOfPatterns:
    """The list patterns of a file, by their type."""
    file = FileOfPatterns({}, {})
    for pattern in root_of(path).iterfind("listPatterns/listPattern"):
        kind = pattern.get("type", "standard")
        alias = pattern.find("alias")
        if alias is not None and (match := ALIAS.fullmatch(alias.get("path", ""))):
            file.aliases[kind] = match[1] or "standard"
        texts = {part.get("type", ""): part.text or "" for part in pattern.iter("listPatternPart")}
        file.texts.setdefault(kind, {}).update(texts)
    return file


def _specials(language: str, texts: Texts) -> Patterns:
    """The specials of a language's end and pair patterns."""
    specials: Patterns = {}
    for part in ("end", "pair"):
        for words, others, condition in SPECIALS.get(language, ()):
            if words in texts[part]:
                pattern = texts[part].replace(words, others)
                specials[f"{part}_special"] = {"condition": condition, "pattern": pattern}
    return specials
