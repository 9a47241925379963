"""CLDR's supplemental data, and the document's four fallback tables that it makes.

The walk compares locales in their normal form, without a script that is likely anyway, so the
rows of parents are written in that form on both sides (`zh-Hant-MO` is `zh-MO`). Likely subtags
of an unknown language (`und_Latn`) are left out: a walk never finds a language. So are parents of
collations and the like, and a row whose two sides have one normal form.
"""

from __future__ import annotations

import re
import xml.etree.ElementTree as xml
from dataclasses import dataclass, field
from pathlib import Path

from localisation.faults import Fault

Tables = dict[str, list[list[str]]]
TABLES = ("likely_language", "likely_language_script", "likely_language_region", "parents")
LOCALE = re.compile(r"([a-z]{2,3})(?:_([A-Z][a-z]{3}))?(?:_([A-Z]{2}|[0-9]{3}))?")


@dataclass(frozen=True)
class Locale:
    """Language, script and region; an empty text is none."""

    language: str
    script: str = ""
    region: str = ""

    def name(self, separator: str) -> str:
        return separator.join(p for p in (self.language, self.script, self.region) if p)


def locale_of(name: str) -> Locale | None:
    """The locale of a name of CLDR's; none where it has a variant."""
    if name == "root":
        return Locale("und")
    match = LOCALE.fullmatch(name)
    return Locale(match[1], match[2] or "", match[3] or "") if match else None


@dataclass
class Likely:
    """Likely scripts and regions."""

    languages: dict[str, tuple[str, str]] = field(default_factory=dict)
    regions: dict[tuple[str, str], str] = field(default_factory=dict)
    scripts: dict[tuple[str, str], str] = field(default_factory=dict)

    def script(self, language: str, region: str = "") -> str:
        """The script that a language is likely to have in a region; empty where none is known."""
        of_language = self.languages.get(language, ("", ""))[0]
        return self.scripts.get((language, region), of_language)

    def normal(self, locale: Locale) -> Locale:
        """The locale without a script that is likely anyway."""
        if locale.script and locale.script == self.script(locale.language, locale.region):
            return Locale(locale.language, "", locale.region)
        return locale


@dataclass(frozen=True)
class Supplemental:
    """Likely subtags, and each child's parent as CLDR names them."""

    likely: Likely
    parents: dict[str, str]

    def tables(self) -> Tables:
        """The document's tables."""
        likely = self.likely
        return {
            "likely_language": [[key, *value] for key, value in likely.languages.items()],
            "likely_language_script": [[*key, value] for key, value in likely.regions.items()],
            "likely_language_region": [[*key, value] for key, value in likely.scripts.items()],
            "parents": [[child, parent] for child, parent in self._normal_parents().items()],
        }

    def _normal_parents(self) -> dict[str, str]:
        rows: dict[str, str] = {}
        for names in self.parents.items():
            locales = [locale for name in names if (locale := locale_of(name))]
            if len(locales) < 2:
                continue
            child, parent = (self.likely.normal(locale).name("-") for locale in locales)
            if rows.setdefault(child, parent) != parent:
                raise Fault(f"CLDR: two parents of {child}: {rows[child]} and {parent}")
        return {child: parent for child, parent in rows.items() if child != parent}


def root_of(path: Path) -> xml.Element:
    """The element of an XML file."""
    try:
        return xml.parse(path).getroot()
    except FileNotFoundError:
        raise Fault(f"{path}: no such file; is its folder CLDR's, with main and supplemental?")
    except xml.ParseError as error:
        raise Fault(f"{path}: not XML: {error}") from None


def common(folder: Path) -> Path:
    """The folder that has `main` and `supplemental`: the one named, or its `common`."""
    for place in (folder, folder / "common"):
        if (place / "supplemental").is_dir() and (place / "main").is_dir():
            return place
    raise Fault(f"{folder}: no CLDR: it has no folders main and supplemental")


def supplemental(folder: Path) -> Supplemental:
    """What a CLDR folder says of likely subtags and parents."""
    place = common(folder) / "supplemental"
    return Supplemental(
        _likely(place / "likelySubtags.xml"), _parents(place / "supplementalData.xml")
    )


def _likely(path: Path) -> Likely:
    likely = Likely()
    for row in root_of(path).iter("likelySubtag"):
        given, full = (locale_of(row.get(side, "")) for side in ("from", "to"))
        if given is None or full is None or not (full.script and full.region):
            raise Fault(f"{path}: no likely subtags: {row.get('from')} to {row.get('to')}")
        if given.language == "und" or (given.script and given.region):
            continue
        if given.script:
            likely.regions[given.language, given.script] = full.region
        elif given.region:
            likely.scripts[given.language, given.region] = full.script
        else:
            likely.languages[given.language] = (full.script, full.region)
    if not likely.languages:
        raise Fault(f"{path}: no likely subtags")
    return likely


def _parents(path: Path) -> dict[str, str]:
    parents: dict[str, str] = {}
    for group in root_of(path).iter("parentLocales"):
        if group.get("component"):
            continue
        for row in group.iter("parentLocale"):
            for child in row.get("locales", "").split():
                parents[child] = row.get("parent", "root")
    return parents
