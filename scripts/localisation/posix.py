"""POSIX locale names, as folders and the environment have them, and the tags they mean.

A name is `language[_TERRITORY][.codeset][@modifier]`; scripts and variants stand between too
(`zh_Hans`), and `-` is read as `_`. The codeset says how text was to be encoded on a terminal and
means nothing here. A modifier is a script by name, a dialect, or nothing for a language at all.
"""

from __future__ import annotations

import re
from collections.abc import Mapping

from localisation.faults import Fault

# The names in which nothing is translated.
NO_LANGUAGE = ("C", "POSIX")

SCRIPT_MODIFIERS = {
    "arabic": "Arab",
    "cyrillic": "Cyrl",
    "devanagari": "Deva",
    "ethiopic": "Ethi",
    "gurmukhi": "Guru",
    "hebrew": "Hebr",
    "iqtelif": "Latn",  # Tatar's Latin alphabet
    "latin": "Latn",
    "shaw": "Shaw",
}
VARIANT_MODIFIERS = {
    "ekavian": "ekavsk",
    "ije": "ijekavsk",
    "ijekavian": "ijekavsk",
}
# These say how money is written or words are sorted, and change no text.
SILENT_MODIFIERS = ("abegede", "currency", "euro", "preeuro", "stroke")

LANGUAGE = re.compile(r"[a-z]{2,3}")
SCRIPT = re.compile(r"[A-Z][a-z]{3}")
REGION = re.compile(r"[A-Z]{2}|[0-9]{3}")
VARIANT = re.compile(r"[a-z0-9]{5,8}|[0-9][a-z0-9]{3}")


def tag_of(name: str) -> str:
    """The tag that a POSIX name means; a fault where it means none."""
    rest, _, modifier = name.partition("@")
    pieces = re.split("[_-]", rest.partition(".")[0])
    if pieces[0] in NO_LANGUAGE:
        return "und"
    if not LANGUAGE.fullmatch(pieces[0].lower()):
        raise Fault(f"locale {name!r}: no language of two or three letters")
    script, region, variants = _subtags(name, pieces[1:])
    script, variants = _modified(name, modifier, script, variants)
    return "-".join(piece for piece in [pieces[0].lower(), script, region, *variants] if piece)


def _subtags(name: str, pieces: list[str]) -> tuple[str, str, list[str]]:
    """Script, region and variants, each in its canonical case and in its place."""
    script, region = "", ""
    variants: list[str] = []
    for piece in pieces:
        if not region and not variants and not script and SCRIPT.fullmatch(piece.title()):
            script = piece.title()
        elif not region and not variants and REGION.fullmatch(piece.upper()):
            region = piece.upper()
        elif VARIANT.fullmatch(piece.lower()):
            variants.append(piece.lower())
        else:
            raise Fault(f"locale {name!r}: {piece!r} is no script, territory or variant")
    return script, region, variants


def _modified(
    name: str, modifier: str, script: str, variants: list[str]
) -> tuple[str, list[str]]:
    """Script and variants with what a modifier says."""
    small = modifier.lower()
    named = SCRIPT_MODIFIERS.get(small) or (modifier if SCRIPT.fullmatch(modifier) else "")
    if named:
        if script not in ("", named):
            raise Fault(f"locale {name!r}: two scripts")
        return named, variants
    if not modifier or small in SILENT_MODIFIERS:
        return script, variants
    variant = VARIANT_MODIFIERS.get(small, small)
    if not VARIANT.fullmatch(variant):
        raise Fault(f"locale {name!r}: no tag for the modifier {modifier!r}")
    return script, variants if variant in variants else [*variants, variant]


def wanted_names(environment: Mapping[str, str]) -> list[str]:
    """The locales that the environment asks for, the dearest first, in gettext's order.

    LC_ALL, LC_MESSAGES and LANG name one locale, the first that isn't empty. Where that is `C`
    LANGUAGE isn't looked at; else it lists locales, up to a `C`. `C.UTF-8` is neither: it leaves
    the choice to LANGUAGE.
    """
    variables = ("LC_ALL", "LC_MESSAGES", "LANG")
    locale = next((environment[name] for name in variables if environment.get(name)), "C")
    if locale in NO_LANGUAGE:
        return ["C"]
    names: list[str] = []
    for name in environment.get("LANGUAGE", "").split(":"):
        if name in NO_LANGUAGE:
            return [*names, "C"]
        if name:
            names.append(name)
    return names or [locale]
