"""Small data for the tests, and the tools that some of them need."""

from __future__ import annotations

import os
import subprocess
import sys
import tempfile
import unittest
from pathlib import Path

from localisation import program
from localisation.mo import layout

SCRIPTS = Path(__file__).resolve().parent.parent
PROGRAM = Path(os.environ.get("LOCALISE_PROGRAM", program.BUILT))
STAND_IN = Path(__file__).resolve().parent / "stand_in"
# scripts/shards is run by Debian's Python, whose packages Dask is one of.
DASK_PYTHON = "/usr/bin/python3"

needs_program = unittest.skipUnless(PROGRAM.is_file(), f"no program at {PROGRAM}")


def has_dask() -> bool:
    try:
        run = subprocess.run([DASK_PYTHON, "-c", "import distributed"], capture_output=True)
    except OSError:
        return False
    return run.returncode == 0


needs_dask = unittest.skipUnless(has_dask(), "no Dask for /usr/bin/python3")


def run(script: str, *words: object, given: bytes = b"", **environment: str):
    """What a script does: its status, standard output and standard error."""
    path = SCRIPTS / script
    command = [path] if script == "shards" else [sys.executable, path]
    return subprocess.run(
        [*command, *map(str, words)], input=given, capture_output=True,
        env={"PATH": os.environ.get("PATH", ""), "PYTHONDONTWRITEBYTECODE": "1", **environment},
    )


class InFolder(unittest.TestCase):
    """A test with a folder of its own."""

    def setUp(self) -> None:
        held = tempfile.TemporaryDirectory()
        self.addCleanup(held.cleanup)
        self.folder = Path(held.name)

    def write(self, name: str, text: str | bytes) -> Path:
        path = self.folder / name
        path.parent.mkdir(parents=True, exist_ok=True)
        path.write_bytes(text.encode() if isinstance(text, str) else text)
        return path

    def catalog(self, locale: str, domain: str, *rows: tuple[str, str], **given: str) -> Path:
        data = mo(*rows, **given)
        return self.write(f"locale/{locale}/LC_MESSAGES/{domain}.mo", data)

    def assert_one_line(self, done, *words: str, status: int = 1) -> None:
        """The script failed with one line, which holds the words."""
        line = done.stderr.decode()
        self.assertEqual((done.returncode, line.count("\n")), (status, 1), line)
        for word in words:
            self.assertIn(word, line)


def mo(*rows: tuple[str, str], plural: str = "", charset: str = "UTF-8") -> bytes:
    """A file with a header and these rows; NUL and U+0004 stand in a row as in a file."""
    header = f"Content-Type: text/plain; charset={charset}\n"
    header += f"Plural-Forms: {plural}\n" if plural else ""
    encoding = "utf-8" if charset == "UTF-8" else "cp1252"
    rows = (("", header), *sorted(rows))
    return layout((o.encode(encoding), t.encode(encoding)) for o, t in rows)


FRENCH = "nplurals=2; plural=(n > 1);"
ENGLISH = "nplurals=2; plural=n != 1;"


def locales(test: InFolder) -> Path:
    """A folder of catalogs: French of France and Canada, Spanish, two domains."""
    test.catalog(
        "fr", "files", ("Hello %s", "Bonjour %s"), ("%s file\0%s files", "%s fichier\0%s fichiers"),
        ("menu\4Open", "Ouvrir"), plural=FRENCH,
    )
    test.catalog("fr_CA", "files", ("Hello %s", "Allô %s"), plural=FRENCH)
    test.catalog("es", "files", ("Hello %s", "Hola %s"), plural=ENGLISH)
    test.catalog("fr", "tools", ("Hello %s", "Salut %s"), ("Bye", "Au revoir"),
                 plural="nplurals=2; plural=n>=2;")
    return test.folder / "locale"


LIKELY = """<supplementalData><likelySubtags>
<likelySubtag from="fr" to="fr_Latn_FR"/><likelySubtag from="es" to="es_Latn_ES"/>
<likelySubtag from="zh" to="zh_Hans_CN"/><likelySubtag from="zh_TW" to="zh_Hant_TW"/>
<likelySubtag from="zh_MO" to="zh_Hant_MO"/><likelySubtag from="zh_HK" to="zh_Hant_HK"/>
<likelySubtag from="az" to="az_Latn_AZ"/><likelySubtag from="az_Arab" to="az_Arab_IR"/>
<likelySubtag from="und" to="en_Latn_US"/><likelySubtag from="und_Cyrl" to="ru_Cyrl_RU"/>
</likelySubtags></supplementalData>"""
PARENTS = """<supplementalData><parentLocales>
<parentLocale parent="root" locales="zh_Hant az_Arab"/>
<parentLocale parent="es_419" locales="es_AR es_MX"/>
<parentLocale parent="zh_Hant_HK" locales="zh_Hant_MO"/>
</parentLocales><parentLocales component="collations">
<parentLocale parent="root" locales="fr_CA"/></parentLocales></supplementalData>"""


def patterns(kind: str, **texts: str) -> str:
    named = {"pair": "2"}
    parts = "".join(
        f'<listPatternPart type="{named.get(part, part)}">{text}</listPatternPart>'
        for part, text in texts.items()
    )
    named_kind = f' type="{kind}"' if kind else ""
    return f"<listPattern{named_kind}>{parts}</listPattern>"


def main_file(*lists: str) -> str:
    return f"<ldml><listPatterns>{''.join(lists)}</listPatterns></ldml>"


COMMA = "{0}, {1}"


def cldr(test: InFolder) -> Path:
    """A CLDR of four languages."""
    alias = '<alias source="locale" path="../listPattern{}"/>'
    test.write("cldr/common/supplemental/likelySubtags.xml", LIKELY)
    test.write("cldr/common/supplemental/supplementalData.xml", PARENTS)
    files = {
        "root": main_file(
            patterns("", start=COMMA, middle=COMMA, end=COMMA, pair=COMMA),
            patterns("or", start=COMMA, middle=COMMA, end="{0} or {1}", pair="{0} or {1}"),
            f'<listPattern type="or-short">{alias.format("[@type=&apos;or&apos;]")}</listPattern>',
            f'<listPattern type="standard-short">{alias.format("")}</listPattern>',
        ),
        "fr": main_file(
            patterns("", start=COMMA, middle=COMMA, end="{0} et {1}", pair="{0} et {1}"),
            patterns("or", end="{0} ou {1}", pair="\u2191\u2191\u2191"),
        ),
        "es": main_file(
            patterns("", start=COMMA, middle=COMMA, end="{0} y {1}", pair="{0} y {1}"),
            patterns("or", start=COMMA, middle=COMMA, end="{0} o {1}", pair="{0} o {1}"),
        ),
        "es_419": main_file(patterns("", start="{0}; {1}")),
        "zh": main_file(patterns("", end="{0}hans{1}")),
        "zh_Hant": main_file(patterns("", end="{0}hant{1}")),
    }
    for name, text in files.items():
        test.write(f"cldr/common/main/{name}.xml", text)
    return test.folder / "cldr"


REGISTRY = """File-Date: 2020-01-01
%%
Type: language
Subtag: en
Description: English,
  folded
Suppress-Script: Latn
%%
Type: language
Subtag: iw
Deprecated: 1989-01-01
Preferred-Value: he
%%
Type: language
Subtag: qaa..qad
%%
Type: extlang
Subtag: cmn
Preferred-Value: cmn
Prefix: zh
%%
Type: script
Subtag: Latn
%%
Type: script
Subtag: Qaay..Qaba
%%
Type: region
Subtag: BU
Preferred-Value: MM
%%
Type: region
Subtag: QM..QO
%%
Type: variant
Subtag: 1994
Prefix: sl-rozaj
Prefix: sl-rozaj-biske
%%
Type: variant
Subtag: heploc
Preferred-Value: alalc97
Prefix: ja-Latn-hepburn
%%
Type: grandfathered
Tag: i-klingon
Preferred-Value: tlh
%%
Type: grandfathered
Tag: i-default
%%
Type: redundant
Tag: zh-cmn-Hans
Preferred-Value: cmn-Hans
"""
