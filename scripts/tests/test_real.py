"""Real data where it lies: the machine's catalogs, CLDR and the subtag registry.

The folder, CLDR and the registry are those of LOCALISE_CATALOGS, LOCALISE_CLDR and
LOCALISE_REGISTRY, or where Debian puts them; a registry Debian doesn't have as a file.
"""

import json
import os
import sys
import unittest
from pathlib import Path

from localisation import cldr, registry
from localisation.compare import OTHER, compared
from localisation.lists import KINDS, LENGTHS, Lists
from localisation.program import Program
from tests.support import PROGRAM, InFolder, needs_program, run

CATALOGS = Path(os.environ.get("LOCALISE_CATALOGS", "/usr/share/locale"))
CLDR = Path(os.environ.get("LOCALISE_CLDR", "/usr/share/unicode/cldr"))
REGISTRY = Path(os.environ.get("LOCALISE_REGISTRY", "/usr/share/misc/language-subtag-registry"))

PATHS = sorted(CATALOGS.glob("*/LC_MESSAGES/*.mo"))

needs_catalogs = unittest.skipUnless(PATHS, f"no catalogs in {CATALOGS}")
needs_cldr = unittest.skipUnless((CLDR / "common").is_dir(), f"no CLDR at {CLDR}")
needs_registry = unittest.skipUnless(REGISTRY.is_file(), f"no registry at {REGISTRY}")


@needs_program
class Real(InFolder):
    @needs_catalogs
    def test_lines_are_those_of_pythons_gettext(self) -> None:
        result = compared(Program(PROGRAM), PATHS)
        print(f"\n{dict(result.files)}\n{dict(result.lines)}", file=sys.stderr)
        self.assertEqual(result.lines[OTHER], 0, "\n".join(result.others))
        self.assertGreater(sum(result.lines.values()), 0)

    @needs_catalogs
    def test_a_document_of_every_locale(self) -> None:
        domain = max({path.stem for path in PATHS}, key=[path.stem for path in PATHS].count)
        done = run("document", "--program", PROGRAM, "--catalogs", CATALOGS, "--domain", domain,
                   "--skip-faulty", "--any-size")
        self.assertEqual(done.returncode, 0, done.stderr)
        self.assertGreater(len(json.loads(done.stdout)["bundles"]), 1)

    @needs_cldr
    def test_cldr_is_accepted(self) -> None:
        for kind in KINDS:
            for length in LENGTHS:
                done = run("document", "--program", PROGRAM, "--cldr", CLDR, "--list", kind,
                           "--length", length)
                self.assertEqual((done.returncode, done.stderr), (0, b""))

    @needs_registry
    def test_the_registry_is_accepted(self) -> None:
        done = run("document", "--program", PROGRAM, "--registry", REGISTRY)
        self.assertEqual((done.returncode, done.stderr), (0, b""))


class Tables(unittest.TestCase):
    @needs_cldr
    def test_patterns_of_every_locale(self) -> None:
        lists = Lists(cldr.common(CLDR), cldr.supplemental(CLDR))
        names = [path.stem for path in (CLDR / "common" / "main").glob("*.xml")]
        tags = [name.replace("_", "-") for name in names if name != "root"]
        patterns = {tag: lists.of_tag(tag) for tag in tags}
        self.assertEqual(patterns["fr-CA"]["end"], "{0} et {1}")
        self.assertEqual(patterns["es-MX"]["end_special"]["pattern"], "{0} e {1}")
        for tag, texts in patterns.items():
            for name in ("start", "middle", "end", "pair"):
                self.assertRegex(texts[name], r"^[^{}]*\{0\}[^{}]*\{1\}[^{}]*$", tag)

    @needs_registry
    def test_registry_tables(self) -> None:
        tables = registry.tables_of(REGISTRY)
        self.assertEqual(len(tables["grandfathereds_preferred"]), 21)
        self.assertIn(["iw", "he"], tables["languages_preferred"])


if __name__ == "__main__":
    unittest.main()
