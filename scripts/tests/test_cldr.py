"""CLDR's tables and list patterns."""

from localisation import cldr
from localisation.faults import Fault
from localisation.lists import Lists
from tests import support
from tests.support import COMMA, InFolder

TABLES = {
    "likely_language": [
        ["fr", "Latn", "FR"], ["es", "Latn", "ES"], ["zh", "Hans", "CN"], ["az", "Latn", "AZ"],
    ],
    "likely_language_script": [["az", "Arab", "IR"]],
    "likely_language_region": [["zh", "TW", "Hant"], ["zh", "MO", "Hant"], ["zh", "HK", "Hant"]],
    "parents": [
        ["zh-Hant", "und"], ["az-Arab", "und"], ["es-AR", "es-419"], ["es-MX", "es-419"],
        ["zh-MO", "zh-HK"],
    ],
}
ENDS = {
    "fr": "{0} et {1}",
    "fr-CA": "{0} et {1}",
    "es": "{0} y {1}",
    "es-MX": "{0} y {1}",
    "zh-CN": "{0}hans{1}",
    "zh-Hans-TW": "{0}hans{1}",
    "zh-TW": "{0}hant{1}",
    "zh-Hant-HK": "{0}hant{1}",
}


class Cldr(InFolder):
    def lists(self, kind: str = "and", length: str = "wide") -> Lists:
        folder = support.cldr(self)
        return Lists(cldr.common(folder), cldr.supplemental(folder), kind, length)

    def test_tables(self) -> None:
        self.assertEqual(cldr.supplemental(support.cldr(self)).tables(), TABLES)
        self.assertEqual(tuple(TABLES), cldr.TABLES)

    def test_lists_are_inherited(self) -> None:
        lists = self.lists()
        for tag, end in ENDS.items():
            with self.subTest(tag):
                self.assertEqual(lists.of_tag(tag)["end"], end)
        self.assertEqual(lists.of_tag("es-MX")["start"], "{0}; {1}")
        self.assertEqual(lists.of_tag("es")["start"], COMMA)
        self.assertIsNone(lists.of_tag("de-AT"))
        self.assertIsNone(lists.of_tag("und"))
        self.assertEqual(lists.root(), dict.fromkeys(("start", "middle", "end", "pair"), COMMA))

    def test_aliases(self) -> None:
        self.assertEqual(self.lists("and", "short").of_tag("fr")["end"], "{0} et {1}")
        short = self.lists("or", "short").of_tag("fr")
        self.assertEqual((short["end"], short["pair"]), ("{0} ou {1}", "{0} or {1}"))

    def test_specials(self) -> None:
        special = self.lists().of_tag("es-MX")["end_special"]
        self.assertEqual(special["pattern"], "{0} e {1}")
        special = self.lists("or").of_tag("es")["pair_special"]
        self.assertEqual(special["pattern"], "{0} u {1}")
        self.assertNotIn("end_special", self.lists().of_tag("fr"))

    def test_faults(self) -> None:
        with self.assertRaises(Fault):
            cldr.supplemental(self.folder)
        folder = support.cldr(self)
        for name in ("likelySubtags", "supplementalData"):
            path = self.write(f"cldr/common/supplemental/{name}.xml", "<no")
            with self.subTest(name), self.assertRaises(Fault) as caught:
                cldr.supplemental(folder)
            self.assertIn(str(path), str(caught.exception))
            support.cldr(self)
