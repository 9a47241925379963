"""The subtag registry and its thirteen tables."""

from localisation.faults import Fault
from localisation.registry import TABLES, tables_of
from tests.support import REGISTRY, InFolder

WANTED = {
    "languages": [["en"], ["iw"], ["qaa"], ["qab"], ["qac"], ["qad"]],
    "languages_preferred": [["iw", "he"]],
    "languages_suppress_script": [["en", "Latn"]],
    "extlangs": [["cmn", "zh-"]],
    "extlangs_preferred": [["cmn", "cmn"]],
    "scripts": [["Latn"], ["Qaay"], ["Qaaz"], ["Qaba"]],
    "scripts_preferred": [],
    "regions": [["BU"], ["QM"], ["QN"], ["QO"]],
    "regions_preferred": [["BU", "MM"]],
    "variants": [["1994", "sl-rozaj- sl-rozaj-biske-"], ["heploc", "ja-Latn-hepburn-"]],
    "variants_preferred": [["heploc", "alalc97"]],
    "grandfathereds_preferred": [["i-klingon", "tlh"]],
    "redundants_preferred": [["zh-cmn-Hans", "cmn-Hans"]],
}

FAULTS = {
    "": "no record",
    "no field\n": "line 1: no field",
    "%%\nType: dialect\nSubtag: en\n": "line 2: a record of no known type",
    "%%\nType: language\n": "line 2: a record of one language is wanted",
    "%%\nType: region\nSubtag: QZ..QM\n": "line 2: no range",
    "%%\nType: region\nSubtag: AA\n%%\nType: region\nSubtag: AA\n": "line 5: region AA stands",
}


class Registry(InFolder):
    def test_tables(self) -> None:
        tables = tables_of(self.write("registry", REGISTRY))
        self.assertEqual(tables, WANTED)
        self.assertEqual(tuple(tables), TABLES)

    def test_what_a_table_cannot_hold_is_left_out(self) -> None:
        text = "%%\nType: language\nSubtag: abcde\n%%\nType: variant\nSubtag: abcde\n"
        tables = tables_of(self.write("registry", text + "Preferred-Value: no\n"))
        self.assertEqual((tables["languages"], tables["variants"]), ([], [["abcde", ""]]))
        self.assertEqual(tables["variants_preferred"], [])

    def test_faults(self) -> None:
        for text, wanted in FAULTS.items():
            with self.subTest(text), self.assertRaises(Fault) as caught:
                tables_of(self.write("registry", text))
            self.assertIn(wanted, str(caught.exception))
