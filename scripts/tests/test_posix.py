"""POSIX names and the tags they mean; the order in which the environment names locales."""

import unittest

from localisation.faults import Fault
from localisation.posix import tag_of, wanted_names

TAGS = {
    "fr": "fr",
    "fr_CA": "fr-CA",
    "fr_CA.UTF-8": "fr-CA",
    "pt-br": "pt-BR",
    "es_419": "es-419",
    "sr_RS@latin": "sr-Latn-RS",
    "sr@Latn": "sr-Latn",
    "sr@ije": "sr-ijekavsk",
    "zh_Hant_TW": "zh-Hant-TW",
    "uz@cyrillic": "uz-Cyrl",
    "tt@iqtelif": "tt-Latn",
    "ca_ES.UTF-8@valencia": "ca-ES-valencia",
    "de_DE@euro": "de-DE",
    "en_US_POSIX": "en-US-posix",
    "sl_IT_1994": "sl-IT-1994",
    "C": "und",
    "C.UTF-8": "und",
    "POSIX": "und",
}
NO_TAGS = ["", "x", "1a", "engl", "fr_", "fr_C", "en@quot", "sr_Latn@cyrillic", "fr_CA_DE"]

ENVIRONMENTS = [
    ({}, ["C"]),
    ({"LANG": "fr_CA.UTF-8"}, ["fr_CA.UTF-8"]),
    ({"LANG": "fr", "LC_MESSAGES": "es"}, ["es"]),
    ({"LANG": "fr", "LC_MESSAGES": "es", "LC_ALL": "de"}, ["de"]),
    ({"LANG": "fr", "LC_ALL": ""}, ["fr"]),
    ({"LANG": "fr", "LANGUAGE": "pt_BR:pt::es"}, ["pt_BR", "pt", "es"]),
    ({"LANG": "fr", "LANGUAGE": ""}, ["fr"]),
    ({"LANG": "fr", "LANGUAGE": "pt:C:es"}, ["pt", "C"]),
    ({"LANG": "C", "LANGUAGE": "fr"}, ["C"]),
    ({"LANG": "POSIX", "LANGUAGE": "fr"}, ["C"]),
    ({"LC_ALL": "C.UTF-8", "LANG": "es", "LANGUAGE": "fr"}, ["fr"]),
    ({"LC_ALL": "C.UTF-8", "LANG": "es"}, ["C.UTF-8"]),
    ({"LANG": "fr", "LANGUAGE": "pt:C.UTF-8:es"}, ["pt", "C.UTF-8", "es"]),
    ({"LANGUAGE": "fr"}, ["C"]),
]


class PosixNames(unittest.TestCase):
    def test_tags(self) -> None:
        for name, tag in TAGS.items():
            with self.subTest(name):
                self.assertEqual(tag_of(name), tag)

    def test_names_without_a_tag(self) -> None:
        for name in NO_TAGS:
            with self.subTest(name), self.assertRaises(Fault):
                tag_of(name)

    def test_environment(self) -> None:
        for environment, names in ENVIRONMENTS:
            with self.subTest(environment):
                self.assertEqual(wanted_names(environment), names)


if __name__ == "__main__":
    unittest.main()
