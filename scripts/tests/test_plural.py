"""Plural expressions: how they are read, their values, and when two rules are one."""

import unittest

from localisation.faults import Fault
from localisation.plural import DEFAULT, WORD, parsed, rule_of, same, value

VALUES = [
    ("n != 1", 1, 0),
    ("n > 1", 0, 0),
    ("n==1 ? 0 : n%10>=2 && n%10<=4 ? 1 : 2", 22, 1),
    ("1 || n%0", 5, 1),
    ("n%0 || 1", 5, None),
    ("n/2*2", 5, 4),
    ("n-1", 0, WORD - 1),
    ("!n", 0, 1),
    ("!!n", 7, 1),
    ("1 ? 2 : 3 ? 4 : 5", 0, 2),
    ("8 - 2 - 1", 0, 5),
]
NO_EXPRESSIONS = ["", "EXPRESSION", "n <", "(n", "n)", "1 ? 2", "n n", "n = 1", "- 1", "\u0661"]

POLISH = "nplurals=3; plural=n==1 ? 0 : n%10>=2 && n%10<=4 && (n%100<10 || n%100>=20) ? 1 : 2;"
SAME = [
    (POLISH, "nplurals=3; plural=(n==1?0: n%10>=2&&n%10<=4 && (n%100<12 || n%100>14) ? 1 : 2)"),
    ("nplurals=2; plural=n>1", "nplurals=2; plural=(n >= 2);"),
    ("nplurals=2; plural=n!=1", "nplurals=2; plural=n==1 ? 0 : 1"),
    ("plural=n", "plural=(n)"),
    ("nplurals=2; plural=n>0", "nplurals=2; plural=n ? 1 : 0"),
    ("plural=n!=1", "nplurals=2; plural=n!=1"),
]
DIFFERENT = [
    ("nplurals=2; plural=n>1", "nplurals=2; plural=n!=1"),
    ("nplurals=1; plural=0", "nplurals=2; plural=n!=1"),
    ("nplurals=1; plural=n!=1", "nplurals=2; plural=n!=1"),
    ("nplurals=2; plural=n>9983", "nplurals=2; plural=n>9982"),
]


class Plurals(unittest.TestCase):
    def test_values(self) -> None:
        for text, count, wanted in VALUES:
            with self.subTest(text):
                self.assertEqual(value(parsed(text), count), wanted)

    def test_what_is_no_expression(self) -> None:
        for text in NO_EXPRESSIONS:
            with self.subTest(text), self.assertRaises(Fault):
                parsed(text)

    def test_rules(self) -> None:
        self.assertIsNone(rule_of("nplurals=2"))
        self.assertEqual(rule_of("n_plurals = +03 ; plural = n").bound, 3)
        self.assertIsNone(rule_of("nplurals=x; plural=n").bound)
        self.assertIsNone(rule_of("nplurals=1; plural=n!=1").form(5))

    def test_rules_that_are_one(self) -> None:
        for first, second in SAME:
            with self.subTest(first):
                self.assertTrue(same(rule_of(first), rule_of(second)))
        self.assertTrue(same(DEFAULT, rule_of("nplurals=2; plural=n != 1")))

    def test_rules_that_differ(self) -> None:
        for first, second in DIFFERENT:
            with self.subTest(first):
                self.assertFalse(same(rule_of(first), rule_of(second)))


if __name__ == "__main__":
    unittest.main()
