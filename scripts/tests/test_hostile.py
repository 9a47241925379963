"""Hostile input: the rules of its wanted answers, and the rows that are stored."""

import json
import sys
import unittest

from localisation import (
    hostile, hostile_catalogs, hostile_documents, hostile_json, hostile_pipes, hostile_rings,
    hostile_rules, plural,
)
from localisation.hostile_catalogs import HEADED, ONE, TWO, Faulty, messages_of, swapped
from localisation.mo import layout
from localisation.program import LIMIT
from tests.support import InFolder, run

# Files, and the fault that the format's rules give them.
FAULTS = [
    (ONE[:27], "Eof"),
    (bytes(28), "BadMagic"),
    (ONE[:-1], "Eof"),
    (swapped(ONE)[:-1], "Eof"),
    (hostile_catalogs.with_number(ONE, 2, 0xFFFFFFFF), "Eof"),
    (hostile_catalogs.with_number(ONE, 3, len(ONE) + 1), "Eof"),
    (ONE.replace(b"Hi", b"\xffi"), "DecodingError"),
    (ONE.replace(b"Salut", b"Sal\xfft"), "DecodingError"),
    (layout([(b"a", b"b"), (b"", b"x: y")]), "MisplacedMetadata"),
    (layout([(b"a", b"b"), (b"c\4", b"x: y")]), "MisplacedMetadata"),
    (layout([(b"", b"nothing")]), "MalformedMetadata"),
    (layout([(b"c\4", b"nothing")]), "MalformedMetadata"),
]


class Catalogs(unittest.TestCase):
    def test_faults(self) -> None:
        for data, fault in FAULTS:
            with self.subTest(data.hex()), self.assertRaisesRegex(Faulty, fault):
                messages_of(data)

    def test_messages(self) -> None:
        for data in (TWO, swapped(TWO)):
            self.assertEqual(messages_of(data), {"Bye": ["Au revoir"], "Hi": ["Salut"]})
        self.assertEqual(list(messages_of(HEADED)), ["", "Hi"])
        data = layout([(b"c\4a\0as", b"x\0y"), (b"a", b""), (b"a", b"z")])
        self.assertEqual(messages_of(data), {"c\4a": ["x", "y"], "a": ["z"]})


class Expressions(unittest.TestCase):
    def test_values_by_another_reader(self) -> None:
        """The reader of the scripts knows no height, and has the same values."""
        for name, shapes in hostile_rules.shapes():
            for shape, made in shapes.items():
                for height in hostile_rules.HEIGHTS:
                    part = made(height)
                    with self.subTest(name, shape=shape, height=height):
                        self.assertEqual(part.height, height)
                        tree = plural.parsed(part.text)
                        self.assertEqual(plural.value(tree, hostile_rules.COUNT), part.value)


class Json(unittest.TestCase):
    def test_pythons_reader_refuses_no_other_text(self) -> None:
        """It reads more: any nesting, halves of pairs, numbers of any size, NaN."""
        for call, wanted in hostile_json.rows():
            if isinstance(call, str) or wanted["status"] == "NotJson":
                continue
            given = call[2]
            text = given if isinstance(given, str) else bytes.fromhex(given["bytes"]).decode()
            with self.subTest(text[:80]):
                json.loads(text)


class Rows(InFolder):
    def test_the_stored_rows_are_these(self) -> None:
        hostile.write_rows(self.folder)
        for name in ("hostile.calls", "hostile.wanted"):
            stored = hostile.CRATE / "rows" / name
            self.assertEqual((self.folder / name).read_bytes(), stored.read_bytes(), name)

    def test_rings(self) -> None:
        self.assertEqual(len({hostile_rings.locale(i) for i in range(1001)}), 1001)
        self.assertEqual(hostile_rings.visited({"a": "b", "b": "a"}, "a", "b"), 2)
        self.assertIsNone(hostile_rings.visited({"a": "b", "b": "b"}, "a", "c"))

    def test_pushes_make_the_lines(self) -> None:
        lines = ["".join(pushes) for pushes in hostile_pipes.PUSHES]
        self.assertTrue(all(line.count("\n") == 1 and line[-1] == "\n" for line in lines))
        self.assertEqual(hostile_pipes.reads(hostile_pipes.FIRST, 16), 14)


class LongDocuments(unittest.TestCase):
    def test_white_space_fills_a_document(self) -> None:
        self.assertEqual(hostile_documents.filled("{@}", 5), "{   }")
        for text in hostile_documents.PADDED.values():
            self.assertEqual(len(hostile_documents.filled(text, LIMIT + 1).encode()), LIMIT + 1)


class TheScript(InFolder):
    def test_what_is_missing_is_said(self) -> None:
        missing = self.folder / "missing"
        ended = run("hostile", "--vectors", missing, "--program", missing)
        self.assertEqual((ended.returncode, ended.stderr), (0, b""))
        self.assertEqual(ended.stdout.count(f"skipped, no program at {missing}".encode()), 2)

    def test_a_difference_is_found(self) -> None:
        program = self.write("program", f"#!{sys.executable}\nfor _ in open(0): print('[]')\n")
        program.chmod(0o755)
        count, found = hostile.differences(program, [([1], []), ([2], "x")])
        self.assertEqual((count, len(found)), (2, 1))
        case = hostile_documents.CASES[-2]
        self.assertEqual(hostile_documents.differences(program, [case])[0], 1)
        self.assertEqual(len(hostile_documents.differences(program, [case])[1]), 1)
