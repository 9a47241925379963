"""Documents of a given size: they are JSON, fill it, and are answered as their kind says."""

import json
import unittest

from localisation.large import GROWING, PRODUCTS, padded
from localisation.program import Program
from tests.support import PROGRAM, needs_program, run

SIZE = 30_000
KINDS = {**GROWING, **PRODUCTS}


class Large(unittest.TestCase):
    def test_they_are_json_and_fill_their_size(self) -> None:
        for name, kind in KINDS.items():
            with self.subTest(name):
                document = kind.document(SIZE)
                json.loads(document, parse_int=len)
                self.assertLessEqual(len(document), SIZE)
                self.assertGreater(len(document), SIZE * 0.9)
                self.assertEqual(len(padded(document, SIZE)), SIZE)

    @needs_program
    def test_how_they_are_answered(self) -> None:
        for name, kind in KINDS.items():
            with self.subTest(name):
                answer = Program(PROGRAM).answer("render", [kind.document(SIZE)])
                self.assertEqual(answer.status, kind.status, answer.fault)

    @needs_program
    def test_they_are_measured(self) -> None:
        words = ["--size", SIZE, "--only", "a tag's", "--stack", 8192]
        done = run("sizes", "--program", PROGRAM, *words)
        self.assertEqual((done.returncode, done.stderr), (0, b""))
        lines = done.stdout.decode().splitlines()
        self.assertEqual(lines[0], "stack: 8192 KiB")
        self.assertEqual([line.split("  ")[0] for line in lines[1:]], [
            f"a tag's extension, {command}" for command in ("render", "walk", "generate 1000")
        ])
        self.assertNotIn("status", "".join(lines))
