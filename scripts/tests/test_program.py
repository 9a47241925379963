"""The program's exit statuses, each with its lines and its fault line."""

import json
import os
import subprocess
import unittest
from typing import NamedTuple

from localisation.program import LIMIT
from tests.support import PROGRAM, mo, needs_program

ALWAYS = {"bundles": [], "requests": []}
FRENCH = {"tag": "fr", "mo": mo(("Hi", "Salut")).hex()}
HI = {"tag": "fr", "singular": "Hi", "plural": "His", "count": 1}
RING = {"parents": [["en", "fr"], ["fr", "en"]]}


class Row(NamedTuple):
    """Words and an input (a document, or bytes), and how the program ends."""

    status: int
    words: str
    given: dict | bytes
    lines: str = ""
    fault: str = ""


ROWS = (
    Row(0, "render", {"bundles": [FRENCH], "requests": [HI, HI]}, lines="Salut\nSalut\n"),
    Row(0, "walk", {"bundles": [], "requests": [HI | {"tag": "fr-CA"}]}, lines="fr-CA fr und\n"),
    Row(0, "generate 3", ALWAYS, lines="requests 0\nbytes 0\nvisited 0\n"),
    Row(2, "", ALWAYS, fault="bad command line"),
    Row(2, "render x", ALWAYS, fault="bad command line"),
    Row(2, "generate 1000001", ALWAYS, fault="bad command line"),
    Row(3, "render", b"{", fault="not JSON"),
    Row(4, "render", {"bundles": []}, fault="wrong shape: requests 0 whole"),
    Row(5, "render", ALWAYS | {"registry": {"languages": [["en"], ["en"]]}},
        fault="table languages row 1: duplicate key"),
    Row(6, "render", ALWAYS | {"bundles": [FRENCH, FRENCH]},
        fault="bundle 1: locale of an earlier bundle"),
    Row(7, "render", {"fallback": RING, "bundles": [], "requests": [HI | {"tag": "de"},
        HI | {"tag": "en"}]}, lines="Hi\n", fault="request 1: fallback loops"),
    Row(11, "render", b" " * (LIMIT + 1), fault="input too long"),
)


@needs_program
class Statuses(unittest.TestCase):
    def ends(self, row: Row, **streams: object) -> None:
        given = row.given if isinstance(row.given, bytes) else json.dumps(row.given).encode()
        streams = {"input": given, "stdout": subprocess.PIPE} | streams
        done = subprocess.run([PROGRAM, *row.words.split()], stderr=subprocess.PIPE, **streams)
        told = f"localise: {row.fault}\n" if row.fault else ""
        self.assertEqual((done.returncode, done.stderr.decode()), (row.status, told))
        if done.stdout is not None:
            self.assertEqual(done.stdout.decode(), row.lines)

    def test_each_status(self) -> None:
        for row in ROWS:
            with self.subTest(status=row.status, words=row.words):
                self.ends(row)

    def test_a_source_that_fails(self) -> None:
        folder = os.open("/", os.O_RDONLY)
        self.addCleanup(os.close, folder)
        self.ends(Row(8, "render", b"", fault="read fault"), input=None, stdin=folder)

    @unittest.skipUnless(os.path.exists("/dev/full"), "no /dev/full")
    def test_an_output_that_fails_only_when_it_is_flushed(self) -> None:
        full = os.open("/dev/full", os.O_WRONLY)
        self.addCleanup(os.close, full)
        self.ends(Row(9, "render", ROWS[0].given, fault="write fault"), stdout=full)
