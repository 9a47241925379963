"""Requests and documents read piece by piece."""

import io
import json
import unittest

from localisation.cutting import cut, shards
from localisation.faults import Fault
from localisation.json_text import JsonText
from localisation.request_lines import request_lines

ITEMS = [{"a": "x\n}]\"\\", "b": [1, {"c": {}}]}, 12345, "é\u2028", [], None, -1.5e3]


class Slow(io.StringIO):
    """A stream that gives one character a read."""

    def read(self, _size: int | None = -1) -> str:
        return super().read(1)


def told(text: str, name: str = "name") -> list[tuple[str, str]]:
    lines = request_lines(io.BytesIO(text.encode()), name)
    return [(line.text.decode(), line.place) for line in lines]


class JsonTexts(unittest.TestCase):
    def test_items_one_character_at_a_time(self) -> None:
        for indent in (None, 2):
            text = JsonText(Slow(json.dumps(ITEMS, indent=indent)), "name")
            self.assertEqual([json.loads(item) for item in text.items()], ITEMS)
            text.end()

    def test_faults(self) -> None:
        for text in ("[", "[1", "[1 2]", "[1,]", "[}", "[tru]", "[1]x", '["a'):
            reader = JsonText(Slow(text), "name")
            with self.subTest(text), self.assertRaises(Fault) as caught:
                list(reader.items())
                reader.end()
            self.assertIn("name: not JSON", str(caught.exception))


class RequestLines(unittest.TestCase):
    def test_lines_and_lists(self) -> None:
        self.assertEqual(told(""), [])
        self.assertEqual(told(" \n"), [])
        lines = told('\n{"a": 1}\n\n {"b": "\\n"}\r\n')
        self.assertEqual(lines, [('{"a": 1}', "name line 2"), ('{"b": "\\n"}', "name line 4")])
        items = told('\n[{"a":\n1},\n{"b": 2}]\n')
        self.assertEqual(items, [('{"a": 1}', "name request 0"), ('{"b": 2}', "name request 1")])

    def test_faults_say_where(self) -> None:
        faults = {
            '{"a": 1}\n{"b"': "name line 2: not JSON",
            '{"a": 1}, {"b": 2}': "name line 1: not JSON",
            "[{}\n, 1": "name: not JSON",
            "[] []": "name: not JSON",
        }
        for text, wanted in faults.items():
            with self.subTest(text), self.assertRaises(Fault) as caught:
                told(text)
            self.assertIn(wanted, str(caught.exception))


class Cutting(unittest.TestCase):
    def cut(self, text: str):
        self.requests = io.BytesIO()
        return cut(io.BytesIO(text.encode()), "name", self.requests)

    def test_head_and_requests(self) -> None:
        for before in (True, False):
            members = ['"bundles": [ ]', '"requests": [{"a": "x"},\n {"b":\n 2}]']
            head, count = self.cut("{" + ", ".join(members if before else members[::-1]) + "}\n")
            self.assertEqual(head.front + head.back, b'{"bundles":[ ],"requests":[]}')
            self.assertEqual((count, self.requests.getvalue()), (2, b'{"a": "x"}\n{"b":  2}\n'))

    def test_what_the_program_refuses_stays(self) -> None:
        for text in ('{"bundles":[]}', '{"requests":{}}', "{}", '{"x":1,"requests":null}'):
            head, count = self.cut(text)
            self.assertEqual((head.front + head.back, count), (text.encode(), 0))

    def test_shards_cover_the_requests(self) -> None:
        head, count = self.cut('{"requests":[' + ",".join(str(n + 100) for n in range(10)) + "]}")
        cut_up = list(shards(self.requests, head, 4))
        self.assertEqual([(s.first, s.count) for s in cut_up], [(0, 4), (4, 4), (8, 2)])
        lines = b"".join(self.requests.getvalue()[s.start:s.end] for s in cut_up)
        self.assertEqual(lines, self.requests.getvalue())


if __name__ == "__main__":
    unittest.main()
