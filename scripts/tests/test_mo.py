"""MO files: reading, writing, and making one of several."""

import gettext
import io
import struct
import unittest

from localisation.faults import Fault
from localisation.mo import LITTLE, catalog_of, disagreeing, file_of, merged
from tests.support import ENGLISH, FRENCH, mo


def swapped(data: bytes) -> bytes:
    """The same file in the other order of bytes."""
    count = struct.unpack_from("<I", data, 8)[0]
    numbers = struct.unpack_from(f"<{7 + 4 * count}I", data)
    return struct.pack(f">{7 + 4 * count}I", *numbers) + data[4 * (7 + 4 * count):]


class MoFiles(unittest.TestCase):
    def test_messages(self) -> None:
        data = mo(("a\0as", "x\0y\0z"), ("menu\4Open", "Ouvrir"), ("e", ""), plural=FRENCH)
        for each in (data, swapped(data)):
            catalog = catalog_of("name", each)
            told = {m.key: (m.plural, m.forms) for m in catalog.messages}
            self.assertEqual(told, {
                (None, "a"): ("as", ("x", "y", "z")),
                (None, "e"): (None, ("",)),
                ("menu", "Open"): (None, ("Ouvrir",)),
            })
            self.assertEqual(catalog.rule.bound, 2)

    def test_windows_1252(self) -> None:
        catalog = catalog_of("name", mo(("price", "5 €"), charset="ISO-8859-1"))
        self.assertEqual(catalog.messages[0].forms, ("5 €",))

    def test_what_is_no_file(self) -> None:
        data = mo(("a", "b"))
        for each in (b"", b"text", data[:20], LITTLE + b"\xff" * 30):
            with self.subTest(each[:4]), self.assertRaises(Fault):
                catalog_of("name", each)

    def test_a_written_file_is_read_by_python(self) -> None:
        catalog = catalog_of("name", mo(("a\0as", "é\0és"), ("m\4O", "Ô"), plural=FRENCH))
        data = file_of(catalog.header, catalog.messages)
        read = gettext.GNUTranslations(io.BytesIO(data))
        self.assertEqual(read.ngettext("a", "as", 2), "és")
        self.assertEqual(read.pgettext("m", "O"), "Ô")
        self.assertEqual(catalog_of("name", data).messages, catalog.messages)

    def test_the_earlier_counts(self) -> None:
        first = catalog_of("first", mo(("a", "1"), plural=FRENCH))
        second = catalog_of("second", mo(("a", "2"), ("b", "€"), charset="latin1"))
        read = gettext.GNUTranslations(io.BytesIO(merged([first, second])))
        self.assertEqual((read.gettext("a"), read.gettext("b")), ("1", "€"))
        self.assertEqual(catalog_of("", merged([second, first])).rule, first.rule)

    def test_rules_that_differ(self) -> None:
        french = catalog_of("french", mo(("a\0as", "b\0bs"), plural=FRENCH))
        english = catalog_of("english", mo(("c", "d"), plural=ENGLISH))
        plain = catalog_of("plain", mo(("e", "f")))
        default = catalog_of("default", mo(("g\0gs", "h\0hs")))
        names = [
            (one.name, other.name)
            for one, other in disagreeing([plain, french, english, default])
        ]
        self.assertEqual(names, [("french", "english"), ("french", "default")])


if __name__ == "__main__":
    unittest.main()
