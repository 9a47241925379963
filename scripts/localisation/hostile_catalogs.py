"""Hostile MO files, and what the rules of the format make of them.

`messages_of` goes by the rules alone: it is written from GNU gettext's layout and the order in
which faults are looked at, not from the program.
"""

from __future__ import annotations

import struct
from collections.abc import Iterator

from localisation.mo import BIG, LITTLE, layout

HEADER = b"Content-Type: text/plain; charset=UTF-8\n"
ONE = layout([(b"Hi", b"Salut")])
TWO = layout([(b"Bye", b"Au revoir"), (b"Hi", b"Salut")])
HEADED = layout([(b"", HEADER), (b"Hi", b"Salut")])

# What each number of a file is set to in turn.
NUMBERS = (0, 0x7FFFFFFF, 0x80000000, 0xFFFFFFFF)
FIELDS = 7


class Faulty(Exception):
    """The name of a file's first fault."""


def messages_of(data: bytes) -> dict[str, list[str]]:
    """The forms of each key, where every text is in UTF-8; of equal keys the last counts."""
    if len(data) < 4 * FIELDS:
        raise Faulty("Eof")
    order = {LITTLE: "<", BIG: ">"}.get(data[:4])
    if order is None:
        raise Faulty("BadMagic")
    count, originals, translations = struct.unpack_from(order + "3I", data, 8)
    if max(originals, translations) > len(data):
        raise Faulty("Eof")
    messages = {}
    for row in range(count):
        head, end, _ = _closed(data, order, originals + 8 * row).partition(b"\0")
        if not end:
            raise Faulty("Eof")
        context, mark, text = head.partition(b"\4") if b"\4" in head else (b"", b"", head)
        key = _decoded(context) + mark.decode() + _decoded(text)
        if row > 0 and not text:
            raise Faulty("MisplacedMetadata")
        forms = _closed(data, order, translations + 8 * row)[:-1].split(b"\0")
        messages[key] = [_decoded(form) for form in forms]
        if not text:
            _look_at_metadata(messages[key][0])
    return messages


def _closed(data: bytes, order: str, place: int) -> bytes:
    """The text that the row at this place names, with its closing byte."""
    if place + 8 > len(data):
        raise Faulty("Eof")
    length, start = struct.unpack_from(order + "2I", data, place)
    if start + length + 1 > len(data):
        raise Faulty("Eof")
    return data[start:start + length + 1]


def _decoded(text: bytes) -> str:
    try:
        return text.decode()
    except UnicodeDecodeError:
        raise Faulty("DecodingError") from None


def _look_at_metadata(text: str) -> None:
    """No case has another header than HEADER, whole or cut, so charset and rule are never wrong."""
    if any(line and ":" not in line for line in text.split("\n")):
        raise Faulty("MalformedMetadata")


def swapped(data: bytes) -> bytes:
    """The same file in the other order of bytes."""
    fields = FIELDS + 4 * struct.unpack_from("<I", data, 8)[0]
    return struct.pack(f">{fields}I", *struct.unpack_from(f"<{fields}I", data)) + data[4 * fields:]


def with_number(data: bytes, field: int, number: int) -> bytes:
    """The file with another number in a field, in the order of bytes that its magic names."""
    order = "little" if data.startswith(LITTLE) else "big"
    return _with(data, 4 * field, number.to_bytes(4, order))


def _with(data: bytes, place: int, piece: bytes) -> bytes:
    return data[:place] + piece + data[place + len(piece):]


def other_numbers(data: bytes) -> Iterator[bytes]:
    """The file with each number of its header and its tables changed."""
    order = "<I" if data.startswith(LITTLE) else ">I"
    for field in range(FIELDS + 4 * struct.unpack_from(order, data, 8)[0]):
        for number in NUMBERS:
            changed = with_number(data, field, number)
            if changed != data:
                yield changed


def other_magics(data: bytes) -> Iterator[bytes]:
    """The file with each byte of its magic changed, and with the magic of the other order."""
    for place in range(4):
        for bits in (0x01, 0x80, 0xFF):
            yield _with(data, place, bytes([data[place] ^ bits]))
    yield data[:4][::-1] + data[4:]


def tables_in_one_place() -> Iterator[bytes]:
    """Each id is its own form; the rows of two tables that overlap by one are shared."""
    for data in (swapped(ONE), TWO, swapped(TWO), HEADED):
        yield with_number(data, 4, 28)
    yield with_number(TWO, 4, 36)
    yield with_number(TWO, 3, 36)


def tables_at_the_end() -> Iterator[bytes]:
    """Tables that begin where a file ends, and one byte behind, without a row and with one."""
    for count in (0, 1):
        for originals, translations in ((28, 28), (28, 29), (29, 28), (29, 29)):
            yield struct.pack("<4s6I", LITTLE, 0, count, originals, translations, 0, 28)
    yield struct.pack("<4s6I", bytes(4), 0, 0, 29, 29, 0, 28)


CASES = {
    "hostile catalogs: one message in big-endian order, cut behind each byte":
        lambda: (swapped(ONE)[:length] for length in range(len(ONE) + 1)),
    "hostile catalogs: a magic with another byte, and that of the other order":
        lambda: (each for data in (ONE, swapped(ONE)) for each in other_magics(data)),
    "hostile catalogs: both tables in one place, and tables that overlap": tables_in_one_place,
    "hostile catalogs: tables that begin where the file ends, or behind": tables_at_the_end,
    "hostile catalogs: one message, each number at 0, 2^31 - 1, 2^31 and 2^32 - 1":
        lambda: (each for data in (ONE, swapped(ONE)) for each in other_numbers(data)),
    "hostile catalogs: two messages, each number so": lambda: other_numbers(TWO),
    "hostile catalogs: a header and a message, each number so": lambda: other_numbers(HEADED),
}


def rows() -> Iterator[tuple[object, object]]:
    for heading, files in CASES.items():
        yield heading, heading
        for data in files():
            yield from asked(data)


def asked(data: bytes) -> Iterator[tuple[object, object]]:
    """The file is read; where it has no fault its messages are found, or Hi isn't."""
    call = ["gettext::Catalog::parse_bytes", data.hex()]
    try:
        messages = messages_of(data)
    except Faulty as fault:
        yield call, {"refused": str(fault)}
        return
    yield call, data.hex()
    for key in {"Hi": None, **messages}:
        wanted = {"number": 0, "text": messages[key][0]} if key in messages else None
        yield ["gettext::Catalog::find", data.hex(), None, key, 1], wanted
