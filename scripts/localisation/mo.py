"""MO files: their rows, what these say, and files made of rows.

Only files that the program accepts are read here, to merge them or to show which one answered;
whether a file is sound is asked of the program (`refused.py`).
"""

from __future__ import annotations

import struct
from collections.abc import Iterable, Iterator
from dataclasses import dataclass

from localisation.faults import Fault
from localisation.plural import DEFAULT, Rule, rule_of, same

LITTLE, BIG = b"\xde\x12\x04\x95", b"\x95\x04\x12\xde"
CONTEXT_END = "\x04"
UTF_8 = ("utf-8", "utf8", "unicode-1-1-utf-8")
# What windows-1252 has where ISO 8859-1 has controls. Five bytes stay controls, as in browsers.
WINDOWS_1252 = {
    byte: bytes([byte]).decode("cp1252")
    for byte in range(0x80, 0xA0)
    if byte not in (0x81, 0x8D, 0x8F, 0x90, 0x9D)
}


@dataclass(frozen=True)
class Message:
    """A message's words and forms. Its key is its context and its id."""

    id: str
    forms: tuple[str, ...]
    context: str | None = None
    plural: str | None = None

    @property
    def key(self) -> tuple[str | None, str]:
        return self.context, self.id


@dataclass(frozen=True)
class Catalog:
    """What a file says: the fields of its header, its rule of plurals, its messages."""

    name: str
    charset: str
    header: tuple[tuple[str, str], ...]
    rule: Rule | None
    messages: tuple[Message, ...]

    @property
    def forms_by(self) -> Rule:
        """The rule that the program goes by."""
        return self.rule or DEFAULT

    @property
    def has_plurals(self) -> bool:
        return any(message.plural is not None for message in self.messages)


def rows_of(name: str, data: bytes) -> list[tuple[bytes, bytes]]:
    """The originals of a file and their translations."""
    order = {LITTLE: "<", BIG: ">"}.get(data[:4])
    if order is None:
        raise Fault(f"{name}: no MO file")
    try:
        count, originals, translations = struct.unpack_from(order + "3I", data, 8)
        places = [
            struct.unpack_from(f"{order}{2 * count}I", data, start)
            for start in (originals, translations)
        ]
    except struct.error:
        raise Fault(f"{name}: the MO file is cut off") from None
    ids, texts = (
        [data[at:at + length] for length, at in zip(side[::2], side[1::2])] for side in places
    )
    return list(zip(ids, texts))


def catalog_of(name: str, data: bytes) -> Catalog:
    """What the bytes of a file say. Of equal keys the last counts, as for the program."""
    header: tuple[tuple[str, str], ...] = ()
    messages: dict[tuple[str | None, str], Message] = {}
    charset = "utf-8"
    for number, (original, translation) in enumerate(rows_of(name, data)):
        head, plural_end, plural = original.partition(b"\0")
        context, context_end, text = head.partition(b"\4")
        if not context_end:
            context, text = b"", head
        if number == 0 and not text:
            header = _fields(decoded(name, translation.split(b"\0")[0], "utf-8"))
            charset = _charset(dict(header)) or charset
            continue
        message = Message(
            id=decoded(name, text, charset),
            forms=tuple(decoded(name, form, charset) for form in translation.split(b"\0")),
            context=decoded(name, context, charset) if context_end else None,
            plural=decoded(name, plural.split(b"\0")[0], charset) if plural_end else None,
        )
        messages[message.key] = message
    rule = rule_of(dict(header).get("Plural-Forms", ""))
    return Catalog(name, charset, header, rule, tuple(messages.values()))


def _fields(text: str) -> tuple[tuple[str, str], ...]:
    lines = [line.partition(":") for line in text.split("\n") if line]
    return tuple((name.strip(), value.strip()) for name, _, value in lines)


def _charset(fields: dict[str, str]) -> str | None:
    _, named, charset = fields.get("Content-Type", "").partition("charset=")
    return charset.partition("charset=")[0].strip().lower() if named else None


def decoded(name: str, data: bytes, charset: str) -> str:
    """A text in UTF-8, or by the one other encoding that the program knows, windows-1252."""
    if charset not in UTF_8:
        return data.decode("latin-1").translate(WINDOWS_1252)
    try:
        return data.decode()
    except UnicodeDecodeError:
        raise Fault(f"{name}: a text that isn't UTF-8") from None


def file_of(header: Iterable[tuple[str, str]], messages: Iterable[Message]) -> bytes:
    """A file in UTF-8, its rows in the order of their originals, the header before them."""
    fields = {**dict(header), "Content-Type": "text/plain; charset=UTF-8"}
    blob = "".join(f"{name}: {value}\n" for name, value in fields.items())
    rows = sorted((_original(message), "\0".join(message.forms)) for message in messages)
    return layout((o.encode(), t.encode()) for o, t in [("", blob), *rows])


def _original(message: Message) -> str:
    context = "" if message.context is None else message.context + CONTEXT_END
    return context + message.id + ("" if message.plural is None else "\0" + message.plural)


def layout(rows: Iterable[tuple[bytes, bytes]]) -> bytes:
    """The bytes of a little-endian file with these rows, without a hash table."""
    rows = list(rows)
    place = 28 + 16 * len(rows)
    tables, texts = bytearray(), bytearray()
    for side in (0, 1):
        for row in rows:
            tables += struct.pack("<2I", len(row[side]), place + len(texts))
            texts += row[side] + b"\0"
    head = struct.pack("<4s6I", LITTLE, 0, len(rows), 28, 28 + 8 * len(rows), 0, place)
    return bytes(head + tables + texts)


def merged(catalogs: list[Catalog]) -> bytes:
    """One file with the messages of all; the later yield to the earlier."""
    rule = next((c.rule for c in catalogs if c.rule), None)
    header = dict(next((c.header for c in catalogs if c.header), ()))
    if rule:
        header["Plural-Forms"] = rule.text
    messages: dict[tuple[str | None, str], Message] = {}
    for catalog in catalogs:
        for message in catalog.messages:
            messages.setdefault(message.key, message)
    return file_of(header.items(), messages.values())


def disagreeing(catalogs: list[Catalog]) -> Iterator[tuple[Catalog, Catalog]]:
    """The first catalog that has a rule, with each whose rule gives other forms.

    A catalog without a rule whose messages have no plural is content with any; where they have
    one, its rule is the program's default.
    """
    ruled = [catalog for catalog in catalogs if catalog.rule or catalog.has_plurals]
    for other in ruled[1:]:
        if not same(ruled[0].forms_by, other.forms_by):
            yield ruled[0], other


def two_rules(first: Catalog, second: Catalog) -> str:
    """What is said of two catalogs that can't be one."""
    told = [f"{each.name} has {each.forms_by.text!r}" for each in (first, second)]
    return "two plural rules: " + ", ".join(told)
