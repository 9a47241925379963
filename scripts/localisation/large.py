"""Documents of a given size, each with one part that fills it.

GROWING names those whose cost is to grow as their size does, PRODUCTS those where two parts that
share the size multiply. Each maker gives a document of at most so many bytes; `padded` makes it
that long exactly, by spaces behind it.
"""

from __future__ import annotations

import itertools
import json
import struct
from collections.abc import Callable, Iterable, Iterator
from dataclasses import dataclass

import make_document
from localisation.mo import layout

SPANISH = make_document.SPANISH
# Read to its end before it is decided.
TO_THE_END = {**SPANISH, "end_special": {"condition": "^.*b$", "pattern": "{0} e {1}"}}
EMPTY_MO = layout([]).hex()
# The greatest nesting that is read, and that of a list in a member of the document.
NESTING = 127 - 1
# The greatest height of a plural expression.
HEIGHT = 64


@dataclass(frozen=True)
class Kind:
    """A kind of document: what makes one, its status, how many requests `generate` makes of it."""

    document: Callable[[int], bytes]
    status: int = 0
    made: int = 1_000


def compact(value: object) -> bytes:
    return json.dumps(value, ensure_ascii=False, separators=(",", ":")).encode()


def request(tag: str = "es", singular: str = "Hi", **given: object) -> dict[str, object]:
    return {"tag": tag, "singular": singular, "plural": singular, "count": 1, **given}


def around(value: object) -> tuple[bytes, bytes]:
    """What stands before and behind the mark in a document."""
    front, back = compact(value).split(b'"MARK"')
    return front, back


def repeated(size: int, value: object, unit: bytes, between: bytes = b",") -> bytes:
    """A document with a unit at its mark, as often as fits."""
    front, back = around(value)
    times = (size - len(front) - len(back) + len(between)) // (len(unit) + len(between))
    return front + (between + unit).join([b""] * (times + 1))[len(between):] + back


def filled(size: int, value: object, units: Iterable[bytes]) -> bytes:
    """A document with units at its mark, as many as fit, with commas between."""
    front, back = around(value)
    left = size - len(front) - len(back)
    return front + b",".join(taken(units, left, 1)) + back


def taken(units: Iterable[bytes], size: int, more: int) -> Iterator[bytes]:
    """As many units as fit into a size, each of which takes so many bytes more."""
    for unit in units:
        size -= len(unit) + more
        if size < 0:
            return
        yield unit


def texts(size: int, value: object, unit: str, begin: str = "") -> bytes:
    """A document with a text at its mark, a unit as often as fits behind what it begins with."""
    front, back = around(value)
    front, back = front + f'"{begin}'.encode(), b'"' + back
    return front + (size - len(front) - len(back)) // len(unit) * unit.encode() + back


def padded(document: bytes, size: int) -> bytes:
    return document + b" " * (size - len(document))


# ---- requests and bundles


def requests(size: int) -> bytes:
    made = make_document.realistic(len(make_document.KINDS))
    units = [compact(each) for each in made["requests"]]
    return filled(size, {**made, "requests": ["MARK"]}, itertools.cycle(units))


def requests_of_tags(size: int) -> bytes:
    """Requests no two of which, one behind the other, have one tag."""
    units = (compact(request(tag)) for tag in locales())
    return filled(size, {"bundles": [], "requests": ["MARK"]}, units)


def locales() -> Iterator[str]:
    """Locales of a language and a region, each once."""
    letters = "abcdefghijklmnopqrstuvwxyz"
    for region in itertools.product(letters.upper(), repeat=2):
        for language in itertools.product(letters, repeat=3):
            yield "".join((*language, "-", *region))


def bundles(size: int, **given: object) -> bytes:
    mo = layout([(b"Hi", b"Salut")]).hex()
    units = (compact({"tag": tag, "mo": mo, **given}) for tag in locales())
    asked = [request(tag) for tag in itertools.islice(locales(), 10)]
    return filled(size, {"bundles": ["MARK"], "requests": asked}, units)


def bundles_with_lists(size: int) -> bytes:
    return bundles(size, list=SPANISH)


# ---- catalogs


def with_mo(mo: bytes, asked: list[dict[str, object]], **given: object) -> bytes:
    return compact({"bundles": [{"tag": "es", "mo": mo.hex(), **given}], "requests": asked})


def of_messages(size: int, charset: str, form: str) -> bytes:
    """A catalog of many messages, in the order of a hash of their numbers."""
    header = (b"", f"Content-Type: text/plain; charset={charset}\n".encode())
    encoding = "utf-8" if charset == "utf-8" else "cp1252"
    messages = (
        (b"message %08x" % (number * 2654435761 % (1 << 32)), form.encode(encoding))
        for number in itertools.count()
    )
    asked = [request(singular=f"message {number * 2654435761 % (1 << 32):08x}")
             for number in range(10)]
    rows, left = [header], (size - 2_000) // 2
    for message in messages:
        left -= 18 + len(message[0]) + len(message[1])
        if left < 0:
            break
        rows.append(message)
    return with_mo(layout(rows), asked)


def catalog(size: int) -> bytes:
    return of_messages(size, "utf-8", "wiadomość jedna")


def catalog_of_1252(size: int) -> bytes:
    return of_messages(size, "windows-1252", "café")


def fields(size: int) -> bytes:
    """A catalog whose metadata have many fields."""
    lines = (b"%08x: x\n" % number for number in itertools.count())
    blob = b"".join(taken(lines, size // 2 - 500, 0))
    return with_mo(layout([(b"", blob), (b"Hi", b"Salut")]), [request()])


def expression(size: int) -> bytes:
    """A catalog whose plural expression is a sum of sums."""
    return with_mo(with_expression((size // 2 - 500) // 4), [request()])


def with_expression(leaves: int) -> bytes:
    """A file whose expression is as high as one may be, whatever its length."""
    high = b"(" * (HEIGHT - 2) + b"n" + b")" * (HEIGHT - 2)
    rule = b"Plural-Forms: nplurals=9; plural=" + sum_of(leaves) + b"+" + high + b"\n"
    return layout([(b"", rule), (b"Hi", b"Salut\0" * 2)])


def sum_of(leaves: int) -> bytes:
    if leaves < 2:
        return b"n"
    half = leaves // 2
    return b"(" + sum_of(half) + b"+" + sum_of(leaves - half) + b")"


def form(size: int, unit: bytes, **given: object) -> bytes:
    """A catalog with one form, which is a unit again and again."""
    mo = layout([(b"Hi", unit * ((size // 2 - 1_000) // len(unit)))])
    return with_mo(mo, [request(**given)])


def long_form(size: int) -> bytes:
    return form(size, b"a", placeholder="%s", items=["x"])


def placeholders_in_form(size: int) -> bytes:
    return form(size, b"%s", placeholder="%s", items=["x"])


def forms(size: int) -> bytes:
    """A catalog with one message of many forms, of which a late one is asked for."""
    rule = b"Plural-Forms: nplurals=99999999; plural=n\n"
    many = (size // 2 - 1_000) // 2
    mo = layout([(b"", rule), (b"Hi", b"a\0" * many)])
    return with_mo(mo, [{**request(), "count": many - 1}])


# ---- tables


def registry(size: int) -> bytes:
    rows = (compact([f"{number:08d}", "en"]) for number in itertools.count())
    value = {"registry": {"variants": ["MARK"]}, "bundles": [],
             "requests": [request("en-00000009")]}
    return filled(size, value, rows)


def parents(size: int) -> bytes:
    rows = (compact([locale, locale[:3]]) for locale in locales())
    asked = [request(tag) for tag in itertools.islice(locales(), 10)]
    return filled(size, {"fallback": {"parents": ["MARK"]}, "bundles": [], "requests": asked}, rows)


def likely(size: int) -> bytes:
    rows = (compact([locale[:3], locale[4:], "Latn"]) for locale in locales())
    asked = [request(tag) for tag in itertools.islice(locales(), 10)]
    value = {"fallback": {"likely_language_region": ["MARK"]}, "bundles": [], "requests": asked}
    return filled(size, value, rows)


# ---- one request


def alone(asked: dict[str, object], **given: object) -> dict[str, object]:
    return {"bundles": [], "requests": [asked], **given}


def spanish(asked: dict[str, object], patterns: dict[str, object]) -> dict[str, object]:
    return {"bundles": [{"tag": "es", "mo": layout([(b"Hi", b"Hola %s")]).hex(), "list": patterns}],
            "requests": [asked]}


def items(size: int) -> bytes:
    asked = request(singular="%s", placeholder="%s", items=["MARK"])
    return repeated(size, alone(asked), b'"a"')


def empty_items(size: int) -> bytes:
    asked = request(singular="%s", placeholder="%s", items=["MARK"])
    return repeated(size, alone(asked), b'""')


def special_items(size: int) -> bytes:
    """A list whose special end applies, since its last item begins with an i."""
    asked = request(placeholder="%s", items=["MARK", "ibis"])
    return repeated(size, spanish(asked, SPANISH), b'"a"')


def special_to_the_end(size: int) -> bytes:
    """A list whose last item is read to its end before its special end is chosen."""
    asked = request(placeholder="%s", items=["a", "MARK"])
    return texts(size, spanish(asked, TO_THE_END), "a")


def placeholders(size: int) -> bytes:
    return texts(size, alone({**request(placeholder="%s", items=["x"]), "singular": "MARK"}), "%s")


def no_placeholder(size: int) -> bytes:
    return texts(size, alone({**request(placeholder="%s", items=["x"]), "singular": "MARK"}), "a")


def long_placeholder(size: int) -> bytes:
    """A placeholder that begins at no place of the text."""
    return texts(size, alone(request(singular="b" * 1_000, placeholder="MARK")), "a")


def escapes(size: int) -> bytes:
    return texts(size, alone({**request(), "singular": "MARK"}), "\\u00e9")


def private_use(size: int) -> bytes:
    return texts(size, alone(request("MARK")), "-abcdefg", "x")


def extension(size: int) -> bytes:
    return texts(size, alone(request("MARK")), "-abcdefg", "en-a")


# ---- what is read as JSON alone


def nested(size: int) -> bytes:
    deep = b"[" * (NESTING - 1) + b"]" * (NESTING - 1)
    return repeated(size, {"bundles": [], "requests": [], "x": ["MARK"]}, deep)


def empty_lists(size: int) -> bytes:
    return repeated(size, {"bundles": [], "requests": [], "x": ["MARK"]}, b"[]")


def empty_objects(size: int) -> bytes:
    return repeated(size, {"bundles": [], "requests": [], "x": ["MARK"]}, b"{}")


def small_objects(size: int) -> bytes:
    return repeated(size, {"bundles": [], "requests": [], "x": ["MARK"]}, b'{"":0}')


def unknown_members(size: int) -> bytes:
    members = (b'"%08x":0' % (number * 2654435761 % (1 << 32)) for number in itertools.count())
    front, back = b'{"bundles":[],"requests":[],', b"}"
    return front + b",".join(taken(members, size - len(front) - len(back), 1)) + back


def repeated_member(size: int) -> bytes:
    front, back = b'{"bundles":[],', b"}"
    unit = b'"requests":[]'
    return front + b",".join([unit] * ((size - len(front)) // (len(unit) + 1))) + back


def digits(size: int) -> bytes:
    front, back = around(alone({**request(), "count": "MARK"}))
    return front + b"1" * (size - len(front) - len(back)) + back


GROWING = {
    "requests": Kind(requests),
    "requests, each of another tag": Kind(requests_of_tags),
    "bundles": Kind(bundles),
    "bundles with a list that has a special": Kind(bundles_with_lists),
    "one catalog": Kind(catalog),
    "one catalog in windows-1252": Kind(catalog_of_1252),
    "fields of a catalog's metadata": Kind(fields),
    "a plural expression": Kind(expression, made=4),
    "forms of one message": Kind(forms),
    "one form without placeholder": Kind(long_form, made=4),
    "placeholders in one form": Kind(placeholders_in_form, made=4),
    "rows of the registry": Kind(registry),
    "rows of parents": Kind(parents),
    "rows of likely scripts": Kind(likely),
    "items": Kind(items),
    "empty items": Kind(empty_items),
    "items, a special behind them": Kind(special_items),
    "one item, a special that reads it": Kind(special_to_the_end),
    "placeholders in own words": Kind(placeholders, made=4),
    "own words without placeholder": Kind(no_placeholder, made=4),
    "a placeholder that nowhere begins": Kind(long_placeholder),
    "escapes in own words": Kind(escapes, made=4),
    "a tag for private use": Kind(private_use, status=7),
    "a tag's extension": Kind(extension),
    "deep nesting": Kind(nested, status=4),
    "empty lists": Kind(empty_lists, status=4),
    "empty objects": Kind(empty_objects, status=4),
    "objects of one member": Kind(small_objects, status=4),
    "unknown members": Kind(unknown_members, status=4),
    "one member again and again": Kind(repeated_member),
    "digits of one count": Kind(digits, status=3),
}


# ---- products


def overlapping(count: int, least: int, text: bytes, charset: str = "utf-8") -> bytes:
    """An MO file of so many rows, each original from one byte further on to the text's end.

    The text is cut so that the last has so many bytes. Translations are empty.
    """
    header = f"Content-Type: text/plain; charset={charset}\n".encode()
    text = (text * ((count + least) // len(text) + 1))[:count + least]
    tables = 28 + 16 * (count + 1)
    start = tables + len(header) + 2
    end = start + len(text)
    originals = [(0, tables + len(header) + 1)]
    originals += [(end - start - row, start + row) for row in range(count)]
    translations = [(len(header), tables)] + count * [(0, end)]
    numbers = itertools.chain.from_iterable(originals + translations)
    head = struct.pack("<7I", 0x950412DE, 0, count + 1, 28, 28 + 8 * (count + 1), 0, tables)
    return head + struct.pack(f"<{4 * (count + 1)}I", *numbers) + header + b"\0\0" + text + b"\0"


def overlapping_file(size: int, text: bytes, charset: str = "utf-8") -> bytes:
    """A document of such a file: half of it tables, half of it text."""
    count = (size // 2 - 500) // 34
    return with_mo(overlapping(count, 16 * count, text, charset), [request()])


# No two of its suffixes begin with the same twelve bytes.
VARIED = b"".join(b"%012x" % (number * 2654435761) for number in range(1 << 16))


def overlapping_varied(size: int) -> bytes:
    return overlapping_file(size, VARIED)


def overlapping_equal(size: int) -> bytes:
    return overlapping_file(size, b"a")


def overlapping_1252(size: int) -> bytes:
    return overlapping_file(size, VARIED, "windows-1252")


def matched_placeholder(size: int) -> bytes:
    """Text of one letter, and half as long a placeholder of that letter and another behind it."""
    third = (size - 200) // 3
    asked = request(singular="a" * 2 * third, placeholder="a" * (third - 1) + "b")
    return compact(alone({**asked, "plural": ""}))


def variants(size: int) -> bytes:
    """One tag of many variants, each another."""
    pieces = (b"-%08d" % number for number in itertools.count())
    front, back = around(alone(request("MARK")))
    left = size - len(front) - len(back) - 4
    return front + b'"en' + b"".join(taken(pieces, left, 0)) + b'"' + back


def long_root(size: int) -> bytes:
    """Half the size a pattern of the root, half of it bundles that have none of their own."""
    root = {**make_document.FRENCH, "end": "{0}" + "a" * (size // 2) + "{1}"}
    units = (compact({"tag": tag, "mo": EMPTY_MO}) for tag in locales())
    return filled(size, {"bundles": ["MARK"], "root": root, "requests": []}, units)


def requests_of_forms(size: int) -> bytes:
    """Half the size forms of one message, half of it requests for the last one."""
    many = (size // 4 - 1_000) // 2
    rule = b"Plural-Forms: nplurals=99999999; plural=n\n"
    mo = layout([(b"", rule), (b"Hi", b"a\0" * many)])
    value = {"bundles": [{"tag": "es", "mo": mo.hex()}], "requests": ["MARK"]}
    return repeated(size, value, compact({**request(), "count": many - 1}))


def requests_of_expressions(size: int) -> bytes:
    """Half the size a plural expression, half of it requests that go by it."""
    mo = with_expression(size // 16)
    value = {"bundles": [{"tag": "es", "mo": mo.hex()}], "requests": ["MARK"]}
    return repeated(size, value, compact(request()))


def requests_of_walks(size: int) -> bytes:
    """Half the size parents in one chain, half of it requests whose walk goes through all."""
    names = list(itertools.islice(locales(), size // 2 // len('["aaa-AA","aaa-AA"],')))
    rows = [list(pair) for pair in zip(names, names[1:])]
    value = {"fallback": {"parents": rows}, "bundles": [], "requests": ["MARK"]}
    return repeated(size, value, compact(request(names[0])))


def placeholders_of_items(size: int) -> bytes:
    """Half the size placeholders, half of it empty items with nothing between them."""
    empty = dict.fromkeys(make_document.FRENCH, "{0}{1}")
    asked = request(placeholder="%s", items=["MARK"])
    asked["singular"] = "%s" * (size // 4)
    asked["plural"] = ""
    return repeated(size, alone(asked, root=empty), b'""')


def root_condition(size: int) -> bytes:
    """Bundles that have the root's list, whose condition has as many states as are kept."""
    condition = "^(a|b)*a" + "(a|b)" * 7 + "c" * 19
    root = {**SPANISH, "end_special": {"condition": condition, "pattern": "{0} e {1}"}}
    units = (compact({"tag": tag, "mo": EMPTY_MO}) for tag in locales())
    return filled(size, {"bundles": ["MARK"], "root": root, "requests": []}, units)


PRODUCTS = {
    "overlapping originals, varied": Kind(overlapping_varied),
    "overlapping originals, of one letter": Kind(overlapping_equal),
    "overlapping originals in windows-1252": Kind(overlapping_1252),
    "a placeholder that is nearly everywhere": Kind(matched_placeholder),
    "variants of one tag": Kind(variants),
    "a long root and bundles without list": Kind(long_root, status=6),
    "forms and requests": Kind(requests_of_forms),
    "a plural expression and requests": Kind(requests_of_expressions),
    "a chain of parents and requests": Kind(requests_of_walks),
    "placeholders and empty items": Kind(placeholders_of_items),
    "bundles under a root with a costly condition": Kind(root_condition),
}
