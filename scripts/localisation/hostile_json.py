"""Hostile JSON texts, and how the program is to end over each.

A text that JSON's grammar refuses has no value, nor has one that nests deeper than 127, one with
half of a surrogate pair and one with a number too large for a float. Every other text has one
value, in which the last of several members of one name stands.
"""

from __future__ import annotations

import json
from collections.abc import Iterator

from localisation.hostile_catalogs import ONE
from localisation.outcome import NOT_JSON, Outcome, done, misshapen, refused

Case = tuple[str | bytes, Outcome]

DEEPEST = 127
UNKNOWN = misshapen("document 0 unknown")
COUNT = misshapen("requests 0 count")
LOOPS = refused("fallback loops")

# A document with one request, for the words Hi and His.
GOOD = '{"bundles":[],"requests":[{"tag":"fr","singular":"Hi","plural":"His","count":1}]}'
# Where a JSON text is put, in place of the @.
IN_A_MEMBER = '{"bundles":[],"requests":[],"x":@}'
IN_A_NAME = '{"bundles":[],"requests":[],"@":1}'
IN_A_TEXT = '{"bundles":[],"requests":[{"tag":"fr","singular":"@","plural":"","count":1}]}'
AS_A_COUNT = '{"bundles":[],"requests":[{"tag":"fr","singular":"Hi","plural":"His","count":@}]}'
AS_ITEMS = GOOD.replace("}]}", ',"items":@}]}')
AS_BUNDLES = '{"bundles":@,"requests":[]}'


def at(place: str, text: str) -> str:
    return place.replace("@", text)


def request(**members: object) -> str:
    """A document of one request, with these members in place of its own."""
    asked = {"tag": "fr", "singular": "Hi", "plural": "His", "count": 1, **members}
    return json.dumps({"bundles": [], "requests": [asked]})


def nested(depth: int, inner: str, *around: str) -> str:
    """So many lists and objects in one another, from the inside."""
    for level in range(depth - 1):
        inner = at(around[level % len(around)], inner)
    return inner


KINDS = ("[]", "[@]"), ("{}", '{"a":@}'), ("[]", '{"a":@}', "[1,@]")


def nesting() -> Iterator[Case]:
    """At the limit, and one level deeper. A document is one level, its items are three deeper."""
    for kind in KINDS:
        yield at(IN_A_MEMBER, nested(DEEPEST - 1, *kind)), UNKNOWN
        yield at(IN_A_MEMBER, nested(DEEPEST, *kind)), NOT_JSON
        yield at(AS_BUNDLES, nested(DEEPEST - 1, *kind)), misshapen("bundles 0 whole")
        yield at(AS_BUNDLES, nested(DEEPEST, *kind)), NOT_JSON
        yield at(AS_ITEMS, nested(DEEPEST - 3, *kind)), misshapen("requests 0 items")
        yield at(AS_ITEMS, nested(DEEPEST - 2, *kind)), NOT_JSON
    yield nested(DEEPEST, "{}", '{"a":@}'), UNKNOWN
    yield nested(DEEPEST + 1, "{}", '{"a":@}'), NOT_JSON
    # What a later member of the same name replaces is read all the same.
    twice = '{"bundles":@,"bundles":[],"requests":[]}'
    yield at(twice, nested(DEEPEST - 1, "[]", "[@]")), done()
    yield at(twice, nested(DEEPEST, "[]", "[@]")), NOT_JSON
    yield "[" * 1000, NOT_JSON
    yield '{"a":' * 1000, NOT_JSON


PAIRS = '{"start":"{0}, {1}","middle":"{0}, {1}","end":"{0}, {1}","pair":"{0}, {1}"@}'
SPECIAL = ',"pair_special":{"condition":"^b","pattern":"{0}; {1}",@}'
OF_A_BUNDLE = f'"tag":"fr","mo":"{ONE.hex()}"'
# A request that prints its two items, joined by the root's patterns.
ITEMS = '{"tag":"fr","singular":"%","plural":"","count":1,"placeholder":"%","items":["a","b"]}'

# Objects of a document, with members that are put in place of the @ behind its own.
A_DOCUMENT = '{"bundles":[],"requests":[],@}'
A_REGISTRY = '{"registry":{@},"bundles":[],"requests":[]}'
A_FALLBACK = GOOD[:-1] + ',"fallback":{@}}'
A_BUNDLE = '{"bundles":[{' + OF_A_BUNDLE + ',@}],"requests":[]}'
A_REQUEST = GOOD.replace("}]}", ',"context":"","placeholder":"","items":[],@}]}')
A_ROOT = '{"bundles":[],"requests":[' + ITEMS + '],"root":' + at(PAIRS, ",@") + "}"
A_SPECIAL = at(A_ROOT.replace(",@", "@"), SPECIAL)

# An object, the name of a member, a value as it must be and another; and how the program ends where
# the good one is the last, and where the other is.
TWICE = [
    (A_DOCUMENT, "bundles", "[]", "1", done(), misshapen("bundles 0 whole")),
    (A_DOCUMENT, "requests", "[]", "1", done(), misshapen("requests 0 whole")),
    (A_DOCUMENT, "root", at(PAIRS, ""), "[]", done(), misshapen("root 0 whole")),
    (A_DOCUMENT, "registry", "{}", "[]", done(), misshapen("registry 0 whole")),
    (A_DOCUMENT, "fallback", "{}", "null", done(), misshapen("fallback 0 whole")),
    (A_REGISTRY, "languages", '[["en"]]', '[["en"],["en"]]', done(),
     Outcome("Table", fault="table languages row 1: duplicate key")),
    (A_FALLBACK, "parents", "[]", '[["fr","de"],["de","fr"]]', done("Hi"), LOOPS),
    (A_BUNDLE, "tag", '"fr"', '"x"', done(),
     Outcome("Bundle", fault="bundle 0: tag: the given language subtag is invalid")),
    (A_BUNDLE, "mo", f'"{ONE.hex()}"', '"zz"', done(), misshapen("bundles 0 mo")),
    (A_BUNDLE, "mo", f'"{ONE.hex()}"', '""', done(),
     Outcome("Bundle", fault="bundle 0: catalog: unxpected end of file")),
    (A_BUNDLE, "list", at(PAIRS, ""), "null", done(), misshapen("bundles 0 list")),
    (A_ROOT, "start", '"{0}, {1}"', "null", done("a, b"), misshapen("root 0 list")),
    (A_ROOT, "middle", '"{0}, {1}"', '""', done("a, b"),
     Outcome("Root", fault="root patterns: Invalid list pattern")),
    (A_ROOT, "end", '"{0}, {1}"', "[]", done("a, b"), misshapen("root 0 list")),
    (A_ROOT, "pair", '"{0}+{1}"', '"{0}-{1}"', done("a+b"), done("a-b")),
    (A_SPECIAL, "condition", '"^b"', '"^a"', done("a; b"), done("a, b")),
    (A_SPECIAL, "condition", '"^b"', '"b"', done("a; b"),
     Outcome("Root", fault="root patterns: Only anchored regexes (starting with ^) are supported")),
    (A_SPECIAL, "pattern", '"{0}! {1}"', '"{0}? {1}"', done("a! b"), done("a? b")),
    (A_REQUEST, "tag", '"fr"', "null", done("Hi"), misshapen("requests 0 tag")),
    (A_REQUEST, "context", '"c"', "null", done("Hi"), misshapen("requests 0 context")),
    (A_REQUEST, "singular", '"Ho"', "null", done("Ho"), misshapen("requests 0 singular")),
    (A_REQUEST, "plural", '"Ho"', "null", done("Hi"), misshapen("requests 0 plural")),
    (A_REQUEST, "count", "2", "2.5", done("His"), misshapen("requests 0 count")),
    (A_REQUEST, "placeholder", '"H"', "null", done("i"), misshapen("requests 0 placeholder")),
    (A_REQUEST, "items", '["a"]', "[1]", done("Hi"), misshapen("requests 0 items")),
]


def twice() -> Iterator[Case]:
    for place, name, good, other, ends, otherwise in TWICE:
        yield at(place, f'"{name}":{other},"{name}":{good}'), ends
        yield at(place, f'"{name}":{good},"{name}":{other}'), otherwise
    # One name may be written in several ways.
    yield at(A_REQUEST, r'"\u0073ingular":"Ho"'), done("Ho")
    yield at(A_REQUEST, r'"\u0073ingular":"Ho","singular":"Ha"'), done("Ha")
    yield at(A_DOCUMENT, '"x":1,"x":2'), UNKNOWN


HALVES = (
    r"\ud800", r"\udbff", r"\udc00", r"\udfff", r"\udc00\ud800", r"\ude80\ud83d", r"\ud800\ud800",
    r"\ud800A", r"\ud800\u0041", r"\ud800\n", r"\udc00\udc00", r"\ud83d\ud83d\ude80",
    r"\ud83d\ude80\ude80", r"\uD83D \uDE80", r"\ud83d\\ude80",
)
NO_ESCAPES = (r"\u12", r"\u12g4", r"\u 123", r"\u+123", r"\x41", r"\'", r"\0", r"\U0041", "\\")
ESCAPES = {
    r"\ud83d\ude80": "\U0001F680", r"\uD83D\uDE80": "\U0001F680", r"\ud800\udc00": "\U00010000",
    r"\udbff\udfff": "\U0010FFFF", r"\ud7ff\ue000": "\ud7ff\ue000", r"\uffff\uFEFF": "\uffff\ufeff",
    r"\b\f\r\t\"\\\/": "\b\f\r\t\"\\/", r"\u0000\u001f\u007f": "\0\x1f\x7f",
}


def surrogates() -> Iterator[Case]:
    """Half of a pair in a text, and in a name of a member; what else is no escape."""
    for half in HALVES:
        for place in (IN_A_TEXT, IN_A_NAME):
            yield at(place, half), NOT_JSON
    yield at(IN_A_MEMBER, r'["\udc00\ud800"]'), NOT_JSON
    for escape in NO_ESCAPES:
        yield at(IN_A_TEXT, escape), NOT_JSON
    for escape, text in ESCAPES.items():
        yield at(IN_A_TEXT, escape), done(text)


def marks_and_nuls() -> Iterator[Case]:
    """Byte order marks, and NUL outside of texts and within."""
    yield "\ufeff" + GOOD, NOT_JSON
    yield GOOD + "\ufeff", NOT_JSON
    yield GOOD.replace("{", "{\ufeff", 1), NOT_JSON
    yield at(IN_A_TEXT, "\ufeff"), done("\ufeff")
    for encoding in ("utf-16", "utf-16-le", "utf-16-be", "utf-32"):
        yield GOOD.encode(encoding), NOT_JSON
    yield "\0", NOT_JSON
    for place in (0, 1, 11, len(GOOD) - 1, len(GOOD)):
        yield GOOD[:place] + "\0" + GOOD[place:], NOT_JSON
    for place in (IN_A_TEXT, IN_A_NAME):
        for control in "\0\x01\t\n\r\x1f":
            yield at(place, f"a{control}b"), NOT_JSON
    yield at(IN_A_NAME, r"\u0000"), UNKNOWN
    yield at(IN_A_NAME, r"tag\u0000"), UNKNOWN
    yield at(IN_A_TEXT, "a\x7fb"), done("a\x7fb")
    yield at(IN_A_TEXT, r"a\u0000b"), done("a\0b")
    yield request(tag="fr\0"), refused("tag: the given language subtag is invalid")
    yield request(context="\0"), done("Hi")
    yield request(singular="a\0b", placeholder="\0", items=["c", "\0"]), done("ac, \0b")
    yield at(A_BUNDLE, r'"mo":"\u0000"'), misshapen("bundles 0 mo")


COUNTS = {
    "0": done("His"), "1": done("Hi"), "2": done("His"),
    "9223372036854775807": done("His"), "9223372036854775808": done("His"),
    "18446744073709551614": done("His"), "18446744073709551615": done("His"),
} | dict.fromkeys((
    "18446744073709551616", "18446744073709551617", "99999999999999999999", "36893488147419103233",
    "-0", "-1", "-9223372036854775808", "-9223372036854775809", "-18446744073709551616",
    "0.0", "-0.0", "1.0", "1.5", "1e0", "1E0", "1e+0", "1e-0", "10e-1", "0.1e1", "0e400", "1e-400",
    "1e308", "-1e308", "1.7976931348623157e308", "1" + "0" * 308,
), COUNT) | dict.fromkeys((
    "1e309", "1e400", "-1e400", "1.7976931348623159e308", "1" + "0" * 309, "1e99999999999999999999",
    "00", "01", "-01", "-", "--1", "+1", "1.", ".5", "1.e1", "1e", "1e+", "0x1", "1_000", "1,5",
    "1 0", "1n", "\u0661", "\uff11", "NaN", "nan", "Infinity", "-Infinity", "inf", "True", "nul",
), NOT_JSON)


def numbers() -> Iterator[Case]:
    """A count is a whole number below 2^64, written without a point, an exponent and a sign."""
    for text, ends in COUNTS.items():
        yield at(AS_A_COUNT, text), ends


BAD_UTF8 = (
    "80", "bf", "c080", "c1bf", "c3", "c328", "e08080", "e09fbf", "e282", "eda080", "edbfbf",
    "f0808080", "f08fbfbf", "f09f9a", "f4908080", "f5808080", "fe", "ff",
)
GOOD_UTF8 = ("c280", "dfbf", "e0a080", "ed9fbf", "ee8080", "efbfbf", "f0908080", "f48fbfbf")


def bytes_of_texts() -> Iterator[Case]:
    """Bytes that aren't UTF-8, in a text and in a member's name; and the ends of what is UTF-8."""
    for place in (IN_A_TEXT, IN_A_NAME):
        for bad in BAD_UTF8:
            yield place.encode().replace(b"@", bytes.fromhex(bad)), NOT_JSON
    for good in GOOD_UTF8:
        text = bytes.fromhex(good)
        yield IN_A_TEXT.encode().replace(b"@", text), done(text.decode())


BROKEN = (
    '{,"bundles":[],"requests":[]}', '{"bundles":[],,"requests":[]}',
    '{"bundles":[],"requests":[,]}',
    '{"bundles":[],"requests":[1,]}', '{"bundles":[],"requests":[[],,[]]}', "[,]", "[1,]", "{,}",
    '{"bundles":[],"requests":[]},', GOOD[:-3] + ",}]}", GOOD[:-2] + ",]}",
    '{"bundles" [],"requests":[]}', '{"bundles":,"requests":[]}', '{"bundles":[] "requests":[]}',
    '{bundles:[],"requests":[]}', '{"bundles":[],"requests":[}', '{"bundles":[],"requests":[]]',
    '{"bundles":[],"requests":{]}', '{"bundles":[],"requests":[]', '{"bundles":[],"requests":["',
    '{1:[],"requests":[]}', '{null:[]}', '{[]:[]}',
)
BEHIND = (
    "x", ",", "}", "]", "{}", "[]", "null", "1", '""', GOOD, "//", "/**/", "#", "\x1a", "\x0b",
    "\x0c", "\u00a0", "\u0085", "\u2028",
)
SPACES = (" ", "\n", "\t", "\r\n", " \t\r\n" * 8)
NO_SPACES = (
    "\x0b", "\x0c", "\x1c", "\u0085", "\u00a0", "\u1680", "\u2028", "\u3000", "//\n", "/**/",
)


TOKENS = ("{", '"bundles"', ":", "[", "]", ",", '"requests"', ":", "[", "]", "}")


def texts_around() -> Iterator[Case]:
    """Commas too many, brackets that don't match, text behind the document, white space alone."""
    for text in BROKEN:
        yield text, NOT_JSON
    for text in BEHIND:
        yield GOOD + text, NOT_JSON
    for text in SPACES:
        yield text, NOT_JSON
        yield text.join(("", *TOKENS, "")), done()
    for text in NO_SPACES:
        yield text, NOT_JSON
        yield text + GOOD, NOT_JSON
        yield text.join(TOKENS), NOT_JSON


CASES = {
    "hostile JSON: nesting at the limit, and one level deeper": nesting,
    "hostile JSON: members that repeat, in each object of a document": twice,
    "hostile JSON: halves of surrogate pairs, and escapes": surrogates,
    "hostile JSON: byte order marks and NUL": marks_and_nuls,
    "hostile JSON: counts": numbers,
    "hostile JSON: bytes that aren't UTF-8": bytes_of_texts,
    "hostile JSON: commas, brackets, text behind, white space": texts_around,
}


def rows() -> Iterator[tuple[object, object]]:
    for heading, cases in CASES.items():
        yield heading, heading
        for text, ends in cases():
            yield ["localise_run::run", ["render"], given(text)], ends.answer()


def given(document: str | bytes) -> object:
    """A document as an argument: a text, or a source of bytes that may be no text."""
    if isinstance(document, str):
        return document
    return {"bytes": document.hex(), "most": len(document), "failing": 0}
