#!/usr/bin/env python3
"""Writes a document for measuring to standard output.

    scripts/make_document.py messages MESSAGES REQUESTS
    scripts/make_document.py realistic REQUESTS
    scripts/make_document.py bundles BUNDLES

`messages` has one bundle of so many messages, each of three forms, with the plural expression of
Polish, and so many requests for them. `realistic` has five bundles, with lists and a special, and ten
kinds of requests in turn. `bundles` has so many bundles of one language for its regions, and for each
a request whose walk visits it; it is for `generate`.
"""

import json
import struct
import sys


def mo_of(rows, hashes=0):
    """The bytes of a little-endian MO file, in hexadecimal. The hash table has zeros alone."""
    count = len(rows)
    place = 28 + 16 * count + 4 * hashes
    tables, texts = [], []
    for side in (0, 1):
        for row in rows:
            text = row[side].encode()
            tables.append(struct.pack("<II", len(text), place))
            texts.append(text + b"\0")
            place += len(text) + 1
    head = struct.pack("<7I", 0x950412DE, 0, count, 28, 28 + 8 * count, hashes, 28 + 16 * count)
    return (head + b"".join(tables) + bytes(4 * hashes) + b"".join(texts)).hex()


def messages(count, requests):
    plural = "nplurals=3; plural=n==1 ? 0 : n%10>=2 && n%10<=4 && (n%100<10 || n%100>=20) ? 1 : 2;"
    rows = [("", f"Content-Type: text/plain; charset=UTF-8\nPlural-Forms: {plural}\n")]
    for i in range(count):
        forms = "\0".join(f"wiadomość {i:06} {form}" for form in range(3))
        rows.append((f"message {i:06}\0messages {i:06}", forms))
    asked = []
    for i in range(requests):
        k = i * 7919 % count
        words = {"singular": f"message {k:06}", "plural": f"messages {k:06}"}
        asked.append({"tag": "pl", **words, "count": i % 30})
    return {"bundles": [{"tag": "pl", "mo": mo_of(rows)}], "requests": asked}


FRENCH = {"start": "{0}, {1}", "middle": "{0}, {1}", "end": "{0} et {1}", "pair": "{0} et {1}"}
SPANISH = {
    "start": "{0}, {1}",
    "middle": "{0}, {1}",
    "end": "{0} y {1}",
    "pair": "{0} y {1}",
    "end_special": {"condition": "^I|i|(H|h)(I|i)([^aeAE]|$)", "pattern": "{0} e {1}"},
}
FILES = ("%s file", "%s files")
HELLO = ("Hello %s", "Hello %s")
# Tag, context, words, count and items of the ten kinds of requests.
KINDS = [
    ("fr-CA", None, HELLO, 1, ["Ana"]),
    ("fr-CA", None, FILES, 2, ["2"]),
    ("fr-CA", None, FILES, 0, ["0"]),
    ("fr", "menu", ("Open", "Open"), 1, []),
    ("es-MX", None, HELLO, 1, ["Luis", "Ibiza"]),
    ("es", None, HELLO, 1, ["Ana", "Luis", "Hierva"]),
    ("de-AT", None, FILES, 1, ["1"]),
    ("de-AT", None, FILES, 5, ["5"]),
    ("it", None, ("Bye", "Bye"), 1, []),
    ("it", None, HELLO, 1, []),
]


def header(plural):
    """The row of a catalog that has its metadata."""
    lines = [
        "Project-Id-Version: demo",
        "MIME-Version: 1.0",
        "Content-Type: text/plain; charset=UTF-8",
        f"Plural-Forms: nplurals=2; plural={plural};",
    ]
    return ("", "".join(line + "\n" for line in lines))


def realistic(requests):
    french = [header("(n > 1)"), ("\0".join(FILES), "%s fichier\0%s fichiers")]
    french += [("Hello %s", "Bonjour %s"), ("menu\x04Open", "Ouvrir")]
    canadian = [header("(n > 1)"), ("Hello %s", "Allô %s")]
    spanish = [header("(n != 1)"), ("\0".join(FILES), "%s archivo\0%s archivos")]
    spanish += [("Hello %s", "Hola %s")]
    bundles = [
        {"tag": "fr", "mo": mo_of(french, 7), "list": FRENCH},
        {"tag": "fr-CA", "mo": mo_of(canadian, 7), "list": FRENCH},
        {"tag": "es", "mo": mo_of(spanish, 7), "list": SPANISH},
        {"tag": "de", "mo": mo_of([])},
        {"tag": "und", "mo": mo_of([("Bye", "Bye!")])},
    ]
    asked = []
    for i in range(requests):
        tag, context, (singular, plural), count, items = KINDS[i % len(KINDS)]
        request = {"tag": tag, "singular": singular, "plural": plural, "count": count}
        if context is not None:
            request["context"] = context
        asked.append({**request, "placeholder": "%s", "items": items})
    return {"bundles": bundles, "requests": asked}


def bundles(count):
    """Bundles for `fr` in its regions, which are numbers. Each has a message of its own."""
    made, asked = [], []
    for i in range(count):
        tag = f"fr-{i + 1:03}"
        made.append({"tag": tag, "mo": mo_of([(f"Hello {i} %s", f"Bonjour {i} %s")]), "list": FRENCH})
        words = {"singular": f"Hello {i} %s", "plural": f"Hellos {i} %s"}
        asked.append({"tag": tag, **words, "count": 1, "placeholder": "%s"})
    return {"bundles": made, "requests": asked}


DOCUMENTS = {"messages": messages, "realistic": realistic, "bundles": bundles}


def main():
    kind, *numbers = sys.argv[1:]
    json.dump(DOCUMENTS[kind](*map(int, numbers)), sys.stdout)


if __name__ == "__main__":
    main()
