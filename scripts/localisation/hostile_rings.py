"""Parents that come round: rings of one locale to a thousand, with and without a bundle on them."""

from __future__ import annotations

from collections.abc import Iterator
from string import ascii_lowercase

from localisation.hostile_catalogs import ONE
from localisation.mo import layout
from localisation.outcome import Outcome, done, refused

# Every length is run by scripts/hostile; these stand in the rows.
LENGTHS = (1, 2, 3, 4, 5, 7, 16, 33, 64, 100, 333, 1000)
LONGEST = 1000
HI = {"singular": "Hi", "plural": "Hi", "count": 1}
BYE = layout([(b"Bye", b"Au revoir")])


def locale(number: int) -> str:
    """A language of three letters for each number."""
    letters = ""
    for _ in range(3):
        number, letter = divmod(number, 26)
        letters = ascii_lowercase[letter] + letters
    return letters


def ring(length: int) -> dict[str, str]:
    """The parent of each locale; the last one's is the first."""
    return {locale(i): locale((i + 1) % length) for i in range(length)}


def visited(parents: dict[str, str], first: str, translating: str | None) -> int | None:
    """How many locales a walk visits up to the one that translates; None where it comes round."""
    seen: set[str] = set()
    place = first
    while place != translating:
        seen.add(place)
        # Each locale of a ring has a parent, so there is no other step.
        place = parents[place]
        if place in seen:
            return None
    return len(seen) + 1


def members(length: int, *bundles: tuple[str, bytes]) -> dict[str, object]:
    return {
        "bundles": [{"tag": tag, "mo": mo.hex()} for tag, mo in bundles],
        "fallback": {"parents": [list(row) for row in ring(length).items()]},
    }


def document(length: int, *bundles: tuple[str, bytes]) -> dict[str, object]:
    return {**members(length, *bundles), "requests": [{"tag": locale(0), **HI}]}


def ends(length: int, translating: str | None) -> Outcome:
    """How `render` ends where one locale translates, or none does."""
    found = visited(ring(length), locale(0), translating)
    return refused("fallback loops") if found is None else done("Salut")


def run(word: str, given: dict[str, object], wanted: Outcome) -> tuple[object, object]:
    return ["localise_run::run", [word], given], wanted.answer()


def without(length: int) -> tuple[object, object]:
    return run("render", document(length), ends(length, None))


def with_bundle(length: int) -> tuple[object, object]:
    """The bundle is that of the ring's last locale, behind which the walk comes round."""
    last = locale(length - 1)
    return run("render", document(length, (last, ONE)), ends(length, last))


def found(length: int) -> tuple[object, object]:
    """The same by `find`, which tells how many locales it visited."""
    last = locale(length - 1)
    call = ["localise::Localiser::find", members(length, (last, ONE)), locale(0),
            {"tag": "", **HI}]
    return call, {
        "written": {"text": "Salut", "parts": [], "hint": [5, 5], "borrows": False},
        "bundle": 0, "form": 0, "locale": last,
        "visited": str(visited(ring(length), locale(0), last)),
    }


def beside(length: int) -> Iterator[tuple[object, object]]:
    """Bundles that are never asked, or that have no such message."""
    loops = refused("fallback loops")
    yield run("render", document(length, ("und", ONE)), loops)
    yield run("render", document(length, (locale(LONGEST), ONE)), loops)
    yield run("render", document(length, (locale(length - 1), BYE)), loops)
    # A whole walk asks no bundle.
    yield run("walk", document(length, (locale(length - 1), ONE)), loops)


def rows() -> Iterator[tuple[object, object]]:
    heading = "hostile rings: parents of 1 to 1000 locales that come round"
    yield heading, heading
    yield from map(without, LENGTHS)
    heading = "hostile rings: the same with a bundle at the ring's last locale"
    yield heading, heading
    yield from map(with_bundle, LENGTHS)
    yield from (found(length) for length in LENGTHS if length <= 100)
    heading = "hostile rings: bundles beside the ring, or without the message, and whole walks"
    yield heading, heading
    for length in (1, 2, 3, 33):
        yield from beside(length)
