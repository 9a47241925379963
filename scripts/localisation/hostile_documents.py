"""Documents that are too long to be stored, and how the program is to end over each.

They are made when they are asked for, in pieces: one may have 64 MiB.
"""

from __future__ import annotations

import subprocess
from collections.abc import Callable, Iterable
from dataclasses import dataclass
from pathlib import Path

from localisation.hostile_json import GOOD, IN_A_MEMBER, IN_A_TEXT, UNKNOWN, at
from localisation.hostile_pipes import FIRST, SALUT
from localisation.outcome import NOT_JSON, TOO_LONG, Outcome, done, misshapen, refused
from localisation.program import LIMIT

MIB = 1 << 20
LONG = 60 * MIB
MEMBERS = 100_000
REPEATED = GOOD.replace("}]}", ",@}]}")
ITEMS = '{"bundles":[],"requests":[{"tag":"fr","singular":"%","plural":"","count":1,' \
    '"placeholder":"%","items":[@]}]}'


@dataclass(frozen=True)
class Long:
    """A document and how `render` is to end over it. Both are made when they are wanted."""

    name: str
    text: Callable[[], str]
    ends: Callable[[], Outcome]


def always(outcome: Outcome) -> Callable[[], Outcome]:
    return lambda: outcome


def filled(text: str, length: int = LIMIT, space: str = " ") -> str:
    """The text with white space in place of its @, of so many bytes in all."""
    return text.replace("@", space * (length - len(text) + 1))


def other_members() -> str:
    return ",".join(f'"x{number}":{number}' for number in range(MEMBERS))


PADDED = {
    "before it": "@" + FIRST,
    "behind it": FIRST + "@",
    "within it": FIRST.replace(",", "@,", 1),
}

CASES = [
    Long("a text of 60 MiB that is printed",
         lambda: at(IN_A_TEXT, "a" * LONG), lambda: done("a" * LONG)),
    Long("a text of 60 MiB of escapes that is printed",
         lambda: at(IN_A_TEXT, r"\u00e9" * (LONG // 6)), lambda: done("é" * (LONG // 6))),
    Long("a text of 60 MiB in a member that no document has",
         lambda: at(IN_A_MEMBER, f'"{"a" * LONG}"'), always(UNKNOWN)),
    Long("a tag of 60 MiB",
         lambda: GOOD.replace('"fr"', f'"{"a" * LONG}"'),
         always(refused("tag: a subtag may be eight characters in length at maximum"))),
    Long("a catalog of 30 MiB of zeros",
         lambda: f'{{"bundles":[{{"tag":"fr","mo":"{"0" * LONG}"}}],"requests":[]}}',
         always(Outcome("Bundle", fault="bundle 0: catalog: bad magic number"))),
    Long("60 MiB of lists in one another", lambda: "[" * LONG, always(NOT_JSON)),
    Long("an object of 100,000 members that no document has",
         lambda: f"{{{other_members()}}}", always(UNKNOWN)),
    Long("a request of 100,000 further members",
         lambda: at(REPEATED, other_members()), always(misshapen("requests 0 unknown"))),
    Long("a registry of 100,000 tables",
         lambda: f'{{"bundles":[],"requests":[],"registry":{{{other_members()}}}}}',
         always(misshapen("registry 0 unknown"))),
    Long("a member that repeats 100,000 times",
         lambda: at(REPEATED, ",".join(f'"singular":"{i}"' for i in range(MEMBERS))),
         always(done(str(MEMBERS - 1)))),
    Long("1,000,000 items",
         lambda: at(ITEMS, ",".join(['"a"'] * 1_000_000)),
         lambda: done(", ".join(["a"] * 1_000_000))),
    *(Long(f"67,108,864 bytes, with white space {where}",
           lambda text=text: filled(text), always(SALUT)) for where, text in PADDED.items()),
    *(Long(f"one byte more, with white space {where}",
           lambda text=text: filled(text, LIMIT + 1), always(TOO_LONG))
      for where, text in PADDED.items()),
    Long("67,108,864 bytes, with line feeds", lambda: filled(FIRST + "@", LIMIT, "\n"),
         always(SALUT)),
    Long("67,108,864 bytes, the last of which is NUL", lambda: filled(FIRST + "@\0"),
         always(NOT_JSON)),
    Long("67,108,864 spaces", lambda: " " * LIMIT, always(NOT_JSON)),
    Long("one space more", lambda: " " * (LIMIT + 1), always(TOO_LONG)),
    Long("80 MiB that are no JSON", lambda: "{" * (80 * MIB), always(TOO_LONG)),
]


def differences(program: Path, cases: Iterable[Long]) -> tuple[int, list[str]]:
    """How many documents the program was given, and where it ends otherwise."""
    cases = list(cases)
    found = []
    for case in cases:
        run = subprocess.run(
            [program, "render"], input=case.text().encode(), capture_output=True, check=False
        )
        ends = case.ends()
        if (run.returncode, run.stdout, run.stderr) != (
            ends.code, ends.output.encode(), ends.errors.encode()
        ):
            told = f"{run.returncode}, {len(run.stdout)} bytes, {run.stderr[:100]!r}"
            wanted = f"{ends.code}, {len(ends.output.encode())} bytes, {ends.errors!r}"
            found.append(f"{case.name}\n  wanted {wanted}\n  not    {told}")
    return len(cases), found
