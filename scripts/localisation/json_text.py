"""A JSON text read piece by piece, so that a list of any length takes little memory."""

from __future__ import annotations

import json
import re
from collections.abc import Iterator
from dataclasses import dataclass, field
from typing import TextIO

from localisation.faults import Fault
from localisation.program import LIMIT

PIECE = 1 << 20
NO_SPACE = re.compile(r"[^ \t\n\r]")
COMMA = re.compile(r"[ \t\n\r]*,[ \t\n\r]*")
# Behind a number these, or the end of what was read, may still belong to it.
GOES_ON = ("", *"0123456789.eE+-")


@dataclass
class JsonText:
    """A reader over a JSON text. Values are read whole, lists and objects member by member."""

    stream: TextIO
    name: str
    text: str = ""
    at: int = 0
    before: int = 0
    ended: bool = False
    scanner: json.JSONDecoder = field(default_factory=json.JSONDecoder)

    def fault(self, what: str) -> Fault:
        return Fault(f"{self.name}: not JSON: {what} at character {self.before + self.at}", 3)

    def next(self) -> str:
        """The next character that isn't space, which stays; empty at the end."""
        while True:
            if found := NO_SPACE.search(self.text, self.at):
                self.at = found.start()
                return found[0]
            self.at = len(self.text)
            if not self._more():
                return ""

    def take(self, wanted: str) -> None:
        if self.next() != wanted:
            raise self.fault(f"{wanted!r} is wanted")
        self.at += 1

    def value(self) -> str:
        """The text of the next value."""
        self.next()
        while True:
            try:
                _, end = self.scanner.raw_decode(self.text, self.at)
            except (json.JSONDecodeError, RecursionError) as error:
                if len(self.text) - self.at > LIMIT or not self._more():
                    raise self.fault(getattr(error, "msg", "nested too deep")) from None
                continue
            # A number that a piece cuts in two reads as a shorter one.
            if self.text[end:end + 1] in GOES_ON and self._more():
                continue
            text, self.at = self.text[self.at:end], end
            return text

    def items(self) -> Iterator[str]:
        """The texts of a list's items."""
        self.take("[")
        if self.next() == "]":
            self.take("]")
            return
        while True:
            yield from self._held_items()
            yield self.value()
            if self.next() == "]":
                self.take("]")
                return
            self.take(",")
            self.next()

    def _held_items(self) -> Iterator[str]:
        """The items that stand in what is held with their commas: nearly all, and quickly."""
        decode, text = self.scanner.raw_decode, self.text
        while True:
            start = self.at
            try:
                _, end = decode(text, start)
            except (ValueError, RecursionError):
                return
            comma = COMMA.match(text, end)
            if comma is None:
                return
            self.at = comma.end()
            yield text[start:end]

    def keys(self) -> Iterator[str]:
        """The keys of an object; the value behind each is to be read before the next."""
        self.take("{")
        if self.next() == "}":
            self.take("}")
            return
        while True:
            if self.next() != '"':
                raise self.fault("a key is wanted")
            key = json.loads(self.value())
            self.take(":")
            yield key
            if self.next() == "}":
                self.take("}")
                return
            self.take(",")

    def end(self) -> None:
        if self.next():
            raise self.fault("an end is wanted")

    def _more(self) -> bool:
        """Reads on; as much again as is held, so that a long value isn't read over and over."""
        if self.ended:
            return False
        try:
            piece = self.stream.read(max(PIECE, len(self.text) - self.at))
        except UnicodeDecodeError:
            raise Fault(f"{self.name}: not JSON: not UTF-8", 3) from None
        self.ended = not piece
        self.before += self.at
        self.text, self.at = self.text[self.at:] + piece, 0
        return not self.ended


def one_line(text: str) -> bytes:
    """A JSON value in one line. Line feeds stand between its tokens alone, never in a string."""
    return text.replace("\r", " ").replace("\n", " ").encode()
