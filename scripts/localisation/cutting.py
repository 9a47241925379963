"""A document cut into what every shard repeats and a file of requests, one a line.

Requests are cut by their places in that file: a shard is read only when its turn comes, and is
read again where it has to run again.
"""

from __future__ import annotations

import io
import json
from collections.abc import Iterator
from dataclasses import dataclass
from typing import BinaryIO

from localisation.faults import Fault, Refusal
from localisation.json_text import JsonText, one_line
from localisation.output import Progress
from localisation.program import LIMIT, SHAPE


@dataclass(frozen=True)
class Head:
    """A document's bytes before its requests and behind them."""

    front: bytes
    back: bytes = b"]}"

    @property
    def size(self) -> int:
        return len(self.front) + len(self.back)


@dataclass(frozen=True)
class Shard:
    """Some requests: the number of the first, how many, and where their lines stand."""

    first: int
    count: int
    start: int
    end: int


def cut(stream: BinaryIO, name: str, requests: BinaryIO) -> tuple[Head, int]:
    """The head of a document; its requests are written to a file, and counted.

    Members stand in the head as they were written, so that the program judges them. A document
    whose `requests` are missing or no list keeps them so, and the program refuses it.
    """
    text = JsonText(io.TextIOWrapper(stream, "utf-8", newline=""), name)
    if text.next() != "{":
        raise Refusal("localise: wrong shape: document 0 whole", SHAPE)
    progress = Progress("requests read")
    members: dict[str, bytes] = {}
    count = 0
    for key in text.keys():
        if key == "requests" and text.next() == "[":
            requests.seek(0)
            requests.truncate()
            count = 0
            members.pop(key, None)
            for item in text.items():
                requests.write(one_line(item) + b"\n")
                count += 1
                progress.step()
            members[key] = b"["
        else:
            members[key] = text.value().encode()
    text.end()
    progress.end()
    return _head(members), count


def _head(members: dict[str, bytes]) -> Head:
    asked = members.pop("requests", None)
    pairs = [json.dumps(key).encode() + b":" + value for key, value in members.items()]
    if asked == b"[":
        return Head(b"{" + b",".join([*pairs, b'"requests":[']))
    if asked is not None:
        pairs.append(b'"requests":' + asked)
    return Head(b"{" + b",".join(pairs), b"}")


def shards(requests: BinaryIO, head: Head, most: int) -> Iterator[Shard]:
    """Shards of so many requests at most, each small enough for a document of its own."""
    room = LIMIT - head.size
    first = count = start = end = 0
    requests.seek(0)
    for line in requests:
        size = len(line)
        if size > room:
            raise Fault(f"request {first + count}: too large for a document with these bundles")
        if count == most or end - start + size > room:
            yield Shard(first, count, start, end)
            first, count, start = first + count, 0, end
        count += 1
        end += size
    if count:
        yield Shard(first, count, start, end)
