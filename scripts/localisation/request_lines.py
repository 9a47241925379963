"""Requests from a file or standard input: one JSON object a line, or one JSON list of them."""

from __future__ import annotations

import io
import json
from collections.abc import Iterable, Iterator
from dataclasses import dataclass
from typing import Any, BinaryIO

from localisation.faults import Fault
from localisation.json_text import JsonText, one_line
from localisation.program import LIMIT, NOT_JSON, SHAPE, Program

# Requests are shown to the program so many bytes at a time.
BATCH = LIMIT // 4
HEAD, TAIL = b'{"bundles":[],"requests":[', b"]}"


@dataclass(frozen=True)
class RequestLine:
    """A request's JSON text, in one line, and where it stands."""

    text: bytes
    place: str


def request_lines(stream: BinaryIO, name: str) -> Iterator[RequestLine]:
    """The requests of a stream. Each is one JSON value; its shape is the program's to judge."""
    first, whole = _first(stream)
    if first == b"[":
        text = JsonText(io.TextIOWrapper(whole, "utf-8", newline=""), name)
        for number, item in enumerate(text.items()):
            yield RequestLine(one_line(item), f"{name} request {number}")
        text.end()
        return
    for number, line in enumerate(whole, 1):
        if line := line.strip():
            fault = not_one_value(line)
            if fault:
                raise Fault(f"{name} line {number}: not JSON: {fault}")
            yield RequestLine(line, f"{name} line {number}")


def not_one_value(line: bytes) -> str | None:
    """What keeps a line from being one JSON value."""
    try:
        json.loads(line.decode())
    except json.JSONDecodeError as error:
        return f"{error.msg} at character {error.pos}"
    except UnicodeDecodeError:
        return "not UTF-8"
    except RecursionError:
        return "nested too deep"
    return None


def _first(stream: BinaryIO) -> tuple[bytes, io.BufferedReader]:
    """The first byte of a stream that isn't space, and the stream from there on."""
    skipped = b""
    while (byte := stream.read(1)) and byte.isspace():
        skipped += byte
    return byte, io.BufferedReader(_Joined(skipped + byte, stream))


class _Joined(io.RawIOBase):
    """Bytes that were read already, and then a stream."""

    def __init__(self, front: bytes, stream: BinaryIO) -> None:
        self.front, self.stream = front, stream

    def readable(self) -> bool:
        return True

    def readinto(self, buffer: Any) -> int:
        piece = self.front[:len(buffer)] or self.stream.read(len(buffer))
        self.front = self.front[len(buffer):]
        buffer[:len(piece)] = piece
        return len(piece)


def shaped(program: Program, lines: Iterable[RequestLine]) -> Iterator[RequestLine]:
    """The same requests, once the program has found each well shaped."""
    batch, size = list[RequestLine](), 0
    for line in lines:
        batch.append(line)
        size += len(line.text) + 1
        if size > BATCH:
            yield from _shaped(program, batch)
            batch, size = [], 0
    yield from _shaped(program, batch)


def _shaped(program: Program, batch: list[RequestLine]) -> list[RequestLine]:
    answer = program.answer("render", [HEAD, b",".join(line.text for line in batch), TAIL])
    if answer.status == SHAPE and (fault := answer.numbered("requests")):
        place = batch[fault[0]].place
        raise Fault(f"{place}: wrong shape: {fault[1]}", SHAPE)
    if answer.status == NOT_JSON:
        # Some JSON that Python reads is none to the program. Halving finds the line.
        if len(batch) == 1:
            raise Fault(f"{batch[0].place}: not JSON", NOT_JSON)
        middle = len(batch) // 2
        _shaped(program, batch[:middle])
        _shaped(program, batch[middle:])
    return batch
