"""Outputs that are whole or aren't there, and progress that only a person sees."""

from __future__ import annotations

import os
import shutil
import sys
import tempfile
import time
from collections.abc import Iterator
from contextlib import contextmanager
from dataclasses import dataclass, field
from pathlib import Path
from typing import IO


@contextmanager
def whole(path: Path | None) -> Iterator[IO[bytes]]:
    """A file that replaces another only once it is whole; without a path, standard output."""
    if path is None:
        with tempfile.TemporaryFile() as file:
            yield file
            file.seek(0)
            shutil.copyfileobj(file, sys.stdout.buffer)
            sys.stdout.buffer.flush()
        return
    if path.exists() and not path.is_file():  # a device or a pipe: there is nothing to replace
        with path.open("wb") as file:
            yield file
        return
    handle, name = tempfile.mkstemp(prefix=f".{path.name}.", dir=path.parent)
    try:
        with os.fdopen(handle, "wb") as file:
            yield file
        os.chmod(name, path.stat().st_mode if path.exists() else 0o666 & ~_umask())
        os.replace(name, path)
    except BaseException:
        Path(name).unlink(missing_ok=True)
        raise


def _umask() -> int:
    mask = os.umask(0)
    os.umask(mask)
    return mask


@dataclass
class Progress:
    """How far long work is, on standard error where that is a terminal."""

    what: str
    total: int | None = None
    done: int = 0
    shown: float = field(default_factory=time.monotonic)
    written: bool = False
    seen: bool = field(default_factory=lambda: sys.stderr.isatty())

    def step(self, count: int = 1) -> None:
        self.done += count
        if self.seen and (now := time.monotonic()) - self.shown > 0.2:
            of = "" if self.total is None else f" of {self.total:,}"
            print(f"\r{self.what}: {self.done:,}{of}\x1b[K", end="", file=sys.stderr, flush=True)
            self.shown, self.written = now, True

    def end(self) -> None:
        if self.written:
            print("\r\x1b[K", end="", file=sys.stderr, flush=True)


def note(script: str, text: str) -> None:
    """Something that a person should know and that stops nothing."""
    print(f"{script}: {text}", file=sys.stderr)
