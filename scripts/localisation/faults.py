"""One way for a script to fail: one line on standard error, and a status that isn't 0."""

from __future__ import annotations

import argparse
import os
import sys
from collections.abc import Callable
from typing import NoReturn

# The program never ends with 1, so this says that the script itself refused.
OWN_STATUS = 1
WORDS_STATUS = 2
INTERRUPTED = 130


class Fault(Exception):
    """What is wrong and where, in one line, and the status to end with."""

    def __init__(self, text: str, status: int = OWN_STATUS) -> None:
        super().__init__(" ".join(text.split()))
        self.status = status

    def line(self, name: str) -> str:
        """The line that a script of this name ends with."""
        return f"{name}: {self}"


class Refusal(Fault):
    """The program's own fault line, which is passed on as it is, and its status."""

    def line(self, name: str) -> str:
        return str(self)


class Words(argparse.ArgumentParser):
    """A command line whose faults take one line, as every other fault does."""

    def error(self, message: str) -> NoReturn:
        self.exit(WORDS_STATUS, f"{self.prog}: {message}\n")

    def words(self) -> argparse.Namespace:
        """What the command line says; its words are to be texts, since documents hold texts."""
        try:
            "".join(sys.argv).encode()
        except UnicodeEncodeError:
            self.error("a word that isn't text")
        return self.parse_args()


def ended(name: str, job: Callable[[], int]) -> int:
    """The status of a job; its fault is told in one line."""
    try:
        status = job()
        sys.stdout.flush()
        return status
    except Fault as fault:
        line, status = fault.line(name), fault.status
    except BrokenPipeError:
        # The reader has gone. Standard output is shut here, or Python would complain at its end.
        os.dup2(os.open(os.devnull, os.O_WRONLY), 1)
        return OWN_STATUS
    except OSError as error:
        place = error.filename or "system"
        line, status = f"{name}: {place}: {error.strerror or error}", OWN_STATUS
    except KeyboardInterrupt:
        line, status = f"{name}: interrupted", INTERRUPTED
    # Progress may stand in the line where a terminal's cursor is.
    print("\r\x1b[K" * sys.stderr.isatty() + line, file=sys.stderr)
    return status
