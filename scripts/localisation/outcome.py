"""How a run of the program is to end: its status, what it prints, and its fault line."""

from __future__ import annotations

from dataclasses import dataclass

from localisation.program import PREFIX

CODES = {
    "Done": 0, "BadWords": 2, "NotJson": 3, "Shape": 4, "Table": 5, "Bundle": 6,
    "DuplicateLocale": 6, "Root": 6, "Request": 7, "ReadFault": 8, "WriteFault": 9, "TooLong": 11,
}


@dataclass(frozen=True)
class Outcome:
    """A status by its name, what the output took, and the fault line without the program's name."""

    status: str
    output: str = ""
    fault: str = ""

    @property
    def code(self) -> int:
        return CODES[self.status]

    @property
    def errors(self) -> str:
        """What standard error takes."""
        return f"{PREFIX}{self.fault}\n" if self.fault else ""

    def answer(self) -> dict[str, object]:
        """The answer of a line of calls."""
        return {
            "status": self.status, "code": self.code, "output": self.output, "errors": self.errors
        }


def done(*lines: str) -> Outcome:
    return Outcome("Done", "".join(line + "\n" for line in lines))


def misshapen(place: str) -> Outcome:
    return Outcome("Shape", fault=f"wrong shape: {place}")


def refused(cause: str) -> Outcome:
    """The first request is refused."""
    return Outcome("Request", fault=f"request 0: {cause}")


def write_fault(output: str) -> Outcome:
    return Outcome("WriteFault", output, "write fault")


BAD_WORDS = Outcome("BadWords", fault="bad command line")
NOT_JSON = Outcome("NotJson", fault="not JSON")
READ_FAULT = Outcome("ReadFault", fault="read fault")
TOO_LONG = Outcome("TooLong", fault="input too long")
