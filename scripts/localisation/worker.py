"""What runs on a worker. It is sent by value, so a worker needs no copy of this repository.

A task gives back what the program answered; a program that is killed is a failure of the task,
which the scheduler runs again.
"""

from __future__ import annotations

import hashlib
import json
import os
import subprocess
import tempfile

RESULT = tuple[int, bytes, str]
DONE, NOT_JSON, SHAPE, REQUEST = 0, 3, 4, 7


def kept(value: bytes) -> bytes:
    """A value that all shards need. As a task's result it is made again where it is lost."""
    return value


def installed(program: bytes) -> str:
    """The path of the program in the worker's own folder, where it is put the first time.

    The folder goes with the worker. One that others may write to would let them replace the file.
    """
    from distributed import get_worker

    folder = get_worker().local_directory
    path = os.path.join(folder, f"localise-{hashlib.sha256(program).hexdigest()}")
    if not os.path.exists(path):
        handle, new = tempfile.mkstemp(dir=folder)
        with os.fdopen(handle, "wb") as file:
            file.write(program)
        os.chmod(new, 0o700)
        os.replace(new, path)
    return path


def answer(program: bytes, word: str, pieces: list[bytes]) -> RESULT:
    """The program's status, lines and fault line for a document."""
    run = subprocess.run(
        [installed(program), word], input=b"".join(pieces), capture_output=True, check=False
    )
    if run.returncode < 0:
        raise RuntimeError(f"the program ended by signal {-run.returncode}")
    return run.returncode, run.stdout, run.stderr.decode(errors="replace").strip()


def rendered(program: bytes, head: tuple[bytes, bytes], lines: bytes) -> RESULT:
    """The lines of a shard's requests."""
    return answer(program, "render", [head[0], listed(lines), head[1]])


def looked_at(program: bytes, lines: bytes) -> RESULT:
    """Whether a shard's requests are well shaped; the status says what isn't.

    Each line must be one JSON value, or the numbers of the requests would be others. The rest is
    the program's to say: it looks at the shapes of all requests before it prints for the first.
    """
    for number, line in enumerate(lines.splitlines()):
        try:
            json.loads(line.decode())
        except (ValueError, RecursionError):
            return NOT_JSON, b"", f"localise: not JSON: request {number}"
    status, _, fault = answer(
        program, "render", [b'{"bundles":[],"requests":[', listed(lines), b"]}"]
    )
    return (DONE if status == REQUEST else status), b"", fault


def listed(lines: bytes) -> bytes:
    return lines.rstrip(b"\n").replace(b"\n", b",\n")
