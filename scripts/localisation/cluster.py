"""A job over the workers of Dask's distributed scheduler.

Shards go out a few more at a time than there are workers, and come back in order; that bounds
what is held, here and at the scheduler. A shard whose worker dies is run again by the scheduler,
and by this job where the scheduler gives up on it.
"""

from __future__ import annotations

import asyncio
import logging
import warnings
from collections import deque
from collections.abc import Callable, Iterable, Iterator
from contextlib import contextmanager
from dataclasses import dataclass
from pathlib import Path
from typing import Any, BinaryIO

from localisation import worker
from localisation.cutting import Head, Shard
from localisation.faults import Fault

# How often a shard may lose its worker before the job gives up.
TRIES = 10
# What a future raises where the scheduler gave its task up, or forgot it.
LOST = ("KilledWorker", "CancelledError", "FutureCancelledError")
NO_DASK = "no Dask here: apt-get install python3-distributed, and run by /usr/bin/python3"

Submit = Callable[[bytes], Any]
Lines = Callable[[], bytes]


@dataclass(frozen=True)
class Job:
    """A connection to a scheduler, and what all shards need, which each worker gets once."""

    client: Any
    program: Any
    head: Any

    def rendered(self, lines: bytes) -> Any:
        return self._submit(worker.rendered, self.program, self.head, lines)

    def looked_at(self, lines: bytes) -> Any:
        return self._submit(worker.looked_at, self.program, lines)

    def of_head(self) -> worker.RESULT:
        """What the program says of the tables and bundles alone."""
        return self.settled(self.rendered, bytes, self.rendered(b""))

    def _submit(self, call: Callable, *given: Any) -> Any:
        return self.client.submit(call, *given, pure=False, retries=2)

    def settled(self, submit: Submit, lines: Lines, future: Any) -> worker.RESULT:
        """A task's answer. A task that is lost with its workers is submitted again."""
        for _ in range(TRIES):
            try:
                return future.result()
            except Exception as error:
                if type(error).__name__ not in LOST:
                    raise Fault(f"a task failed: {type(error).__name__}: {error}") from None
            future = submit(lines())
        raise Fault(f"a task was lost {TRIES} times with its worker")

    def width(self) -> int:
        """How many shards are out at once."""
        return 2 * max(1, sum(self.client.nthreads().values())) + 1


@contextmanager
def job(program: Path, head: Head, workers: int, scheduler: str | None) -> Iterator[Job]:
    """A job on a scheduler that runs, or on a cluster of this machine that ends with it."""
    distributed = _dask()
    with _client(distributed, workers, scheduler) as client, warnings.catch_warnings():
        warnings.filterwarnings("ignore", message="Large object")
        send = [client.submit(worker.kept, program.read_bytes(), pure=False)]
        send.append(client.submit(worker.kept, (head.front, head.back), pure=False))
        yield Job(client, *send)


def _dask() -> Any:
    try:
        import cloudpickle
        import dask
        import distributed
    except ImportError:
        raise Fault(NO_DASK) from None
    cloudpickle.register_pickle_by_value(worker)
    dask.config.set({"distributed.scheduler.allowed-failures": TRIES})
    for name in ("distributed", "distributed.nanny", "distributed.scheduler"):
        logging.getLogger(name).setLevel(logging.CRITICAL)
    return distributed


@contextmanager
def _client(distributed: Any, workers: int, scheduler: str | None) -> Iterator[Any]:
    if scheduler is None:
        cluster = distributed.LocalCluster(
            n_workers=workers, threads_per_worker=1, dashboard_address=None,
            silence_logs=logging.CRITICAL,
        )
        with cluster, distributed.Client(cluster) as client:
            yield client
        return
    try:
        asyncio.run(_reach(distributed, scheduler))
    except (OSError, ValueError) as error:
        raise Fault(f"scheduler {scheduler}: {error}") from None
    with distributed.Client(scheduler, set_as_default=False) as client:
        if not client.nthreads():
            raise Fault(f"scheduler {scheduler}: it has no worker")
        yield client


async def _reach(distributed: Any, scheduler: str) -> None:
    """Connects once: a client that finds no scheduler tells of it in many lines."""
    link = await distributed.comm.connect(scheduler, timeout=10)
    await link.close()


def in_order(
    the_job: Job, submit: Submit, shards: Iterable[Shard], requests: BinaryIO
) -> Iterator[tuple[Shard, worker.RESULT]]:
    """The shards in their order, each with its answer."""
    out: deque[tuple[Shard, Any]] = deque()
    width = the_job.width()

    def first() -> tuple[Shard, worker.RESULT]:
        shard, future = out.popleft()
        return shard, the_job.settled(submit, lambda: lines_of(requests, shard), future)

    for shard in shards:
        out.append((shard, submit(lines_of(requests, shard))))
        if len(out) >= width:
            yield first()
    while out:
        yield first()


def lines_of(requests: BinaryIO, shard: Shard) -> bytes:
    """The lines of a shard's requests. The place in the file stays."""
    at = requests.tell()
    requests.seek(shard.start)
    lines = requests.read(shard.end - shard.start)
    requests.seek(at)
    return lines
