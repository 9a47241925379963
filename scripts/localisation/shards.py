"""A document of any number of requests, rendered in shards, as `render` itself would.

`render` refuses a document before its first line where anything is misshapen, and stops at the
first request that has no line. So the head is asked about first, then the shape of every request,
and then the lines come, shard by shard in order, up to the first refusal.
"""

from __future__ import annotations

import re
from dataclasses import dataclass
from typing import BinaryIO

from localisation.cluster import Job, in_order, job
from localisation.cutting import Head, Shard, shards
from localisation.faults import Refusal
from localisation.output import Progress
from localisation.program import DONE, NOT_JSON, SHAPE, Program

# The number of a request in a fault line, which is counted within its shard.
NUMBER = re.compile(r"\b(requests?) (\d+)")


@dataclass(frozen=True)
class Plan:
    """How a document is rendered in shards."""

    program: Program
    most: int
    workers: int
    scheduler: str | None = None
    look: bool = True


def render(plan: Plan, head: Head, count: int, requests: BinaryIO, out: BinaryIO) -> None:
    """Writes the lines of all requests in order; a refusal ends it, behind the lines before."""
    with job(plan.program.path, head, plan.workers, plan.scheduler) as the_job:
        answer = the_job.of_head()
        if answer[0] in (NOT_JSON, SHAPE):
            raise Refusal(answer[2], answer[0])
        if plan.look:
            _look(the_job, plan, head, count, requests)
        if answer[0] != DONE:
            raise Refusal(answer[2], answer[0])
        progress = Progress("requests rendered", count)
        cut = shards(requests, head, plan.most)
        for shard, (status, lines, fault) in in_order(the_job, the_job.rendered, cut, requests):
            out.write(lines)
            out.flush()
            _refuse(shard, status, fault)
            progress.step(shard.count)
        progress.end()


def _look(the_job: Job, plan: Plan, head: Head, count: int, requests: BinaryIO) -> None:
    """Ends the job where a request is misshapen."""
    progress = Progress("requests looked at", count)
    cut = shards(requests, head, plan.most)
    for shard, (status, _, fault) in in_order(the_job, the_job.looked_at, cut, requests):
        _refuse(shard, status, fault)
        progress.step(shard.count)
    progress.end()


def _refuse(shard: Shard, status: int, fault: str) -> None:
    if status != DONE:
        whole = NUMBER.sub(lambda m: f"{m[1]} {int(m[2]) + shard.first}", fault, count=1)
        raise Refusal(whole, status)
