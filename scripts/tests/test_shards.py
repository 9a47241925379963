"""scripts/shards: lines in order, refusals as `render` has them, workers that die."""

import json
import os
import signal
import subprocess
import time
from pathlib import Path

from tests.support import (
    DASK_PYTHON, PROGRAM, SCRIPTS, STAND_IN, InFolder, needs_dask, needs_program, run,
)


def document(count: int, **changed: dict) -> dict:
    """A document of so many requests; some, by their number, are changed."""
    requests = [
        {"tag": "fr", "singular": f"m {n}", "plural": "p", "count": 1} | changed.get(f"n{n}", {})
        for n in range(count)
    ]
    return {"bundles": [], "requests": requests}


def lines(*numbers: int) -> bytes:
    return b"".join(b"m %d\n" % number for number in range(*numbers))


@needs_dask
class Shards(InFolder):
    judge: Path = STAND_IN

    def shards(self, given: dict, *words: object):
        path = self.write("given.json", json.dumps(given, indent=1))
        return run("shards", path, "--program", self.judge, "--workers", 2, *words)

    def test_lines_in_order(self) -> None:
        done = self.shards(document(1000), "--size", 70)
        self.assertEqual((done.returncode, done.stderr, done.stdout), (0, b"", lines(1000)))

    def test_a_refusal_has_its_number_and_the_lines_before(self) -> None:
        given = document(500, n321={"tag": "-"}, n400={"tag": "-"})
        done = self.shards(given, "--size", 50)
        fault = b"localise: request 321: tag: a subtag should not be empty\n"
        self.assertEqual((done.returncode, done.stderr, done.stdout), (7, fault, lines(321)))

    def test_a_misshapen_request_is_told_before_any_line(self) -> None:
        given = document(500, n10={"tag": "-"}, n321={"count": "1"})
        done = self.shards(given, "--size", 50)
        fault = b"localise: wrong shape: requests 321 count\n"
        self.assertEqual((done.returncode, done.stderr, done.stdout), (4, fault, b""))

    def test_a_refused_head_is_told_before_any_line(self) -> None:
        given = document(10, n3={"count": "1"}) | {"bundles": [{"tag": "fr", "mo": "00"}]}
        self.assertEqual(self.shards(given).returncode, 4)
        done = self.shards(document(10) | {"bundles": given["bundles"]})
        self.assertEqual((done.returncode, done.stdout), (6, b""))
        self.assertTrue(done.stderr.startswith(b"localise: bundle 0: catalog: "), done.stderr)

    def test_a_worker_that_dies_loses_nothing(self) -> None:
        slow = {f"n{n}": {"context": "0.05"} for n in range(0, 100, 5)}
        path = self.write("given.json", json.dumps(document(100, **slow)))
        out = self.folder / "out"
        job = subprocess.Popen(
            [SCRIPTS / "shards", path, "--program", STAND_IN, "--workers", "2", "--size", "5",
             "--no-look", "-o", out]
        )
        self.addCleanup(job.wait)
        part = Path(f"{out}.part")
        self.assertTrue(wait_for(lambda: part.is_file() and part.stat().st_size > 0))
        worker = workers_of(job.pid)[0]
        os.kill(worker, signal.SIGKILL)
        self.assertEqual(job.wait(120), 0)
        self.assertEqual(out.read_bytes(), lines(100))

    def test_an_output_is_whole_or_stays(self) -> None:
        out = self.write("out", "before")
        done = self.shards(document(100, n60={"tag": "-"}), "--size", 25, "-o", out)
        self.assertEqual((done.returncode, out.read_bytes()), (7, b"before"))
        self.assertEqual(Path(f"{out}.part").read_bytes(), lines(60))

    def test_requests_of_a_file(self) -> None:
        asked = self.write("asked", "\n".join(json.dumps(r) for r in document(5)["requests"]))
        done = self.shards(document(3), "--requests", asked)
        self.assertEqual((done.returncode, done.stdout), (0, lines(3) + lines(5)))


@needs_dask
class OfAScheduler(InFolder):
    """A scheduler and a worker that run already, and know nothing of this repository."""

    def start(self, name: str, *words: object) -> None:
        started = subprocess.Popen(
            [DASK_PYTHON, "-m", f"distributed.cli.dask_{name}", *map(str, words)],
            cwd=self.folder, env={"PATH": os.environ["PATH"]},
            stdout=subprocess.DEVNULL, stderr=subprocess.DEVNULL,
        )
        self.addCleanup(started.wait)
        self.addCleanup(started.terminate)

    def test_lines(self) -> None:
        place = self.folder / "place"
        self.start("scheduler", "--host", "127.0.0.1", "--port", 0, "--no-dashboard",
                   "--scheduler-file", place)
        self.assertTrue(wait_for(lambda: place.is_file() and place.stat().st_size > 0))
        self.start("worker", "--scheduler-file", place, "--no-dashboard", "--nthreads", 1)
        address = json.loads(place.read_text())["address"]
        given = self.write("given.json", json.dumps(document(100)))
        words = ["shards", given, "--program", STAND_IN, "--scheduler", address, "--size", 9]
        done = run(*words)
        for _ in range(20):  # until the worker has come
            if b"no worker" not in done.stderr:
                break
            time.sleep(1)
            done = run(*words)
        self.assertEqual((done.returncode, done.stderr, done.stdout), (0, b"", lines(100)))


@needs_dask
class Faults(InFolder):
    def test_faults(self) -> None:
        good = self.write("good.json", json.dumps(document(1)))
        bad = self.write("bad.json", '{"requests":[1,')
        words = ["--program", STAND_IN]
        faults = {
            (*words, self.folder / "none"): 1,
            (*words, bad): 3,
            (*words, self.write("list", "[]")): 4,
            (*words, "--size", "0", good): 2,
            (*words, "--scheduler", "nowhere://", good): 1,
            (*words, "--scheduler", "tcp://127.0.0.1:1", good): 1,
            ("--program", self.folder / "none", good): 1,
        }
        for given, status in faults.items():
            with self.subTest(given):
                self.assert_one_line(run("shards", *given), status=status)


@needs_program
class ShardsByTheProgram(Shards):
    """The same over the program."""

    judge = PROGRAM


def wait_for(holds) -> bool:
    for _ in range(600):
        if holds():
            return True
        time.sleep(0.05)
    return False


def workers_of(pid: int) -> list[int]:
    """The worker processes of a job."""
    found = []
    for entry in Path("/proc").iterdir():
        try:
            status = (entry / "stat").read_text().rpartition(")")[2].split()
            command = (entry / "cmdline").read_bytes()
        except (OSError, IndexError):
            continue
        if status[1] == str(pid) and b"spawn_main" in command:
            found.append(int(entry.name))
    return found
