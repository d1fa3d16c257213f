"""rtcm2-season-dask: the report of a season over journals on many machines, by a Dask cluster.

Each journal's report is made by a worker. They are added here, in the order of the journals, by the proved addition, whose law
is that the result does not depend on how the journals are split. A lost worker's journals are done again by the others."""

import argparse
import os
import sys
import time
from dataclasses import dataclass
from pathlib import Path
from typing import Any, Iterator, TextIO

from .refusals import Refusal
from .seasons import Read, Report, Season, read_journal

FINE, REFUSED, USAGE, SYSTEM = range(4)
AHEAD = 8
"""How many journals for each thread of the cluster are under way or held until those before them are added."""


@dataclass(frozen=True)
class Done:
    """What a worker gives back of a journal: the bytes of its report and its refusal, or the system's error."""

    report: bytes
    refusal: Refusal | None
    error: str | None
    size: int
    worker: str


def report_journal(name: str) -> Done:
    """The worker's part: the report of one journal, which it opens under this name."""
    from distributed import get_worker

    worker = str(get_worker().address)
    try:
        with open(name, "rb") as source:
            read = read_journal(source)
            return Done(bytes(read.report), read.refusal, None, source.tell(), worker)
    except OSError as error:
        return Done(bytes(Report()), None, error.strerror or str(error), 0, worker)


class Progress:
    """How far the run is, on standard error: a line that is written over on a terminal, else a line at each tenth."""

    def __init__(self, total: int, target: TextIO) -> None:
        self._total, self._target = total, target
        self._done = self._bytes = self._tenth = 0
        self._began = time.monotonic()
        self.workers: set[str] = set()

    def add(self, done: Done) -> None:
        """One journal more is done."""
        self._done += 1
        self._bytes += done.size
        self.workers.add(done.worker)
        tenth = 10 * self._done // self._total
        if self._target.isatty():
            self._show("\r", "")
        elif tenth > self._tenth:
            self._show("", "\n")
        self._tenth = tenth

    def _show(self, before: str, behind: str) -> None:
        speed = self._bytes / 1e6 / max(time.monotonic() - self._began, 1e-3)
        line = f"{self._done} of {self._total} journals, {self._bytes / 1e6:.1f} MB, {speed:.1f} MB/s, workers {len(self.workers)}"
        print(f"{before}{line}", end=behind, file=self._target, flush=True)

    def end(self) -> None:
        """Leaves the line that is written over."""
        if self._target.isatty():
            print(file=self._target)


def results(client: Any, names: list[str], progress: Progress) -> Iterator[Done]:
    """What the cluster gives, in the order of the names; no more than so many are under way or held."""
    from distributed import as_completed

    threads = sum(client.nthreads().values()) or 1
    waiting, coming, held, given = iter(enumerate(names)), as_completed(), {}, 0
    places: dict[str, int] = {}

    def submit() -> None:
        for place, name in waiting:
            future = client.submit(report_journal, name, pure=False, retries=2)
            places[future.key] = place
            coming.add(future)
            return

    for _ in range(AHEAD * threads):
        submit()
    for future in coming:
        held[places.pop(future.key)] = done = future.result()
        progress.add(done)
        while given in held:
            yield held.pop(given)
            given += 1
            submit()


def run(client: Any, names: list[str], target: TextIO) -> tuple[Season, int]:
    """The season of the journals, and the exit code; what is said of a journal goes to the target."""
    season, progress, failed = Season(), Progress(len(names), target), False
    paths = [os.path.abspath(name) for name in names]
    for name, done in zip(names, results(client, paths, progress)):
        if done.error:
            said: str | None = f"season: {name}: {done.error}"
            failed = True
        else:
            said = season.add(name, Read(Report(done.report), done.refusal))
        if said:
            progress.end()
            print(said, file=target, flush=True)
        if season.ended:
            break
    progress.end()
    print(f"workers that did journals: {len(progress.workers)}", file=target, flush=True)
    return season, SYSTEM if failed else REFUSED if season.refused else FINE


def parser() -> argparse.ArgumentParser:
    """The options."""
    options = argparse.ArgumentParser(
        prog="rtcm2-season-dask",
        description="Prints the report of a season over journals of either form, made by the workers of a Dask cluster.",
        epilog="Exit: 0 fine, 1 a journal was refused, 2 usage, 3 the system or the cluster failed.",
    )
    where = options.add_mutually_exclusive_group()
    where.add_argument(
        "--scheduler",
        metavar="ADDRESS",
        help="a cluster's scheduler; its workers open the journals by their absolute names",
    )
    where.add_argument(
        "--workers",
        metavar="N",
        type=int,
        default=None,
        help="start N workers on this machine (default: one a processor)",
    )
    options.add_argument(
        "--timeout", metavar="SECONDS", type=float, default=30.0, help="how long to wait for the scheduler (30)"
    )
    options.add_argument("--output", metavar="FILE", help="write the report's bytes to FILE as well")
    options.add_argument("journals", metavar="JOURNAL", nargs="+")
    return options


def connected(scheduler: str | None, workers: int | None, timeout: float) -> Any:
    """A client of the scheduler named, or of workers that are started here."""
    from distributed import Client, LocalCluster

    if scheduler:
        return Client(scheduler, timeout=timeout)
    cluster = LocalCluster(n_workers=workers, threads_per_worker=1, dashboard_address=None, silence_logs=50)
    return Client(cluster)


def printed(text: str) -> int:
    """Prints a text; a pipe that was closed is no error to be told."""
    try:
        sys.stdout.write(text)
        sys.stdout.flush()
    except BrokenPipeError:
        os.dup2(os.open(os.devnull, os.O_WRONLY), sys.stdout.fileno())
    except OSError as error:
        print(f"rtcm2-season-dask: {error}", file=sys.stderr)
        return SYSTEM
    return FINE


def main(words: list[str] | None = None) -> int:
    """The command."""
    given = parser().parse_args(words)
    if given.workers is not None and given.workers < 1:
        parser().error("--workers: at least 1")
    try:
        from distributed import KilledWorker
    except ImportError:
        print(
            "rtcm2-season-dask: the package distributed is missing: apt-get install python3-distributed",
            file=sys.stderr,
        )
        return SYSTEM
    try:
        with connected(given.scheduler, given.workers, given.timeout) as client:
            season, code = run(client, given.journals, sys.stderr)
            if given.output:
                Path(given.output).write_bytes(bytes(season.report))
    except (OSError, KilledWorker) as error:
        print(f"rtcm2-season-dask: {error}", file=sys.stderr)
        return SYSTEM
    return printed(season.report.text()) or code
