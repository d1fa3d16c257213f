"""rtcm2-season-dask: on two workers of which one is ended halfway, the report is that of one run over all journals; and what
it says and answers where something is wrong."""

import os
import subprocess
import sys
import tempfile
import time
import unittest
from pathlib import Path

from rtcm2 import seasons
from rtcm2.journals import Journal

from . import material

COMMAND = material.ROOT / "python" / "rtcm2-season-dask"
JOURNALS = 40


def cut(journal: Path, folder: Path) -> list[str]:
    """The records of a journal as so many journals, each with its part of them over and over, so that it takes a while."""
    data = journal.read_bytes()
    with open(journal, "rb") as source:
        places = [kept.at for kept in Journal(source)]
    starts = [places[len(places) * i // JOURNALS] for i in range(JOURNALS)] + [len(data)]
    names = []
    for i in range(JOURNALS):
        names.append(str(folder / f"part-{i:02}.journal"))
        Path(names[-1]).write_bytes(40 * data[starts[i] : starts[i + 1]])
    return names


def whole(names: list[str]) -> str:
    """The report of one run over all."""
    season = seasons.Season()
    for name in names:
        with open(name, "rb") as source:
            season.add(name, seasons.read_journal(source))
    return season.report.text()


class Cluster:
    """A scheduler and two workers, each a process of its own."""

    def __init__(self, folder: Path) -> None:
        self.file = folder / "scheduler.json"
        environment = {**os.environ, "PYTHONPATH": str(material.ROOT / "python")}
        self.log = open(folder / "cluster.log", "wb")

        def started(*words: str) -> subprocess.Popen[bytes]:
            command = [sys.executable, "-m", *words, "--scheduler-file", str(self.file)]
            return subprocess.Popen(command, env=environment, cwd=folder, stdout=self.log, stderr=self.log)

        self.scheduler = started(
            "distributed.cli.dask_scheduler", "--host", "127.0.0.1", "--port", "0", "--no-dashboard"
        )
        options = ("--host", "127.0.0.1", "--nthreads", "1", "--no-nanny", "--no-dashboard")
        self.workers = [started("distributed.cli.dask_worker", *options) for _ in range(2)]

    def address(self) -> str:
        """The scheduler's address, once both workers are there."""
        from distributed import Client

        while not self.file.exists() or not self.file.stat().st_size:
            assert self.scheduler.poll() is None
            time.sleep(0.1)
        with Client(scheduler_file=str(self.file), timeout=60) as client:
            client.wait_for_workers(2, timeout=60)
            return str(client.scheduler.address)

    def end(self) -> None:
        for process in (*self.workers, self.scheduler):
            process.kill()
            process.wait()
        self.log.close()


class Dask(unittest.TestCase):
    """The command, run as it stands in the repository."""

    def setUp(self) -> None:
        folder = tempfile.TemporaryDirectory()
        self.addCleanup(folder.cleanup)
        self.folder = Path(folder.name)

    def test_a_worker_ends_halfway(self) -> None:
        names = cut(material.journals() / "old.bin", self.folder)
        cluster = Cluster(self.folder)
        self.addCleanup(cluster.end)
        command = [COMMAND, "--scheduler", cluster.address(), "--output", str(self.folder / "report"), *names]
        with subprocess.Popen(command, stdout=subprocess.PIPE, stderr=subprocess.PIPE, text=True) as run:
            assert run.stderr and run.stdout
            said = [run.stderr.readline() for _ in range(3)]
            cluster.workers[0].kill()
            printed, rest = run.communicate(timeout=300)
        said += rest.splitlines(keepends=True)
        self.assertRegex(said[0], r"^[4-7] of 40 journals, \d+\.\d MB, \d+\.\d MB/s, workers [12]$")
        self.assertRegex(said[-2], r"^40 of 40 journals, .*, workers 2$")
        self.assertEqual(said[-1], "workers that did journals: 2\n")
        self.assertEqual(run.returncode, 0)
        self.assertEqual(printed, whole(names))
        self.assertEqual(seasons.Report((self.folder / "report").read_bytes()).text(), printed)

    def said(self, *words: str) -> tuple[int, str, str]:
        run = subprocess.run([COMMAND, *words], capture_output=True, text=True, cwd=self.folder, timeout=300)
        return run.returncode, run.stdout, run.stderr

    def test_local_workers_and_what_is_wrong(self) -> None:
        """A journal that is cut, one that is not there and one behind which there is no room."""
        room = material.season()
        names = ["full.bin", "cut.bin", "one-more.bin", "worked.bin"]
        code, printed, said = self.said("--workers", "2", *(str(room / name) for name in names))
        self.assertEqual(code, 1)
        self.assertIn(f"season: {room}/cut.bin: refusal 15 at byte 153\n", said)
        self.assertIn(f"season: {room}/one-more.bin: refusal 18\n", said)
        self.assertNotIn("worked.bin", said)
        self.assertEqual(printed, whole([str(room / name) for name in names[:2]]))
        code, printed, said = self.said("--workers", "1", "nowhere.journal", str(room / "worked.bin"))
        self.assertEqual(code, 3)
        self.assertIn("season: nowhere.journal: No such file or directory\n", said)
        self.assertEqual(printed, whole([str(room / "worked.bin")]))

    def test_no_cluster(self) -> None:
        code, printed, said = self.said("--scheduler", "tcp://127.0.0.1:9", "--timeout", "1", "x.journal")
        self.assertEqual((code, printed), (3, ""))
        self.assertRegex(said, r"(?m)^rtcm2-season-dask: ")
        for words in ((), ("--workers", "0", "x"), ("--workers", "2", "--scheduler", "tcp://a:1", "x")):
            code, printed, said = self.said(*words)
            self.assertEqual((code, printed), (2, ""))
