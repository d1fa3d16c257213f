"""rtcm2-season-plot: what is drawn comes from the proved calls, and a picture is made of it."""

import contextlib
import io
import subprocess
import tempfile
import unittest
from pathlib import Path

from rtcm2 import season_plot, seasons

from . import material

PYTHON = material.ROOT / "python"
STREAM = material.STREAMS / "data" / "13-two-turned-in-word-2.bin"


class Plot(unittest.TestCase):
    """The command and what it draws of the sample season."""

    @classmethod
    def setUpClass(cls) -> None:
        folder = tempfile.TemporaryDirectory()
        cls.addClassCleanup(folder.cleanup)
        cls.folder = Path(folder.name)
        subprocess.run([PYTHON / "sample_season", cls.folder], check=True)
        cls.journals = sorted(map(str, cls.folder.glob("*.journal")))

    def plot(self, *words: str) -> tuple[int, str]:
        """What the command answers and says."""
        said = io.StringIO()
        with contextlib.redirect_stderr(said), contextlib.chdir(self.folder):
            try:
                code = season_plot.main(list(words))
            except SystemExit as usage:
                code = int(str(usage.code))
        return code, said.getvalue()

    def test_command(self) -> None:
        """The command itself, as it stands in the repository."""
        command = [PYTHON / "rtcm2-season-plot", "faults", STREAM, "-o", self.folder / "command.png"]
        run = subprocess.run(command, capture_output=True)
        self.assertEqual((run.returncode, run.stdout, run.stderr), (0, b"", b""))
        self.assertTrue((self.folder / "command.png").exists())

    def picture(self, *words: str, ending: str = ".png", mark: bytes = b"\x89PNG") -> None:
        """A picture comes of it, and nothing is said."""
        name = self.folder / f"picture{ending}"
        self.assertEqual(self.plot(*words, "-o", str(name)), (0, ""))
        self.assertTrue(name.read_bytes().startswith(mark))
        name.unlink()

    def test_report(self) -> None:
        self.assertEqual(len(self.journals), 3)
        rows, said = season_plot.season_rows(self.journals)
        self.assertEqual((len(rows), said), (27, []))
        text = self.folder / "report.txt"
        season = seasons.Season()
        for name in self.journals:
            with open(name, "rb") as source:
                season.add(name, seasons.read_journal(source))
        text.write_text(season.report.text())
        self.assertEqual(season_plot.season_rows([str(text)]), (rows, []))
        self.picture("report", *self.journals)
        self.picture("report", str(text), "--station", "612")

    def test_station(self) -> None:
        points = list(season_plot.station_points(self.journals[0], 5, seasons.System.GPS))
        stops = sum(point.metres is None for point in points)
        rows, _ = season_plot.season_rows(self.journals[:1])
        own = [row for row in rows if (row.system, row.station) == (seasons.System.GPS, 5)]
        self.assertEqual((len(points) - stops, stops), (sum(row.usable for row in own), sum(row.stops for row in own)))
        self.assertEqual(
            round(1000 * max(p.metres for p in points if p.metres is not None)), max(row.largest for row in own)
        )
        self.assertGreater(points[-1].hours, 23)
        self.assertEqual(sorted(point.hours for point in points), [point.hours for point in points])
        self.picture("station", "--station", "5", self.journals[0])
        self.picture("station", "--station", "5", "--system", "glonass", self.journals[0])

    def test_faults(self) -> None:
        """The stretches of a line add up to the totals that the model has of it."""
        for stream in sorted((material.STREAMS / "data").glob("*.bin"))[::13]:
            parts = list(season_plot.stretches(str(stream), 10))
            self.assertEqual([part.end for part in parts[:-1]], list(range(10, parts[-1].end, 10)))
            lines = material.printed("test_streams").split(f"{stream.name}\n", 1)[1].splitlines()
            total = next(line for line in lines if line.startswith("frames "))
            faults = next(line for line in lines if line.startswith("odd "))
            self.assertEqual(f"odd {sum(part.odd for part in parts)} even {sum(part.even for part in parts)}", faults)
            self.assertTrue(total.startswith(f"frames {sum(part.frames for part in parts)} bytes {parts[-1].end} "))
        self.picture("faults", "--step", "5", str(STREAM), ending=".svg", mark=b"<?xml")

    def test_what_is_wrong(self) -> None:
        empty = self.folder / "empty"
        empty.write_bytes(b"")
        out = ("-o", "x.png")
        self.assertEqual(
            self.plot("faults", str(empty), *out), (1, f"rtcm2-season-plot: {empty}: the line has no byte\n")
        )
        self.assertEqual(
            self.plot("report", str(empty), *out), (1, f"rtcm2-season-plot: {empty}: the report has no row\n")
        )
        code, said = self.plot("station", "--station", "7", self.journals[0], *out)
        self.assertEqual((code, said.endswith(": the journal has no correction of this station\n")), (1, True))
        self.assertEqual(self.plot("faults", "nowhere", *out)[0], 3)
        self.assertEqual(self.plot("faults", str(STREAM), "-o", "nowhere/x.png")[0], 3)
        self.assertEqual(self.plot("faults", str(STREAM), "-o", "x.nothing")[0], 1)
        self.assertEqual(self.plot("faults", str(STREAM), "--step", "0", *out)[0], 2)
        damaged = self.folder / "damaged"
        damaged.write_bytes(Path(self.journals[0]).read_bytes() + b"\0")
        code, said = self.plot("station", "--station", "5", str(damaged), *out)
        self.assertEqual((code, "refusal 14 at byte" in said), (1, True))
        self.assertTrue((self.folder / "x.png").exists())
