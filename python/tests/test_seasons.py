"""Season reports: the model's runs, whole texts; what is refused; and that a split does not matter."""

import io
import pickle
import struct
import unittest
from fractions import Fraction

import rtcm2
from rtcm2 import seasons

from . import material

WORKED = "worked.bin"


def run(names: list[str]) -> tuple[str, str]:
    """What the program season would print and say of journals."""
    season, said = seasons.Season(), []
    for name in names:
        with open(material.season() / name, "rb") as source:
            line = season.add(name, seasons.read_journal(source))
        said += [line + "\n"] if line else []
        if season.ended:
            break
    return season.report.text(), "".join(said)


class Runs(unittest.TestCase):
    """The model's runs."""

    maxDiff = 2000

    def test_every_run(self) -> None:
        runs = sorted(material.season().glob("*.args"))
        self.assertGreater(len(runs), 5)
        for args in runs:
            with self.subTest(run=args.stem):
                text, said = run(args.read_text().splitlines())
                self.assertEqual(text, args.with_suffix(".stdout").read_text())
                self.assertEqual(said, args.with_suffix(".stderr").read_text())

    def test_text_read_back(self) -> None:
        report = self.report(WORKED)
        self.assertEqual(seasons.read_text(report.text()), list(report.rows()))
        with self.assertRaises(ValueError):
            seasons.read_text("system\tstation\n")

    def test_any_split(self) -> None:
        """A journal cut between any two records: the two reports added are the report of all."""
        journal = (material.season() / WORKED).read_bytes()
        whole = self.report(WORKED)
        places = [kept.at for kept in rtcm2.Journal(io.BytesIO(journal))]
        self.assertGreater(len(places), 5)
        for place in places:
            first, second = rtcm2.Report(), rtcm2.Report()
            self.assertEqual(first.add_journal(journal[:place]), place)
            self.assertEqual(second.add_journal(journal[place:]), len(journal) - place)
            first.add(second)
            self.assertEqual(first, whole)

    def test_pieces(self) -> None:
        for size in (1, 7, 134, 135, 136):
            read = seasons.read_journal(Slow((material.season() / WORKED).read_bytes(), size))
            self.assertEqual(read, seasons.Read(self.report(WORKED)))

    def test_rows(self) -> None:
        row = next(iter(self.report(WORKED).rows()))
        self.assertEqual(row, rtcm2.Row(rtcm2.System.GPS, 5, 3, 2, 1, -20, 20000, 19980))
        self.assertEqual(row.mean, Fraction(9990))

    def report(self, name: str) -> rtcm2.Report:
        with open(material.season() / name, "rb") as source:
            return seasons.read_journal(source).report


class Slow:
    """A source that gives so many bytes at a time."""

    def __init__(self, data: bytes, size: int) -> None:
        self.left, self.size = io.BytesIO(data), size

    def read(self, size: int = -1, /) -> bytes:
        return self.left.read(self.size)


def report_of(*rows: tuple[int, ...]) -> bytes:
    """The bytes of a report with these rows: system, station, satellite, usable, stops, present, least, largest, sum."""
    packed = b"".join(struct.pack("<BHBIIBiiq", *row) for row in rows)
    return (struct.pack("<I", len(rows)) + packed).ljust(seasons.SEASON_SIZE, b"\0")


class Refused(unittest.TestCase):
    """What a report refuses; it is then as it was."""

    ROW = (0, 5, 3, 2, 1, 1, -20, 20000, 19980)

    def refused(self, number: int, call, *arguments) -> None:
        with self.assertRaises(rtcm2.Refusal) as refused:
            call(*arguments)
        self.assertEqual(refused.exception.number, number)

    def test_no_report(self) -> None:
        self.assertEqual(bytes(rtcm2.Report(report_of(self.ROW))), report_of(self.ROW))
        self.assertEqual(bytes(rtcm2.Report()), bytes(seasons.SEASON_SIZE))
        self.refused(5, rtcm2.Report, b"")
        self.refused(5, rtcm2.Report, report_of(self.ROW)[:-1])
        self.refused(5, rtcm2.Report, struct.pack("<I", 513).ljust(seasons.SEASON_SIZE, b"\0"))
        for wrong in (
            (self.ROW, self.ROW),
            ((2, *self.ROW[1:]),),
            ((*self.ROW[:5], 2, *self.ROW[6:]),),
            ((*self.ROW[:5], 0, 0, 0, 0),),
            ((*self.ROW[:8], 40001),),
            ((0, 5, 3, 0, 1, 0, 0, 0, 1),),
        ):
            self.refused(5, rtcm2.Report, report_of(*wrong))

    def test_no_room_and_count(self) -> None:
        keys = [(0, station, satellite, 0, 1, 0, 0, 0, 0) for station in range(16) for satellite in range(1, 33)]
        full = rtcm2.Report(report_of(*keys))
        more = rtcm2.Report(report_of((1, 0, 1, 0, 1, 0, 0, 0, 0)))
        before = bytes(full)
        self.refused(18, full.add, more)
        self.assertEqual(bytes(full), before)
        most = rtcm2.Report(report_of((0, 0, 1, 0, 2**32 - 1, 0, 0, 0, 0)))
        self.refused(19, full.add, most)
        self.assertEqual(bytes(full), before)
        refusal = rtcm2.Refusal(18, "rtcm2_season_add")
        self.assertEqual(pickle.loads(pickle.dumps(refusal)), refusal)
