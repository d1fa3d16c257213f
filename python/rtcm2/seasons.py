"""Statistics over a season: reports of journals, added by the proved addition, and their text."""

import ctypes
import enum
import struct
from dataclasses import dataclass
from fractions import Fraction
from typing import Iterator

from ._header import CONSTANTS
from ._library import ask, lent, narrowed
from .journals import WORDS_MAX, recall
from .lines import Source, pieces
from .refusals import Number, Refusal

SEASON_SIZE = CONSTANTS["SEASON_SIZE"]
SEASON_ROW_SIZE = CONSTANTS["SEASON_ROW_SIZE"]
PIECE = 1 << 20

HEAD = (
    "# types 1, 9, 31 and 34 are counted, types 41 and 42 are not\n"
    "system\tstation\tsatellite\tusable\tstops\tleast\tlargest\tsum\tcount\n"
)


class System(enum.IntEnum):
    """A satellite's system."""

    GPS = 0
    GLONASS = 1


@dataclass(frozen=True)
class Row:
    """One satellite at one station: how many entries were usable and how many stops, and of the usable ones the least and the
    largest PRC in mm, both None where there are none, and the exact sum."""

    system: System
    station: int
    satellite: int
    usable: int
    stops: int
    least: int | None
    largest: int | None
    sum: int

    @property
    def mean(self) -> Fraction | None:
        """The exact mean in mm; None without a usable entry."""
        return Fraction(self.sum, self.usable) if self.usable else None


def _row_of(row: bytes) -> Row:
    system, station, satellite, usable, stops, present, least, largest, total = struct.unpack("<BHBIIBiiq", row)
    ends = (least, largest) if present else (None, None)
    return Row(System(system), station, satellite, usable, stops, *ends, total)


class Report:
    """A report of at most 512 rows, in the order in which their satellites were first seen. `bytes(report)` is its form on
    disk and between machines, and `Report(data)` takes it back; 5 where the bytes hold no report."""

    def __init__(self, data: bytes | None = None) -> None:
        self._bytes = lent(SEASON_SIZE)
        ask("rtcm2_season_start", self._bytes, SEASON_SIZE)
        if data is None:
            return
        if len(data) < SEASON_SIZE:
            raise Refusal(Number.OUTSIDE, "rtcm2_season_row")
        self._bytes = type(self._bytes).from_buffer_copy(data)
        self._row(0)

    def __bytes__(self) -> bytes:
        return bytes(self._bytes)

    def __eq__(self, other: object) -> bool:
        return isinstance(other, Report) and bytes(self) == bytes(other)

    def add_journal(self, data: bytes) -> int:
        """Adds the entries of the records at the start of the bytes, of either form, as far as they read, and answers how many
        bytes that were. Refusals: 5, 18, 19."""
        data, used = bytes(data), ctypes.c_size_t()
        ask("rtcm2_season_journal", self._bytes, SEASON_SIZE, data, len(data), ctypes.byref(used))
        return used.value

    def add(self, other: "Report") -> None:
        """Adds a report of later journals: what one run over all of them gives. Refusals: 5, 18, 19."""
        ask("rtcm2_season_add", self._bytes, SEASON_SIZE, bytes(other), SEASON_SIZE)

    def _row(self, index: int) -> Row | None:
        """The row at an index; None behind the last."""
        row = lent(SEASON_ROW_SIZE)
        try:
            ask("rtcm2_season_row", self._bytes, SEASON_SIZE, narrowed(index, 64), row, SEASON_ROW_SIZE)
        except Refusal as refusal:
            if refusal.number == Number.NO_ENTRY:
                return None
            raise
        return _row_of(bytes(row))

    def rows(self) -> Iterator[Row]:
        """The rows in their order."""
        index = 0
        while (row := self._row(index)) is not None:
            yield row
            index += 1

    def text(self) -> str:
        """The report as the program season prints it."""
        rows = list(self.rows())
        return HEAD + "".join(map(_line, rows)) + _total_line(rows)


def _line(row: Row) -> str:
    return _cells(row.system.name, row.station, row.satellite, row.usable, row.stops, row.least, row.largest, row.sum)


def _cells(system: str, station: object, satellite: object, usable: int, stops: int, *ends_and_sum: int | None) -> str:
    """A line of the text; the last cell is the count of the mean, which is that of usable entries."""
    cells = (system, station, satellite, usable, stops, *ends_and_sum, usable)
    return "\t".join("-" if cell is None else str(cell) for cell in cells) + "\n"


def _total_line(rows: list[Row]) -> str:
    least = min((row.least for row in rows if row.least is not None), default=None)
    largest = max((row.largest for row in rows if row.largest is not None), default=None)
    usable, stops = sum(row.usable for row in rows), sum(row.stops for row in rows)
    return _cells("total", "-", "-", usable, stops, least, largest, sum(row.sum for row in rows))


def read_text(text: str) -> list[Row]:
    """The rows of a report's text. ValueError where it is none."""
    if not text.startswith(HEAD):
        raise ValueError("this is no report of a season")
    rows = []
    for line in text[len(HEAD) :].splitlines():
        cells = line.split("\t")
        if cells[0] != "total":
            numbers = [None if cell == "-" else int(cell) for cell in cells[1:8]]
            rows.append(Row(System[cells[0]], *numbers))  # type: ignore[arg-type]
    return rows


@dataclass(frozen=True)
class Read:
    """What a journal gave: its report, and why its bytes could not be read to the end, where that is so. With 18 or 19 the
    report is empty, and the refusal has no place."""

    report: Report
    refusal: Refusal | None = None

    @property
    def has_room(self) -> bool:
        """Whether the report is that of the journal: not refused with 18 or 19."""
        return self.refusal is None or self.refusal.number not in (Number.NO_ROOM, Number.COUNT)


def read_journal(source: Source) -> Read:
    """The report of a journal, read in pieces of any size."""
    report, held, begin = Report(), b"", 0
    try:
        for piece in pieces(source, PIECE):
            held += piece
            used = report.add_journal(held)
            held, begin = held[used:], begin + used
            if len(held) >= WORDS_MAX:
                break
    except Refusal as refusal:
        return Read(Report(), refusal)
    if not held:
        return Read(report)
    try:
        recall(held)
    except Refusal as refusal:
        return Read(report, Refusal(refusal.number, refusal.call, begin))
    raise AssertionError("a record that reads was not counted")


class Season:
    """A run over journals, in their order. After 18 or 19 it has `ended`: its report is that of the journals before."""

    def __init__(self) -> None:
        self.report = Report()
        self.ended = False
        self.refused = False

    def add(self, name: str, read: Read) -> str | None:
        """Adds what a journal gave, and answers the line to be said of it, where one is due."""
        refusal = read.refusal
        try:
            if read.has_room:
                self.report.add(read.report)
        except Refusal as full:
            refusal, self.ended = full, True
        self.ended = self.ended or not read.has_room
        if refusal is None:
            return None
        self.refused = True
        place = "" if self.ended else f" at byte {refusal.at}"
        return f"season: {name}: refusal {refusal.number}{place}"
