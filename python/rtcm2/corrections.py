"""Corrections: types 1, 9, 31 and 34."""

import struct
from dataclasses import dataclass
from typing import Iterable

from . import values
from ._header import CONSTANTS
from ._library import packed
from ._lists import count_in, entries_in, is_glonass, joined, row_at
from .frames import Frame, Header, made
from .refusals import Refusal

CORRECTION_SIZE = CONSTANTS["CORRECTION_SIZE"]


@dataclass(frozen=True)
class Iod:
    """The last eight bits of a correction of types 1 and 9."""

    iod: int


@dataclass(frozen=True)
class Age:
    """The last eight bits of a correction of types 31 and 34: the change bit, and tb from 0 to 119."""

    change: int
    tb: int


@dataclass(frozen=True)
class Correction:
    """One satellite's correction: scale 0 to 1, UDRE 0 to 3, satellite 1 to 32, PRC and RRC in their steps."""

    scale: int
    udre: int
    satellite: int
    prc: int
    rrc: int
    issue: Iod | Age

    @property
    def stops(self) -> bool:
        """Whether it says to stop using the satellite; then neither number is a correction."""
        return values.stops(self.prc, self.rrc)

    @property
    def prc_mm(self) -> int | None:
        """PRC in mm; None where the satellite is stopped, by PRC or by RRC."""
        return None if self.stops else values.prc_mm(self.scale, self.prc)

    @property
    def rrc_mm_s(self) -> int | None:
        """RRC in mm/s; None where the satellite is stopped, by PRC or by RRC."""
        return None if self.stops else values.rrc_mm_s(self.scale, self.rrc)

    def udre_limit_mm(self, health: int) -> int | None:
        """The UDRE's upper limit under the station's health; None where there is none."""
        return values.udre_limit_mm(health, self.udre)


@dataclass(frozen=True)
class Corrections:
    """The record of types 1, 9, 31 and 34. `refused` has the place of each entry that can't be read, and why."""

    entries: tuple[Correction, ...]
    refused: tuple[tuple[int, Refusal], ...] = ()


def correction_at(frame: Frame, index: int) -> Correction:
    """The correction at an index, from 0. Refusals: 6, 7, 8, 9, 10."""
    row = row_at("rtcm2_correction_at", CORRECTION_SIZE, frame, index)
    scale, udre, satellite, prc, rrc, last = struct.unpack("<BBBhbB", row)
    issue: Iod | Age = Age(last >> 7, last & 127) if is_glonass(frame.header.type) else Iod(last)
    return Correction(scale, udre, satellite, prc, rrc, issue)


def read_corrections(frame: Frame) -> Corrections:
    """All corrections of a frame. Refusals: 6, 7, 8."""
    count = count_in("rtcm2_count_corrections", frame)
    return Corrections(*entries_in(count, lambda index: correction_at(frame, index)))


def _correction_row(correction: Correction, frame_type: int) -> bytes:
    """A correction as a row of bytes. One with the other system's last bits is refused, with 10 in its place."""
    issue = correction.issue
    if isinstance(issue, Age) != is_glonass(frame_type):
        return bytes(CORRECTION_SIZE)
    last = issue.iod if isinstance(issue, Iod) else joined(issue.change, 1, issue.tb, 7)
    numbers = correction.scale, correction.udre, correction.satellite, correction.prc, correction.rrc
    return packed("<BBBhbB", *numbers, last)


def correction_rows(corrections: Iterable[Correction], frame_type: int) -> bytes:
    """Corrections as the library takes them."""
    return b"".join(_correction_row(correction, frame_type) for correction in corrections)


def make_corrections(header: Header, corrections: Iterable[Correction]) -> Frame:
    """A frame of 1 to 18 corrections. Refusals: 5, 6, 7, 12, 10."""
    rows = correction_rows(corrections, header.type)
    return made("rtcm2_make_corrections", *header.numbers(), rows, len(rows))
