"""General corrections, types 41 and 42: BeiDou, GPS, GLONASS and QZSS, with and without the ionosphere's delay."""

import ctypes
import enum
import struct
from dataclasses import dataclass
from typing import Iterable

from . import values
from ._header import CONSTANTS
from ._library import ask, narrowed, packed
from ._lists import count_in, entries_in, row_at
from .frames import Frame, Header, made
from .refusals import Refusal

GENERAL_SIZE = CONSTANTS["GENERAL_SIZE"]


class GeneralSystem(enum.IntEnum):
    """The systems that types 41 and 42 can name here; any other is refused with 23."""

    GPS = 1
    GLONASS = 2
    QZSS = 5
    BDS = 6


@dataclass(frozen=True)
class GeneralHead:
    """The head: system, signal 0 to 15, ephemeris type 0 to 3, period of use 0 to 3, and whether entries have a delay."""

    system: int
    signal: int
    ephemeris: int
    period: int
    ionosphere: int

    @property
    def use_seconds(self) -> int:
        """How long its corrections may be used."""
        return values.use_seconds(self.period)


@dataclass(frozen=True)
class General:
    """One satellite's general correction: satellite 1 to 63, UDRE 0 to 15, IOD, PRC of fourteen bits, delay 0 to 4095."""

    satellite: int
    udre: int
    iod: int
    prc: int
    delay: int

    @property
    def prc_mm(self) -> int | None:
        """PRC in mm; None where the satellite is stopped."""
        return values.general_prc_mm(self.prc)

    @property
    def delay_mm(self) -> int | None:
        """The ionosphere's delay in mm; None where it is not to be used."""
        return values.delay_mm(self.delay)

    def udre_hundredths(self, health: int) -> int | None:
        """The UDRE's upper limit under the station's health, in hundredths of a mm; None where there is none."""
        return values.general_udre(health, self.udre)


@dataclass(frozen=True)
class Generals:
    """The record of types 41 and 42. `refused` has the place of each entry that can't be read, and why."""

    head: GeneralHead
    entries: tuple[General, ...]
    refused: tuple[tuple[int, Refusal], ...] = ()


@dataclass(frozen=True)
class GeneralNull:
    """The record of a null frame of type 42: its N, which is 1, and its system."""

    n: int
    system: int


def read_head(frame: Frame) -> GeneralHead:
    """The head. Refusals: 6, 7, 8, 23, 8."""
    numbers = [ctypes.c_uint8() for _ in range(5)]
    ask("rtcm2_read_head", frame.kept, len(frame.kept), *map(ctypes.byref, numbers))
    system, signal, ephemeris, period, ionosphere = (number.value for number in numbers)
    return GeneralHead(system, signal, ephemeris, period, ionosphere)


def general_at(frame: Frame, index: int) -> General:
    """The general correction at an index, from 0. Refusals: 6, 7, 8, 23, 8, 9, 10."""
    row = row_at("rtcm2_general_at", GENERAL_SIZE, frame, index)
    return General(*struct.unpack("<BBBhH", row))


def read_generals(frame: Frame) -> Generals:
    """Head and all satellites of a frame. Refusals: 6, 7, 8, 23, 8."""
    head, count = read_head(frame), count_in("rtcm2_count_generals", frame)
    return Generals(head, *entries_in(count, lambda index: general_at(frame, index)))


def _general_row(general: General) -> bytes:
    return packed("<BBBhH", general.satellite, general.udre, general.iod, general.prc, general.delay)


def make_generals(header: Header, head: GeneralHead, generals: Iterable[General]) -> Frame:
    """A frame of 1 to 22 satellites, 1 to 16 with the ionosphere's delay. Refusals: 5, 6, 7, 23, 12, 10."""
    rows = b"".join(map(_general_row, generals))
    numbers = [narrowed(n, 8) for n in (head.system, head.signal, head.ephemeris, head.period, head.ionosphere)]
    return made("rtcm2_make_generals", *header.numbers(), *numbers, rows, len(rows))


def read_general_null(frame: Frame) -> GeneralNull:
    """The null frame of type 42. Refusals: 6, 7, 8, 23."""
    n, system = ctypes.c_uint8(), ctypes.c_uint8()
    ask("rtcm2_read_general_null", frame.kept, len(frame.kept), ctypes.byref(n), ctypes.byref(system))
    return GeneralNull(n.value, system.value)


def make_general_null(header: Header, null: GeneralNull) -> Frame:
    """A null frame of type 42. Refusals: 5, 6, 7, 23, 12."""
    return made("rtcm2_make_general_null", *header.numbers(), narrowed(null.n, 8), narrowed(null.system, 8))
