"""Raw observations: types 18 and 19, in both editions."""

import ctypes
import enum
import struct
from dataclasses import dataclass
from typing import Iterable

from ._header import CONSTANTS
from ._library import ask, narrowed, packed
from ._lists import count_in, row_at
from .frames import Frame, Header, made

OBSERVATION_SIZE = CONSTANTS["OBSERVATION_SIZE"]


class Edition(enum.IntEnum):
    """Which paper says what the first bit of a satellite is."""

    GOST = 0
    BD = 1


NO_EDITION = 255
"""What is passed where no edition is named: the library refuses it with 5."""


@dataclass(frozen=True)
class Half:
    """The first bit of a satellite in type 18 of GOST: half a wavelength."""

    bit: int


@dataclass(frozen=True)
class Reserved:
    """The first bit of a satellite in type 19 of GOST: reserved."""

    bit: int


@dataclass(frozen=True)
class More:
    """The first bit of a satellite in BD: more frames of the set follow."""

    bit: int


_MARKS: tuple[type[Half] | type[Reserved] | type[More], ...] = (Half, Reserved, More)


@dataclass(frozen=True)
class Phase:
    """What type 18 measured: losses of continuity 0 to 31, and the phase in its steps."""

    losses: int
    phase: int


@dataclass(frozen=True)
class Range:
    """What type 19 measured: multipath error 0 to 15, and the range in steps of 0.02 m."""

    multipath: int
    range: int


@dataclass(frozen=True)
class Epoch:
    """The head of an observation: frequency, smoothing (in type 18 two reserved bits), time in microseconds."""

    frequency: int
    smoothing: int
    time: int


@dataclass(frozen=True)
class Observation:
    """What was observed of one satellite."""

    mark: Half | Reserved | More
    code: int
    system: int
    satellite: int
    quality: int
    measured: Phase | Range


@dataclass(frozen=True)
class Observations:
    """The record of types 18 and 19, as one edition means it."""

    edition: int
    epoch: Epoch
    entries: tuple[Observation, ...]


def read_epoch(frame: Frame) -> Epoch:
    """The head of an observation. Refusals: 6, 7, 8, 10."""
    frequency, smoothing, time = ctypes.c_uint8(), ctypes.c_uint8(), ctypes.c_uint32()
    places = [ctypes.byref(place) for place in (frequency, smoothing, time)]
    ask("rtcm2_read_epoch", frame.kept, len(frame.kept), *places)
    return Epoch(frequency.value, smoothing.value, time.value)


def observation_at(frame: Frame, index: int, edition: int) -> Observation:
    """What an edition says of the satellite at an index, from 0. Refusals: 5 (the edition), 6, 7, 8, 9, 10."""
    row = row_at("rtcm2_observation_at", OBSERVATION_SIZE, frame, index, narrowed(edition, 8))
    which, bit, code, system, satellite, quality, second, is_range = row[:8]
    (number,) = struct.unpack("<I" if is_range else "<i", row[8:])
    measured: Phase | Range = Range(second, number) if is_range else Phase(second, number)
    return Observation(_MARKS[which](bit), code, system, satellite, quality, measured)


def read_observations(frame: Frame, edition: int) -> Observations:
    """All of an observation by an edition. Refusals: 6, 7, 8, 10, then 5 (the edition)."""
    epoch = read_epoch(frame)
    count = count_in("rtcm2_count_observations", frame)
    return Observations(edition, epoch, tuple(observation_at(frame, index, edition) for index in range(count)))


def _observation_row(observation: Observation) -> bytes:
    """A satellite's observation as a row of bytes."""
    mark, measured = observation.mark, observation.measured
    numbers = observation.code, observation.system, observation.satellite, observation.quality
    before = _MARKS.index(type(mark)), mark.bit, *numbers
    if isinstance(measured, Phase):
        return packed("<8Bi", *before, measured.losses, 0, measured.phase)
    return packed("<8BI", *before, measured.multipath, 1, measured.range)


def make_observations(header: Header, epoch: Epoch, observations: Iterable[Observation], edition: int) -> Frame:
    """A frame of 1 to 15 satellites, as an edition means them. Refusals: 5 (the edition first), 6, 7, 12, 10."""
    rows = b"".join(map(_observation_row, observations))
    head = narrowed(epoch.frequency, 8), narrowed(epoch.smoothing, 8), narrowed(epoch.time, 32)
    return made("rtcm2_make_observations", narrowed(edition, 8), *header.numbers(), *head, rows, len(rows))
