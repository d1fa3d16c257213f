"""Constellation health: types 5 and 33."""

from dataclasses import dataclass
from typing import Iterable

from . import values
from ._header import CONSTANTS
from ._library import packed
from ._lists import count_in, is_glonass, joined, row_at
from .frames import Frame, Header, made

HEALTH_SIZE = CONSTANTS["HEALTH_SIZE"]


@dataclass(frozen=True)
class Code:
    """The three health bits of type 5, one code."""

    code: int


@dataclass(frozen=True)
class Data:
    """The three health bits of type 33: data health, and two that are reserved."""

    health: int
    reserved: int


@dataclass(frozen=True)
class Health:
    """One satellite's health."""

    reserved_first: int
    satellite: int
    link: int
    condition: Code | Data
    cn0: int
    enable: int
    new_data: int
    loss_warning: int
    time: int
    reserved_last: int

    @property
    def cn0_dbhz(self) -> int | None:
        """C/N0 in dBHz; None where the satellite is not tracked."""
        return values.cn0_dbhz(self.cn0)


@dataclass(frozen=True)
class Healths:
    """The record of types 5 and 33."""

    entries: tuple[Health, ...]


def health_at(frame: Frame, index: int) -> Health:
    """The health at an index, from 0. Refusals: 6, 7, 8, 9."""
    row = row_at("rtcm2_health_at", HEALTH_SIZE, frame, index)
    reserved, satellite, link, bits, cn0, enable, new_data, loss_warning, time, last = row
    condition: Code | Data = Data(bits >> 2, bits & 3) if is_glonass(frame.header.type) else Code(bits)
    return Health(reserved, satellite, link, condition, cn0, enable, new_data, loss_warning, time, last)


def read_healths(frame: Frame) -> Healths:
    """The health of all satellites of a frame. Refusals: 6, 7, 8."""
    count = count_in("rtcm2_count_healths", frame)
    return Healths(tuple(health_at(frame, index) for index in range(count)))


def _health_row(health: Health, frame_type: int) -> bytes:
    """A satellite's health as a row of bytes. One with the other system's bits is refused, with 10 in its place."""
    condition = health.condition
    if isinstance(condition, Data) != is_glonass(frame_type):
        return bytes(HEALTH_SIZE)
    bits = condition.code if isinstance(condition, Code) else joined(condition.health, 1, condition.reserved, 2)
    before = health.reserved_first, health.satellite, health.link
    behind = health.cn0, health.enable, health.new_data, health.loss_warning, health.time, health.reserved_last
    return packed("<10B", *before, bits, *behind)


def make_healths(header: Header, healths: Iterable[Health]) -> Frame:
    """A frame of 1 to 31 satellites' health. Refusals: 5, 6, 7, 12, 10."""
    rows = b"".join(_health_row(health, header.type) for health in healths)
    return made("rtcm2_make_healths", *header.numbers(), rows, len(rows))
