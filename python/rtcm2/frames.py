"""Frames: a header, data words, and the two line bits before them."""

import ctypes
from dataclasses import dataclass, field
from typing import NamedTuple

from ._header import CONSTANTS
from ._library import ask, first, lent, narrowed

FRAME_MAX = CONSTANTS["FRAME_MAX"]
"""The longest journal record of a frame."""


class Carried(NamedTuple):
    """The two line bits before word 1, D29* and D30*, each 0 or 1."""

    d29: int = 0
    d30: int = 0


@dataclass(frozen=True)
class Header:
    """What every frame says: type 1 to 64, station 0 to 1023, Z count 0 to 8191 (0.6 s each), sequence 0 to 7, health 0 to
    7. A call refuses with 5 where one is outside its range."""

    type: int
    station: int
    z: int
    sequence: int
    health: int

    def numbers(self) -> tuple[int, int, int, int, int]:
        """The five, as the library takes them."""
        return (
            narrowed(self.type, 8),
            narrowed(self.station, 16),
            narrowed(self.z, 16),
            narrowed(self.sequence, 8),
            narrowed(self.health, 8),
        )


@dataclass(frozen=True)
class Frame:
    """A frame, held as its journal record `kept`. A frame from a line has the two bits that stood before it, `carried`, and
    the position of its first bit, `at`; another has 00 and None. Two frames are equal where record and carried bits are.
    """

    kept: bytes
    carried: Carried = Carried()
    at: int | None = field(default=None, compare=False)
    header: Header = field(init=False, compare=False, repr=False)
    n: int = field(init=False, compare=False, repr=False)

    def __post_init__(self) -> None:
        header, n, length = _recalled(bytes(self.kept))
        object.__setattr__(self, "kept", bytes(self.kept[:length]))
        object.__setattr__(self, "carried", Carried(*self.carried))
        object.__setattr__(self, "header", header)
        object.__setattr__(self, "n", n)

    @property
    def data(self) -> bytes:
        """The N data words, three bytes each, the highest bits first."""
        return self.kept[9:]

    @property
    def words(self) -> tuple[int, ...]:
        """The N data words as numbers of 24 bits."""
        return tuple(int.from_bytes(self.data[i : i + 3], "big") for i in range(0, 3 * self.n, 3))

    @property
    def bare(self) -> "Frame":
        """The frame without what it has from the line."""
        return Frame(self.kept)

    def __str__(self) -> str:
        header = self.header
        numbers = (header.type, header.station, header.z, header.sequence, self.n, header.health)
        place = "-" if self.at is None else str(self.at)
        return f"{place} {' '.join(map(str, numbers))} {self.carried.d29}{self.carried.d30}"


def _recalled(kept: bytes) -> tuple[Header, int, int]:
    """Header, N and length of the journal record at the start of the bytes. Refusals: 14, 15, 16, 15, 16."""
    kind, station, z, sequence, health, n = (
        ctypes.c_uint8(),
        ctypes.c_uint16(),
        ctypes.c_uint16(),
        ctypes.c_uint8(),
        ctypes.c_uint8(),
        ctypes.c_uint8(),
    )
    length = ctypes.c_size_t()
    places = [ctypes.byref(place) for place in (kind, station, z, sequence, health, n, length)]
    ask("rtcm2_recall", kept, len(kept), *places)
    header = Header(kind.value, station.value, z.value, sequence.value, health.value)
    return header, n.value, length.value


def make_frame(header: Header, data: bytes = b"") -> Frame:
    """A frame of any type from its data words, three bytes each with the highest bits first. Refusal: 5."""
    return made("rtcm2_keep", *header.numbers(), bytes(data), len(data))


def made(name: str, *arguments: object) -> Frame:
    """The frame that a maker of the library gives."""
    frame, length = lent(FRAME_MAX), ctypes.c_size_t()
    ask(name, *arguments, frame, FRAME_MAX, ctypes.byref(length))
    return Frame(first(frame, length.value))
