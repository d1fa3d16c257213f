"""What the lists of records share: counting entries, and reading one as the library's row of bytes."""

import ctypes
from typing import Callable, TypeVar

from ._library import ask, lent, narrowed
from .frames import Frame
from .refusals import Refusal

GLONASS_TYPES = range(31, 37)

Entry = TypeVar("Entry")


def count_in(name: str, frame: Frame) -> int:
    """How many entries a frame holds."""
    count = ctypes.c_size_t()
    ask(name, frame.kept, len(frame.kept), ctypes.byref(count))
    return count.value


def row_at(name: str, size: int, frame: Frame, index: int, *before: int) -> bytes:
    """The entry at an index, as the library's row of bytes."""
    row = lent(size)
    ask(name, *before, frame.kept, len(frame.kept), narrowed(index, 64), row, size)
    return bytes(row)


def entries_in(
    count: int, entry_at: Callable[[int], Entry]
) -> tuple[tuple[Entry, ...], tuple[tuple[int, Refusal], ...]]:
    """Every entry that can be read, and those that can't with their numbers: one bad satellite does not hide the rest."""
    entries, refused = [], []
    for index in range(count):
        try:
            entries.append(entry_at(index))
        except Refusal as refusal:
            refused.append((index, refusal))
    return tuple(entries), tuple(refused)


def is_glonass(frame_type: int) -> bool:
    """Whether a type is of GLONASS."""
    return frame_type in GLONASS_TYPES


def joined(high: int, high_bits: int, low: int, low_bits: int) -> int:
    """Two fields as one number; where one does not fit its bits, a number that no byte holds."""
    if high >> high_bits or low >> low_bits:
        return 256
    return high << low_bits | low
