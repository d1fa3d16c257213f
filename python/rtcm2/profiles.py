"""The small-beacon profile of one harbour group: types 3, 5, 6, 9 and 16 alone, type 9 with at most three satellites."""

import ctypes
from typing import Iterable

from ._header import CONSTANTS
from ._library import ask, first, lent
from .corrections import Correction, correction_rows
from .frames import Frame, Header

CUT_MAX = CONSTANTS["CUT_MAX"]


def check_profile(frame: Frame) -> None:
    """Refuses a frame that is not in the profile. Refusals: 7, 20, 8, 10 (type 3) or 11 (type 16), 21, 22."""
    ask("rtcm2_check_profile", frame.kept, len(frame.kept))


def cut_corrections(header: Header, corrections: Iterable[Correction]) -> list[Frame]:
    """Cuts 1 to 18 corrections for different satellites into frames of type 9, three in each but the last. The first has the
    header's sequence, each other one more than that before it, modulo 8. Refusals: 5, 6, 7, 12, 10, 22."""
    rows = correction_rows(corrections, header.type)
    frames, length = lent(CUT_MAX), ctypes.c_size_t()
    ask("rtcm2_cut_corrections", *header.numbers(), rows, len(rows), frames, CUT_MAX, ctypes.byref(length))
    left, cut = first(frames, length.value), []
    while left:
        cut.append(Frame(left))
        left = left[len(cut[-1].kept) :]
    return cut
