"""Null frames: types 6 and 34."""

import ctypes
from dataclasses import dataclass

from ._library import ask, narrowed
from .frames import Frame, Header, made


@dataclass(frozen=True)
class Null:
    """The record of a null frame: its N, 0 or 1."""

    n: int


def read_null(frame: Frame) -> Null:
    """The null frame. Refusals: 6, 7, 8."""
    n = ctypes.c_uint8()
    ask("rtcm2_read_null", frame.kept, len(frame.kept), ctypes.byref(n))
    return Null(n.value)


def make_null(header: Header, null: Null) -> Frame:
    """A null frame with the N that is wanted. Refusals: 5, 6, 7, 12."""
    return made("rtcm2_make_null", *header.numbers(), narrowed(null.n, 8))
