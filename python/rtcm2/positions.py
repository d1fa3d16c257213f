"""The station's position: types 3 and 32."""

import ctypes
from dataclasses import dataclass

from ._library import ask, narrowed_signed
from .frames import Frame, Header, made


@dataclass(frozen=True)
class Position:
    """The station's position, in centimetres."""

    x_cm: int
    y_cm: int
    z_cm: int


def read_position(frame: Frame) -> Position:
    """The position. Refusals: 6, 7, 8, 10."""
    x, y, z = ctypes.c_int32(), ctypes.c_int32(), ctypes.c_int32()
    ask("rtcm2_read_position", frame.kept, len(frame.kept), ctypes.byref(x), ctypes.byref(y), ctypes.byref(z))
    return Position(x.value, y.value, z.value)


def make_position(header: Header, position: Position) -> Frame:
    """A frame of a position. Refusals: 5, 6, 7, 10."""
    numbers = [narrowed_signed(cm, 32) for cm in (position.x_cm, position.y_cm, position.z_cm)]
    return made("rtcm2_make_position", *header.numbers(), *numbers)
