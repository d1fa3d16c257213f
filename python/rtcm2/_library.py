"""The proved library by ctypes: its calls, and the one place where a refusal becomes an exception."""

import ctypes
import operator
import os
import struct
from pathlib import Path
from typing import Any, Callable

from . import _header
from .refusals import Refusal


def _loaded() -> dict[str, Callable[..., int]]:
    """The calls of the shared object beside this file, or of the one that RTCM2_SHARED names."""
    shared = Path(os.environ.get("RTCM2_SHARED", _header.HERE / "librtcm2.so")).resolve()
    try:
        library = ctypes.CDLL(str(shared))
    except OSError as error:
        raise ImportError(f"rtcm2: {error}; `make python` builds it") from error
    calls = {}
    for name, (answer, parameters) in _header.CALLS.items():
        try:
            call = getattr(library, name)
        except AttributeError as error:
            raise ImportError(f"rtcm2: {shared} has no {name}; `make python` builds it anew") from error
        call.restype, call.argtypes = answer, parameters
        calls[name] = call
    return calls


CALLS = _loaded()


def ask(name: str, *arguments: Any) -> None:
    """Makes a call of the library; a refusal is raised."""
    number = CALLS[name](*arguments)
    if number:
        raise Refusal(number, name)


def lent(size: int) -> Any:
    """So many bytes to lend to a call."""
    return (ctypes.c_uint8 * size)()


def first(buffer: Any, length: int) -> bytes:
    """The first bytes of a lent buffer."""
    return ctypes.string_at(buffer, length)


def address(data: bytes) -> int:
    """Where the bytes lie. They must be held while the address is used."""
    return ctypes.cast(ctypes.c_char_p(data), ctypes.c_void_p).value or 0


def narrowed(number: int, bits: int) -> int:
    """The number where so many bits hold it, else the largest that they hold. It is used where that one is out of range,
    so that a number too wide for C is refused in its place in the order and never cut down to a right one."""
    whole = operator.index(number)
    most = (1 << bits) - 1
    return whole if 0 <= whole <= most else most


def narrowed_signed(number: int, bits: int) -> int:
    """The same of a signed number, with the least one that the bits hold."""
    whole = operator.index(number)
    least = -(1 << (bits - 1))
    return whole if least <= whole < -least else least


def packed(form: str, *numbers: int) -> bytes:
    """A row of bytes for the library. Where a number does not fit, the row is zeros: satellite 0 is then refused with 10, in
    its place in the order."""
    whole = [operator.index(number) for number in numbers]
    try:
        return struct.pack(form, *whole)
    except struct.error:
        return bytes(struct.calcsize(form))
