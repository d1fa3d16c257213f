"""What a record's numbers stand for. None says that there is no value: stop, no limit, not tracked."""

import ctypes

from ._library import ask, narrowed, narrowed_signed
from .refusals import Number, Refusal


def _signed(number: int, bits: int, call: str) -> int:
    """A number that so many bits hold in two's complement; 10 for another, which C could not be given."""
    if not -(1 << (bits - 1)) <= number < 1 << (bits - 1):
        raise Refusal(Number.FIELD, call)
    return number


def prc_mm(scale: int, prc: int) -> int | None:
    """PRC in mm, None for -32768. Ask `stops` first: RRC -128 stops the satellite too. Refusal: 10."""
    stop, mm = ctypes.c_uint8(), ctypes.c_int32()
    number = _signed(prc, 16, "rtcm2_prc_mm")
    ask("rtcm2_prc_mm", narrowed(scale, 8), number, ctypes.byref(stop), ctypes.byref(mm))
    return None if stop.value else mm.value


def rrc_mm_s(scale: int, rrc: int) -> int | None:
    """RRC in mm/s, None for -128. Ask `stops` first: PRC -32768 stops the satellite too. Refusal: 10."""
    stop, mm_s = ctypes.c_uint8(), ctypes.c_int32()
    number = _signed(rrc, 8, "rtcm2_rrc_mm_s")
    ask("rtcm2_rrc_mm_s", narrowed(scale, 8), number, ctypes.byref(stop), ctypes.byref(mm_s))
    return None if stop.value else mm_s.value


def stops(prc: int, rrc: int) -> bool:
    """Whether a correction says to stop using its satellite: PRC -32768 or RRC -128."""
    stop = ctypes.c_uint8()
    numbers = _signed(prc, 16, "rtcm2_stops"), _signed(rrc, 8, "rtcm2_stops")
    ask("rtcm2_stops", *numbers, ctypes.byref(stop))
    return bool(stop.value)


def udre_limit_mm(health: int, udre: int) -> int | None:
    """The upper limit of a UDRE code under the station's health, in mm; None for code 3. Refusals: 5, 10."""
    limited, mm = ctypes.c_uint8(), ctypes.c_uint32()
    places = ctypes.byref(limited), ctypes.byref(mm)
    ask("rtcm2_udre_limit_mm", narrowed(health, 8), narrowed(udre, 8), *places)
    return mm.value if limited.value else None


def cn0_dbhz(code: int) -> int | None:
    """C/N0 in dBHz; None for code 0, not tracked. Refusal: 10."""
    tracked, dbhz = ctypes.c_uint8(), ctypes.c_uint8()
    ask("rtcm2_cn0_dbhz", narrowed(code, 8), ctypes.byref(tracked), ctypes.byref(dbhz))
    return dbhz.value if tracked.value else None


def letter_of(code: int) -> str:
    """The character of a text's code. Refusal: 11."""
    letter = ctypes.c_uint32()
    ask("rtcm2_letter_of", narrowed(code, 8), ctypes.byref(letter))
    return chr(letter.value)


def general_prc_mm(prc: int) -> int | None:
    """PRC of types 41 and 42 in mm; None for -8192. Refusal: 10."""
    stop, mm = ctypes.c_uint8(), ctypes.c_int32()
    ask("rtcm2_general_prc_mm", narrowed_signed(prc, 16), ctypes.byref(stop), ctypes.byref(mm))
    return None if stop.value else mm.value


def delay_mm(delay: int) -> int | None:
    """The ionosphere's delay of types 41 and 42 in mm; None for 4095. Refusal: 10."""
    usable, mm = ctypes.c_uint8(), ctypes.c_uint32()
    ask("rtcm2_delay_mm", narrowed(delay, 16), ctypes.byref(usable), ctypes.byref(mm))
    return mm.value if usable.value else None


def general_udre(health: int, udre: int) -> int | None:
    """The upper limit of a UDRE code of types 41 and 42 under the station's health, in hundredths of a mm; None for code 15.
    Refusals: 5, 10."""
    limited, hundredths = ctypes.c_uint8(), ctypes.c_uint32()
    places = ctypes.byref(limited), ctypes.byref(hundredths)
    ask("rtcm2_general_udre", narrowed(health, 8), narrowed(udre, 8), *places)
    return hundredths.value if limited.value else None


def use_seconds(code: int) -> int:
    """How long corrections of types 41 and 42 may be used, by the period of their head. Refusal: 10."""
    seconds = ctypes.c_uint8()
    ask("rtcm2_use_seconds", narrowed(code, 8), ctypes.byref(seconds))
    return seconds.value
