"""The refusals: their numbers, what each says, and the exception that carries one."""

import enum

from ._header import TEXTS


class Number(enum.IntEnum):
    """The numbers of refusals, by the names of include/rtcm2.h."""

    NO_DATA_BYTE = 1
    FRAME_WAITS = 2
    ENDED = 3
    NO_FRAME = 4
    OUTSIDE = 5
    OTHER_TYPE = 6
    Z_COUNT = 7
    WRONG_N = 8
    NO_ENTRY = 9
    FIELD = 10
    CHARACTER = 11
    ENTRIES = 12
    TOO_SHORT = 13
    NO_MARK = 14
    CUT_SHORT = 15
    BAD_RECORD = 16
    BROKEN = 17
    NO_ROOM = 18
    COUNT = 19
    OTHER_PROFILE = 20
    SATELLITES = 21
    TWICE = 22
    OTHER_SYSTEM = 23


class Refusal(Exception):
    """A call was refused, and nothing changed. `number` and `text` say why; `call` is the library's function; `at` is the
    place in the bytes that were read, where there is one."""

    def __init__(self, number: int, call: str = "", at: int | None = None) -> None:
        super().__init__(number, call, at)
        self.number = number
        self.text = TEXTS.get(number, "no answer of the library")
        self.call = call
        self.at = at

    def __str__(self) -> str:
        place = "" if self.at is None else f" at byte {self.at}"
        call = f" ({self.call})" if self.call else ""
        return f"refusal {self.number}{place}: {self.text}{call}"

    def __eq__(self, other: object) -> bool:
        return isinstance(other, Refusal) and self.args == other.args

    def __hash__(self) -> int:
        return hash(self.args)
