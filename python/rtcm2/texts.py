"""Texts: types 16 and 36."""

import ctypes
from dataclasses import dataclass

from . import values
from ._header import CONSTANTS
from ._library import ask, first, lent
from .frames import Frame, Header, made
from .refusals import Number, Refusal

TEXT_MAX = CONSTANTS["TEXT_MAX"]


@dataclass(frozen=True)
class Text:
    """A text by its codes: 1 to 127 are ASCII, 128 to 191 the Russian letters of type 36."""

    codes: bytes

    @classmethod
    def of(cls, text: str) -> "Text":
        """The text of a string. Refusal: 11 for a character that has no code."""
        if not all(letter in _CODES for letter in text):
            raise Refusal(Number.CHARACTER)
        return cls(bytes(_CODES[letter] for letter in text))

    def __str__(self) -> str:
        return "".join(map(values.letter_of, self.codes))


_CODES = {values.letter_of(code): code for code in range(1, 192)}


def read_text(frame: Frame) -> Text:
    """The text. Refusals: 6, 7, 8, 11."""
    text, length = lent(TEXT_MAX), ctypes.c_size_t()
    ask("rtcm2_read_text", frame.kept, len(frame.kept), text, TEXT_MAX, ctypes.byref(length))
    return Text(first(text, length.value))


def make_text(header: Header, text: Text) -> Frame:
    """A frame of 1 to 90 characters. Refusals: 5, 6, 7, 12, 11."""
    return made("rtcm2_make_text", *header.numbers(), bytes(text.codes), len(text.codes))
