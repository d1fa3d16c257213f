"""Journals of frames, in both forms: the data of each word, or its thirty bits with the two before them."""

import ctypes
import enum
from dataclasses import dataclass
from typing import Iterator

from ._header import CONSTANTS
from ._library import address, ask, first, lent, narrowed
from .frames import FRAME_MAX, Carried, Frame
from .lines import Reader, Source, Target, pieces
from .refusals import Refusal

WORDS_MAX = CONSTANTS["WORDS_MAX"]
"""The longest record of either form."""


class Form(enum.Enum):
    """The two forms of a record, by their marks."""

    DATA = b"\x52\x32"
    WORDS = b"\x52\x34"


@dataclass(frozen=True)
class Kept:
    """A record of a journal: the place of its first byte, its form, its length and its frame."""

    at: int
    form: Form
    length: int
    frame: Frame


def keep(frame: Frame, form: Form = Form.DATA) -> bytes:
    """The record of a frame. One that keeps the words starts from the frame's carried bits; 5 where one is neither 0 nor 1."""
    if form is Form.DATA:
        return frame.kept
    words, length = lent(WORDS_MAX), ctypes.c_size_t()
    carried = [narrowed(bit, 8) for bit in frame.carried]
    ask("rtcm2_keep_words", frame.kept, len(frame.kept), *carried, words, WORDS_MAX, ctypes.byref(length))
    return first(words, length.value)


def recall(data: bytes, form: Form | None = None) -> Kept:
    """The record at the start of the bytes: of the form named, or of the one that its mark says. What follows it is ignored.
    Refusals: 14, 15, 16, 15, 16, then 17 where it keeps the words."""
    return _recalled(bytes(data), 0, 0, form)


def _recalled(held: bytes, place: int, at: int, form: Form | None) -> Kept:
    """The record at a place in the bytes, which is the place `at` of a journal."""
    if form is None:
        form = Form.WORDS if held[place : place + 2] == Form.WORDS.value else Form.DATA
    if form is Form.DATA:
        frame = Frame(held[place : place + FRAME_MAX])
        return Kept(at, form, len(frame.kept), frame)
    record, read, length = lent(FRAME_MAX), ctypes.c_size_t(), ctypes.c_size_t()
    d29, d30 = ctypes.c_uint8(), ctypes.c_uint8()
    places = [ctypes.byref(number) for number in (d29, d30, read, length)]
    ask("rtcm2_recall_words", address(held) + place, len(held) - place, record, FRAME_MAX, *places)
    return Kept(at, form, read.value, Frame(first(record, length.value), Carried(d29.value, d30.value)))


class Journal:
    """The records of a journal, one after the other: `for kept in Journal(file)`. Records of both forms may stand in it, or
    of one alone where it is named. Where bytes are no record, the refusal is raised with their place, and what came before
    has been given."""

    def __init__(self, source: Source, form: Form | None = None) -> None:
        self._source = source
        self._form = form

    def __iter__(self) -> Iterator[Kept]:
        held, begin = b"", 0
        for piece in pieces(self._source):
            held += piece
            place = 0
            while len(held) - place >= WORDS_MAX:
                kept = self._at(held, place, begin + place)
                yield kept
                place += kept.length
            held, begin = held[place:], begin + place
        place = 0
        while place < len(held):
            kept = self._at(held, place, begin + place)
            yield kept
            place += kept.length

    def _at(self, held: bytes, place: int, at: int) -> Kept:
        try:
            return _recalled(held, place, at, self._form)
        except Refusal as refusal:
            raise Refusal(refusal.number, refusal.call, at) from None


def move(source: Source, target: Target, form: Form) -> int:
    """Moves a journal of the other form to this one, and answers how many records it has. To the form that keeps the words a
    record starts from 00; from it, its carried bits are left out. A refusal ends it; what came before is written."""
    other = Form.DATA if form is Form.WORDS else Form.WORDS
    count = 0
    for kept in Journal(source, other):
        target.write(keep(kept.frame, form))
        count += 1
    return count


def keep_line(source: Source, target: Target, form: Form = Form.WORDS) -> int:
    """Keeps the frames of a line in a journal, each as soon as it stands, and answers how many they are."""
    count = 0
    for frame in Reader(source):
        target.write(keep(frame, form))
        count += 1
    return count
