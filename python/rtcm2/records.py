"""Any record, by the frame's type."""

from typing import Callable

from .corrections import Correction, Corrections, Iod, make_corrections, read_corrections
from .frames import Frame, Header
from .generals import (
    General,
    GeneralNull,
    Generals,
    make_general_null,
    make_generals,
    read_general_null,
    read_generals,
)
from .healths import Healths, make_healths, read_healths
from .nulls import Null, make_null, read_null
from .observations import NO_EDITION, Observations, make_observations, read_observations
from .positions import Position, make_position, read_position
from .texts import Text, make_text, read_text

Record = Corrections | Healths | Observations | Generals | Position | Null | GeneralNull | Text


def read_record(frame: Frame, edition: int = NO_EDITION) -> Record:
    """The record of a frame, by its type. Refusals: 6 for a type without a record, else those of its layout; types 18 and 19
    are read by an edition, and are 5 where none is named."""
    readers: dict[int, Callable[[Frame], Record]] = {
        **dict.fromkeys((1, 9, 31, 34), read_corrections),
        **dict.fromkeys((3, 32), read_position),
        **dict.fromkeys((5, 33), read_healths),
        **dict.fromkeys((16, 36), read_text),
        **dict.fromkeys((18, 19), lambda frame: read_observations(frame, edition)),
        **dict.fromkeys((41, 42), read_generals),
        6: read_null,
    }
    kind = frame.header.type
    if kind == 34 and frame.n < 2:
        return read_null(frame)
    if kind == 42 and frame.n == 1:
        return read_general_null(frame)
    return readers.get(kind, read_null)(frame)


def make_record(header: Header, record: Record) -> Frame:
    """The frame of a record. Refusals: those of its layout's maker; 10 for entries of which some could not be read."""
    if isinstance(record, Corrections):
        unread = [Correction(0, 0, 0, 0, 0, Iod(0))] * len(record.refused)
        return make_corrections(header, [*record.entries, *unread])
    if isinstance(record, Generals):
        lacking = [General(0, 0, 0, 0, 0)] * len(record.refused)
        return make_generals(header, record.head, [*record.entries, *lacking])
    if isinstance(record, GeneralNull):
        return make_general_null(header, record)
    if isinstance(record, Healths):
        return make_healths(header, record.entries)
    if isinstance(record, Observations):
        return make_observations(header, record.epoch, record.entries, record.edition)
    if isinstance(record, Position):
        return make_position(header, record)
    if isinstance(record, Null):
        return make_null(header, record)
    return make_text(header, record)
