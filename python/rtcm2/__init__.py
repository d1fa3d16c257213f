"""RTCM version 2 lines from Python: frames, records, journals, the mender, season reports and the small-beacon profile, by the
proved library.

    import rtcm2

    with open("line.bin", "rb") as line:
        for frame in rtcm2.Reader(line):
            print(frame.header, rtcm2.read_record(frame))

A call that is refused raises `Refusal`, with the number of docs/REFUSALS.md and its text; nothing has changed then. Words and
numbers are those of docs/RULES.md."""

from .corrections import (
    Age,
    Correction,
    Corrections,
    Iod,
    correction_at,
    make_corrections,
    read_corrections,
)
from .frames import Carried, Frame, Header, make_frame
from .generals import (
    General,
    GeneralHead,
    GeneralNull,
    Generals,
    GeneralSystem,
    general_at,
    make_general_null,
    make_generals,
    read_general_null,
    read_generals,
    read_head,
)
from .healths import Code, Data, Health, Healths, health_at, make_healths, read_healths
from .journals import Form, Journal, Kept, keep, keep_line, move, recall
from .lines import Counts, Reader, Writer, line_of, remainder
from .menders import Changed, Lost, Mender, Passed, mend
from .nulls import Null, make_null, read_null
from .observations import (
    Edition,
    Epoch,
    Half,
    More,
    Observation,
    Observations,
    Phase,
    Range,
    Reserved,
    make_observations,
    observation_at,
    read_epoch,
    read_observations,
)
from .positions import Position, make_position, read_position
from .profiles import check_profile, cut_corrections
from .records import Record, make_record, read_record
from .refusals import Number, Refusal
from .seasons import Report, Row, Season, System, read_journal
from .texts import Text, make_text, read_text
from .values import (
    cn0_dbhz,
    delay_mm,
    general_prc_mm,
    general_udre,
    letter_of,
    prc_mm,
    rrc_mm_s,
    stops,
    udre_limit_mm,
    use_seconds,
)
from .version import VERSION

__version__ = VERSION

__all__ = [name for name in dir() if not name.startswith("_")]
