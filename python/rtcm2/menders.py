"""Mending a journal that keeps the words: single turned bits are turned back, and what can't be mended stays as it was."""

import ctypes
import enum
import io
from dataclasses import dataclass
from typing import Iterator

from ._header import CONSTANTS
from ._library import ask, first, lent
from .journals import WORDS_MAX
from .lines import Source, Target, pieces

REPORT_MAX = CONSTANTS["REPORT_MAX"]


class Step(enum.IntEnum):
    """What a step of the mender finds."""

    END = 0
    WHOLE = 1
    LOST = 2
    CUT = 3
    NUMBERLESS = 4
    PASSED = 5


@dataclass(frozen=True)
class Changed:
    """A byte was changed."""

    at: int
    old: int
    new: int

    def __str__(self) -> str:
        return f"{self.at} {self.old} {self.new}"


@dataclass(frozen=True)
class Lost:
    """The record at this place is lost; its bytes stay."""

    at: int

    def __str__(self) -> str:
        return f"lost {self.at}"


@dataclass(frozen=True)
class Passed:
    """So many bytes from this place on begin no record that could be mended."""

    at: int
    length: int

    def __str__(self) -> str:
        return f"passed {self.at} {self.length}"


Event = Changed | Lost | Passed


def _events(text: bytes) -> list[Event]:
    """The report of a step, which the library gives as lines."""
    events: list[Event] = []
    for line in text.decode("ascii").splitlines():
        words = line.split()
        events.append(Lost(int(words[1])) if words[0] == "lost" else Changed(*map(int, words)))
    return events


class Mender:
    """Mends the journal of a source: `for event in Mender(source, target)` tells what was done, in rising places, and writes
    the mended journal, as many bytes as the source has, to the target. The four totals are right once it has ended."""

    def __init__(self, source: Source, target: Target) -> None:
        self._source = source
        self._target = target
        self._report = lent(REPORT_MAX)
        self._searching = False
        self._at = 0
        self._stretch = 0
        self.records = 0
        self.changed = 0
        self.lost = 0
        self.passed = 0

    def __iter__(self) -> Iterator[Event]:
        held = bytearray()
        for piece in pieces(self._source):
            held += piece
            yield from self._run(held, WORDS_MAX)
        yield from self._run(held, 1)
        yield from self._stretched()

    def totals(self) -> str:
        """The last line of a report."""
        return f"records {self.records} changed {self.changed} lost {self.lost} passed {self.passed}"

    def _run(self, held: bytearray, least: int) -> Iterator[Event]:
        """Takes steps while at least so many bytes are left, writes what they dealt with, and leaves the rest."""
        place = 0
        while len(held) - place >= least:
            step, read, events = self._step(held, place)
            if step is not Step.PASSED:
                yield from self._stretched()
            yield from events
            self._count(step, events)
            self._at += read
            place += read
        self._target.write(bytes(held[:place]))
        del held[:place]

    def _step(self, held: bytearray, place: int) -> tuple[Step, int, list[Event]]:
        """One step at a place; a whole record is put back there."""
        size = min(len(held) - place, WORDS_MAX)
        window = (ctypes.c_uint8 * size).from_buffer_copy(held, place)
        step, read, written = ctypes.c_uint8(), ctypes.c_size_t(), ctypes.c_size_t()
        places = [ctypes.byref(number) for number in (step, read, written)]
        ask("rtcm2_mend", window, size, self._at, int(self._searching), self._report, REPORT_MAX, *places)
        held[place : place + size] = bytes(window)
        return Step(step.value), read.value, _events(first(self._report, written.value))

    def _count(self, step: Step, events: list[Event]) -> None:
        self._searching = step in (Step.NUMBERLESS, Step.PASSED)
        self.records += step is Step.WHOLE
        self.changed += sum(isinstance(event, Changed) for event in events)
        self.lost += step in (Step.LOST, Step.CUT, Step.NUMBERLESS)
        self.passed += step is Step.PASSED
        self._stretch += step is Step.PASSED

    def _stretched(self) -> Iterator[Event]:
        """The stretch of bytes passed over up to here, where there is one."""
        if self._stretch:
            yield Passed(self._at - self._stretch, self._stretch)
            self._stretch = 0


def mend(journal: bytes) -> tuple[bytes, list[Event]]:
    """A whole journal mended, and what was done."""
    target = io.BytesIO()
    events = list(Mender(io.BytesIO(journal), target))
    return target.getvalue(), events
