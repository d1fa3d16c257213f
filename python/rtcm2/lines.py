"""The line: bytes to frames and frames to bytes."""

import ctypes
from typing import Iterable, Iterator, NamedTuple, Protocol

from ._header import CONSTANTS
from ._library import CALLS, address, ask, first, lent, narrowed
from .frames import FRAME_MAX, Carried, Frame
from .refusals import Number, Refusal

STATE_SIZE = CONSTANTS["STATE_SIZE"]
LINE_MAX = CONSTANTS["LINE_MAX"]
READ_ROW = CONSTANTS["READ_ROW"]
ROWS = 512
"""How many frames one call of the library gives at most: more than a read of a live line brings."""


class Source(Protocol):
    """Something to read bytes from: a file, a pipe, a device, a socket's makefile("rb")."""

    def read(self, size: int = ..., /) -> bytes | None:
        """At most so many bytes; none at the end."""


class Target(Protocol):
    """Something to write bytes to."""

    def write(self, data: bytes, /) -> object:
        """Writes all of the bytes."""


def pieces(source: Source, size: int = 65536) -> Iterator[bytes]:
    """What a source gives, piece by piece up to its end, each as soon as it is there."""
    read = getattr(source, "read1", source.read)
    while True:
        piece = read(size)
        if piece is None:
            raise BlockingIOError("rtcm2 reads from sources that wait for their bytes")
        if not piece:
            return
        yield bytes(piece)


class Counts(NamedTuple):
    """How many positions a word has ruled out: with an odd number of ones in its remainder, and with an even one."""

    odd: int
    even: int


def frame_of(row: bytes) -> Frame:
    """The frame of a row that rtcm2_read has put."""
    return Frame(row[6:], Carried(row[4], row[5]), int.from_bytes(row[:4], "little"))


class Reader:
    """Finds the frames of a line.

    Over a source it is an iterator: `for frame in Reader(file)` gives each frame as soon as it stands, on a live line too,
    and after the source's end those that the end releases. Without one, bytes are pushed: `feed` gives the frames that they
    bring, `end` the last ones. Every waiting frame is taken at once, so that no frame that stands is lost. What a read of the
    source brings is one call of the library. One reader is for one thread at a time."""

    def __init__(self, source: Source | None = None) -> None:
        self._source = source
        self._state = lent(STATE_SIZE)
        ask("rtcm2_start", self._state, STATE_SIZE)
        self._rows = lent(ROWS * READ_ROW)
        self.bytes_read = 0
        """How many bytes were fed."""
        self.passed = 0
        """How many of them carry no line bits."""

    @classmethod
    def resumed(cls, state: bytes, source: Source | None = None) -> "Reader":
        """A reader that goes on from a `state` kept before; 5 where the bytes hold none. Its totals begin at 0."""
        if len(state) < STATE_SIZE:
            raise Refusal(Number.OUTSIDE, "rtcm2_counts")
        reader = cls(source)
        reader._state = type(reader._state).from_buffer_copy(state)
        reader.counts
        return reader

    @property
    def state(self) -> bytes:
        """The reader's state, to be kept on disk or sent to another machine."""
        return bytes(self._state)

    @property
    def counts(self) -> Counts:
        """The positions that a word has ruled out so far, each modulo 2^32."""
        odd, even = ctypes.c_uint32(), ctypes.c_uint32()
        ask("rtcm2_counts", self._state, STATE_SIZE, ctypes.byref(odd), ctypes.byref(even))
        return Counts(odd.value, even.value)

    def feed(self, data: bytes) -> list[Frame]:
        """Feeds all of the bytes, and gives the frames that they bring. Refusals: 5, and 3 after the end."""
        data = bytes(data)
        start, place = address(data), 0
        used, passed, count = ctypes.c_size_t(), ctypes.c_size_t(), ctypes.c_size_t()
        places = [ctypes.byref(number) for number in (used, passed, count)]
        frames: list[Frame] = []
        while True:
            rest = (start + place, len(data) - place)
            ask("rtcm2_read", self._state, STATE_SIZE, *rest, self._rows, len(self._rows), *places)
            place += used.value
            self.bytes_read += used.value
            self.passed += passed.value
            rows = first(self._rows, READ_ROW * count.value)
            frames.extend(frame_of(rows[i : i + READ_ROW]) for i in range(0, len(rows), READ_ROW))
            if place == len(data) and count.value < ROWS:
                return frames

    def end(self) -> list[Frame]:
        """Ends the input, and gives the frames that the end releases. Refusals: 5, and 3 where it has ended before."""
        ask("rtcm2_end", self._state, STATE_SIZE)
        return list(self._waiting())

    def _waiting(self) -> Iterator[Frame]:
        """Takes every frame that waits."""
        frame, length, at = lent(FRAME_MAX), ctypes.c_size_t(), ctypes.c_uint32()
        d29, d30 = ctypes.c_uint8(), ctypes.c_uint8()
        places = [ctypes.byref(place) for place in (length, at, d29, d30)]
        take = CALLS["rtcm2_take"]
        while not (number := take(self._state, STATE_SIZE, frame, FRAME_MAX, *places)):
            yield Frame(first(frame, length.value), Carried(d29.value, d30.value), at.value)
        if number != Number.NO_FRAME:
            raise Refusal(number, "rtcm2_take")

    def __iter__(self) -> Iterator[Frame]:
        if self._source is None:
            raise ValueError("this reader has no source: feed it, or give it one")
        for piece in pieces(self._source):
            yield from self.feed(piece)
        yield from self.end()


class Writer:
    """Writes frames as the bytes of a line, each after the last two bits of the one before it."""

    def __init__(self) -> None:
        self.carried = Carried()

    def open(self) -> bytes:
        """The lead byte of a stream, six zero bits; the next frame is written after 00."""
        line = lent(1)
        ask("rtcm2_open", line, 1)
        self.carried = Carried()
        return bytes(line)

    def write(self, frame: Frame) -> bytes:
        """The bytes of a frame. Refusals: 5 (a carried bit neither 0 nor 1), 7."""
        line, length = lent(LINE_MAX), ctypes.c_size_t()
        d29, d30 = (ctypes.c_uint8(narrowed(bit, 8)) for bit in self.carried)
        places = [ctypes.byref(place) for place in (d29, d30)]
        ask("rtcm2_write", frame.kept, len(frame.kept), *places, line, LINE_MAX, ctypes.byref(length))
        self.carried = Carried(d29.value, d30.value)
        return first(line, length.value)


def line_of(frames: Iterable[Frame]) -> bytes:
    """A whole stream: the lead byte and the frames behind it. Refusal: 7."""
    writer = Writer()
    return writer.open() + b"".join(map(writer.write, frames))


def remainder(window: int) -> int:
    """The remainder of a window, 32 line bits, D29*, D30* and D1 to D30, the first sent highest: 0 where the word passes."""
    if not 0 <= window < 1 << 32:
        raise OverflowError("a window has 32 bits")
    found = ctypes.c_uint8()
    ask("rtcm2_remainder", window, ctypes.byref(found))
    return found.value
