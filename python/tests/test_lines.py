"""Lines: bytes in pieces of any size, more frames than a call gives, a live pipe, a reader's state kept, and what is refused."""

import ctypes
import io
import os
import threading
import unittest

import rtcm2
from rtcm2._library import ask
from rtcm2.lines import ROWS, STATE_SIZE

from . import material

STREAM = bytes.fromhex("40 66 61 41 68 7F 7F 6C 73 7F 44")
TURNED = bytes.fromhex("7F 59 5E 7E 57 40 40 53 4C 40 7B")
MIXED = material.STREAMS / "data" / "01-valid-a.bin"


class Lines(unittest.TestCase):
    """The reader and the writer."""

    def test_one_stream_whole(self) -> None:
        (frame,) = rtcm2.Reader(io.BytesIO(STREAM))
        self.assertEqual(str(frame), "6 6 5 100 3 0 0 00")
        self.assertEqual(frame.header, rtcm2.Header(6, 5, 100, 3, 0))
        self.assertEqual(frame.kept.hex(), "523200661805032300")
        (turned,) = rtcm2.Reader(io.BytesIO(TURNED))
        self.assertEqual(turned.carried, (1, 1))
        self.assertEqual(turned.bare, frame)
        self.assertEqual(list(rtcm2.Reader(io.BytesIO(STREAM[:10]))), [])

    def test_pieces_of_every_size(self) -> None:
        stream = MIXED.read_bytes()
        whole = rtcm2.Reader()
        frames = [*whole.feed(stream), *whole.end()]
        self.assertGreater(len(frames), 10)
        for size in (1, 2, 3, 7, 61, 4096):
            reader = rtcm2.Reader()
            parts = [frame for i in range(0, len(stream), size) for frame in reader.feed(stream[i : i + size])]
            parts += reader.end()
            self.assertEqual([(f, f.at) for f in parts], [(f, f.at) for f in frames])
            self.assertEqual(
                (reader.bytes_read, reader.passed, reader.counts), (len(stream), whole.passed, whole.counts)
            )

    def test_live_pipe(self) -> None:
        """A frame is given while the line is still open: no piece is waited for to be full."""
        sink, source = os.pipe()
        with os.fdopen(sink, "rb") as line, os.fdopen(source, "wb", buffering=0) as station:
            too_late = threading.Timer(60, station.close)
            too_late.start()
            station.write(STREAM)
            self.assertEqual(next(iter(rtcm2.Reader(line))).header.type, 6)
            too_late.cancel()
            self.assertFalse(station.closed)

    def test_state_goes_on(self) -> None:
        stream = MIXED.read_bytes()
        half = len(stream) // 2
        whole, reader = rtcm2.Reader(), rtcm2.Reader()
        frames = [*whole.feed(stream), *whole.end()]
        parts = reader.feed(stream[:half])
        reader = rtcm2.Reader.resumed(reader.state)
        parts += [*reader.feed(stream[half:]), *reader.end()]
        self.assertEqual(parts, frames)
        for wrong in (b"", bytes(196), reader.state[:-1]):
            with self.assertRaisesRegex(rtcm2.Refusal, "^refusal 5: "):
                rtcm2.Reader.resumed(wrong)

    def test_more_frames_than_rows(self) -> None:
        """A frame that ends with two zeros stands again behind itself; fed at once there are more than one call gives."""
        for count in (ROWS - 1, ROWS, ROWS + 1, 3 * ROWS, 3 * ROWS + 5):
            reader = rtcm2.Reader()
            frames = reader.feed(STREAM[:1] + count * STREAM[1:] + b"\0\xff")
            self.assertEqual([frame.at for frame in frames], [6 + 60 * i for i in range(count)])
            self.assertEqual((reader.bytes_read, reader.passed), (3 + 10 * count, 2))
            self.assertEqual(reader.end(), [])

    def test_waiting_frame_first(self) -> None:
        """A state may be kept while a frame waits, by a program that feeds and takes by itself."""
        kept = rtcm2.Reader()
        used, passed = ctypes.c_size_t(), ctypes.c_size_t()
        fed = (STREAM, len(STREAM), ctypes.byref(used), ctypes.byref(passed))
        ask("rtcm2_feed_all", kept._state, STATE_SIZE, *fed)
        reader = rtcm2.Reader.resumed(kept.state)
        self.assertEqual([frame.at for frame in reader.feed(STREAM[1:])], [6, 66])
        self.assertEqual([frame.at for frame in rtcm2.Reader.resumed(kept.state).feed(b"")], [6])

    def test_damaged_state(self) -> None:
        """A state that says a frame waits, and holds none."""
        state = bytearray(rtcm2.Reader().state)
        state[20] = 1
        reader = rtcm2.Reader.resumed(bytes(state))
        with self.assertRaises(rtcm2.Refusal) as refused:
            reader.feed(STREAM)
        self.assertEqual((refused.exception.number, reader.state), (rtcm2.Number.OUTSIDE, bytes(state)))

    def test_refused_after_the_end(self) -> None:
        reader = rtcm2.Reader()
        reader.end()
        for call in (reader.end, lambda: reader.feed(STREAM)):
            with self.assertRaises(rtcm2.Refusal) as refused:
                call()
            self.assertEqual(refused.exception.number, rtcm2.Number.ENDED)
        self.assertEqual(reader.bytes_read, 0)

    def test_without_source(self) -> None:
        with self.assertRaises(ValueError):
            next(iter(rtcm2.Reader()))

    def test_writer_refuses(self) -> None:
        writer = rtcm2.Writer()
        late = rtcm2.make_frame(rtcm2.Header(6, 5, 6000, 3, 0))
        with self.assertRaisesRegex(rtcm2.Refusal, "^refusal 7: "):
            writer.write(late)
        writer.carried = rtcm2.Carried(0, 256)
        with self.assertRaisesRegex(rtcm2.Refusal, "^refusal 5: "):
            writer.write(late)

    def test_remainder(self) -> None:
        """The word 1 of the stream passes after 00; one turned bit has a remainder; an xor's is the xor of both."""
        window = 0b00_011001100001100000000101_111111
        self.assertEqual(rtcm2.remainder(window), 0)
        turned, other = window ^ 1 << 12, window ^ 1 << 31
        self.assertEqual(rtcm2.remainder(turned ^ other), rtcm2.remainder(turned) ^ rtcm2.remainder(other))
        self.assertNotEqual(rtcm2.remainder(turned), 0)
        with self.assertRaises(OverflowError):
            rtcm2.remainder(1 << 32)
