"""Journals of both forms, moved and mended: the model's files of over a million bytes, and what is refused."""

import io
import unittest

import rtcm2

from . import material


def shown(journal: bytes) -> str:
    """A journal as the program show prints it."""
    lines = []
    for kept in rtcm2.Journal(io.BytesIO(journal)):
        lines.append(f"{kept.at} {str(kept.frame).partition(' ')[2]}\n")
    return "".join(lines)


class Journals(unittest.TestCase):
    """The model's journals."""

    def setUp(self) -> None:
        self.room = material.journals()

    def read(self, name: str) -> bytes:
        return (self.room / name).read_bytes()

    def test_kept_live(self) -> None:
        target = io.BytesIO()
        with open(self.room / "line.bin", "rb") as line:
            rtcm2.keep_line(line, target)
        self.assertEqual(target.getvalue(), self.read("line.new"))

    def test_shown(self) -> None:
        for name in ("old", "new"):
            self.assertEqual(shown(self.read(f"{name}.bin")), self.read(f"{name}.txt").decode())
        self.assertEqual(shown(self.read("line.new")), self.read("line.txt").decode())

    def test_moved(self) -> None:
        old, new = self.read("old.bin"), self.read("new.bin")
        for source, target, form in ((old, new, rtcm2.Form.WORDS), (new, old, rtcm2.Form.DATA)):
            moved = io.BytesIO()
            rtcm2.move(io.BytesIO(source), moved, form)
            self.assertEqual(moved.getvalue(), target)

    def test_mended(self) -> None:
        target = io.BytesIO()
        mender = rtcm2.Mender(io.BytesIO(self.read("damaged.bin")), target)
        lines = [str(event) for event in mender]
        self.assertEqual(target.getvalue(), self.read("mended.bin"))
        self.assertEqual("\n".join([*lines, mender.totals()]) + "\n", self.read("mended.txt").decode())

    def test_mended_in_small_pieces(self) -> None:
        damaged = self.read("damaged.bin")[:20000]
        whole = rtcm2.mend(damaged)
        target = io.BytesIO()
        events = list(rtcm2.Mender(Slow(damaged), target))
        self.assertEqual((target.getvalue(), events), whole)


class Slow:
    """A source that gives a few bytes at a time."""

    def __init__(self, data: bytes) -> None:
        self.left = io.BytesIO(data)
        self.turn = 0

    def read(self, size: int = -1, /) -> bytes:
        self.turn += 1
        return self.left.read(self.turn % 37 + 1)


class Refused(unittest.TestCase):
    """What a journal refuses, and where."""

    WORDS = bytes.fromhex("52 34 00 19 86 01 7f ff 37 3f c8")
    DATA = bytes.fromhex("52 32 00 66 18 05 03 23 00")

    def refused(self, data: bytes, form: rtcm2.Form | None = None) -> tuple[int, int, int]:
        """How many records came, and the refusal's number and place."""
        count = 0
        with self.assertRaises(rtcm2.Refusal) as refused:
            for _ in rtcm2.Journal(Slow(data), form):
                count += 1
        return count, refused.exception.number, refused.exception.at

    def test_numbers_and_places(self) -> None:
        self.assertEqual(self.refused(self.WORDS + b"\0"), (1, 14, 11))
        self.assertEqual(self.refused(self.WORDS + self.WORDS[:5]), (1, 15, 11))
        self.assertEqual(self.refused(self.DATA + b"\x52\x32\x20" + bytes(300)), (1, 16, 9))
        self.assertEqual(self.refused(self.WORDS[:-1] + b"\xc9"), (0, 17, 0))
        self.assertEqual(self.refused(self.DATA + self.WORDS, rtcm2.Form.DATA), (1, 14, 9))
        both = [kept.form for kept in rtcm2.Journal(io.BytesIO(self.DATA + self.WORDS))]
        self.assertEqual(both, [rtcm2.Form.DATA, rtcm2.Form.WORDS])

    def test_pair_given_back(self) -> None:
        for pair in ((0, 0), (0, 1), (1, 0), (1, 1)):
            frame = rtcm2.Frame(self.DATA, rtcm2.Carried(*pair))
            kept = rtcm2.recall(rtcm2.keep(frame, rtcm2.Form.WORDS))
            self.assertEqual((kept.frame, kept.form, kept.length), (frame, rtcm2.Form.WORDS, 11))
        with self.assertRaisesRegex(rtcm2.Refusal, "^refusal 5: "):
            rtcm2.keep(rtcm2.Frame(self.DATA, rtcm2.Carried(2, 0)), rtcm2.Form.WORDS)
