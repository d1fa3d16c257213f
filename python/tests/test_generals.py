"""Types 41 and 42: the worked frames of request 114 read and made again, and what is refused at the ends of their ranges."""

import unittest

import rtcm2
from rtcm2 import General, GeneralHead, GeneralNull, Generals

# Each worked frame: its type, its data words, and its record.
WORKED = {
    "C41a": (41, "100020 000005", Generals(GeneralHead(1, 0, 0, 0, 0), (General(1, 0, 0, 0, 0),))),
    "C41b": (
        41,
        "6FF7FF FEFFF8 200100 055555",
        Generals(GeneralHead(6, 15, 3, 3, 0), (General(63, 15, 255, 8191, 0), General(1, 0, 0, -8192, 0))),
    ),
    "C41c": (
        41,
        "211306 BE0320 29BFFF FC1101 000D55",
        Generals(
            GeneralHead(2, 1, 0, 1, 0),
            (General(24, 3, 95, 100, 0), General(1, 4, 223, -1, 0), General(32, 8, 128, -8191, 0)),
        ),
    ),
    "C41d": (41, "6128EB 91F5FF FFD555", Generals(GeneralHead(6, 1, 0, 2, 1), (General(7, 5, 200, -321, 4095),))),
    "C42a": (
        42,
        "56887C 12FFF8 0021FF F0007F F55555",
        Generals(GeneralHead(5, 6, 2, 0, 1), (General(3, 14, 9, 8191, 0), General(16, 15, 255, -8192, 4094))),
    ),
    "C42b": (
        42,
        "145820 01A240 000425 1C1815 E064A1 E0C2BC 086F00 0041A0 A9401F 45780C B903E8 6D6555",
        Generals(
            GeneralHead(1, 4, 1, 1, 1),
            tuple(General(i + 1, i, 40 * i, 1000 * i - 3000, 700 * i) for i in range(6)),
        ),
    ),
    "C41e": (
        41,
        "1107E0 018307 C20B92 A7A415 A24786 1FB1E7 6829C1 874A33 D1272C 3DE0C7 0E47F0 66F050 0006D2 5A0FA6 B4641F "
        "46966E 2EE678 783E86 5A824E 263C8C 5DC61E 966D65 E0A07D 05C2AA 8CA5A4 B49C45 86BEAB E568C8 BB854A D2CB25",
        Generals(
            GeneralHead(1, 1, 0, 0, 0),
            tuple(General(63 - i, i % 16, 5 * i, 500 * i - 4000, 0) for i in range(22)),
        ),
    ),
    "C42c": (42, "1AAAAA", GeneralNull(1, 1)),
    "C42d": (42, "2AAAAA", GeneralNull(1, 2)),
    "C42e": (42, "5AAAAA", GeneralNull(1, 5)),
    "C42f": (42, "6AAAAA", GeneralNull(1, 6)),
}
ENTRY = General(1, 0, 0, 0, 0)
HEAD = GeneralHead(1, 0, 0, 0, 0)


def header(frame_type: int, z: int = 100) -> rtcm2.Header:
    return rtcm2.Header(frame_type, 5, z, 3, 0)


def framed(frame_type: int, words: str) -> rtcm2.Frame:
    return rtcm2.make_frame(header(frame_type), bytes.fromhex(words))


class WorkedFrames(unittest.TestCase):
    """The worked frames."""

    def test_read_and_made(self) -> None:
        for name, (frame_type, words, record) in WORKED.items():
            with self.subTest(vector=name):
                frame = framed(frame_type, words)
                self.assertEqual(rtcm2.read_record(frame), record)
                self.assertEqual(rtcm2.make_record(frame.header, record), frame)

    def test_other_fill(self) -> None:
        for frame_type, words, again in ((42, "612345", "6AAAAA"), (41, "110020 000002", "110020 000005")):
            record = rtcm2.read_record(framed(frame_type, words))
            self.assertEqual(rtcm2.make_record(header(frame_type), record), framed(frame_type, again))

    def test_values(self) -> None:
        self.assertEqual([rtcm2.use_seconds(code) for code in range(4)], [15, 30, 60, 120])
        self.assertEqual(
            (rtcm2.general_prc_mm(8191), rtcm2.general_prc_mm(-8191), rtcm2.general_prc_mm(-8192)),
            (163820, -163820, None),
        )
        self.assertEqual((rtcm2.delay_mm(4094), rtcm2.delay_mm(4095)), (81880, None))
        self.assertEqual(
            (rtcm2.general_udre(0, 14), rtcm2.general_udre(3, 0), rtcm2.general_udre(0, 15)), (1848000, 1200, None)
        )
        entry = General(7, 5, 200, -321, 4095)
        self.assertEqual(
            (entry.prc_mm, entry.delay_mm, entry.udre_hundredths(0), HEAD.use_seconds), (-6420, None, 35800, 15)
        )


class Refused(unittest.TestCase):
    """What reading and making refuse."""

    def refused(self, number: int, call, *arguments) -> None:
        with self.assertRaises(rtcm2.Refusal) as refused:
            call(*arguments)
        self.assertEqual(refused.exception.number, number)

    def test_reading(self) -> None:
        for frame_type, words, number in (
            (41, "", 8),
            (41, "3AAAAA", 8),
            (42, "3AAAAA 000000", 23),
            (41, "310000 000000 000000", 23),
            (41, "110000 000000 000000", 8),
            (43, "110000 000000", 6),
        ):
            self.refused(number, rtcm2.read_generals, framed(frame_type, words))
        self.refused(23, rtcm2.read_generals, framed(42, "3AAAAA"))
        self.refused(8, rtcm2.read_generals, framed(42, "6AAAAA"))
        self.refused(23, rtcm2.read_general_null, framed(42, "AAAAAA"))
        self.refused(8, rtcm2.read_general_null, framed(42, ""))
        self.refused(6, rtcm2.read_general_null, framed(41, "1AAAAA"))
        nought = framed(41, "100000 000005")
        self.refused(10, rtcm2.general_at, nought, 0)
        self.refused(9, rtcm2.general_at, nought, 1)
        record = rtcm2.read_record(nought)
        self.assertEqual((record.entries, [place for place, _ in record.refused]), ((), [0]))
        self.refused(10, rtcm2.make_record, header(41), record)

    def test_making(self) -> None:
        make = rtcm2.make_generals
        with_delay = GeneralHead(1, 0, 0, 0, 1)
        for number, frame_type, head, entries in (
            (12, 41, HEAD, [ENTRY] * 23),
            (12, 41, with_delay, [ENTRY] * 17),
            (12, 41, HEAD, []),
            (23, 41, GeneralHead(3, 0, 0, 0, 0), []),
            (23, 41, GeneralHead(257, 0, 0, 0, 0), [ENTRY]),
            (10, 41, GeneralHead(1, 16, 0, 0, 0), [ENTRY]),
            (10, 41, GeneralHead(1, 256, 0, 0, 0), [ENTRY]),
            (10, 41, GeneralHead(1, 0, 4, 0, 0), [ENTRY]),
            (10, 41, GeneralHead(1, 0, 0, 260, 0), [ENTRY]),
            (12, 41, GeneralHead(1, 0, 0, 0, 2), [ENTRY] * 17),
            (10, 41, GeneralHead(1, 0, 0, 0, 2), [ENTRY] * 16),
            (6, 43, HEAD, [ENTRY]),
        ):
            self.refused(number, make, header(frame_type), head, entries)
        for entry in (
            General(0, 0, 0, 0, 0),
            General(64, 0, 0, 0, 0),
            General(257, 0, 0, 0, 0),
            General(1, 16, 0, 0, 0),
            General(1, 0, 256, 0, 0),
            General(1, 0, 0, 8192, 0),
            General(1, 0, 0, -8193, 0),
            General(1, 0, 0, 65536, 0),
            General(1, 0, 0, 0, 1),
            General(1, 0, 0, 0, 65536),
        ):
            self.refused(10, make, header(41), HEAD, [entry])
        self.refused(10, make, header(41), with_delay, [General(1, 0, 0, 0, 4096)])
        self.refused(7, make, header(41, z=6000), GeneralHead(3, 0, 0, 0, 0), [])

    def test_nulls_and_values(self) -> None:
        self.refused(23, rtcm2.make_general_null, header(42), GeneralNull(2, 3))
        self.refused(12, rtcm2.make_general_null, header(42), GeneralNull(0, 1))
        self.refused(12, rtcm2.make_general_null, header(42), GeneralNull(257, 1))
        self.refused(6, rtcm2.make_general_null, header(41), GeneralNull(1, 1))
        self.refused(10, rtcm2.general_prc_mm, 8192)
        self.refused(10, rtcm2.general_prc_mm, 65536)
        self.refused(10, rtcm2.delay_mm, 4096)
        self.refused(10, rtcm2.delay_mm, 65536)
        self.refused(5, rtcm2.general_udre, 8, 16)
        self.refused(10, rtcm2.general_udre, 7, 16)
        self.refused(10, rtcm2.use_seconds, 4)
        self.refused(10, rtcm2.use_seconds, 256)
