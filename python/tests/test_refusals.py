"""Refusals: the header's numbers, the orders at the ends of every range, and numbers that no C type holds."""

import pickle
import re
import subprocess
import unittest

import rtcm2
from rtcm2 import _header

from . import material

HEADER = rtcm2.Header(1, 5, 100, 3, 0)
WIDE = (2**8 + 1, 2**16 + 1, 2**32 + 1, 2**64 + 1, -255, -(2**70))


def correction(
    satellite: int = 1, prc: int = 0, rrc: int = 0, issue: rtcm2.Iod | rtcm2.Age = rtcm2.Iod(0)
) -> rtcm2.Correction:
    return rtcm2.Correction(0, 0, satellite, prc, rrc, issue)


def headed(frame_type: int, **others: int) -> rtcm2.Header:
    numbers = {"type": frame_type, "station": 5, "z": 100, "sequence": 3, "health": 0, **others}
    return rtcm2.Header(**numbers)


class Refused(unittest.TestCase):
    """Each wrong call is refused with its number."""

    def refused(self, number: int, call, *arguments) -> None:
        with self.assertRaises(rtcm2.Refusal) as refused:
            call(*arguments)
        self.assertEqual(refused.exception.number, number)

    def test_header(self) -> None:
        """The header beside the library is the repository's; the package has its refusals, its version, and its functions,
        which are those that the library exports; and calls each of them but three, which others stand for."""
        header = (material.ROOT / "include" / "rtcm2.h").read_text(encoding="utf-8")
        self.assertEqual(header, (_header.HERE / "rtcm2.h").read_text(encoding="utf-8"))
        self.assertEqual(_header.NUMBERS, {number.name: number.value for number in rtcm2.Number})
        self.assertEqual(set(_header.TEXTS), set(_header.NUMBERS.values()))
        self.assertEqual(re.findall(r'^#define RTCM2_VERSION "(.*)"$', header, re.MULTILINE), [rtcm2.VERSION])
        symbols = subprocess.run(
            ["nm", "-D", _header.HERE / "librtcm2.so"], capture_output=True, text=True, check=True
        ).stdout
        self.assertEqual(set(_header.CALLS), set(re.findall(r"^\w+ T (rtcm2_\w+)$", symbols, re.MULTILINE)))
        sources = "".join(path.read_text(encoding="utf-8") for path in _header.HERE.glob("*.py"))
        uncalled = {name for name in _header.CALLS if f'"{name}"' not in sources}
        self.assertEqual(uncalled, {"rtcm2_state_size", "rtcm2_feed", "rtcm2_feed_all"})

    def test_exception(self) -> None:
        refusal = rtcm2.Refusal(8, "rtcm2_read_position", 12)
        self.assertEqual(str(refusal), "refusal 8 at byte 12: N doesn't fit the type (rtcm2_read_position)")
        self.assertEqual(pickle.loads(pickle.dumps(refusal)), refusal)

    def test_headers(self) -> None:
        for field in ("type", "station", "z", "sequence", "health"):
            for number in WIDE[1:] if field in ("station", "z") else WIDE:
                self.refused(5, rtcm2.make_null, headed(6, **{field: number}), rtcm2.Null(0))
                self.refused(5, rtcm2.make_frame, headed(6, **{field: number}))
        self.refused(5, rtcm2.make_frame, HEADER, bytes(4))
        self.refused(5, rtcm2.make_frame, HEADER, bytes(96))
        with self.assertRaises(TypeError):
            rtcm2.make_frame(headed(6, station="5"))

    def test_corrections(self) -> None:
        make = rtcm2.make_corrections
        for wide in WIDE:
            for field in ("satellite", "prc", "rrc"):
                if field == "prc" and abs(wide) < 2**15 or field == "rrc" and abs(wide) < 2**7:
                    continue
                self.refused(10, make, HEADER, [correction(**{field: wide})])
            self.refused(10, make, HEADER, [correction(issue=rtcm2.Iod(wide))])
            self.refused(10, make, headed(31), [correction(issue=rtcm2.Age(wide, 0))])
            self.refused(10, make, headed(31), [correction(issue=rtcm2.Age(0, wide))])
        self.refused(10, make, HEADER, [correction(issue=rtcm2.Age(0, 0))])
        self.refused(10, make, headed(31), [correction(issue=rtcm2.Iod(0))])
        for change, tb in ((1, 120), (0, 128), (0, 129), (0, 255), (2, 0), (2, -256)):
            self.refused(10, make, headed(31), [correction(issue=rtcm2.Age(change, tb))])
        self.refused(12, make, HEADER, [])
        self.refused(12, make, HEADER, [correction(satellite=300)] * 19)
        self.refused(7, make, headed(1, z=6000), [])
        self.refused(6, make, headed(3, z=6000), [])
        frame = make(headed(31), [correction(issue=rtcm2.Age(1, 119))])
        self.refused(9, rtcm2.correction_at, frame, 1)
        self.refused(9, rtcm2.correction_at, frame, -1)
        self.refused(9, rtcm2.correction_at, frame, 2**64)
        self.refused(6, rtcm2.read_healths, frame)
        self.refused(10, rtcm2.make_record, HEADER, rtcm2.Corrections((correction(),), ((1, rtcm2.Refusal(10)),)))

    def test_other_layouts(self) -> None:
        health = rtcm2.Health(0, 1, 0, rtcm2.Code(0), 0, 0, 0, 0, 0, 0)
        self.refused(10, rtcm2.make_healths, headed(33), [health])
        for data, reserved in ((0, 4), (2, 0), (1, -1), (0, 7)):
            wide = rtcm2.Health(0, 1, 0, rtcm2.Data(data, reserved), 0, 0, 0, 0, 0, 0)
            self.refused(10, rtcm2.make_healths, headed(33), [wide])
        self.refused(12, rtcm2.make_healths, headed(5), [health] * 32)
        self.refused(12, rtcm2.make_null, headed(6), rtcm2.Null(256))
        self.refused(8, rtcm2.read_null, rtcm2.make_frame(headed(6), bytes(6)))
        for cm in (-(2**31), 2**31, 2**32, -(2**80)):
            self.refused(10, rtcm2.make_position, headed(3), rtcm2.Position(0, cm, 0))
        self.refused(11, rtcm2.make_text, headed(16), rtcm2.Text(b"\x80"))
        self.refused(12, rtcm2.make_text, headed(16), rtcm2.Text(b"A" * 91))
        self.refused(11, rtcm2.Text.of, "Привет, ё")
        self.assertEqual(str(rtcm2.read_text(rtcm2.make_text(headed(36), rtcm2.Text.of("Привет")))), "Привет")

    def test_observations(self) -> None:
        entry = rtcm2.Observation(rtcm2.More(0), 0, 0, 1, 0, rtcm2.Phase(0, 0))
        epoch = rtcm2.Epoch(0, 0, 599999)
        frame = rtcm2.make_observations(headed(18), epoch, [entry], rtcm2.Edition.BD)
        self.assertEqual(rtcm2.read_observations(frame, rtcm2.Edition.BD).entries, (entry,))
        self.refused(5, rtcm2.make_observations, headed(18), epoch, [entry], 256)
        self.refused(5, rtcm2.observation_at, frame, 0, 2)
        self.refused(5, rtcm2.read_record, frame)
        self.refused(10, rtcm2.make_observations, headed(18), epoch, [entry], rtcm2.Edition.GOST)
        self.refused(10, rtcm2.make_observations, headed(18), rtcm2.Epoch(0, 0, 2**32), [entry], 1)
        wide = rtcm2.Observation(rtcm2.More(0), 0, 0, 1, 0, rtcm2.Phase(0, 2**31))
        self.refused(10, rtcm2.make_observations, headed(18), epoch, [wide], 1)

    def test_values(self) -> None:
        self.assertEqual(
            (rtcm2.prc_mm(0, 32767), rtcm2.prc_mm(1, -32767), rtcm2.prc_mm(0, -32768)), (655340, -10485440, None)
        )
        self.assertEqual((rtcm2.rrc_mm_s(0, 127), rtcm2.rrc_mm_s(1, -127), rtcm2.rrc_mm_s(1, -128)), (254, -4064, None))
        self.assertEqual(
            (rtcm2.udre_limit_mm(3, 2), rtcm2.udre_limit_mm(6, 2), rtcm2.udre_limit_mm(0, 3)), (2400, 8000, None)
        )
        self.assertEqual((rtcm2.cn0_dbhz(31), rtcm2.cn0_dbhz(0)), (55, None))
        self.assertTrue(rtcm2.stops(0, -128) and rtcm2.stops(-32768, 0) and not rtcm2.stops(1, 1))
        self.refused(10, rtcm2.prc_mm, 2, 0)
        self.refused(10, rtcm2.prc_mm, 256, 0)
        self.refused(10, rtcm2.prc_mm, 0, 32768)
        self.refused(10, rtcm2.rrc_mm_s, 0, 128)
        self.refused(10, rtcm2.stops, 2**16, 0)
        self.refused(5, rtcm2.udre_limit_mm, 256, 4)
        self.refused(10, rtcm2.cn0_dbhz, 32)
        self.refused(11, rtcm2.letter_of, 256)
