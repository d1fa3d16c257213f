"""The worked vectors: the frames that the test programs of crates/ print, read and made again by the package."""

import re
import unittest

import rtcm2

from . import material

PROGRAMS = [
    "test_corrections",
    "test_healths",
    "test_positions",
    "test_nulls",
    "test_texts",
    "test_glonass",
    "test_observations",
]
NAMED = re.compile(r"(\w+) type (\d+), N (\d+)")


def number_or_stop(number: int | None, unit: str) -> str:
    return "stop" if number is None else f"{number} {unit}"


def correction_line(entry: rtcm2.Correction) -> str:
    issue = entry.issue
    last = f"IOD {issue.iod}" if isinstance(issue, rtcm2.Iod) else f"change {issue.change}, tb {issue.tb}"
    prc = f"PRC {entry.prc} ({number_or_stop(entry.prc_mm, 'mm')})"
    rrc = f"RRC {entry.rrc} ({number_or_stop(entry.rrc_mm_s, 'mm/s')})"
    return f"scale {entry.scale}, UDRE {entry.udre}, satellite {entry.satellite}, {prc}, {rrc}, {last}"


def health_line(entry: rtcm2.Health) -> str:
    condition = entry.condition
    if isinstance(condition, rtcm2.Code):
        link, health = "link", f"health {condition.code}"
    else:
        link, health = "link", f"data health {condition.health}, reserved {condition.reserved}"
    before = f"reserved {entry.reserved_first}, satellite {entry.satellite}, {link} {entry.link}, {health}"
    behind = f"enable {entry.enable}, new {entry.new_data}, loss {entry.loss_warning}, time {entry.time}"
    return f"{before}, C/N0 code {entry.cn0}, {behind}, reserved {entry.reserved_last}"


def observation_line(edition: rtcm2.Edition, entry: rtcm2.Observation) -> str:
    mark, measured = entry.mark, entry.measured
    if isinstance(measured, rtcm2.Phase):
        last = f"losses {measured.losses}, phase {measured.phase}"
    else:
        last = f"multipath {measured.multipath}, range {measured.range}"
    numbers = f"code {entry.code}, system {entry.system}, satellite {entry.satellite}, quality {entry.quality}"
    return f"edition {edition.name}: {type(mark).__name__.lower()} {mark.bit}, {numbers}, {last}"


def observation_lines(frame: rtcm2.Frame, epoch: rtcm2.Epoch) -> list[str]:
    lines = [f"frequency {epoch.frequency}, smoothing {epoch.smoothing}, time {epoch.time}"]
    for index in range(len(rtcm2.read_observations(frame, rtcm2.Edition.BD).entries)):
        lines.extend(
            observation_line(edition, rtcm2.observation_at(frame, index, edition)) for edition in rtcm2.Edition
        )
    return lines


def lines_of(frame: rtcm2.Frame) -> list[str]:
    """A frame's record as the test programs print it."""
    record = rtcm2.read_record(frame, rtcm2.Edition.BD)
    if isinstance(record, rtcm2.Corrections):
        return [correction_line(entry) for entry in record.entries]
    if isinstance(record, rtcm2.Healths):
        return [health_line(entry) for entry in record.entries]
    if isinstance(record, rtcm2.Observations):
        return observation_lines(frame, record.epoch)
    if isinstance(record, rtcm2.Position):
        return [f"X {record.x_cm}, Y {record.y_cm}, Z {record.z_cm} cm"]
    if isinstance(record, rtcm2.Null):
        return [f"null, N {record.n}"]
    return ["codes " + ", ".join(map(str, record.codes))]


def words(line: str, label: str) -> bytes:
    """The words of a line `LABEL words ..`."""
    named, _, numbers = line.partition(" words ")
    assert named == label
    return b"" if numbers == "none" else bytes.fromhex(numbers.replace(" ", ""))


def vectors(program: str) -> list[tuple[str, rtcm2.Frame, list[str]]]:
    """The named frames that a program prints, with the lines that follow each."""
    lines = material.printed(program).splitlines()
    found = []
    for i, line in enumerate(lines):
        if named := NAMED.fullmatch(line):
            while lines[i + 3].startswith("header words"):
                i += 2
            data = words(lines[i + 2], "data")
            kept = b"\x52\x32" + bytes([int(named[3])]) + words(lines[i + 1], "header") + data
            found.append((named[1], rtcm2.Frame(kept), lines[i + 3 :]))
    return found


class Vectors(unittest.TestCase):
    """Each worked frame is read as it is printed, and made again from its record, in both editions where it has two."""

    def test_vectors(self) -> None:
        for program in PROGRAMS:
            named = vectors(program)
            self.assertGreater(len(named), 1)
            for name, frame, behind in named:
                with self.subTest(program=program, vector=name):
                    lines = lines_of(frame)
                    self.assertEqual(lines, behind[: len(lines)])
                    for edition in rtcm2.Edition:
                        record = rtcm2.read_record(frame, edition)
                        self.assertEqual(rtcm2.make_record(frame.header, record), frame)

    def test_writer(self) -> None:
        """The worked frames' line bytes, each read again: the last is a turned one, whose frame is written as the tenth."""
        streams = [bytes.fromhex(line) for line in material.printed("test_writer").splitlines()]
        for stream in streams[:-1]:
            reader = rtcm2.Reader()
            frames = [*reader.feed(stream), *reader.end()]
            self.assertEqual(rtcm2.line_of(frames), stream)

    def test_profile(self) -> None:
        """The lists of request 111 cut into frames."""
        printed = material.printed("test_profile")
        for count, sequence in ((1, 3), (3, 7), (4, 7), (18, 6)):
            corrections = [
                rtcm2.Correction(i % 2, i % 4, 32 - i, 100 * i - 850, i - 9, rtcm2.Iod(11 * i)) for i in range(count)
            ]
            frames = rtcm2.cut_corrections(rtcm2.Header(9, 5, 100, sequence, 0), corrections)
            lines = [f"P{count}, sequence {sequence}: frames {len(frames)}"]
            for frame in frames:
                rtcm2.check_profile(frame)
                spaced = frame.kept[3:].hex(" ", -3).upper().split(" ")
                lines.append(f"header words {' '.join(spaced[:2])}\ndata words {' '.join(spaced[2:])}")
            self.assertIn("\n".join(lines) + "\n", printed)
            read = [entry for frame in frames for entry in rtcm2.read_corrections(frame).entries]
            self.assertEqual(read, corrections)
