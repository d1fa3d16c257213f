"""The model's streams: every frame that the package hands out, keeps, reads, makes again and writes is summed as the model
sums it, and the text is that of crates/test_streams/stdout."""

import unittest

import rtcm2
from rtcm2.journals import FRAME_MAX
from rtcm2.lines import LINE_MAX

from . import material


class Sum:
    """A sum of numbers and the sum of all sums on the way, modulo 2^64."""

    def __init__(self) -> None:
        self.numbers = 0
        self.sums = 0

    def add(self, numbers) -> None:
        for number in numbers:
            self.numbers = (self.numbers + number) % 2**64
            self.sums = (self.sums + self.numbers) % 2**64


def unsigned(number: int, bits: int) -> int:
    return number % 2**bits


def correction_numbers(entry: rtcm2.Correction) -> list[int]:
    issue = entry.issue
    last = [issue.iod] if isinstance(issue, rtcm2.Iod) else [issue.change, issue.tb]
    return [entry.scale, entry.udre, entry.satellite, unsigned(entry.prc, 16), unsigned(entry.rrc, 8), *last]


def health_numbers(entry: rtcm2.Health) -> list[int]:
    condition = entry.condition
    bits = [condition.code] if isinstance(condition, rtcm2.Code) else [condition.health, condition.reserved]
    before = [entry.reserved_first, entry.satellite, entry.link]
    return [
        *before,
        *bits,
        entry.cn0,
        entry.enable,
        entry.new_data,
        entry.loss_warning,
        entry.time,
        entry.reserved_last,
    ]


def observation_numbers(entry: rtcm2.Observation) -> list[int]:
    which = [rtcm2.Half, rtcm2.Reserved, rtcm2.More].index(type(entry.mark))
    measured = entry.measured
    if isinstance(measured, rtcm2.Phase):
        last = [measured.losses, unsigned(measured.phase, 32)]
    else:
        last = [measured.multipath, measured.range]
    return [which, entry.mark.bit, entry.code, entry.system, entry.satellite, entry.quality, *last]


def epoch_numbers(epoch: rtcm2.Epoch) -> list[int]:
    return [epoch.frequency, epoch.smoothing, epoch.time]


def head_numbers(head: rtcm2.GeneralHead) -> list[int]:
    return [head.system, head.signal, head.ephemeris, head.period, head.ionosphere]


def general_numbers(entry: rtcm2.General) -> list[int]:
    return [entry.satellite, entry.udre, entry.iod, unsigned(entry.prc, 16), entry.delay]


def add_readable(fields: Sum, record: rtcm2.Corrections | rtcm2.Generals, numbers) -> None:
    """Sums the entries before the first that is refused, and raises that refusal."""
    readable = record.refused[0][0] if record.refused else len(record.entries)
    for entry in record.entries[:readable]:
        fields.add(numbers(entry))
    for _, refusal in record.refused:
        raise refusal


def read_summed(frame: rtcm2.Frame, fields: Sum) -> rtcm2.Record:
    """The record of a frame, its numbers summed; of a list, those before an entry that is refused."""
    edition = rtcm2.Edition(frame.header.sequence % 2)
    record = rtcm2.read_record(frame, edition)
    if isinstance(record, rtcm2.Corrections):
        add_readable(fields, record, correction_numbers)
    elif isinstance(record, rtcm2.Generals):
        fields.add(head_numbers(record.head))
        add_readable(fields, record, general_numbers)
    elif isinstance(record, rtcm2.GeneralNull):
        fields.add([record.n, record.system])
    elif isinstance(record, rtcm2.Healths):
        for entry in record.entries:
            fields.add(health_numbers(entry))
    elif isinstance(record, rtcm2.Observations):
        fields.add(epoch_numbers(record.epoch))
        for entry in record.entries:
            fields.add(observation_numbers(entry))
    elif isinstance(record, rtcm2.Position):
        fields.add(unsigned(cm, 32) for cm in (record.x_cm, record.y_cm, record.z_cm))
    elif isinstance(record, rtcm2.Null):
        fields.add([record.n])
    else:
        fields.add(record.codes)
    return record


class Tally:
    """What becomes of the frames of a stream."""

    def __init__(self) -> None:
        self.records = self.remade = self.kept = self.written = 0
        self.bytes, self.fields = Sum(), Sum()
        self.writer = rtcm2.Writer()

    def add(self, frame: rtcm2.Frame) -> None:
        self.bytes.add(rtcm2.keep(frame).ljust(FRAME_MAX, b"\0"))
        self.kept += rtcm2.recall(rtcm2.keep(frame)).frame == frame.bare
        try:
            record = read_summed(frame, self.fields)
        except rtcm2.Refusal as refusal:
            self.fields.add([refusal.number])
        else:
            self.records += 1
            self.remade += rtcm2.make_record(frame.header, record) == frame.bare
        try:
            self.bytes.add(self.writer.write(frame).ljust(LINE_MAX, b"\0"))
            self.written += 1
        except rtcm2.Refusal as refusal:
            assert refusal.number == rtcm2.Number.Z_COUNT

    def line(self) -> str:
        counts = f"records {self.records} remade {self.remade} kept {self.kept} written {self.written}"
        sums = f"sum {self.bytes.numbers} {self.bytes.sums} fields {self.fields.numbers} {self.fields.sums}"
        return f"{counts} {sums}"


def listed(name: str) -> list[str]:
    """What the program test_streams prints of a stream."""
    lines, tally = [name], Tally()
    with open(material.STREAMS / "data" / name, "rb") as stream:
        reader = rtcm2.Reader(stream)
        for frame in reader:
            lines.append(str(frame))
            tally.add(frame)
    counts = reader.counts
    lines.append(f"odd {counts.odd} even {counts.even}")
    lines.append(f"frames {len(lines) - 2} bytes {reader.bytes_read} passed {reader.passed}")
    return [*lines, tally.line()]


class Streams(unittest.TestCase):
    """Every stream of crates/test_streams."""

    maxDiff = 2000

    def test_every_stream(self) -> None:
        expected: dict[str, list[str]] = {}
        for line in material.printed("test_streams").splitlines():
            if line.endswith(".bin"):
                name = line
                expected[name] = []
            if not line.startswith(("minutes", "z ", "time")):
                expected[name].append(line)
        self.assertEqual(sorted(expected), sorted(path.name for path in (material.STREAMS / "data").iterdir()))
        for name, lines in expected.items():
            with self.subTest(stream=name):
                self.assertEqual(listed(name), lines)
