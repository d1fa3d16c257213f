"""rtcm2-season-plot: pictures of a season's report, of one station's corrections, and of the faults of a line."""

import argparse
import sys
from dataclasses import dataclass
from pathlib import Path
from typing import Any, Iterator

from .corrections import Corrections
from .journals import Journal
from .lines import Counts, Reader, pieces
from .records import read_record
from .refusals import Refusal
from .seasons import Row, Season, System, read_journal, read_text

FINE, REFUSED, USAGE, SYSTEM = range(4)
HOUR = 6000
"""Z counts in an hour, 0.6 s each."""
PANELS = 8
"""The most stations in one picture."""
NOWHERE = float("nan")
BESIDE: dict[str, Any] = {"loc": "upper left", "bbox_to_anchor": (1.0, 1.0), "fontsize": 8, "frameon": False}
"""Where a legend stands: beside what is drawn."""


class NoPicture(Exception):
    """There is nothing to be drawn, or too much for one picture."""


# ---- A season's report.


def season_rows(names: list[str]) -> tuple[list[Row], list[str]]:
    """The rows of a report's text, or of journals; and what is to be said of these."""
    first = Path(names[0]).read_bytes()
    if first.startswith(b"# types"):
        if len(names) > 1:
            raise NoPicture("one report's text at a time")
        return read_text(first.decode("ascii")), []
    season, said = Season(), []
    for name in names:
        with open(name, "rb") as source:
            line = season.add(name, read_journal(source))
        said += [line] if line else []
        if season.ended:
            break
    return list(season.report.rows()), said


def draw_report(figure: Any, rows: list[Row]) -> None:
    """A panel for each station of a system: of each satellite the least, mean and largest PRC, and its stops."""
    stations = list(dict.fromkeys((row.system, row.station) for row in rows))
    if not stations:
        raise NoPicture("the report has no row")
    if len(stations) > PANELS:
        raise NoPicture(f"the report has {len(stations)} stations, a picture {PANELS} at most: name one with --station")
    panels = figure.subplots(len(stations), 1, sharex=True, squeeze=False)[:, 0]
    for axes, (system, station) in zip(panels, stations):
        draw_station(axes, [row for row in rows if (row.system, row.station) == (system, station)])
        axes.set_title(f"{System(system).name}, station {station}", loc="left", fontsize=10)
    panels[0].legend(**BESIDE)
    panels[-1].set_xlabel("satellite")


def draw_station(axes: Any, rows: list[Row]) -> None:
    """One station's satellites."""
    usable = [row for row in rows if row.usable]
    satellites = [row.satellite for row in usable]
    least, largest = [(row.least or 0) / 1000 for row in usable], [(row.largest or 0) / 1000 for row in usable]
    mean = [row.sum / row.usable / 1000 for row in usable]
    axes.vlines(satellites, least, largest, color="tab:blue", linewidth=5, alpha=0.35, label="least to largest")
    axes.plot(satellites, mean, "o", color="tab:blue", markersize=4, label="mean")
    foot = min(least, default=0.0) - 0.1 * (max(largest, default=1.0) - min(least, default=0.0))
    stopped = [row for row in rows if row.stops]
    axes.plot([row.satellite for row in stopped], [foot] * len(stopped), "x", color="tab:red", label="stops, how many")
    for row in stopped:
        axes.annotate(
            str(row.stops), (row.satellite, foot), (4, 3), textcoords="offset points", fontsize=7, color="tab:red"
        )
    axes.axhline(0, color="gray", linewidth=0.5)
    axes.set_xlim(0, 33)
    axes.set_xticks(range(1, 33), minor=True)
    axes.set_xticks([1, 4, 8, 12, 16, 20, 24, 28, 32])
    axes.set_ylabel("PRC, m")


# ---- One station over a journal's time.


@dataclass(frozen=True)
class Point:
    """A satellite's correction at a time, in hours from the journal's first hour; no metres where it is a stop."""

    hours: float
    satellite: int
    metres: float | None


def station_points(name: str, station: int, system: System) -> Iterator[Point]:
    """The corrections of a station in a journal. Its time is the Z count; where this goes back by over half an hour, an hour
    has gone by."""
    types = (1, 9) if system is System.GPS else (31, 34)
    hour = before = 0
    with open(name, "rb") as source:
        for kept in Journal(source):
            header = kept.frame.header
            if header.station != station or header.type not in types:
                continue
            try:
                record = read_record(kept.frame)
            except Refusal:
                continue
            hour += before - header.z > HOUR // 2
            before = header.z
            for entry in record.entries if isinstance(record, Corrections) else ():
                metres = None if entry.prc_mm is None else entry.prc_mm / 1000
                yield Point(hour + header.z / HOUR, entry.satellite, metres)


def draw_points(axes: Any, points: list[Point]) -> None:
    """A line for each satellite while it is seen, and a mark for each stop where the line was before."""
    if not points:
        raise NoPicture("the journal has no correction of this station")
    satellites = sorted({point.satellite for point in points})
    for place, satellite in enumerate(satellites):
        color = f"C{place % 10}"
        style = ["-", "--", ":", "-."][place // 10 % 4]
        own = [point for point in points if point.satellite == satellite]
        hours, metres = traced(own)
        axes.plot(hours, metres, style, color=color, linewidth=1, label=str(satellite))
        draw_stops(axes, own, color)
    axes.plot([], [], "x", color="black", label="stop")
    axes.set_xlabel("hours from the journal's first hour")
    axes.set_ylabel("PRC, m")
    axes.legend(title="satellite", **BESIDE)


def traced(own: list[Point]) -> tuple[list[float], list[float]]:
    """A satellite's line; it is broken at a stop and where the satellite was not seen for over half an hour."""
    hours: list[float] = []
    metres: list[float] = []
    for point in own:
        if hours and point.hours - hours[-1] > 0.5:
            hours.append(point.hours)
            metres.append(NOWHERE)
        hours.append(point.hours)
        metres.append(NOWHERE if point.metres is None else point.metres)
    return hours, metres


def draw_stops(axes: Any, own: list[Point], color: str) -> None:
    """Marks a satellite's stops at the last value before each."""
    last, hours, metres = 0.0, [], []
    for point in own:
        if point.metres is None:
            hours.append(point.hours)
            metres.append(last)
        else:
            last = point.metres
    axes.plot(hours, metres, "x", color=color, markersize=6)


# ---- The faults of a line.


@dataclass(frozen=True)
class Stretch:
    """A stretch of a line: where it ends, and in it the odd and even faults and the frames."""

    end: int
    odd: int
    even: int
    frames: int


def stretches(name: str, step: int) -> Iterator[Stretch]:
    """A line in stretches of so many bytes; what the line's end decides is of the last."""
    reader, before, held = Reader(), Counts(0, 0), b""
    with open(name, "rb") as source:
        for piece in pieces(source):
            held += piece
            while len(held) > step:
                count = len(reader.feed(held[:step]))
                held, after = held[step:], reader.counts
                yield stretch_of(reader, before, after, count)
                before = after
    count = len(reader.feed(held)) + len(reader.end())
    yield stretch_of(reader, before, reader.counts, count)


def stretch_of(reader: Reader, before: Counts, after: Counts, frames: int) -> Stretch:
    """The stretch up to here; counters go round at 2^32."""
    return Stretch(reader.bytes_read, (after.odd - before.odd) % 2**32, (after.even - before.even) % 2**32, frames)


def draw_faults(axes: Any, name: str, step: int) -> None:
    """Odd and even faults along a line, and its frames."""
    parts = list(stretches(name, step))
    edges = [0, *(part.end for part in parts)]
    if not edges[-1]:
        raise NoPicture("the line has no byte")
    axes.stairs([part.odd for part in parts], edges, color="tab:red", label="odd faults")
    axes.stairs([part.even for part in parts], edges, color="tab:blue", label="even faults")
    axes.stairs([part.frames for part in parts], edges, color="tab:green", linestyle="--", label="frames")
    axes.set_xlabel("byte of the line")
    axes.set_ylabel(f"in each {step} bytes")
    axes.legend(**BESIDE)


# ---- The command.


def parser() -> argparse.ArgumentParser:
    """The options."""
    options = argparse.ArgumentParser(
        prog="rtcm2-season-plot",
        description="Draws a season's report, one station's corrections, or the faults of a line, as PNG, SVG or PDF.",
        epilog="Exit: 0 fine, 1 bytes were refused or there is nothing to draw, 2 usage, 3 the system failed.",
    )
    kinds = options.add_subparsers(dest="kind", required=True, metavar="report | station | faults")
    report = kinds.add_parser(
        "report", help="least, mean and largest PRC by satellite, of a report's text or of journals"
    )
    report.add_argument("names", metavar="REPORT | JOURNAL", nargs="+")
    report.add_argument("--station", type=int, help="this station alone")
    station = kinds.add_parser("station", help="the corrections of one station over a journal's time, stops marked")
    station.add_argument("names", metavar="JOURNAL", nargs=1)
    station.add_argument("--station", type=int, required=True)
    station.add_argument("--system", choices=["gps", "glonass"], default="gps")
    faults = kinds.add_parser("faults", help="odd and even faults over a line")
    faults.add_argument("names", metavar="LINE", nargs=1)
    faults.add_argument("--step", type=int, default=1000, help="bytes in one step of the picture (1000)")
    for kind in (report, station, faults):
        kind.add_argument("-o", "--output", metavar="FILE", required=True, help="the picture; its ending says the form")
        kind.add_argument("--title", default=None)
    return options


def draw(figure: Any, given: argparse.Namespace) -> list[str]:
    """Draws what is asked for, and answers what is to be said."""
    if given.kind == "report":
        rows, said = season_rows(given.names)
        rows = [row for row in rows if given.station in (None, row.station)]
        draw_report(figure, rows)
        panels = len({(row.system, row.station) for row in rows})
        figure.set_size_inches(9, 1 + 2.2 * panels)
        return said
    axes = figure.add_subplot()
    figure.set_size_inches(9, 4.5)
    if given.kind == "station":
        points: list[Point] = []
        said = []
        try:
            for point in station_points(given.names[0], given.station, System[given.system.upper()]):
                points.append(point)
        except Refusal as refusal:
            said.append(f"{given.names[0]}: {refusal}")
        draw_points(axes, points)
        return said
    draw_faults(axes, given.names[0], given.step)
    return []


def main(words: list[str] | None = None) -> int:
    """The command."""
    given = parser().parse_args(words)
    if getattr(given, "step", 1) < 1:
        parser().error("--step: at least 1")
    try:
        import matplotlib
    except ImportError:
        print(
            "rtcm2-season-plot: the package matplotlib is missing: apt-get install python3-matplotlib", file=sys.stderr
        )
        return SYSTEM
    matplotlib.use("Agg")
    from matplotlib.figure import Figure

    figure = Figure(layout="constrained")
    try:
        said = draw(figure, given)
        if given.title:
            figure.suptitle(given.title)
        figure.savefig(given.output, dpi=110)
    except (NoPicture, ValueError) as error:
        print(f"rtcm2-season-plot: {given.names[0]}: {error}", file=sys.stderr)
        return REFUSED
    except OSError as error:
        print(f"rtcm2-season-plot: {error}", file=sys.stderr)
        return SYSTEM
    for line in said:
        print(f"rtcm2-season-plot: {line}", file=sys.stderr)
    return REFUSED if said else FINE
