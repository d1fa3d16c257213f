//! The test streams: their number and size, both listings alike, and that the
//! crafted ones are what their names say.

use rtcm2_model::line::{bits_of_bytes, turned_over};
use rtcm2_model::listing;
use rtcm2_model::scan::{scan, standing, Standing};
use rtcm2_model::streams::{all, long, Stream};
use std::io::{self, Read};
use std::sync::OnceLock;

/// All streams, made once.
fn made() -> &'static [Stream] {
    static MADE: OnceLock<Vec<Stream>> = OnceLock::new();
    MADE.get_or_init(all)
}

fn through_reader(input: impl Read) -> String {
    let mut text = Vec::new();
    listing::through_reader(input, &mut text).unwrap();
    String::from_utf8(text).unwrap()
}

/// Gives at most seven bytes at a time.
struct Slow<'a>(&'a [u8]);

impl Read for Slow<'_> {
    fn read(&mut self, buffer: &mut [u8]) -> io::Result<usize> {
        let most = buffer.len().min(7);
        self.0.read(&mut buffer[..most])
    }
}

#[test]
fn number_size_and_names() {
    let streams = made();
    assert!(streams.len() >= 70);
    let total: usize = streams.iter().map(|stream| stream.bytes.len()).sum();
    assert!(total < 300_000, "{total} bytes in all");
    assert!(streams.iter().all(|stream| stream.bytes.len() < 5000));
    for pair in streams.windows(2) {
        assert!(pair[0].name < pair[1].name);
    }
    assert_eq!(streams, all());
}

/// The listing of the turned stream: the last field of each frame line is turned, and
/// the two last lines are the same.
fn pairs_turned(text: &str) -> String {
    let line = |line: &str| match line.rsplit_once(' ') {
        Some((numbers, "00")) => format!("{numbers} 11\n"),
        Some((numbers, "01")) => format!("{numbers} 10\n"),
        Some((numbers, "10")) => format!("{numbers} 01\n"),
        Some((numbers, "11")) => format!("{numbers} 00\n"),
        other => panic!("{other:?} has no two digits"),
    };
    let (lines, last) = text.split_at(text.rfind("odd").expect("two last lines"));
    lines.lines().map(line).chain([last.to_string()]).collect()
}

#[test]
fn both_listings_are_alike() {
    for stream in made() {
        let expected = stream.expected();
        assert_eq!(through_reader(&stream.bytes[..]), expected);
        assert_eq!(through_reader(Slow(&stream.bytes)), expected);
        let turned = turned_over(&stream.bytes);
        assert_eq!(listing::by_definition(&turned), pairs_turned(&expected));
    }
}

#[test]
fn the_long_stream_has_over_a_million_bytes() {
    let stream = long();
    assert!(stream.bytes.len() > 1_000_000);
    assert_eq!(through_reader(&stream.bytes[..]), stream.expected());
}

fn named(name: &str) -> &'static Stream {
    let found = made().iter().find(|stream| stream.name[3..] == *name);
    found.unwrap_or_else(|| panic!("no stream {name}"))
}

fn count(stream: &Stream) -> usize {
    scan(&bits_of_bytes(&stream.bytes), true).len()
}

/// Positions not covered by a frame handed out where two header words pass but
/// no frame stands, with the number of frames handed out within their reach.
fn false_starts(stream: &Stream) -> Vec<(usize, usize)> {
    let bits = bits_of_bytes(&stream.bytes);
    let frames = scan(&bits, true);
    let reach = |first: usize, n: u8| first..first + 30 * (usize::from(n) + 2);
    let mut found = Vec::new();
    for p in 2..bits.len().saturating_sub(60) {
        let covered = frames
            .iter()
            .any(|(first, frame)| reach(*first, frame.n).contains(&p));
        let Some(n) = header_n(&bits, p) else {
            continue;
        };
        if !covered && !matches!(standing(&bits, p), Standing::Stands(_)) {
            let inside = |(first, _): &&(usize, _)| reach(p, n).contains(first);
            found.push((p, frames.iter().filter(inside).count()));
        }
    }
    found
}

/// N of the header at a position, if both its words are right.
fn header_n(bits: &[bool], p: usize) -> Option<u8> {
    let header = &bits[..p + 60];
    match standing(header, p) {
        Standing::RuledOut(_) => None,
        Standing::Stands(_) => Some(0),
        Standing::Open => {
            let d30 = header[p + 29];
            let five = header[p + 46..p + 51].iter();
            Some(five.fold(0, |sum, bit| sum << 1 | u8::from(*bit != d30)))
        }
    }
}

#[test]
fn false_headers_cover_good_frames() {
    for (name, least) in [
        ("false-off-grid-a", 3),
        ("false-off-grid-b", 3),
        ("false-off-grid-c", 2),
        ("false-off-grid-d", 3),
        ("false-on-grid-a", 3),
        ("false-on-grid-b", 3),
        ("false-last-word", 15),
        ("false-nested", 2),
        ("false-between-frames", 2),
        ("past-end-covers-a", 6),
        ("past-end-covers-b", 15),
        ("past-end-nested", 8),
    ] {
        let starts = false_starts(named(name));
        let most = starts.iter().map(|(_, inside)| *inside).max();
        assert!(most >= Some(least), "{name}: {starts:?}");
    }
}

#[test]
fn hidden_headers_are_there() {
    let stream = named("false-covered");
    assert_eq!(false_starts(stream), []);
    assert_eq!(count(stream), 12);
    let bits = bits_of_bytes(&stream.bytes);
    let hidden = (2..bits.len() - 60).filter(|p| header_n(&bits, *p) == Some(31));
    assert!(hidden.count() >= 3);
}

#[test]
fn false_headers_that_stand_are_handed_out() {
    let stream = named("false-off-grid-stands");
    let frames = scan(&bits_of_bytes(&stream.bytes), true);
    let off_grid = frames
        .iter()
        .filter(|(p, frame)| p % 30 != 6 && frame.n == 12);
    assert_eq!(off_grid.count(), 3);
    let stream = named("false-on-grid-stands");
    let frames = scan(&bits_of_bytes(&stream.bytes), true);
    assert!(frames.iter().filter(|(_, frame)| frame.n == 31).count() >= 4);
}

/// Streams and the frames handed out for them, known from how they are made.
const COUNTS: [(&str, usize); 63] = [
    ("corrections-1", 18),
    ("corrections-9", 18),
    ("corrections-31", 18),
    ("corrections-34", 18),
    ("positions", 20),
    ("positions-32", 20),
    ("healths", 31),
    ("healths-33", 31),
    ("nulls", 36),
    ("nulls-34", 36),
    ("texts", 19),
    ("texts-36", 19),
    ("observations-18", 33),
    ("observations-19", 33),
    ("generals-41", 38),
    ("generals-42", 38),
    ("generals-refused", 28),
    ("nulls-42", 48),
    ("systems-41", 48),
    ("other-system", 44),
    ("every-type", 64),
    ("type-64", 5),
    ("n-31", 8),
    ("every-n", 32),
    ("every-n-6", 32),
    ("every-n-18", 32),
    ("every-n-34", 32),
    ("every-n-41", 32),
    ("every-n-41-delays", 32),
    ("every-n-42", 32),
    ("every-n-42-delays", 32),
    ("every-health", 24),
    ("z-over-5999", 24),
    ("turned-a", 20),
    ("turned-before-frame", 19),
    ("turned-at-frame", 19),
    ("strewn-light", 20),
    ("strewn-heavy", 20),
    ("strewn-turned", 20),
    ("only-other-bytes", 0),
    ("top-bit-set", 0),
    ("false-last-word", 54),
    ("frame-in-noise-a", 6),
    ("frame-in-broken-frame", 15),
    ("past-end-alone", 8),
    ("past-end-covers-a", 14),
    ("past-end-covers-b", 23),
    ("past-end-nested", 16),
    ("cut-last-byte", 15),
    ("cut-in-header", 10),
    ("off-grid-1", 18),
    ("off-grid-5", 18),
    ("first-at-0", 5),
    ("first-at-1", 5),
    ("first-at-2", 6),
    ("four-turned-unseen", 15),
    ("carried-turned", 12),
    ("empty", 0),
    ("printed", 1),
    ("printed-turned", 1),
    ("printed-ten-bytes", 0),
    ("printed-after-10", 1),
    ("every-pair", 32),
];

#[test]
fn counts_that_are_known() {
    for (name, expected) in COUNTS {
        assert_eq!(count(named(name)), expected, "{name}");
    }
}
