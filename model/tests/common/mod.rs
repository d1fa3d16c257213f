//! What several tests share: headers, frames, their words, lines and records, and orders
//! of refusals.
#![allow(dead_code)] // each test uses some of it

use rtcm2_model::frame::{CarriedBits, Frame, Header, State};
use rtcm2_model::library::Head;
use rtcm2_model::line::{bits_of_bytes, turned_over};
use rtcm2_model::refusal::Answer;
use rtcm2_model::scan::scan;
use rtcm2_model::streams::{self, Stream};
use rtcm2_model::{journal, writer};
use std::sync::OnceLock;

/// The refusal's number, or 0.
pub fn number<T>(answer: Answer<T>) -> u8 {
    answer.map_or_else(|refusal| refusal.number(), |_| 0)
}

/// A header of this type.
pub fn header(type_number: u16) -> Header {
    Header {
        type_number,
        station: 5,
        z_count: 100,
        sequence: 3,
        state: State::Factor(100),
    }
}

/// The same header as the library's numbers.
pub fn head(kind: u8) -> Head {
    Head {
        kind,
        station: 5,
        z: 100,
        sequence: 3,
        health: 0,
    }
}

/// A frame of this type whose N data words are zeros.
pub fn frame(type_number: u16, n: u8) -> Frame {
    Frame {
        header: header(type_number),
        carried: CarriedBits::ZEROS,
        n,
        words: [0; 31],
    }
}

/// The frame of these data words.
pub fn with_words(type_number: u16, words: &[u32]) -> Frame {
    let mut whole = frame(type_number, words.len() as u8);
    whole.words[..words.len()].copy_from_slice(words);
    whole
}

/// The frame that the turned line has where the line has this one: its two carried
/// bits are turned and nothing else.
pub fn turned(frame: Frame) -> Frame {
    frame.after(CarriedBits {
        d29: 1 - frame.carried.d29,
        d30: 1 - frame.carried.d30,
    })
}

/// The bytes that a text of two-digit numbers stands for.
pub fn bytes(text: &str) -> Vec<u8> {
    let byte = |part| u8::from_str_radix(part, 16).unwrap();
    text.split_whitespace().map(byte).collect()
}

/// The words that a text of six-digit numbers stands for.
pub fn words(text: &str) -> Vec<u32> {
    let word = |part| u32::from_str_radix(part, 16).unwrap();
    text.split_whitespace().map(word).collect()
}

/// The frame of all these words, the header's two first.
pub fn of_words(text: &str) -> Frame {
    let all = words(text);
    let frame = Frame::of_words(&all);
    assert_eq!(frame.all_words(), all);
    frame
}

/// The bytes of the test stream with this name, if there is one.
pub fn stream(name: &str) -> Option<Vec<u8>> {
    static MADE: OnceLock<Vec<Stream>> = OnceLock::new();
    let mut all = MADE.get_or_init(streams::all).iter();
    let found = all.find(|stream| stream.name[3..] == *name);
    found.map(|stream| stream.bytes.clone())
}

/// The line of a frame, after the lead byte.
pub fn line_of(frame: &Frame) -> Vec<u8> {
    let mut buffer = vec![0; 200];
    let opened = writer::open(&mut buffer).unwrap();
    let written = writer::write(frame, opened.carried, &mut buffer[1..]).unwrap();
    buffer.truncate(1 + written.length);
    buffer
}

/// The frame is that of the stream of this name, if there is one, and stands in its
/// line in either polarity.
pub fn stands(name: &str, whole: Frame) {
    let line = line_of(&whole);
    assert!(stream(name).is_none_or(|bytes| bytes == line), "{name}");
    for (line, frame) in [(line.clone(), whole), (turned_over(&line), turned(whole))] {
        assert_eq!(scan(&bits_of_bytes(&line), true), [(6, frame)]);
    }
}

/// A frame's journal record.
pub fn kept(frame: &Frame) -> Vec<u8> {
    let mut buffer = vec![0; 102];
    let length = journal::keep(frame, &mut buffer).unwrap();
    buffer.truncate(length);
    buffer
}

/// Faults 5, 6 and 7 in a header; the type is plain.
pub fn bad_header() -> Header {
    Header {
        type_number: 2,
        station: 1024,
        z_count: 6000,
        ..header(2)
    }
}

/// Mends the first fault of `bad_header` that is left.
fn mend(header: &mut Header, type_number: u16) {
    if header.station > 1023 {
        header.station = 1023;
    } else if header.type_number != type_number {
        header.type_number = type_number;
    } else {
        header.z_count = 5999;
    }
}

/// Reads with faults 5, 6, 7 and 8 mended one after the other.
pub fn reading_order(
    type_number: u16,
    good_n: u8,
    bad_n: u8,
    read: impl Fn(&Frame) -> u8,
) -> Vec<u8> {
    let mut whole = Frame {
        header: bad_header(),
        ..frame(2, bad_n)
    };
    let mut numbers = vec![read(&whole)];
    for _ in 0..3 {
        mend(&mut whole.header, type_number);
        numbers.push(read(&whole));
    }
    whole.n = good_n;
    numbers.push(read(&whole));
    numbers
}

/// Makes with faults 5, 6 and 7 mended one after the other.
pub fn making_order(type_number: u16, make: impl Fn(&Header) -> u8) -> Vec<u8> {
    let mut header = bad_header();
    let mut numbers = vec![make(&header)];
    for _ in 0..3 {
        mend(&mut header, type_number);
        numbers.push(make(&header));
    }
    numbers
}
