//! The carried bits of frames, request 102: the worked streams A to D with their
//! listings, and the journal record E of a frame after each of the four pairs.

mod common;

use common::frame;
use rtcm2_model::frame::CarriedBits;
use rtcm2_model::line::{bits_of_bytes, turned_over};
use rtcm2_model::listing;
use rtcm2_model::reader::Reader;
use rtcm2_model::scan::scan;
use rtcm2_model::{journal, writer};

/// The null frame of the rules after each pair, behind a byte that ends with it.
const PAIRS: [(CarriedBits, [u8; 11], &str); 4] = [
    (
        pair(0, 0),
        *b"\x40\x66\x61\x41\x68\x7F\x7F\x6C\x73\x7F\x44",
        "00",
    ),
    (
        pair(0, 1),
        *b"\x60\x59\x5E\x7E\x57\x65\x7F\x6C\x73\x7F\x61",
        "01",
    ),
    (
        pair(1, 0),
        *b"\x50\x66\x61\x41\x68\x5A\x40\x53\x4C\x40\x5E",
        "10",
    ),
    (
        pair(1, 1),
        *b"\x70\x59\x5E\x7E\x57\x40\x40\x53\x4C\x40\x7B",
        "11",
    ),
];

/// V1a behind the null frame of the rules, its twenty bytes.
const V1A: [u8; 20] =
    *b"\x66\x41\x42\x68\x48\x40\x53\x4C\x42\x76\x7F\x7C\x43\x7A\x51\x5F\x4B\x5B\x55\x54";

const fn pair(d29: u8, d30: u8) -> CarriedBits {
    CarriedBits { d29, d30 }
}

/// Both listings of a stream, which are alike.
fn listed(bytes: &[u8]) -> String {
    let mut text = Vec::new();
    listing::through_reader(bytes, &mut text).unwrap();
    let text = String::from_utf8(text).unwrap();
    assert_eq!(text, listing::by_definition(bytes));
    text
}

#[test]
fn the_stream_and_the_turned_one() {
    let printed = PAIRS[0].1;
    assert_eq!(
        listed(&printed),
        "6 6 5 100 3 0 0 00\nodd 0 even 0\nframes 1 bytes 11 passed 0\n"
    );
    let turned = turned_over(&printed);
    assert_eq!(turned, *b"\x7F\x59\x5E\x7E\x57\x40\x40\x53\x4C\x40\x7B");
    assert_eq!(
        listed(&turned),
        "6 6 5 100 3 0 0 11\nodd 0 even 0\nframes 1 bytes 11 passed 0\n"
    );
}

#[test]
fn frames_back_to_back_have_the_last_two_bits_before_them() {
    let two = [&PAIRS[0].1[..], &V1A].concat();
    let lines = "6 6 5 100 3 0 0 00\n66 1 5 100 3 2 0 00\n";
    assert_eq!(
        listed(&two),
        format!("{lines}odd 0 even 0\nframes 2 bytes 31 passed 0\n")
    );
    // V1a ends with 10, so the next null frame is that of the pair 10
    let three = [&two[..], &PAIRS[2].1[1..]].concat();
    let lines = format!("{lines}186 6 5 100 3 0 0 10\n");
    assert_eq!(
        listed(&three),
        format!("{lines}odd 0 even 0\nframes 3 bytes 41 passed 0\n")
    );
}

#[test]
fn each_of_the_four_pairs() {
    let record = [0x52, 0x32, 0x00, 0x66, 0x18, 0x05, 0x03, 0x23, 0x00];
    for (carried, bytes, digits) in PAIRS {
        let text = listed(&bytes);
        let line = format!("6 6 5 100 3 0 0 {digits}");
        assert_eq!(text.lines().next(), Some(line.as_str()));
        assert!(text.ends_with("\nframes 1 bytes 11 passed 0\n"));
        let expected = frame(6, 0).after(carried);
        assert_eq!(scan(&bits_of_bytes(&bytes), true), [(6, expected)]);
        let mut reader = Reader::new();
        reader.feed_all(&bytes).unwrap();
        assert_eq!(reader.take().unwrap().frame, expected);

        // the journal does not keep them: recalled they are 00
        let mut buffer = [0; 9];
        assert_eq!(journal::keep(&expected, &mut buffer), Ok(9));
        assert_eq!(buffer, record);
        assert_eq!(journal::recall(&buffer), Ok((frame(6, 0), 9)));

        // the writer goes by the bits that it is given, not by the frame's
        for (own, _, _) in PAIRS {
            let mut line = [0; 10];
            writer::write(&frame(6, 0).after(own), carried, &mut line).unwrap();
            assert_eq!(line, bytes[1..]);
        }
    }
}
