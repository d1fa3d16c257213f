//! How words fail, request 106: the worked windows A with their remainders, the
//! streams B to I with their faults and counters, and what a slip of a bit does.

use rtcm2_model::bits::Bits;
use rtcm2_model::line::bits_of_bytes;
use rtcm2_model::listing;
use rtcm2_model::rng::Rng;
use rtcm2_model::scan::{faults, scan, Fault};
use rtcm2_model::streams::failing::*;
use rtcm2_model::window;
use rtcm2_model::word::Tested;

const PRINTED: [u8; 11] = *b"\x40\x66\x61\x41\x68\x7F\x7F\x6C\x73\x7F\x44";

/// Word 1 of the rules after 00.
const WINDOW: u32 = 0b0001_1001_1000_0110_0000_0001_0111_1111;

/// The window with these bits turned: 1 to 30 are D1 to D30, 0 is D30*.
fn with_turned(places: &[u32]) -> Tested {
    let turned = places
        .iter()
        .fold(0, |bits, place| bits | 1 << (30 - place));
    window::test(WINDOW ^ turned)
}

#[test]
fn remainders_of_word_1() {
    assert_eq!(window::test(WINDOW), Tested::Passed);
    assert_eq!(window::test(!WINDOW), Tested::Passed);
    assert_eq!(with_turned(&[1]), Tested::Failed(0b10_1010));
    assert_eq!(with_turned(&[30]), Tested::Failed(0b00_0001));
    assert_eq!(with_turned(&[0]), Tested::Failed(0b01_0101));
    assert_eq!(with_turned(&[1, 2]), Tested::Failed(0b01_1110));
    assert_eq!(with_turned(&[3, 9, 24]), Tested::Failed(0b10_1111));
}

/// The faults of a whole stream, each as position, word and remainder, and the text
/// after its frame lines.
fn failed(bytes: &[u8]) -> (Vec<(usize, usize, u8)>, String) {
    let bits = bits_of_bytes(bytes);
    let apart = |fault: Fault| (fault.position, fault.word, fault.remainder);
    let all = faults(&bits, true, scan(&bits, true).len());
    let mut text = Vec::new();
    listing::through_reader(bytes, &mut text).unwrap();
    let text = String::from_utf8(text).unwrap();
    assert_eq!(text, listing::by_definition(bytes));
    (all.into_iter().map(apart).collect(), text)
}

#[test]
fn faults_and_counters_of_the_worked_streams() {
    let frame = |at: u32, pair: &str| format!("{at} 6 5 100 3 0 0 {pair}\n");
    for (bytes, faults, lines, counts) in [
        (&PRINTED[..], vec![], frame(6, "00"), "odd 0 even 0"),
        (
            &NICK_IN_WORD_1,
            vec![(6, 1, 0b01_1111)],
            String::new(),
            "odd 1 even 0",
        ),
        (
            &TWO_TURNED_IN_WORD_2,
            vec![(6, 2, 0b01_1000)],
            String::new(),
            "odd 0 even 1",
        ),
        (&PREAMBLE_AND_WORD_1, vec![], String::new(), "odd 0 even 0"),
        (
            &NICK_THEN_FRAME,
            vec![(6, 2, 0b01_1111)],
            frame(66, "00"),
            "odd 1 even 0",
        ),
        (
            &RULED_OUT_BY_END,
            vec![(94, 1, 0b00_1000)],
            frame(96, "01"),
            "odd 1 even 0",
        ),
        (
            &STRAY_BIT,
            vec![(6, 5, 0b00_0001)],
            frame(97, "11"),
            "odd 1 even 0",
        ),
        (&PRINTED[..10], vec![], String::new(), "odd 0 even 0"),
    ] {
        let (frames, length) = (lines.lines().count(), bytes.len());
        let text = format!("{lines}{counts}\nframes {frames} bytes {length} passed 0\n");
        assert_eq!(failed(bytes), (faults, text));
    }
}

#[test]
fn a_frame_that_waits_holds_the_counters_back() {
    let bits = bits_of_bytes(&[&PRINTED[..], &NICK_IN_WORD_1[1..]].concat());
    assert_eq!(faults(&bits, true, 0), []);
    assert_eq!(faults(&bits, true, 1).len(), 1);
    let undecided = &bits[..66 + 29];
    assert_eq!(faults(undecided, false, 1), []);
}

/// How many of the words of a sound line pass when they are read so many bits off,
/// of 64.
fn passing_of_64(bits_off: usize) -> usize {
    let mut rng = Rng::named("a slip");
    let mut bits = Bits::opened();
    let count = 64_000;
    for _ in 0..=count {
        bits.push_word(rng.word());
    }
    let passes = |k: &usize| {
        let from = 4 + bits_off + 30 * k;
        let window = bits.0[from..from + 32].iter();
        window::test(window.fold(0, |sum, bit| sum << 1 | u32::from(*bit))).passed()
    };
    ((0..count).filter(passes).count() + 500) / 1000
}

#[test]
fn a_bit_off_one_word_in_eight_passes() {
    assert_eq!(passing_of_64(0), 64);
    assert_eq!(passing_of_64(1), 8);
    assert_eq!(passing_of_64(29), 8);
    assert_eq!(passing_of_64(2), 2);
    for bits_off in 3..28 {
        assert_eq!(passing_of_64(bits_off), 1, "{bits_off}");
    }
}
