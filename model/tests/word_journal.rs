//! The journal that keeps the words: the worked records A to G, the refusals in
//! their order, every record both ways, and whole journals there and back.

mod common;

use common::{bytes, frame, header, number};
use rtcm2_model::frame::{CarriedBits, Frame};
use rtcm2_model::library::journals::{keep_words, recall_words, Recalling};
use rtcm2_model::refusal::Refusal;
use rtcm2_model::rng::Rng;
use rtcm2_model::word_journal::{
    data_of, each, is_sound, keep, length_for, recall, renew, renewed, restore, restored,
    windows_in, Moved, Stop,
};
use rtcm2_model::{journals, samples};

/// The record of a frame.
fn kept(frame: &Frame) -> Vec<u8> {
    let mut buffer = vec![0; 135];
    let length = keep(frame, &mut buffer).unwrap();
    assert_eq!(length, length_for(frame.n.into()));
    assert!(buffer[length..].iter().all(|byte| *byte == 0));
    buffer.truncate(length);
    buffer
}

const PAIRS: [CarriedBits; 4] = [
    CarriedBits { d29: 0, d30: 0 },
    CarriedBits { d29: 0, d30: 1 },
    CarriedBits { d29: 1, d30: 0 },
    CarriedBits { d29: 1, d30: 1 },
];

/// The null frame with one word of fill.
fn filled() -> Frame {
    let mut whole = frame(6, 1);
    whole.words[0] = 0xAAAAAA;
    whole
}

/// The worked record V1a.
fn v1a() -> Frame {
    let mut whole = frame(1, 2);
    whole.words[..2].copy_from_slice(&[0x0303E8, 0xFB4DAA]);
    whole
}

const A: &str = "52 34 00 19 86 01 7F FF 37 3F C8";
const D: &str = "52 34 01 19 86 01 7F FF 37 3D DE AA AA AA 95";
const E: &str = "52 34 02 99 81 01 6D 7F 37 3B CD 7F 3F 05 CB C1 2C 95 5C";
const E_FROM_00: &str = "52 34 02 19 81 01 44 00 C8 C4 1B FF 3F 05 E2 BE D3 6A 8A";

#[test]
fn worked_records() {
    let [none, d30, d29, both] = PAIRS;
    let null = frame(6, 0);
    let old = "52 32 00 66 18 05 03 23 00";
    let cases = [
        (null.after(none), A, old, A),
        (null.after(both), "52 34 00 E6 79 FE 80 00 C8 C0 37", old, A),
        (null.after(d30), "52 34 00 66 79 FE A9 7F 37 3F E1", old, A),
        (filled(), D, "52 32 01 66 18 05 03 23 08 AA AA AA", D),
        (
            v1a().after(d29),
            E,
            "52 32 02 66 04 05 03 23 10 03 03 E8 FB 4D AA",
            E_FROM_00,
        ),
    ];
    for (frame, words, old, again) in cases {
        let words = bytes(words);
        assert_eq!(kept(&frame), words);
        assert_eq!(recall(&words), Ok((frame, words.len())));
        assert_eq!(restored(&words), Ok(bytes(old)));
        assert_eq!(renewed(&bytes(old)), Ok(bytes(again)));
    }
}

/// A record with these bits turned, counted from D29* of word 1 on.
fn turned(record: &[u8], bits: &[usize]) -> Vec<u8> {
    let mut record = record.to_vec();
    for bit in bits {
        record[3 + bit / 8] ^= 0x80 >> (bit % 8);
    }
    record
}

#[test]
fn worked_refusals() {
    let a = bytes(A);
    let with_n = |n: u8, more: usize| {
        let mut record = [a.clone(), vec![0; more]].concat();
        record[2] = n;
        record
    };
    let old = bytes("52 32 00 66 18 05 03 23 00");
    assert_eq!(number(recall(&[])), 14);
    assert_eq!(number(recall(&a[..1])), 14);
    assert_eq!(number(recall(&old)), 14);
    assert_eq!(number(recall(&a[..2])), 15);
    assert_eq!(number(recall(&with_n(32, 0))), 16);
    assert_eq!(number(recall(&with_n(32, 200))), 16);
    assert_eq!(number(recall(&with_n(255, 0))), 16);
    for length in 3..11 {
        assert_eq!(number(recall(&a[..length])), 15);
    }
    assert_eq!(number(recall(&with_n(1, 0))), 15);
    assert_eq!(number(recall(&with_n(1, 3))), 15);
    assert_eq!(number(recall(&with_n(1, 4))), 16);
    assert_eq!(number(recall(&turned(&a, &[2]))), 16);
    assert_eq!(number(recall(&turned(&a, &[10]))), 17);
    assert_eq!(number(recall(&turned(&a, &[31]))), 17);
    assert_eq!(number(recall(&turned(&a, &[32, 58, 60, 63]))), 17);
    assert!(is_sound(windows_in(&turned(&a, &[32, 58, 60, 63]))[1]));
    for byte in 0..=255 {
        let more = [a.clone(), vec![byte]].concat();
        assert_eq!(recall(&more), Ok((frame(6, 0), 11)));
        assert_eq!(
            number(renewed(&[old.clone(), vec![byte]].concat()).map_err(|stop| stop.refusal)),
            14
        );
    }
}

#[test]
fn worked_journal() {
    let frames = [frame(6, 0), filled(), v1a()];
    let old: Vec<u8> = frames.iter().flat_map(common::kept).collect();
    let new: Vec<u8> = frames.iter().flat_map(kept).collect();
    assert_eq!((old.len(), new.len()), (36, 45));
    assert_eq!(renewed(&old), Ok(new.clone()));
    assert_eq!(restored(&new), Ok(old.clone()));
    assert_eq!((renewed(&[]), restored(&[])), (Ok(vec![]), Ok(vec![])));
    let stop = |at, refusal| Err(Stop { at, refusal });
    let behind = |journal: &[u8], more: &[u8]| [journal, more].concat();
    let no_mark = Refusal::NoJournalMark;
    assert_eq!(renewed(&behind(&old, &[0])), stop(36, no_mark));
    assert_eq!(restored(&behind(&new, &[0])), stop(45, no_mark));
    assert_eq!(renewed(&behind(&old, &new)), stop(36, no_mark));
    assert_eq!(restored(&behind(&new, &old)), stop(45, no_mark));
    let cut = Refusal::RecordCutShort;
    assert_eq!(renewed(&behind(&old, &[0x52, 0x32])), stop(36, cut));
    assert_eq!(restored(&behind(&new, &[0x52, 0x34])), stop(45, cut));
    assert_eq!(restored(&new[..44]), stop(26, cut));
}

#[test]
fn one_record_is_moved_into_a_lent_buffer() {
    for frame in [frame(6, 0), filled(), v1a(), frame(2, 31)] {
        let (old, new) = (common::kept(&frame), kept(&frame));
        for (from, to, call) in [
            (&old, &new, renew as fn(&[u8], &mut [u8]) -> _),
            (&new, &old, restore),
        ] {
            let from = [from.clone(), vec![0xEE; 7]].concat();
            let mut short = vec![7; to.len() - 1];
            assert_eq!(call(&from, &mut short), Err(Refusal::BufferTooShort));
            assert!(short.iter().all(|byte| *byte == 7));
            let mut room = vec![7; to.len() + 2];
            let moved = Moved {
                read: from.len() - 7,
                written: to.len(),
            };
            assert_eq!(call(&from, &mut room), Ok(moved));
            assert_eq!(room, [&to[..], &[7, 7]].concat());
            // what is wrong with the record comes before the room
            let mut bad = from.clone();
            bad[3] ^= 0x20;
            assert_eq!(number(call(&bad, &mut [])), 16);
            assert_eq!(number(call(&from[..from.len() - 8], &mut [])), 15);
            assert_eq!(number(call(&[], &mut [])), 14);
        }
    }
    let bad = turned(&bytes(A), &[12]);
    assert_eq!(number(restore(&bad, &mut [])), 17);
    assert_eq!(number(restore(&bytes(A), &mut [])), 13);
}

#[test]
fn five_before_thirteen_when_keeping() {
    let mut wrong = frame(6, 0);
    wrong.carried.d29 = 2;
    assert_eq!(number(keep(&wrong, &mut [])), 5);
    wrong.carried = CarriedBits { d29: 1, d30: 255 };
    assert_eq!(number(keep(&wrong, &mut [0; 135])), 5);
    let mut wide = frame(6, 1);
    wide.words[0] = 1 << 24;
    assert_eq!(number(keep(&wide, &mut [0; 135])), 5);
    assert_eq!(number(keep(&frame(6, 0), &mut [0; 10])), 13);
    // any Z count is kept
    let mut late = frame(6, 0);
    late.header.z_count = 8191;
    assert_eq!(recall(&kept(&late)), Ok((late, 11)));
}

/// Any frame after any pair.
fn drawn(rng: &mut Rng) -> Frame {
    let mut frame = match rng.below(3) {
        0 => {
            let (kind, n) = (1 + rng.below(64) as u16, rng.below(32) as u8);
            samples::plain_frame(rng, kind, n)
        }
        1 => samples::plain_frame(rng, 64, 31),
        _ => samples::any_frame(rng),
    };
    frame.header.z_count = rng.below(8192) as u16;
    frame.after(PAIRS[rng.place(4)])
}

#[test]
fn every_single_turned_bit_is_noticed() {
    let mut rng = Rng::named("turned bits of a record");
    for _ in 0..40 {
        let record = kept(&drawn(&mut rng));
        for bit in 0..8 * (record.len() - 3) {
            let refused = number(recall(&turned(&record, &[bit])));
            // D30* turns the data over; then preamble, and N of word 2
            let header = [1..10, 33..34, 50..55];
            let expected = if header.iter().any(|bits| bits.contains(&bit)) {
                16
            } else {
                17
            };
            assert_eq!(refused, expected);
        }
    }
}

#[test]
fn two_turned_bits_of_one_word_are_noticed() {
    let mut rng = Rng::named("two turned bits of a record");
    for _ in 0..4000 {
        let record = kept(&drawn(&mut rng));
        let word = 32 * rng.place((record.len() - 3) / 4);
        let (first, other) = (rng.place(32), 1 + rng.place(31));
        let damaged = turned(&record, &[word + first, word + (first + other) % 32]);
        assert!([16, 17].contains(&number(recall(&damaged))));
    }
}

#[test]
fn a_record_turned_over_reads_with_its_pair_turned() {
    let mut rng = Rng::named("turned records");
    for _ in 0..200 {
        let frame = drawn(&mut rng);
        let mut record = kept(&frame);
        record[3..].iter_mut().for_each(|byte| *byte = !*byte);
        assert_eq!(recall(&record), Ok((common::turned(frame), record.len())));
    }
}

#[test]
fn carried_bits_must_repeat_even_where_parity_agrees() {
    let mut rng = Rng::named("carried bits");
    for _ in 0..500 {
        let frame = drawn(&mut rng);
        let record = kept(&frame);
        let windows = windows_in(&record);
        let at = 1 + rng.place(windows.len() - 1);
        let pair = PAIRS[rng.place(4)];
        let other = rtcm2_model::word_journal::windows_of(&[data_of(windows[at])], pair)[0];
        let mut damaged = record.clone();
        damaged[3 + 4 * at..7 + 4 * at].copy_from_slice(&other.to_be_bytes());
        let expected = if damaged == record { 0 } else { 17 };
        assert_eq!(number(recall(&damaged)), expected);
    }
}

#[test]
fn records_go_both_ways() {
    let mut rng = Rng::named("records of words");
    for _ in 0..3000 {
        let frame = drawn(&mut rng);
        let record = kept(&frame);
        assert_eq!(recall(&record), Ok((frame, record.len())));
        let old = restored(&record).unwrap();
        assert_eq!(old, common::kept(&frame));
        let again = renewed(&old).unwrap();
        assert_eq!(again, kept(&frame.bare()));
        assert_eq!((&again[..3], again.len()), (&record[..3], record.len()));
        for (one, other) in windows_in(&again).iter().zip(windows_in(&record)) {
            assert_eq!(data_of(*one), data_of(other));
        }
    }
}

#[test]
fn journals_there_and_back() {
    let mut rng = Rng::named("whole journals");
    for _ in 0..60 {
        let frames: Vec<Frame> = (0..rng.place(20)).map(|_| drawn(&mut rng)).collect();
        let old: Vec<u8> = frames.iter().flat_map(common::kept).collect();
        let new: Vec<u8> = frames.iter().flat_map(kept).collect();
        let moved = renewed(&old).unwrap();
        assert_eq!(restored(&moved), Ok(old.clone()));
        assert_eq!(restored(&new), Ok(old));
        let (before, after) = (each(&new, recall).unwrap(), each(&moved, recall).unwrap());
        assert_eq!(before.len(), frames.len());
        for ((at, frame), (place, again)) in before.iter().zip(&after) {
            assert_eq!((at, frame.bare()), (place, *again));
            let length = length_for(frame.n.into());
            if frame.carried == PAIRS[0] {
                assert_eq!(new[*at..at + length], moved[*at..at + length]);
            }
        }
    }
}

#[test]
fn files_of_the_programs() {
    let files = journals::files();
    let named = |name: &str| {
        let found = files.iter().find(|file| file.path == name);
        &found.unwrap_or_else(|| panic!("no file {name}")).bytes
    };
    for name in ["line.bin", "old.bin", "new.bin"] {
        assert!(named(name).len() > 1_000_000);
    }
    assert_eq!(renewed(named("old.bin")), Ok(named("new.bin").clone()));
    assert_eq!(restored(named("new.bin")), Ok(named("old.bin").clone()));
    let lines = |name| String::from_utf8(named(name).clone()).unwrap();
    let (old, new, live) = (lines("old.txt"), lines("new.txt"), lines("line.txt"));
    let behind = |text: &str| -> Vec<String> {
        let rest = |line: &str| line.split_once(' ').unwrap().1.to_string();
        text.lines().map(rest).collect()
    };
    assert_eq!(behind(&old), behind(&new));
    assert!(old.lines().all(|line| line.ends_with(" 00")));
    for pair in ["00", "01", "10", "11"] {
        assert!(live.lines().any(|line| line.ends_with(pair)));
    }
    // the line's journal has the frames of its listing
    let listing = rtcm2_model::listing::by_definition(named("line.bin"));
    let frames = listing.lines().count() - 2;
    let of_listing: String = listing
        .lines()
        .take(frames)
        .map(|line| format!("{line}\n"))
        .collect();
    assert_eq!(behind(&of_listing), behind(&live));
}

/// `keep_words` into a buffer of this size: answer, length, and the buffer.
fn library_keep(record: &[u8], pair: [u8; 2], room: usize) -> (u8, usize, Vec<u8>) {
    let (mut words, mut length) = (vec![9; room], 99);
    let answer = keep_words(record, pair[0], pair[1], &mut words, &mut length);
    (answer, length, words)
}

#[test]
fn the_library_keeps_and_recalls_words() {
    let old = common::kept(&v1a());
    let e = bytes(E);
    assert_eq!(library_keep(&old, [1, 0], 19), (0, 19, e.clone()));
    let wrong: [(&[u8], [u8; 2], usize, u8); 8] = [
        (&[], [2, 0], 0, 14),
        (&old[..2], [2, 0], 0, 15),
        (&[0x52, 0x32, 32], [2, 0], 0, 16),
        (&old[..14], [2, 0], 0, 15),
        (&e, [0, 0], 99, 14),
        (&old, [2, 0], 0, 5),
        (&old, [0, 255], 19, 5),
        (&old, [1, 1], 18, 13),
    ];
    for (record, pair, room, number) in wrong {
        assert_eq!(
            library_keep(record, pair, room),
            (number, 99, vec![9; room])
        );
    }
    let recalled = |words: &[u8], room: usize| {
        let (mut frame, mut numbers) = (vec![9; room], [77; 2]);
        let (mut d29, mut d30) = (7, 7);
        let [read, length] = &mut numbers;
        let into = Recalling {
            d29: &mut d29,
            d30: &mut d30,
            read,
            length,
        };
        let answer = recall_words(words, &mut frame, into);
        (answer, [d29, d30], numbers, frame)
    };
    assert_eq!(recalled(&e, 15), (0, [1, 0], [19, 15], old.clone()));
    let unchanged = |number, room| (number, [7, 7], [77, 77], vec![9; room]);
    assert_eq!(recalled(&e, 14), unchanged(13, 14));
    assert_eq!(recalled(&turned(&e, &[40]), 0), unchanged(17, 0));
    assert_eq!(recalled(&turned(&e, &[3]), 0), unchanged(16, 0));
    assert_eq!(recalled(&e[..18], 0), unchanged(15, 0));
    assert_eq!(recalled(&old, 0), unchanged(14, 0));
}

#[test]
fn header_of_the_worked_frame() {
    assert_eq!(recall(&bytes(A)).unwrap().0.header, header(6));
}
