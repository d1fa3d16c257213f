//! The small-beacon profile: the worked checks, the worked lists cut, refusals in
//! their order, and random lists read back.

mod common;

use common::{frame, header, number, with_words};
use rtcm2_model::frame::{Frame, Header};
use rtcm2_model::library::profile::{check_profile, cut_corrections};
use rtcm2_model::library::Head;
use rtcm2_model::profile::{check, cut};
use rtcm2_model::record::correction::{Correction, Issue};
use rtcm2_model::record::list::List;
use rtcm2_model::record::text;
use rtcm2_model::rng::Rng;
use rtcm2_model::{journal, samples};

const MOST: usize = Correction::MOST;

fn satellite(satellite: u8) -> Correction {
    Correction {
        satellite,
        ..Correction::default()
    }
}

/// A frame of these satellites.
fn of_satellites(type_number: u16, satellites: &[u8]) -> Frame {
    let mut entries = [Correction::default(); MOST];
    for (entry, number) in entries.iter_mut().zip(satellites) {
        *entry = satellite(*number);
    }
    Correction::make(&header(type_number), &entries, satellites.len()).unwrap()
}

fn late(mut frame: Frame) -> Frame {
    frame.header.z_count = 6000;
    frame
}

#[test]
fn worked_checks() {
    let stop = with_words(9, &[0x018000, 0x8000AA]);
    let other_fill = with_words(9, &[0x010000, 0x000055]);
    let checks = [
        (of_satellites(9, &[1, 2, 3]), 0),
        (of_satellites(9, &[1, 2, 1]), 22),
        (of_satellites(9, &[1, 2, 3, 4]), 21),
        (of_satellites(9, &[1, 1, 1, 1]), 21),
        (stop, 0),
        (other_fill, 0),
        (frame(9, 3), 8),
        (of_satellites(1, &[1, 2, 3]), 20),
        (frame(1, 3), 20),
        (late(of_satellites(1, &[1, 2, 3])), 7),
        (late(frame(9, 3)), 7),
        (frame(31, 3), 20),
        (frame(34, 3), 20),
        (frame(18, 3), 20),
        (frame(41, 3), 20),
        (frame(3, 4), 0),
        (with_words(3, &[0x800000, 0, 0, 0]), 10),
        (with_words(5, &[0x1C0000, 0x1C0000]), 0),
        (frame(5, 0), 8),
        (frame(6, 0), 0),
        (with_words(6, &[0x123456]), 0),
        (frame(6, 2), 8),
        (text::make(&header(16), &[65; 90]).unwrap(), 0),
        (with_words(16, &[0x804141]), 11),
        (with_words(16, &[0x410041]), 11),
        (frame(16, 31), 8),
        (frame(3, 3), 8),
    ];
    for (i, (frame, expected)) in checks.into_iter().enumerate() {
        assert_eq!(number(check(&frame)), expected, "check {i}");
        let mut record = vec![0; 102];
        let length = journal::keep(&frame, &mut record).unwrap();
        assert_eq!(check_profile(&record[..length]), expected);
        assert_eq!(check_profile(&record[..length - 1]), 15);
    }
    let mut wide = late(frame(64, 3));
    wide.carried.d29 = 2;
    assert_eq!(number(check(&wide)), 5);
    assert_eq!(
        (check_profile(&[]), check_profile(&[0x52, 0x32, 32])),
        (14, 16)
    );
}

#[test]
fn type_numbers_of_the_profile() {
    let inside: Vec<u16> = (1..=64)
        .filter(|kind| (0..=31).any(|n| number(check(&frame(*kind, n))) != 20))
        .collect();
    assert_eq!(inside, [3, 5, 6, 9, 16]);
}

/// Entry i of the worked lists.
fn worked_entry(i: usize) -> Correction {
    let i = i as i16;
    Correction {
        scale: (i % 2) as u8,
        udre: (i % 4) as u8,
        satellite: 32 - i as u8,
        prc: 100 * i - 850,
        rrc: (i - 9) as i8,
        issue: Issue::Iod(11 * i as u8),
    }
}

/// So many entries cut from this sequence on: the words of each frame.
fn cut_to_words(count: usize, sequence: u8) -> Vec<String> {
    let entries: [Correction; MOST] = std::array::from_fn(worked_entry);
    let header = Header {
        sequence,
        ..header(9)
    };
    let frames = cut(&header, &entries, count).unwrap();
    let line = |frame: &Frame| {
        let words = frame.all_words();
        let words: Vec<String> = words.iter().map(|word| format!("{word:06X}")).collect();
        words.join(" ")
    };
    frames.iter().map(line).collect()
}

#[test]
fn worked_lists() {
    let first = "00FCAE F700BF FD12F8 0B5EFD 76F916";
    assert_eq!(cut_to_words(1, 3), ["662405 032310 00FCAE F700AA"]);
    assert_eq!(cut_to_words(3, 7), [format!("662405 032728 {first}")]);
    assert_eq!(
        cut_to_words(4, 7),
        [
            format!("662405 032728 {first}"),
            "662405 032010 FDFDDA FA21AA".to_string()
        ]
    );
    assert_eq!(
        cut_to_words(18, 6),
        [
            "662405 032628 00FCAE F700BF FD12F8 0B5EFD 76F916",
            "662405 032728 FDFDDA FA211C FE3EFB 2CBBFE A2FC37",
            "662405 032028 5AFF06 FD42F9 FF6AFE 4D18FF CEFF58",
            "662405 032128 B70032 006356 009601 6EF500 FA0279",
            "662405 032228 14015E 0384B3 01C204 8F5202 26059A",
            "662405 032328 F1028A 06A510 02EE07 B0AF03 5208BB",
        ]
    );
}

#[test]
fn worked_refusals_of_the_sender() {
    let good: [Correction; MOST] = std::array::from_fn(|i| satellite(i as u8 + 1));
    let cut_of =
        |kind, entries: &[Correction; MOST], count| number(cut(&header(kind), entries, count));
    assert_eq!(cut_of(9, &good, 18), 0);
    for kind in [1, 31, 34, 5, 64] {
        assert_eq!(cut_of(kind, &good, 18), 6);
    }
    let late = Header {
        z_count: 6000,
        ..header(9)
    };
    assert_eq!(number(cut(&late, &good, 0)), 7);
    let late = Header {
        type_number: 1,
        ..late
    };
    assert_eq!(number(cut(&late, &good, 0)), 6);
    let far = Header {
        sequence: 8,
        ..late
    };
    assert_eq!(number(cut(&far, &good, 0)), 5);
    for count in [0, 19, 256 + 3, usize::MAX] {
        assert_eq!(cut_of(9, &good, count), 12);
    }
    for place in 0..MOST {
        let mut entries = good;
        entries[place].satellite = 33;
        entries[(place + 1) % MOST].satellite = entries[(place + 2) % MOST].satellite;
        assert_eq!(cut_of(9, &entries, 18), 10);
        entries[place] = Correction {
            issue: Issue::Age { change: 0, tb: 0 },
            ..good[place]
        };
        assert_eq!(cut_of(9, &entries, 18), 10);
    }
    for (one, other) in (0..MOST).flat_map(|one| (0..one).map(move |other| (one, other))) {
        let mut entries = good;
        entries[one].satellite = entries[other].satellite;
        assert_eq!(cut_of(9, &entries, 18), 22);
        assert_eq!(cut_of(9, &entries, one + 1), 22);
        // the entry past the count is one twice
        assert_eq!(cut_of(9, &entries, one), 0);
    }
}

/// A list of corrections for different satellites.
fn drawn(rng: &mut Rng) -> [Correction; MOST] {
    let (first, step) = (rng.place(32), 1 + 2 * rng.place(16));
    std::array::from_fn(|i| Correction {
        satellite: ((first + i * step) % 32 + 1) as u8,
        ..Correction::drawn(rng, rtcm2_model::record::System::Gps)
    })
}

#[test]
fn lists_are_read_back_from_frames_in_the_profile() {
    let mut rng = Rng::named("cut lists");
    for round in 0..400 {
        let (entries, count) = (drawn(&mut rng), 1 + round % MOST);
        let header = samples::header(&mut rng, 9);
        let frames = cut(&header, &entries, count).unwrap();
        assert_eq!(frames.len(), count.div_ceil(3));
        let mut read = Vec::new();
        for (i, frame) in frames.iter().enumerate() {
            assert_eq!(check(frame), Ok(()));
            let expected = Header {
                sequence: (header.sequence + i as u8) % 8,
                ..header
            };
            assert_eq!(frame.header, expected);
            let held = Correction::count(frame).unwrap();
            assert!(held == 3 || i + 1 == frames.len());
            read.extend((0..held).map(|i| Correction::entry(frame, i).unwrap()));
        }
        assert_eq!(read, entries[..count]);
    }
}

#[test]
fn records_of_the_library() {
    let entries: [Correction; MOST] = std::array::from_fn(worked_entry);
    let rows: Vec<u8> = entries.iter().flat_map(Correction::row).collect();
    let call = |kind, rows: &[u8], room| {
        let head = Head {
            kind,
            station: 5,
            z: 100,
            sequence: 6,
            health: 0,
        };
        let (mut frames, mut length) = (vec![0xEE; room], 999);
        let answer = cut_corrections(head, rows, &mut frames, &mut length);
        (answer, length, frames)
    };
    let (answer, length, frames) = call(9, &rows, 150);
    assert_eq!((answer, length, &frames[144..]), (0, 144, &[0xEE; 6][..]));
    let mut read = Vec::new();
    for record in frames[..144].chunks(24) {
        let (frame, length) = journal::recall(record).unwrap();
        assert_eq!(length, 24);
        read.extend((0..3).map(|i| Correction::entry(&frame, i).unwrap()));
    }
    assert_eq!(read, entries);
    let (answer, length, frames) = call(9, &rows[..28], 39);
    assert_eq!((answer, length, frames[24]), (0, 39, 0x52));
    assert_eq!(call(9, &rows[..28], 38), (13, 999, vec![0xEE; 38]));
    assert_eq!(call(9, &rows, 143), (13, 999, vec![0xEE; 143]));
    assert_eq!(call(9, &rows[..27], 39).0, 12);
    assert_eq!(call(1, &rows, 144).0, 6);
    let twice = [&rows[..], &rows[..7]].concat();
    assert_eq!(call(9, &twice, 200).0, 12);
    let twice = [&rows[..7 * 17], &rows[..7]].concat();
    assert_eq!(call(9, &twice, 0).0, 22);
}
