//! The mender: the worked journals A to L, every word with one and two turned bits,
//! and random journals with damage of every kind.

mod common;

use common::bytes;
use rtcm2_model::journals::{self, damage, kept_words};
use rtcm2_model::library::journals::{mend, Mending, REPORT_MAX};
use rtcm2_model::mender::{mend_word, run, step, Event, MendedWord, Run, Step};
use rtcm2_model::rng::Rng;
use rtcm2_model::word::{apart, bits_of, encode, remainder};
use rtcm2_model::word_journal::{each, length_for, recall, windows_in};

const FIRST: &str = "52 34 00 19 86 01 7F FF 37 3F C8";
const SECOND: &str = "52 34 01 E6 79 FE 80 00 C8 C2 21 55 55 55 6A";
const THIRD: &str = "52 34 02 19 81 01 44 00 C8 C4 1B FF 3F 05 E2 BE D3 6A 8A";

/// A worked journal: its records, as they come out where that differs, the changes
/// and the offsets of lost records in the order of the report, and how many bytes are
/// passed over.
struct Worked {
    name: &'static str,
    records: [&'static str; 3],
    mended: [&'static str; 3],
    report: &'static str,
    passed: usize,
}

const WORKED: [Worked; 12] = [
    Worked {
        name: "A",
        records: [FIRST, SECOND, THIRD],
        mended: [FIRST, SECOND, THIRD],
        report: "",
        passed: 0,
    },
    Worked {
        name: "B",
        records: [
            "52 34 00 1B 86 01 7F FF 37 3F C8",
            "52 34 01 E6 79 FE 80 40 C8 C2 21 55 55 55 2A",
            "52 34 02 19 81 01 44 00 C8 C4 1B FF 3F 05 E2 BE D3 6A 8B",
        ],
        mended: [FIRST, SECOND, THIRD],
        report: "3 1B 19; 18 40 00; 25 2A 6A; 44 8B 8A",
        passed: 0,
    },
    Worked {
        name: "C",
        records: [FIRST, "52 34 01 E6 79 FE 80 00 C8 C2 21 51 15 55 6A", THIRD],
        mended: [FIRST, "52 34 01 E6 79 FE 80 00 C8 C2 21 51 15 55 6A", THIRD],
        report: "lost 11",
        passed: 0,
    },
    Worked {
        name: "D",
        records: [FIRST, "52 34 03 E6 79 FE 80 00 C8 C2 21 55 55 55 6A", THIRD],
        mended: [FIRST, SECOND, THIRD],
        report: "13 03 01",
        passed: 0,
    },
    Worked {
        name: "E",
        records: [
            FIRST,
            "52 34 01 E6 79 FE 80 04 88 C2 21 55 55 55 6A",
            "52 34 02 19 01 01 44 00 C8 C4 1B FF 3F 05 E2 BE D3 6A 8A",
        ],
        mended: [FIRST, "52 34 01 E6 79 FE 80 04 88 C2 21 55 55 55 6A", THIRD],
        report: "lost 11; 30 01 81",
        passed: 0,
    },
    Worked {
        name: "F",
        records: [FIRST, "52 34 52 E6 79 FE 80 04 88 C2 21 55 55 55 6A", THIRD],
        mended: [FIRST, "52 34 52 E6 79 FE 80 04 88 C2 21 55 55 55 6A", THIRD],
        report: "lost 11",
        passed: 14,
    },
    Worked {
        name: "G",
        records: [FIRST, "53 34 01 E6 79 FE 80 00 C8 C2 21 55 55 55 6A", THIRD],
        mended: [FIRST, "53 34 01 E6 79 FE 80 00 C8 C2 21 55 55 55 6A", THIRD],
        report: "",
        passed: 15,
    },
    Worked {
        name: "H",
        records: [
            FIRST,
            SECOND,
            "52 34 02 19 81 01 44 00 C8 C4 1B FF 3F 05 E2 BE D3 6A",
        ],
        mended: [
            FIRST,
            SECOND,
            "52 34 02 19 81 01 44 00 C8 C4 1B FF 3F 05 E2 BE D3 6A",
        ],
        report: "lost 26",
        passed: 0,
    },
    Worked {
        name: "I",
        records: ["52 34 00 19 86 01 7F FF 37 3D C8", SECOND, THIRD],
        mended: [FIRST, SECOND, THIRD],
        report: "9 3D 3F",
        passed: 0,
    },
    Worked {
        name: "J",
        records: ["52 34 00 19 8A 41 7F FF 37 3F C8", SECOND, THIRD],
        mended: ["52 34 00 19 AA 41 7F FF 37 3F C8", SECOND, THIRD],
        report: "4 8A AA",
        passed: 0,
    },
    Worked {
        name: "K",
        records: ["52 34 00 19 86 01 7F 7F 37 3F E1", SECOND, THIRD],
        mended: ["52 34 00 19 86 01 7F 7F 37 3F E1", SECOND, THIRD],
        report: "lost 0",
        passed: 0,
    },
    Worked {
        name: "L",
        records: ["52 34", THIRD, ""],
        mended: ["52 34", THIRD, ""],
        report: "lost 0",
        passed: 1,
    },
];

/// The changes and lost records of a run, as the worked journals print them.
fn printed(run: &Run) -> String {
    let shown = |event: &Event| match event {
        Event::Changed { at, old, new } => Some(format!("{at} {old:02X} {new:02X}")),
        Event::Lost { at } => Some(format!("lost {at}")),
        Event::Passed { .. } => None,
    };
    let lines: Vec<String> = run.events.iter().filter_map(shown).collect();
    lines.join("; ")
}

#[test]
fn worked_journals() {
    for worked in WORKED {
        let (journal, mended) = (
            bytes(&worked.records.join(" ")),
            bytes(&worked.mended.join(" ")),
        );
        let run = run(&journal);
        assert_eq!(run.bytes, mended, "{}", worked.name);
        assert_eq!(printed(&run), worked.report, "{}", worked.name);
        assert_eq!(run.totals()[2], worked.passed, "{}", worked.name);
    }
}

#[test]
fn worked_reports() {
    let text = |worked: &Worked| run(&bytes(&worked.records.join(" "))).report();
    let [b, e, f, g, l] = [1, 4, 5, 6, 11].map(|i| text(&WORKED[i]));
    assert_eq!(
        b,
        "3 27 25\n18 64 0\n25 42 106\n44 139 138\nrecords 3 changed 4 lost 0 passed 0\n"
    );
    assert_eq!(
        e,
        "lost 11\n30 1 129\nrecords 2 changed 1 lost 1 passed 0\n"
    );
    assert_eq!(
        f,
        "lost 11\npassed 12 14\nrecords 2 changed 0 lost 1 passed 14\n"
    );
    assert_eq!(g, "passed 11 15\nrecords 2 changed 0 lost 0 passed 15\n");
    assert_eq!(
        l,
        "lost 0\npassed 1 1\nrecords 1 changed 0 lost 1 passed 1\n"
    );
    assert_eq!(run(&[]).report(), "records 0 changed 0 lost 0 passed 0\n");
}

/// The remainder that each of the 32 places has of its own, D29* first.
const COLUMNS: &str = "29 15 2A 34 3B 1C 2F 37 1A 0D 07 23 31 38 3D 3E 1F 0E 26 32 19 2C 16 0B 25 13 20 10 08 04 02 01";

fn remainder_of(window: u32) -> u8 {
    let (word, pair) = apart(window);
    let bits = remainder(&word, pair);
    bits.iter().fold(0, |sum, bit| sum * 2 + u8::from(*bit))
}

#[test]
fn every_place_has_its_own_odd_remainder() {
    let columns: Vec<u8> = (0..32).map(|i| remainder_of(1 << (31 - i))).collect();
    assert_eq!(columns, bytes(COLUMNS));
    let mut all = columns.clone();
    all.sort_unstable();
    let odd: Vec<u8> = (0..64).filter(|r: &u8| r.count_ones() % 2 == 1).collect();
    assert_eq!(all, odd);
}

/// A window whose word passes.
fn sound(rng: &mut Rng) -> u32 {
    let pair = rng.below(4) as u32;
    let (_, carried) = apart(pair << 30);
    let word = encode(&bits_of(rng.word()), carried);
    word.iter()
        .fold(pair, |sum, bit| sum << 1 | u32::from(*bit))
}

#[test]
fn one_turned_bit_is_turned_back_and_two_are_not_touched() {
    let mut rng = Rng::named("mended words");
    for _ in 0..100 {
        let window = sound(&mut rng);
        assert_eq!(mend_word(window), MendedWord::Sound);
        assert_eq!(mend_word(!window), MendedWord::Sound);
        for first in 0..32 {
            let one = window ^ 1 << first;
            assert_eq!(mend_word(one), MendedWord::Mended(window));
            for second in 0..first {
                assert_eq!(mend_word(one ^ 1 << second), MendedWord::Broken);
            }
        }
    }
}

/// A journal of so many records that keep their words.
fn records(rng: &mut Rng, count: usize) -> Vec<Vec<u8>> {
    (0..count).map(|_| kept_words(rng)).collect()
}

/// Turns one bit in each of some words.
fn turned_in_words(rng: &mut Rng, record: &[u8], rare: u64) -> Vec<u8> {
    let mut record = record.to_vec();
    for word in 0..(record.len() - 3) / 4 {
        if rng.below(rare) == 0 {
            let bit = 32 * word + rng.place(32);
            record[3 + bit / 8] ^= 0x80 >> (bit % 8);
        }
    }
    record
}

#[test]
fn journals_with_one_turned_bit_in_a_word_come_back() {
    let mut rng = Rng::named("one turned bit");
    for rare in [1, 2, 3, 10] {
        for _ in 0..60 {
            let count = rng.place(12);
            let kept = records(&mut rng, count);
            let damaged: Vec<u8> = kept
                .iter()
                .flat_map(|record| turned_in_words(&mut rng, record, rare))
                .collect();
            let run = run(&damaged);
            assert_eq!(run.bytes, kept.concat());
            assert_eq!(
                (run.records, run.totals()[1..].to_vec()),
                (count, vec![0, 0])
            );
        }
    }
}

#[test]
fn an_n_byte_is_mended_by_word_2() {
    let mut rng = Rng::named("N bytes");
    for _ in 0..60 {
        let kept = records(&mut rng, 6);
        let mut damaged = kept.clone();
        for record in &mut damaged {
            record[2] = rng.byte();
        }
        let run = run(&damaged.concat());
        assert_eq!(run.bytes, kept.concat());
        assert_eq!(run.records, 6);
    }
}

#[test]
fn two_turned_bits_lose_their_record_and_no_other() {
    let mut rng = Rng::named("two turned bits");
    for _ in 0..240 {
        let kept = records(&mut rng, 7);
        let (hit, mut damaged) = (rng.place(7), kept.clone());
        let words = (kept[hit].len() - 3) / 4;
        let (word, first, other) = (rng.place(words), rng.place(32), 1 + rng.place(31));
        for bit in [first, (first + other) % 32] {
            let bit = 32 * word + bit;
            damaged[hit][3 + bit / 8] ^= 0x80 >> (bit % 8);
        }
        let at: usize = kept[..hit].iter().map(Vec::len).sum();
        let journal = damaged.concat();
        let found = run(&journal);
        assert_eq!(found.bytes, journal);
        assert_eq!(found.events, [Event::Lost { at }]);
        assert_eq!(found.records, 6);
        assert_eq!(step(&journal[at..], false), Step::Lost(kept[hit].len()));
        assert_eq!(step(&journal[at..], true), Step::Passed);
    }
}

/// A journal with damage of every kind, bytes put in and taken out, cut anywhere.
fn wild(rng: &mut Rng) -> Vec<u8> {
    let mut journal = Vec::new();
    for _ in 0..1 + rng.place(12) {
        let mut record = kept_words(rng);
        for _ in 0..rng.place(4) {
            damage(rng, &mut record);
        }
        journal.extend(record);
        if rng.below(8) == 0 {
            journal.extend((0..rng.place(20)).map(|_| rng.byte()));
        }
    }
    if rng.bit() {
        journal.truncate(rng.place(journal.len() + 1));
    }
    journal
}

/// The bytes of a lost record: all of them, or what is left, or mark and N byte.
fn lost_bytes(journal: &[u8], at: usize) -> usize {
    match step(&journal[at..], false) {
        Step::Lost(length) => length,
        Step::Cut => journal.len() - at,
        Step::Numberless => 3,
        other => panic!("{other:?} at a lost record"),
    }
}

#[test]
fn what_is_changed_is_told_and_what_is_lost_stays() {
    let mut rng = Rng::named("wild journals");
    let mut totals = [0; 4];
    for _ in 0..600 {
        let journal = wild(&mut rng);
        let run = run(&journal);
        assert_eq!(run.bytes.len(), journal.len());
        let mut replayed = journal.clone();
        let mut offsets = Vec::new();
        for event in &run.events {
            match *event {
                Event::Changed { at, old, new } => {
                    assert!(replayed[at] == old && old != new);
                    replayed[at] = new;
                    offsets.push(at);
                }
                Event::Lost { at } => {
                    let length = lost_bytes(&journal, at);
                    assert_eq!(run.bytes[at..at + length], journal[at..at + length]);
                    offsets.push(at);
                }
                Event::Passed { at, length } => {
                    assert_eq!(run.bytes[at..at + length], journal[at..at + length]);
                    offsets.push(at);
                }
            }
        }
        assert_eq!(replayed, run.bytes);
        assert!(offsets.is_sorted());
        let [changed, lost, passed] = run.totals();
        for (sum, number) in totals.iter_mut().zip([changed, lost, passed, run.records]) {
            *sum += number;
        }
    }
    assert!(totals.iter().all(|sum| *sum > 500), "{totals:?}");
}

#[test]
fn a_sound_journal_is_passed_whole() {
    let mut rng = Rng::named("sound journals");
    for _ in 0..40 {
        let kept = records(&mut rng, 10).concat();
        let found = run(&kept);
        assert_eq!((found.events.len(), found.records), (0, 10));
        assert_eq!(found.bytes, kept);
        assert_eq!(each(&found.bytes, recall).unwrap().len(), 10);
    }
}

#[test]
fn a_step_looks_at_135_bytes() {
    let mut rng = Rng::named("windows of a journal");
    for _ in 0..80 {
        let journal = wild(&mut rng);
        for at in 0..journal.len() {
            let left = &journal[at..];
            for searching in [false, true] {
                let near = step(&left[..left.len().min(135)], searching);
                assert_eq!(near, step(left, searching));
            }
        }
    }
}

#[test]
fn every_step_at_its_shortest() {
    let mark = [0x52, 0x34];
    assert_eq!(step(&[], false), Step::End);
    assert_eq!(step(&[], true), Step::End);
    assert_eq!(step(&mark[..1], false), Step::Passed);
    for length in 2..11 {
        let cut = [&mark[..], &[255; 8]].concat();
        assert_eq!(step(&cut[..length], false), Step::Cut);
        assert_eq!(step(&cut[..length], true), Step::Passed);
    }
    let first = bytes(FIRST);
    assert_eq!(step(&first, false), Step::Whole(first.clone()));
    // word 2 broken: the N byte, up to 31, says the length
    let mut broken = [first.clone(), vec![0; 200]].concat();
    broken[7] ^= 0x03;
    for n in 0..=255 {
        broken[2] = n;
        let length = length_for(n.into());
        let (lost, cut) = match n {
            0..=31 => (Step::Lost(length), Step::Cut),
            _ => (Step::Numberless, Step::Numberless),
        };
        assert_eq!(step(&broken, false), lost);
        assert_eq!(step(&broken, true), Step::Passed);
        let short = &broken[..length.min(136) - 1];
        if short.len() >= 11 {
            assert_eq!(step(short, false), cut);
        }
    }
    // a preamble that is not right loses the record
    let mut null = bytes(FIRST);
    null[3..].copy_from_slice(&[0; 8]);
    assert_eq!(step(&null, false), Step::Lost(11));
    assert_eq!(windows_in(&null), [0, 0]);
}

/// A step of the library: the answer, its numbers, the report and the bytes.
fn library(bytes: &[u8], at: u64, searching: u8, room: usize) -> (u8, [usize; 3], String, Vec<u8>) {
    let (mut bytes, mut report) = (bytes.to_vec(), vec![0xEE; room]);
    let (mut step, mut read, mut written) = (99, 99, 99);
    let into = Mending {
        step: &mut step,
        read: &mut read,
        written: &mut written,
    };
    let answer = mend(&mut bytes, at, searching, &mut report, into);
    let text = report.iter().take_while(|byte| **byte != 0xEE);
    let text = text.map(|byte| char::from(*byte)).collect();
    (answer, [step.into(), read, written], text, bytes)
}

/// A whole run by the library, in windows of 135 bytes or what is left.
fn by_library(journal: &[u8]) -> (Vec<u8>, String) {
    let (mut bytes, mut text) = (Vec::new(), String::new());
    let mut searching = 0;
    while bytes.len() < journal.len() {
        let at = bytes.len();
        let window = &journal[at..journal.len().min(at + 135)];
        let (answer, [step, read, written], report, after) =
            library(window, at as u64, searching, REPORT_MAX);
        assert_eq!((answer, written), (0, report.len()));
        bytes.extend(&after[..read]);
        assert_eq!(after[read..], window[read..]);
        text += &report;
        searching = u8::from(step >= 4);
    }
    (bytes, text)
}

#[test]
fn the_library_makes_the_run_by_steps() {
    let mut rng = Rng::named("mended by steps");
    for _ in 0..120 {
        let journal = wild(&mut rng);
        let run = run(&journal);
        let (bytes, text) = by_library(&journal);
        assert_eq!(bytes, run.bytes);
        let report = run.report();
        let lines = report.lines().filter(|line| !line.contains("passed"));
        let expected: String = lines.map(|line| format!("{line}\n")).collect();
        assert_eq!(text, expected);
    }
}

#[test]
fn numbers_of_the_library() {
    let first = bytes(FIRST);
    let mut one = first.clone();
    one[9] ^= 0x20;
    let said = |bytes: &[u8], searching| {
        let (answer, numbers, text, _) = library(bytes, 7, searching, REPORT_MAX);
        (answer, numbers, text)
    };
    let none = String::new;
    assert_eq!(said(&[], 0), (0, [0, 0, 0], none()));
    assert_eq!(said(&first, 0), (0, [1, 11, 0], none()));
    assert_eq!(said(&one, 255), (0, [1, 11, 9], "16 31 63\n".to_string()));
    let lost = || (7, "lost 7\n".to_string());
    let (length, text) = lost();
    let mut two = first.clone();
    two[4] ^= 0x30;
    assert_eq!(said(&two, 0), (0, [2, 11, length], text));
    assert_eq!(said(&first[..10], 0), (0, [3, 10, 7], lost().1));
    two[8] ^= 0x30;
    two[2] = 32;
    assert_eq!(said(&two, 0), (0, [4, 1, 7], lost().1));
    assert_eq!(said(&two, 1), (0, [5, 1, 0], none()));
    assert_eq!(said(&[0x52], 0), (0, [5, 1, 0], none()));
    // offsets go round at 2^64
    let (.., text, bytes) = library(&one, u64::MAX - 8, 0, REPORT_MAX);
    assert_eq!((text, bytes), ("0 31 63\n".to_string(), first.clone()));
    // 13 whatever the step, and nothing changes
    for journal in [&[][..], &one, &first[..10]] {
        let refused = library(journal, 0, 0, REPORT_MAX - 1);
        let unchanged = (13, [99; 3], none(), journal.to_vec());
        assert_eq!(refused, unchanged);
    }
}

#[test]
fn the_longest_report_of_a_step() {
    let mut record = vec![0; 135];
    let frame = common::frame(2, 31);
    rtcm2_model::word_journal::keep(&frame, &mut record).unwrap();
    record[2] = 0;
    for word in 0..33 {
        record[3 + 4 * word] ^= 0x40;
    }
    let (answer, numbers, ..) = library(&record, 10_u64.pow(19), 0, REPORT_MAX);
    assert_eq!((answer, numbers[..2].to_vec()), (0, vec![1, 135]));
    assert!(numbers[2] <= REPORT_MAX && numbers[2] > 34 * 24);
}

#[test]
fn files_of_the_mender() {
    let files = journals::files();
    let named = |name: &str| {
        let found = files.iter().find(|file| file.path == name);
        found
            .unwrap_or_else(|| panic!("no file {name}"))
            .bytes
            .clone()
    };
    let (damaged, mended) = (named("damaged.bin"), named("mended.bin"));
    assert!(damaged.len() > 1_000_000 && damaged.len() == mended.len());
    let text = String::from_utf8(named("mended.txt")).unwrap();
    assert_eq!(run(&damaged).report(), text);
    let lines: Vec<&str> = text.lines().collect();
    let lost = lines.iter().filter(|line| line.starts_with("lost"));
    let passed = lines.iter().filter(|line| line.starts_with("passed"));
    assert!(lost.count() > 1000 && passed.count() > 1000 && lines.len() > 10_000);
    assert!(lines[lines.len() - 2].starts_with("lost"));
}
