//! The files that the program `season` is run on: journals, right and damaged ones,
//! and for each run its arguments and what it must print.

use crate::frame::{Frame, Header, State};
use crate::journals::old_journal;
use crate::record::correction::{Correction, Issue};
use crate::record::list::List;
use crate::record::{system, System};
use crate::rng::Rng;
use crate::samples;
use crate::seasons::run;
use crate::trials::{file, File};
use crate::{journal, word_journal};
use std::ops::RangeInclusive;

/// The runs: a name, and the journals in the order given.
const RUNS: &[(&str, &[&str])] = &[
    ("worked", &["worked.bin"]),
    ("split", &["first.bin", "second.bin"]),
    ("second-first", &["second.bin", "first.bin"]),
    ("forms", &["words.bin", "worked.bin", "both.bin"]),
    ("empty", &["empty.bin", "generals.bin"]),
    (
        "cut",
        &[
            "cut.bin",
            "cut-words.bin",
            "cut-mark.bin",
            "worked.bin",
            "cut-n.bin",
        ],
    ),
    (
        "foreign",
        &["foreign.bin", "text.bin", "words.bin", "gap.bin"],
    ),
    (
        "refused",
        &["n-32.bin", "other-n.bin", "turned-bit.bin", "worked.bin"],
    ),
    ("full", &["full.bin", "worked.bin", "full-words.bin"]),
    ("no-row", &["full.bin", "one-more.bin", "worked.bin"]),
    ("no-row-first", &["too-many.bin", "worked.bin"]),
    (
        "no-row-cut",
        &["worked.bin", "full.bin", "one-more-cut.bin", "worked.bin"],
    ),
    ("cut-before-row", &["full.bin", "hidden.bin", "worked.bin"]),
    ("long", &["old.bin", "new-cut.bin"]),
];

/// For each run its arguments, a line each, and what it must print to standard output
/// and to standard error; and the journals.
pub fn files() -> Vec<File> {
    let (journals, mut files) = (journals(), Vec::new());
    for (name, arguments) in RUNS {
        let given: Vec<(&str, &[u8])> = arguments
            .iter()
            .map(|argument| (*argument, journal_named(&journals, argument)))
            .collect();
        let printed = run(&given);
        let lines: String = arguments.iter().map(|line| format!("{line}\n")).collect();
        files.push(file(&format!("{name}.args"), lines.into_bytes()));
        files.push(file(&format!("{name}.stdout"), printed.output.into_bytes()));
        files.push(file(&format!("{name}.stderr"), printed.errors.into_bytes()));
    }
    files.extend(journals);
    files
}

/// The bytes of a journal.
fn journal_named<'a>(journals: &'a [File], name: &str) -> &'a [u8] {
    let found = journals.iter().find(|journal| journal.path == name);
    &found.expect("each run names journals").bytes
}

/// The journals.
fn journals() -> Vec<File> {
    let worked = worked();
    let (first, second) = worked.split_at(45);
    let (words, full, old) = (in_words(&worked), full(), old_journal());
    let new = in_words(&old);
    let one_more = [first, &corrections(1, 2, 1..=3)].concat();
    let too_many = [&full[..], &corrections(34, 1021, 32..=32)].concat();
    let mut turned = words.clone();
    turned[62] ^= 0x10;
    vec![
        file("first.bin", first.to_vec()),
        file("second.bin", second.to_vec()),
        file("both.bin", [&words, first, &in_words(second)].concat()),
        file("empty.bin", vec![]),
        file("generals.bin", generals()),
        file("cut.bin", worked[..worked.len() - 1].to_vec()),
        file("cut-words.bin", words[..words.len() - 1].to_vec()),
        file("cut-mark.bin", [&worked[..], &[0x52]].concat()),
        file("cut-n.bin", [&worked[..], &[0x52, 0x34]].concat()),
        file("foreign.bin", [first, &[0x52, 0x33], second].concat()),
        file("text.bin", b"no journal\n".to_vec()),
        file("gap.bin", [&words[..], &[0], &words].concat()),
        file("n-32.bin", [first, &[0x52, 0x34, 32], second].concat()),
        file(
            "other-n.bin",
            [first, &[0x52, 0x32, 1], &second[3..]].concat(),
        ),
        file("turned-bit.bin", turned),
        file("full-words.bin", in_words(&full)),
        file("one-more-cut.bin", [&one_more[..], &[0]].concat()),
        file("hidden.bin", [first, &[0], &one_more].concat()),
        file("one-more.bin", one_more),
        file("too-many.bin", too_many),
        file("new-cut.bin", new[..new.len() - 1].to_vec()),
        file("old.bin", old),
        file("full.bin", full),
        file("words.bin", words),
        file("worked.bin", worked),
    ]
}

/// The worked journal: ten frames of both systems and three stations, among them a
/// null frame, a tb of 120, N 3, a Z count of 6000 and a text.
pub fn worked() -> Vec<u8> {
    let text = "52 32 04 66 04 05 03 23 20 03 03 E8 FB 01 87 80 01 00 01 AA AA \
        52 32 05 66 24 05 03 23 28 03 80 00 00 01 00 00 05 80 01 03 FF FF 00 02 \
        52 32 02 66 7C 05 03 23 10 83 7F FF 00 07 AA \
        52 32 01 66 88 05 03 23 08 AA AA AA \
        52 32 02 66 88 06 03 23 10 03 00 00 00 F7 AA \
        52 32 04 66 7C 07 03 23 20 03 03 E8 FB 4D 01 00 01 FF 78 AA AA \
        52 32 03 66 04 05 03 23 18 00 00 00 00 00 00 00 00 00 \
        52 32 02 66 04 05 BB 83 10 03 03 E8 FB 4D AA \
        52 32 01 66 40 05 03 23 08 41 00 00 \
        52 32 02 66 04 05 03 23 10 87 80 01 01 01 AA";
    let byte = |part| u8::from_str_radix(part, 16).expect("two digits");
    text.split_whitespace().map(byte).collect()
}

/// The same journal in the form that keeps the words.
fn in_words(journal: &[u8]) -> Vec<u8> {
    word_journal::renewed(journal).expect("every record reads")
}

/// A journal of 512 keys: eight stations with all satellites of both systems, among
/// them those of the worked journal.
pub fn full() -> Vec<u8> {
    let mut journal = Vec::new();
    for station in [5, 0, 6, 7, 1, 511, 512, 1023] {
        for (kind, satellites) in [(1, 1..=16), (34, 17..=32), (9, 17..=32), (31, 1..=16)] {
            journal.extend(corrections(kind, station, satellites));
        }
    }
    journal
}

/// A journal of types 41 and 42, which are not counted.
fn generals() -> Vec<u8> {
    let mut rng = Rng::named("season generals");
    let frames = [
        samples::general_frame(&mut rng, 41, 0, 22),
        samples::general_null_frame(&mut rng),
        samples::general_frame(&mut rng, 42, 1, 3),
    ];
    frames.iter().flat_map(record).collect()
}

/// The record of a frame.
fn record(frame: &Frame) -> Vec<u8> {
    let mut record = vec![0; 102];
    let length = journal::keep(frame, &mut record).expect("a right frame");
    record.truncate(length);
    record
}

/// The record of a frame of corrections for these satellites: every fifth has the PRC
/// and every seventh the RRC of a stop.
fn corrections(kind: u16, station: u16, satellites: RangeInclusive<u8>) -> Vec<u8> {
    let mut entries = [Correction::default(); Correction::MOST];
    let count = satellites.clone().count();
    for (entry, satellite) in entries.iter_mut().zip(satellites) {
        let step = i16::from(satellite);
        *entry = Correction {
            scale: satellite % 2,
            satellite,
            prc: if satellite % 5 == 0 {
                i16::MIN
            } else {
                1000 * step - 16_000 + station as i16
            },
            rrc: if satellite % 7 == 0 { i8::MIN } else { 0 },
            issue: match system(kind) {
                System::Gps => Issue::Iod(satellite),
                System::Glonass => Issue::Age {
                    change: 0,
                    tb: satellite,
                },
            },
            ..Correction::default()
        };
    }
    let header = Header {
        type_number: kind,
        station,
        z_count: 5999,
        sequence: 0,
        state: State::NotMonitored,
    };
    record(&Correction::make(&header, &entries, count).expect("a correct record"))
}
