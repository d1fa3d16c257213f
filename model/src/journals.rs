//! The files that the programs on journals are run on, each over a million bytes: a
//! line and its journal, an old journal and the same in the new form, and what must
//! be printed of them.

use crate::frame::{CarriedBits, Frame, MOST_WORDS};
use crate::line::bits_of_bytes;
use crate::listing::frame_line;
use crate::record::correction::Correction;
use crate::record::list::List;
use crate::refusal::Answer;
use crate::rng::Rng;
use crate::samples;
use crate::scan::scan;
use crate::streams;
use crate::trials::{file, File};
use crate::{journal, mender, word_journal};

/// The files, by name:
/// - `line.bin` a line, `line.new` the journal of its frames that keeps the words;
/// - `old.bin` a journal of the first form, `new.bin` the same in the second;
/// - `line.txt`, `old.txt` and `new.txt` a line for each record of the three;
/// - `damaged.bin` a journal that keeps the words, damaged in every way, `mended.bin`
///   and `mended.txt` the same mended, and the report.
pub fn files() -> Vec<File> {
    let line = streams::long().bytes;
    let live = kept_live(&line);
    let old = old_journal();
    let new = word_journal::renewed(&old).expect("every record reads");
    let damaged = damaged_journal();
    let mended = mender::run(&damaged);
    vec![
        file("mended.txt", mended.report().into_bytes()),
        file("mended.bin", mended.bytes),
        file("damaged.bin", damaged),
        file("old.txt", shown(&old, journal::recall)),
        file("new.txt", shown(&new, word_journal::recall)),
        file("line.txt", shown(&live, word_journal::recall)),
        file("line.new", live),
        file("line.bin", line),
        file("old.bin", old),
        file("new.bin", new),
    ]
}

/// The journal of all frames of a line, each from its own pair on.
fn kept_live(line: &[u8]) -> Vec<u8> {
    let mut journal = Vec::new();
    for (_, frame) in scan(&bits_of_bytes(line), true) {
        let mut buffer = [0; word_journal::LONGEST];
        let length = word_journal::keep(&frame, &mut buffer).expect("a frame that stands");
        journal.extend(&buffer[..length]);
    }
    journal
}

/// A line for each record of a journal: its byte offset, then as in a listing.
fn shown(journal: &[u8], recall: fn(&[u8]) -> Answer<(Frame, usize)>) -> Vec<u8> {
    let records = word_journal::each(journal, recall).expect("every record reads");
    let line = |(at, frame): &(usize, Frame)| frame_line(at, frame);
    records.iter().map(line).collect::<String>().into_bytes()
}

/// Stations of the journal: with 32 satellites of two systems, 512 keys in all.
const STATIONS: [u16; 8] = [0, 1, 5, 511, 512, 640, 1022, 1023];

/// A journal of over a million bytes in the first form: corrections in half of its
/// records, any record or any words under any type in the others.
pub fn old_journal() -> Vec<u8> {
    let mut rng = Rng::named("old journal");
    let mut journal = Vec::new();
    while journal.len() < 1_100_000 {
        let frame = frame(&mut rng);
        let mut buffer = [0; 102];
        let length = journal::keep(&frame, &mut buffer).expect("a right frame");
        journal.extend(&buffer[..length]);
    }
    journal
}

/// A frame of one of the stations, its Z count now and then past the hour.
fn frame(rng: &mut Rng) -> Frame {
    let kind = [1, 9, 31, 34][rng.place(4)];
    let mut frame = match rng.below(8) {
        0..=3 => {
            let count = 1 + rng.place(18);
            Correction::sample(rng, kind, count)
        }
        4 => {
            let n = rng.place(MOST_WORDS + 1) as u8;
            samples::plain_frame(rng, kind, n)
        }
        5 => {
            let (kind, n) = (1 + rng.below(64) as u16, rng.place(MOST_WORDS + 1) as u8);
            samples::plain_frame(rng, kind, n)
        }
        _ => samples::any_frame(rng),
    };
    frame.header.station = STATIONS[rng.place(STATIONS.len())];
    if rng.below(20) == 0 {
        frame.header.z_count = [5999, 6000, 8191][rng.place(3)];
    }
    frame
}

/// A journal of over a million bytes that keeps the words, most of its records
/// damaged; behind some sound ones the last one is cut short.
fn damaged_journal() -> Vec<u8> {
    let mut rng = Rng::named("damaged journal");
    let mut journal = Vec::new();
    while journal.len() < 1_100_000 {
        let mut record = kept_words(&mut rng);
        for _ in 0..rng.place(3) {
            damage(&mut rng, &mut record);
        }
        journal.extend(record);
    }
    for _ in 0..6 {
        journal.extend(kept_words(&mut rng));
    }
    let last = kept_words(&mut rng);
    journal.extend(&last[..last.len() - 1 - rng.place(8)]);
    journal
}

/// A record of any frame after any pair.
pub fn kept_words(rng: &mut Rng) -> Vec<u8> {
    let [d29, d30] = [(); 2].map(|()| rng.below(2) as u8);
    let frame = frame(rng).after(CarriedBits { d29, d30 });
    let mut buffer = vec![0; word_journal::LONGEST];
    let length = word_journal::keep(&frame, &mut buffer).expect("a right frame");
    buffer.truncate(length);
    buffer
}

/// Turns bits of a record's words, changes its mark or N byte, puts bytes in or takes
/// some out.
pub fn damage(rng: &mut Rng, record: &mut Vec<u8>) {
    let words = record.len().saturating_sub(3) / 4;
    if words == 0 {
        return;
    }
    let at = rng.place(record.len());
    match rng.below(12) {
        0..=4 => turn_bits(rng, record, words, 1),
        5 => turn_bits(rng, record, words, 2),
        6 => turn_bits(rng, record, words, 3),
        7 => record[2] = rng.byte(),
        8 => record[2] ^= 1 << rng.below(8),
        9 => record[rng.place(2)] ^= 1 << rng.below(8),
        10 => {
            let more = [0x52, 0x34, rng.byte()];
            let count = 1 + rng.place(3);
            record.splice(at..at, more.into_iter().cycle().take(count));
        }
        _ => {
            record.drain(at..record.len().min(at + 1 + rng.place(12)));
        }
    }
}

/// Turns so many bits of one word, no bit twice; word 2 in a third of the cases.
fn turn_bits(rng: &mut Rng, record: &mut [u8], words: usize, count: usize) {
    let word = match rng.below(3) {
        0 => 1 % words,
        _ => rng.place(words),
    };
    let (first, apart) = (rng.place(32), 1 + 2 * rng.place(16));
    for i in 0..count {
        let bit = 32 * word + (first + i * apart) % 32;
        record[3 + bit / 8] ^= 0x80 >> (bit % 8);
    }
}
