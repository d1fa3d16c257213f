//! The mender of journals that keep the words: of a word, of the record at a place,
//! a step, and the run over a whole journal with its report.

use crate::frame::{n_of, MOST_WORDS};
use crate::word::{apart, test, Tested};
use crate::word_journal::{data_of, is_sound, length_for, recall, windows_in, MARK};

/// What becomes of a word by its own remainder.
#[derive(Clone, Copy, Debug, PartialEq, Eq)]
pub enum MendedWord {
    /// It passes.
    Sound,
    /// The remainder has an odd number of ones: one bit is turned back.
    Mended(u32),
    /// The remainder has an even number of ones and is not zero.
    Broken,
}

/// Mends a word in its window of 32 bits. The one bit is that with which it passes.
pub fn mend_word(window: u32) -> MendedWord {
    let (word, pair) = apart(window);
    match test(&word, pair) {
        Tested::Passed => MendedWord::Sound,
        Tested::Failed(remainder) if remainder.count_ones() % 2 == 0 => MendedWord::Broken,
        Tested::Failed(_) => {
            let turned = (0..32).map(|place| window ^ 1 << place);
            let passing = turned.clone().find(|window| is_sound(*window));
            passing.map_or(MendedWord::Broken, MendedWord::Mended)
        }
    }
}

/// The word as it is after mending; none if it is broken.
fn mended(window: u32) -> Option<u32> {
    match mend_word(window) {
        MendedWord::Sound => Some(window),
        MendedWord::Mended(window) => Some(window),
        MendedWord::Broken => None,
    }
}

/// What a step finds.
#[derive(Clone, Debug, PartialEq, Eq)]
pub enum Step {
    /// A record that reads, mended where it must be: these are its bytes now.
    Whole(Vec<u8>),
    /// A record of so many bytes that can't be mended.
    Lost(usize),
    /// A record cut short by the journal's end.
    Cut,
    /// A mark with no N that says where the next record starts.
    Numberless,
    /// A byte with no mark, or, while searching, with none whose record can be mended.
    Passed,
    /// No byte.
    End,
}

/// The step at the start of the bytes, which go to the journal's end, or on for 135
/// bytes at least.
pub fn step(bytes: &[u8], searching: bool) -> Step {
    if bytes.is_empty() {
        return Step::End;
    }
    if !bytes.starts_with(&MARK) {
        return Step::Passed;
    }
    match record(bytes) {
        Step::Whole(bytes) => Step::Whole(bytes),
        _ if searching => Step::Passed,
        other => other,
    }
}

/// The record at a mark.
fn record(bytes: &[u8]) -> Step {
    if bytes.len() < length_for(0) {
        return Step::Cut;
    }
    let second = mended(windows_in(&bytes[..11])[1]);
    let n = match second {
        Some(window) => n_of(data_of(window)),
        None if usize::from(bytes[2]) <= MOST_WORDS => bytes[2],
        None => return Step::Numberless,
    };
    let length = length_for(n.into());
    if bytes.len() < length {
        return Step::Cut;
    }
    let mut whole = vec![MARK[0], MARK[1], n];
    for window in windows_in(&bytes[..length]) {
        match mended(window) {
            Some(window) => whole.extend(window.to_be_bytes()),
            None => return Step::Lost(length),
        }
    }
    match recall(&whole) {
        Ok(_) => Step::Whole(whole),
        Err(_) => Step::Lost(length),
    }
}

/// What the report of a run says, each with the byte offset in the journal.
#[derive(Clone, Copy, Debug, PartialEq, Eq)]
pub enum Event {
    /// A byte was changed.
    Changed {
        /// Its offset.
        at: usize,
        /// Its value before.
        old: u8,
        /// Its value now.
        new: u8,
    },
    /// The record at this offset is lost.
    Lost {
        /// Its offset.
        at: usize,
    },
    /// Bytes passed over while searching.
    Passed {
        /// Offset of the first.
        at: usize,
        /// How many, one after the other.
        length: usize,
    },
}

/// A journal after the run over it.
#[derive(Clone, Debug, Default, PartialEq, Eq)]
pub struct Run {
    /// Its bytes, as many as before.
    pub bytes: Vec<u8>,
    /// What was done, in rising offsets.
    pub events: Vec<Event>,
    /// How many records read.
    pub records: usize,
}

/// Mends a whole journal.
pub fn run(journal: &[u8]) -> Run {
    let mut run = Run::default();
    let mut searching = false;
    loop {
        let at = run.bytes.len();
        let left = &journal[at..];
        match step(left, searching) {
            Step::Whole(record) => {
                searching = false;
                run.records += 1;
                run.changed(at, left, &record);
                run.bytes.extend(record);
            }
            Step::Lost(length) => {
                run.events.push(Event::Lost { at });
                run.bytes.extend(&left[..length]);
            }
            Step::Numberless => {
                searching = true;
                run.events.push(Event::Lost { at });
                run.bytes.push(left[0]);
            }
            Step::Passed => {
                searching = true;
                run.passed(at);
                run.bytes.push(left[0]);
            }
            Step::Cut => {
                run.events.push(Event::Lost { at });
                run.bytes.extend(left);
                return run;
            }
            Step::End => return run,
        }
    }
}

impl Run {
    /// Reports the bytes that differ.
    fn changed(&mut self, from: usize, before: &[u8], after: &[u8]) {
        for (i, (old, new)) in before.iter().zip(after).enumerate() {
            if old != new {
                let (at, old, new) = (from + i, *old, *new);
                self.events.push(Event::Changed { at, old, new });
            }
        }
    }

    /// Reports a byte passed over, in one stretch with those just before it.
    fn passed(&mut self, here: usize) {
        match self.events.last_mut() {
            Some(Event::Passed { at, length }) if *at + *length == here => *length += 1,
            _ => self.events.push(Event::Passed {
                at: here,
                length: 1,
            }),
        }
    }

    /// How many bytes were changed, records lost and bytes passed over.
    pub fn totals(&self) -> [usize; 3] {
        let mut totals = [0; 3];
        for event in &self.events {
            match event {
                Event::Changed { .. } => totals[0] += 1,
                Event::Lost { .. } => totals[1] += 1,
                Event::Passed { length, .. } => totals[2] += length,
            }
        }
        totals
    }

    /// The report: a line for each event, then the totals.
    pub fn report(&self) -> String {
        let mut text: String = self.events.iter().map(Event::line).collect();
        let [changed, lost, passed] = self.totals();
        text += &format!(
            "records {} changed {changed} lost {lost} passed {passed}\n",
            self.records
        );
        text
    }
}

impl Event {
    /// The line of the report, numbers in decimal.
    fn line(&self) -> String {
        match self {
            Event::Changed { at, old, new } => format!("{at} {old} {new}\n"),
            Event::Lost { at } => format!("lost {at}\n"),
            Event::Passed { at, length } => format!("passed {at} {length}\n"),
        }
    }
}
