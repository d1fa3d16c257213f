//! The journal that keeps the words: a record is the mark, one byte N and, for each
//! of the N + 2 words, four bytes: its two carried bits, then its thirty, first sent
//! highest. Records and whole journals go from one form to the other.

use crate::frame::{check_frame, n_of, preamble_is_right, CarriedBits, Frame, MOST_WORDS};
use crate::journal;
use crate::refusal::{refuse_if, Answer, Refusal};
use crate::word::{apart, data_bits, number_of, test, Pair};
use crate::writer::line_bits;

/// The two bytes every record starts with.
pub const MARK: [u8; 2] = [0x52, 0x34];

/// Length of a record of a frame with N data words.
pub fn length_for(n: usize) -> usize {
    4 * n + 11
}

/// Words sent one after the other from a pair on, each as the 32 bits of its carried
/// pair and itself, first sent highest.
pub fn windows_of(words: &[u32], carried: CarriedBits) -> Vec<u32> {
    let pair = Pair {
        d29: carried.d29 == 1,
        d30: carried.d30 == 1,
    };
    let mut bits = vec![pair.d29, pair.d30];
    bits.extend(line_bits(words, pair));
    let number = |window: &[bool]| window.iter().fold(0, |sum, bit| sum << 1 | u32::from(*bit));
    bits.windows(32).step_by(30).map(number).collect()
}

/// The 24 data bits of a window, polarity undone by its own D30*.
pub fn data_of(window: u32) -> u32 {
    let (word, pair) = apart(window);
    number_of(&data_bits(&word, pair))
}

/// Whether the word of a window passes parity after the pair it was kept with.
pub fn is_sound(window: u32) -> bool {
    let (word, pair) = apart(window);
    test(&word, pair).passed()
}

/// Whether a word's carried bits are the last two of the word before.
fn repeats(before: u32, window: u32) -> bool {
    window >> 30 == before % 4
}

/// Writes a frame's record from its own pair on and answers its length. Refuses with
/// 5, 13.
pub fn keep(frame: &Frame, buffer: &mut [u8]) -> Answer<usize> {
    check_frame(frame)?;
    let length = length_for(usize::from(frame.n));
    refuse_if(buffer.len() < length, Refusal::BufferTooShort)?;
    buffer[..2].copy_from_slice(&MARK);
    buffer[2] = frame.n;
    let windows = windows_of(&frame.all_words(), frame.carried);
    for (four, window) in buffer[3..].chunks_exact_mut(4).zip(windows) {
        four.copy_from_slice(&window.to_be_bytes());
    }
    Ok(length)
}

/// Reads the record at the start of the bytes and answers the frame, after the pair
/// of its first word, and the record's length. Refuses with 14, 15, 16, 15, 16, 17.
pub fn recall(bytes: &[u8]) -> Answer<(Frame, usize)> {
    refuse_if(!bytes.starts_with(&MARK), Refusal::NoJournalMark)?;
    let n = *bytes.get(2).ok_or(Refusal::RecordCutShort)?;
    refuse_if(usize::from(n) > MOST_WORDS, Refusal::JournalHeader)?;
    let length = length_for(usize::from(n));
    let record = bytes.get(..length).ok_or(Refusal::RecordCutShort)?;
    let windows = windows_in(record);
    let all: Vec<u32> = windows.iter().map(|window| data_of(*window)).collect();
    let agrees = preamble_is_right(all[0]) && n_of(all[1]) == n;
    refuse_if(!agrees, Refusal::JournalHeader)?;
    let sound = windows.iter().all(|window| is_sound(*window));
    let joined = windows.windows(2).all(|two| repeats(two[0], two[1]));
    refuse_if(!sound || !joined, Refusal::BrokenWord)?;
    let (_, first) = apart(windows[0]);
    Ok((Frame::of_words(&all).after(first.into()), length))
}

/// The windows of a record, behind its mark and N byte.
pub fn windows_in(record: &[u8]) -> Vec<u32> {
    let number = |four: &[u8]| four.iter().fold(0, |sum, byte| sum << 8 | u32::from(*byte));
    record[3..].chunks_exact(4).map(number).collect()
}

/// What moving one record read and wrote, in bytes.
#[derive(Clone, Copy, Debug, PartialEq, Eq)]
pub struct Moved {
    /// Bytes of the record read.
    pub read: usize,
    /// Bytes of the record written.
    pub written: usize,
}

/// Moves the old record at the start of the bytes to the new form, from carried bits
/// 00. Refuses with 14, 15, 16, 15, 16, 13.
pub fn renew(bytes: &[u8], buffer: &mut [u8]) -> Answer<Moved> {
    let (frame, read) = journal::recall(bytes)?;
    let written = keep(&frame, buffer)?;
    Ok(Moved { read, written })
}

/// Moves the new record at the start of the bytes to the old form. Refuses with 14,
/// 15, 16, 15, 16, 17, 13.
pub fn restore(bytes: &[u8], buffer: &mut [u8]) -> Answer<Moved> {
    let (frame, read) = recall(bytes)?;
    let written = journal::keep(&frame, buffer)?;
    Ok(Moved { read, written })
}

/// Where a journal stops to be read, and the refusal there.
#[derive(Clone, Copy, Debug, PartialEq, Eq)]
pub struct Stop {
    /// Byte offset of the record.
    pub at: usize,
    /// Why it is refused.
    pub refusal: Refusal,
}

/// Reads or moves one record.
type Of<T> = fn(&[u8]) -> Answer<(T, usize)>;

/// What one call makes of each record of a journal, with the record's offset; a
/// journal is records and nothing else.
pub fn each<T>(journal: &[u8], of: Of<T>) -> Result<Vec<(usize, T)>, Stop> {
    let (mut at, mut all) = (0, Vec::new());
    while at < journal.len() {
        let (found, length) = of(&journal[at..]).map_err(|refusal| Stop { at, refusal })?;
        all.push((at, found));
        at += length;
    }
    Ok(all)
}

/// An old journal moved to the new form.
pub fn renewed(journal: &[u8]) -> Result<Vec<u8>, Stop> {
    moved(journal, |bytes| whole(bytes, renew))
}

/// A new journal moved to the old form.
pub fn restored(journal: &[u8]) -> Result<Vec<u8>, Stop> {
    moved(journal, |bytes| whole(bytes, restore))
}

fn moved(journal: &[u8], of: Of<Vec<u8>>) -> Result<Vec<u8>, Stop> {
    let records = each(journal, of)?;
    Ok(records.into_iter().flat_map(|(_, record)| record).collect())
}

/// The longest record of either form.
pub const LONGEST: usize = 135;

/// One record moved, with room enough.
fn whole(bytes: &[u8], of: fn(&[u8], &mut [u8]) -> Answer<Moved>) -> Answer<(Vec<u8>, usize)> {
    let mut buffer = vec![0; LONGEST];
    let moved = of(bytes, &mut buffer)?;
    buffer.truncate(moved.written);
    Ok((buffer, moved.read))
}
