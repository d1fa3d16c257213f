//! Late joiners through the library: of each stream one reader from its start and
//! others from later bytes on, against the model's definition.

use crate::header::*;
use rtcm2_model::frame::Frame;
use rtcm2_model::joining::{from_byte, from_meeting, worked};
use rtcm2_model::journal;
use rtcm2_model::library::turns::ROW;
use rtcm2_model::line::bits_of_bytes;
use rtcm2_model::rng::Rng;
use rtcm2_model::streams;

/// Late readers of each test stream.
const READERS: usize = 8;

/// The line bit that a frame begins at, the two bits before it, and the frame's
/// record.
type Record = (usize, ([u8; 2], Vec<u8>));

/// How many late readers there were, and how many met the first.
#[derive(Default)]
struct Met {
    readers: usize,
    met: usize,
}

/// Reads the streams of a seed; whether all readers hand out what the model says
/// and agree from where they meet.
pub fn run(seed: u64) -> bool {
    let mut rng = Rng::new(seed);
    let mut met = Met::default();
    match worked_streams(&mut rng).and_then(|()| test_streams(&mut rng, &mut met)) {
        Ok(()) => {
            let Met { readers, met } = met;
            println!("{met} of {readers} late joiners met the first reader, all as the model says");
            0 < met && met < readers
        }
        Err(difference) => {
            println!("seed {seed}, late joiners: {difference}");
            false
        }
    }
}

/// The worked streams: where frames begin, and N, which is a record's third byte.
fn worked_streams(rng: &mut Rng) -> Result<(), String> {
    for (name, (bytes, starts)) in ["A", "B", "C", "D"].into_iter().zip(worked()) {
        for (from, before, after) in starts {
            let places = read(&bytes, from, rng).map(|records| {
                let place = |(at, (_, record)): &Record| (*at, record[2]);
                records.iter().map(place).collect::<Vec<_>>()
            });
            if places != [before, after] {
                return Err(format!("{name} from byte {from} has {places:?}"));
            }
        }
    }
    Ok(())
}

/// The test streams, each from random bytes on.
fn test_streams(rng: &mut Rng, met: &mut Met) -> Result<(), String> {
    for stream in streams::all() {
        let bytes = &stream.bytes;
        let first = read(bytes, 0, rng);
        if first != expected(bytes, 0) {
            return Err(format!("{} differs", stream.name));
        }
        for _ in 0..READERS {
            let from = rng.place(bytes.len() + 1);
            let late = read(bytes, from, rng);
            if late != expected(bytes, from) || !agree(&first, &late, met) {
                return Err(format!("{} from byte {from} differs", stream.name));
            }
        }
    }
    Ok(())
}

/// Whether two readers have the same from where they meet, before the end and
/// after it.
fn agree(first: &[Vec<Record>; 2], late: &[Vec<Record>; 2], met: &mut Met) -> bool {
    let meetings = [0, 1].map(|ended| from_meeting(&first[ended], &late[ended]));
    met.readers += 1;
    met.met += usize::from(meetings[1].is_some());
    meetings
        .iter()
        .flatten()
        .all(|[rest, late_rest]| rest == late_rest)
}

/// What the model hands out from a byte on, before the end and in all.
fn expected(bytes: &[u8], from: usize) -> [Vec<Record>; 2] {
    let record = |(at, frame): (usize, Frame)| {
        let mut kept = [0; 102];
        let length = journal::keep(&frame, &mut kept).expect("a frame that stands is kept");
        let pair = [frame.carried.d29, frame.carried.d30];
        (at, (pair, kept[..length].to_vec()))
    };
    [false, true].map(|ended| {
        from_byte(bytes, from, ended)
            .into_iter()
            .map(record)
            .collect()
    })
}

/// What the library hands out from a byte on, fed in random pieces and every frame
/// taken at once or, as a draw says, read into rows; before the end and in all.
fn read(bytes: &[u8], from: usize, rng: &mut Rng) -> [Vec<Record>; 2] {
    let before = bits_of_bytes(&bytes[..from]).len();
    let (mut reader, mut left) = (Reader::started(), &bytes[from..]);
    let mut records = Vec::new();
    let by_rows = rng.bit();
    while !left.is_empty() {
        let piece = &left[..left.len().min(1 + rng.place(200))];
        let used = if by_rows {
            let room = ROW * (1 + rng.place(3)) + rng.place(ROW);
            reader.read(piece, &mut vec![0; room], before, &mut records)
        } else {
            reader.feed_all(piece)
        };
        left = &left[used..];
        if !by_rows || left.is_empty() {
            records.extend(reader.take_all(before));
        }
    }
    let going_on = records.clone();
    reader.end();
    records.extend(reader.take_all(before));
    [going_on, records]
}

/// A reader of the library.
struct Reader(Vec<u8>);

// Safety of all calls below: each pointer comes with the size of its bytes, or
// points to a number of its type.
impl Reader {
    fn started() -> Reader {
        let mut state = vec![0xFF; rtcm2_state_size()];
        let answer = unsafe { rtcm2_start(state.as_mut_ptr(), state.len()) };
        assert_eq!(answer, 0);
        Reader(state)
    }

    /// Feeds bytes, and says how many were used.
    fn feed_all(&mut self, bytes: &[u8]) -> usize {
        let (state, size) = (self.0.as_mut_ptr(), self.0.len());
        let (mut used, mut passed) = (0, 0);
        let answer = unsafe {
            rtcm2_feed_all(
                state,
                size,
                bytes.as_ptr(),
                bytes.len(),
                &mut used,
                &mut passed,
            )
        };
        assert_eq!(answer, 0);
        used
    }

    /// Feeds bytes and takes frames in turns, of a reader that started after so many
    /// bits, and says how many bytes were used.
    fn read(
        &mut self,
        bytes: &[u8],
        rows: &mut [u8],
        before: usize,
        to: &mut Vec<Record>,
    ) -> usize {
        let (state, size) = (self.0.as_mut_ptr(), self.0.len());
        let (mut used, mut passed, mut count) = (0, 0, 0);
        let answer = unsafe {
            rtcm2_read(
                state,
                size,
                bytes.as_ptr(),
                bytes.len(),
                rows.as_mut_ptr(),
                rows.len(),
                &mut used,
                &mut passed,
                &mut count,
            )
        };
        assert_eq!(answer, 0);
        to.extend(rows.chunks_exact(ROW).take(count).map(|row| {
            let (at, record) = (&row[..4], &row[6..15 + 3 * usize::from(row[8])]);
            let at = u32::from_le_bytes(at.try_into().expect("four bytes"));
            (before + at as usize, ([row[4], row[5]], record.to_vec()))
        }));
        used
    }

    fn end(&mut self) {
        let answer = unsafe { rtcm2_end(self.0.as_mut_ptr(), self.0.len()) };
        assert_eq!(answer, 0);
    }

    /// Takes the frames that wait, of a reader that started after so many bits.
    fn take_all(&mut self, before: usize) -> Vec<Record> {
        let (state, size) = (self.0.as_mut_ptr(), self.0.len());
        let mut records = Vec::new();
        loop {
            let (mut frame, mut length, mut at) = ([0; 102], 0, 0);
            let [mut d29, mut d30] = [2; 2];
            let answer = unsafe {
                rtcm2_take(
                    state,
                    size,
                    frame.as_mut_ptr(),
                    frame.len(),
                    &mut length,
                    &mut at,
                    &mut d29,
                    &mut d30,
                )
            };
            if answer != 0 {
                assert_eq!(answer, 4);
                return records;
            }
            let record = ([d29, d30], frame[..length].to_vec());
            records.push((before + at as usize, record));
        }
    }
}
