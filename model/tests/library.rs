//! The library's calls against the definition: streams read in pieces through
//! the state's bytes give the frames of `scan`, and what they give is read back.

use rtcm2_model::library::line::Taking;
use rtcm2_model::library::state::State;
use rtcm2_model::library::{line, lists, state};
use rtcm2_model::line::bits_of_bytes;
use rtcm2_model::record::correction::{Correction, Issue};
use rtcm2_model::record::list::List;
use rtcm2_model::rng::Rng;
use rtcm2_model::scan::scan;
use rtcm2_model::{journal, streams};

/// A frame taken: its position, its record and its two carried bits.
type Found = (usize, Vec<u8>, [u8; 2]);

/// The numbers that taking sets.
fn taking<'a>(
    length: &'a mut usize,
    at: &'a mut u32,
    d29: &'a mut u8,
    d30: &'a mut u8,
) -> Taking<'a> {
    Taking {
        length,
        at,
        d29,
        d30,
    }
}

/// Takes every frame that waits.
fn take_all(state: &mut [u8], found: &mut Vec<Found>) {
    loop {
        let (mut frame, mut length, mut at) = ([0; 102], 0, 0);
        let (mut d29, mut d30) = (7, 7);
        match line::take(
            state,
            &mut frame,
            taking(&mut length, &mut at, &mut d29, &mut d30),
        ) {
            0 => found.push((at as usize, frame[..length].to_vec(), [d29, d30])),
            refusal => {
                assert_eq!((refusal, length, at, d29, d30), (4, 0, 0, 7, 7));
                return;
            }
        }
    }
}

/// The two counters of a state.
fn counts(state: &[u8]) -> [u32; 2] {
    let (mut odd, mut even) = (7, 7);
    assert_eq!(line::counts(state, &mut odd, &mut even), 0);
    [odd, even]
}

/// The frames of a stream, read in random pieces, and the two counters.
fn read(bytes: &[u8], rng: &mut Rng) -> (Vec<Found>, [u32; 2]) {
    let mut state = [0xFF; state::SIZE];
    let mut found = Vec::new();
    let mut fed = 0;
    assert_eq!(line::start(&mut state), 0);
    while fed < bytes.len() {
        let piece = &bytes[fed..bytes.len().min(fed + 1 + rng.place(200))];
        let (mut used, mut passed) = (0, 0);
        let answer = line::feed_all(&mut state, piece, &mut used, &mut passed);
        assert_eq!(answer, 0);
        fed += used;
        take_all(&mut state, &mut found);
    }
    assert_eq!(line::end(&mut state), 0);
    take_all(&mut state, &mut found);
    (found, counts(&state))
}

#[test]
fn streams_give_the_frames_of_the_scan() {
    let mut rng = Rng::named("library");
    for stream in streams::all() {
        let mut expected = Vec::new();
        for (at, frame) in scan(&bits_of_bytes(&stream.bytes), true) {
            let mut record = [0; 102];
            let length = journal::keep(&frame, &mut record).unwrap();
            let pair = [frame.carried.d29, frame.carried.d30];
            expected.push((at, record[..length].to_vec(), pair));
        }
        let (found, [odd, even]) = read(&stream.bytes, &mut rng);
        assert_eq!(found, expected, "{}", stream.name);
        let line = format!("odd {odd} even {even}\n");
        assert!(stream.expected().contains(&line), "{}", stream.name);
    }
}

#[test]
fn corrections_are_rows_of_the_entries() {
    let mut rng = Rng::named("rows");
    for count in 1..=Correction::MOST {
        let type_number = [9, 31][count % 2];
        let frame = Correction::sample(&mut rng, type_number, count);
        let mut record = [0; 102];
        journal::keep(&frame, &mut record).unwrap();
        let mut counted = 0;
        assert_eq!(lists::count::<Correction>(&record, &mut counted), 0);
        assert_eq!(counted, count);
        for i in 0..count {
            let mut row = [0; Correction::SIZE];
            assert_eq!(lists::at::<Correction>(&record, i, &mut row), 0);
            let entry = Correction::entry(&frame, i).unwrap();
            let prc = i16::from(row[4] as i8) * 256 + i16::from(row[3]);
            assert_eq!((row[2], prc), (entry.satellite, entry.prc));
            let last = match entry.issue {
                Issue::Iod(iod) => iod,
                Issue::Age { change, tb } => change << 7 | tb,
            };
            assert_eq!(row[6], last);
        }
    }
}

#[test]
fn bytes_that_hold_no_state_are_refused() {
    let mut state = [0; 200];
    assert_eq!(line::start(&mut state[..195]), 13);
    assert_eq!(line::start(&mut state), 0);
    let fresh = state;
    assert_eq!(&fresh[..8], b"R2S2\0\0\0\0");
    assert_eq!(line::feed(&mut state[..195], 0x40), 5);
    assert_eq!(line::feed(&mut state[..188], 0x40), 5);
    // byte 3 is 1 in the mark of a state before the counters; the last two are counts
    // past what a reader can hold, which the counters are told without
    for (place, number, told) in [
        (0, 0, 5),
        (3, 0x31, 5),
        (20, 2, 5),
        (24, 2, 5),
        (21, 1, 5),
        (5, 6, 0),
        (12, 33, 0),
    ] {
        state[place] = number;
        assert_eq!(line::feed(&mut state, 0x40), 5, "byte {place}");
        let (mut odd, mut even) = (7, 7);
        assert_eq!(
            line::counts(&state, &mut odd, &mut even),
            told,
            "byte {place}"
        );
        let left = if told == 0 { 0 } else { 7 };
        assert_eq!((odd, even), (left, left), "byte {place}");
        state[place] = fresh[place];
    }
    assert_eq!(state, fresh);
    assert_eq!(line::feed(&mut state, 0x40), 0);
}

/// What the four calls answer of a state, which each leaves as it is.
fn answers(state: &State) -> [u8; 4] {
    let mut bytes = [0; state::SIZE];
    state.put(&mut bytes);
    let before = bytes;
    let (mut frame, mut length, mut at) = ([0; 102], 7, 7);
    let (mut used, mut passed, mut d29, mut d30) = (7, 7, 7, 7);
    let into = taking(&mut length, &mut at, &mut d29, &mut d30);
    let answers = [
        line::feed(&mut bytes, 0x40),
        line::feed_all(&mut bytes, &[0x40], &mut used, &mut passed),
        line::end(&mut bytes),
        line::take(&mut bytes, &mut frame, into),
    ];
    assert_eq!((bytes, length, at, used, passed), (before, 7, 7, 7, 7));
    assert_eq!((frame, d29, d30), ([0; 102], 7, 7));
    answers
}

#[test]
fn more_words_known_than_bits_held_are_refused() {
    for words in 1..=32 {
        let mut state = State::fresh();
        state.words = words;
        state.held = 30 * words + 1;
        state.end = state.held;
        assert_eq!(answers(&state), [5; 4], "{words} words");
        state.held += 1;
        state.end += 1;
        let mut bytes = [0; state::SIZE];
        state.put(&mut bytes);
        assert_eq!(line::feed(&mut bytes, 0x40), 0, "{words} words");
    }
}

#[test]
fn a_frame_that_does_not_stand_is_not_taken() {
    let stream = *b"\x40\x66\x61\x41\x68\x7F\x7F\x6C\x73\x7F\x44";
    let mut whole = State::fresh();
    whole.feed_all(&stream).unwrap();
    assert!(whole.waits && whole.clone().take().is_ok());
    for place in whole.end - whole.held..whole.end {
        let mut damaged = whole.clone();
        damaged.cells[place / 32] ^= 1 << (31 - place % 32);
        assert_eq!(answers(&damaged), [2, 2, 2, 4], "bit {place}");
    }
    for held in 0..whole.held {
        let cut = State {
            held,
            ..whole.clone()
        };
        assert_eq!(answers(&cut), [2, 2, 2, 4], "{held} bits");
    }
}

#[test]
fn counters_go_round_and_any_are_believed() {
    let nicked = b"\x40\x66\x61\x45\x68\x7F\x7F\x6C\x73\x7F\x44";
    for (odd, even) in [(0, 0), (u32::MAX, 5), (7, u32::MAX)] {
        let mut state = State::fresh();
        (state.counts.odd, state.counts.even) = (odd, even);
        let mut bytes = [0; state::SIZE];
        state.put(&mut bytes);
        assert_eq!(counts(&bytes), [odd, even]);
        let (mut used, mut passed) = (0, 0);
        assert_eq!(
            line::feed_all(&mut bytes, nicked, &mut used, &mut passed),
            0
        );
        assert_eq!(line::end(&mut bytes), 0);
        assert_eq!(counts(&bytes), [odd.wrapping_add(1), even]);
    }
}
