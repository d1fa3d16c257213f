//! The call that feeds and takes: its rows, its refusals, and that it is the two calls
//! in turns, on every stream, in pieces and rooms of any size.

use rtcm2_model::library::line::{self, Taking};
use rtcm2_model::library::state::{State, SIZE};
use rtcm2_model::library::turns::{self, Reading, ROW};
use rtcm2_model::line::bits_of_bytes;
use rtcm2_model::rng::Rng;
use rtcm2_model::scan::scan;
use rtcm2_model::streams;

/// A frame of type 6 with N 0, behind the lead byte; the same without the lead byte
/// stands behind it, since its last two bits are zeros.
const LINE: [u8; 11] = *b"\x40\x66\x61\x41\x68\x7F\x7F\x6C\x73\x7F\x44";

/// Its record.
const RECORD: [u8; 9] = [0x52, 0x32, 0, 0x66, 0x18, 0x05, 0x03, 0x23, 0x00];

/// What stands in lent bytes before a call.
const BEFORE: u8 = 0xA5;

/// A call's answer, and all that it left.
#[derive(Clone, Debug, PartialEq, Eq)]
struct Left {
    answer: u8,
    state: Vec<u8>,
    rows: Vec<u8>,
    used: usize,
    passed: usize,
    count: usize,
}

/// The bytes of a state.
fn bytes_of(state: &State) -> Vec<u8> {
    let mut bytes = vec![0; SIZE];
    state.put(&mut bytes);
    bytes
}

/// Reads bytes into so many bytes of room.
fn read(state: &[u8], bytes: &[u8], room: usize) -> Left {
    let mut left = Left {
        answer: 0,
        state: state.to_vec(),
        rows: vec![BEFORE; room],
        used: 7,
        passed: 8,
        count: 9,
    };
    let into = Reading {
        used: &mut left.used,
        passed: &mut left.passed,
        count: &mut left.count,
    };
    left.answer = turns::read(&mut left.state, bytes, &mut left.rows, into);
    left
}

/// A call that is refused leaves all as it was.
fn refused(answer: u8, state: &[u8], room: usize) -> Left {
    Left {
        answer,
        state: state.to_vec(),
        rows: vec![BEFORE; room],
        used: 7,
        passed: 8,
        count: 9,
    }
}

/// Whether a frame waits, by the state's flag.
fn waits(state: &[u8]) -> bool {
    State::read(state).unwrap().waits
}

/// Takes the frame that waits into a row, if one does.
fn take(state: &mut [u8], row: &mut [u8]) -> bool {
    let (mut length, mut at, mut d29, mut d30) = (0, 0, 0, 0);
    let into = Taking {
        length: &mut length,
        at: &mut at,
        d29: &mut d29,
        d30: &mut d30,
    };
    let mut frame = [0; 102];
    if line::take(state, &mut frame, into) != 0 {
        return false;
    }
    row[..4].copy_from_slice(&at.to_le_bytes());
    (row[4], row[5]) = (d29, d30);
    row[6..6 + length].copy_from_slice(&frame[..length]);
    true
}

/// The same by the two calls, of a reader that can go on.
fn by_turns(state: &[u8], bytes: &[u8], room: usize) -> Left {
    let mut left = refused(0, state, room);
    (left.used, left.passed, left.count) = (0, 0, 0);
    while left.count < room / ROW {
        if !waits(&left.state) {
            let (mut used, mut passed) = (0, 0);
            let rest = &bytes[left.used..];
            assert_eq!(
                line::feed_all(&mut left.state, rest, &mut used, &mut passed),
                0
            );
            left.used += used;
            left.passed += passed;
        }
        let row = &mut left.rows[ROW * left.count..ROW * (left.count + 1)];
        if !take(&mut left.state, row) {
            break;
        }
        left.count += 1;
    }
    left
}

/// So many frames of the line, one behind the other.
fn frames(count: usize) -> Vec<u8> {
    [&LINE[..1], &LINE[1..].repeat(count)].concat()
}

/// The positions of the rows put, each of this frame; all else is as it was before.
fn rows_of(left: &Left) -> Vec<u32> {
    let (put, rest) = left.rows.split_at(ROW * left.count);
    assert!(rest.iter().all(|byte| *byte == BEFORE));
    let row = |row: &[u8]| {
        assert_eq!(row[4..6], [0, 0]);
        assert_eq!(row[6..15], RECORD);
        assert!(row[15..].iter().all(|byte| *byte == BEFORE));
        u32::from_le_bytes(row[..4].try_into().unwrap())
    };
    put.chunks_exact(ROW).map(row).collect()
}

#[test]
fn room_says_how_many_rows() {
    let fresh = bytes_of(&State::fresh());
    for room in [0, 1, 107] {
        assert_eq!(read(&fresh, &LINE, room), refused(13, &fresh, room));
    }
    for (room, rows, used) in [
        (108, 1, 11),
        (109, 1, 11),
        (215, 1, 11),
        (216, 2, 21),
        (323, 2, 21),
        (324, 3, 31),
        (10 * ROW, 10, 101),
        (10 * ROW + 107, 10, 101),
        (12 * ROW, 12, 121),
        (13 * ROW, 12, 121),
        (1000 * ROW, 12, 121),
    ] {
        let left = read(&fresh, &frames(12), room);
        assert_eq!((left.answer, left.count, left.used), (0, rows, used));
        assert_eq!(left.passed, 0);
        let positions: Vec<u32> = (0..rows as u32).map(|i| 6 + 60 * i).collect();
        assert_eq!(rows_of(&left), positions, "room {room}");
        assert_eq!(left, by_turns(&fresh, &frames(12), room));
    }
}

#[test]
fn no_bytes_and_no_frame_change_nothing() {
    let fresh = bytes_of(&State::fresh());
    let left = read(&fresh, &[], ROW);
    assert_eq!((left.answer, left.used, left.passed), (0, 0, 0));
    assert_eq!((left.count, &left.state), (0, &fresh));
    let most = read(&fresh, &LINE[..10], ROW);
    assert_eq!((most.used, most.count), (10, 0));
    assert_eq!(read(&most.state, &LINE[10..], ROW).count, 1);
}

#[test]
fn a_waiting_frame_goes_out_first() {
    let mut reader = State::fresh();
    reader.feed_all(&LINE).unwrap();
    assert!(reader.waits);
    let state = bytes_of(&reader);
    let one = read(&state, &LINE[1..], ROW);
    assert_eq!((one.answer, one.used, one.count), (0, 0, 1));
    assert_eq!(rows_of(&one), [6]);
    assert!(!waits(&one.state));
    let both = read(&state, &LINE[1..], 2 * ROW);
    assert_eq!((both.used, both.count), (10, 2));
    assert_eq!(rows_of(&both), [6, 66]);
    let none = read(&state, &[], 5 * ROW);
    assert_eq!((none.used, none.count), (0, 1));
}

#[test]
fn after_the_last_row_no_byte_is_fed() {
    let bytes = [frames(2), vec![0, 0, 0]].concat();
    let fresh = bytes_of(&State::fresh());
    let full = read(&fresh, &bytes, 2 * ROW);
    assert_eq!((full.used, full.passed, full.count), (21, 0, 2));
    let more = read(&fresh, &bytes, 3 * ROW);
    assert_eq!((more.used, more.passed, more.count), (24, 3, 2));
    let rest = read(&full.state, &bytes[21..], ROW);
    assert_eq!((rest.used, rest.passed, rest.count), (3, 3, 0));
    assert_eq!(rest.state, more.state);
}

#[test]
fn bytes_without_bits_are_counted() {
    let mut bytes = vec![0, 255];
    for byte in frames(3) {
        bytes.extend([byte, 0x3F, 0x80]);
    }
    let fresh = bytes_of(&State::fresh());
    for (room, rows) in [(ROW, 1), (2 * ROW, 2), (3 * ROW, 3), (9 * ROW, 3)] {
        let left = read(&fresh, &bytes, room);
        assert_eq!((left.answer, left.count), (0, rows));
        let used = if room > 3 * ROW {
            bytes.len()
        } else {
            3 + 30 * rows
        };
        assert_eq!(left.used, used);
        assert_eq!(left.passed, used - (1 + 10 * rows));
    }
    let none = read(&fresh, &[0; 70_000], ROW);
    assert_eq!((none.used, none.passed, none.count), (70_000, 70_000, 0));
    assert_eq!(none.state, fresh);
}

#[test]
fn ended_is_refused_before_room() {
    let mut reader = State::fresh();
    reader.feed_all(&LINE[..5]).unwrap();
    reader.finish().unwrap();
    let state = bytes_of(&reader);
    for room in [0, 107, 108, 1000] {
        assert_eq!(read(&state, &LINE, room), refused(3, &state, room));
    }
    let mut waiting = State::fresh();
    waiting.feed_all(&LINE).unwrap();
    waiting.ended = true;
    let state = bytes_of(&waiting);
    assert_eq!(read(&state, &[], ROW), refused(3, &state, ROW));
    waiting.held -= 1;
    let state = bytes_of(&waiting);
    assert_eq!(read(&state, &[], 0), refused(5, &state, 0));
}

#[test]
fn bytes_that_hold_no_state_are_refused_first() {
    let mut ended = State::fresh();
    ended.ended = true;
    let good = bytes_of(&ended);
    for (place, number) in [
        (0, 0),
        (3, 0x31),
        (20, 2),
        (24, 2),
        (21, 1),
        (5, 6),
        (12, 33),
    ] {
        let mut bad = good.clone();
        bad[place] = number;
        for room in [0, ROW] {
            assert_eq!(
                read(&bad, &LINE, room),
                refused(5, &bad, room),
                "byte {place}"
            );
        }
    }
    for size in [0, 1, 188, 195] {
        let bad = &good[..size];
        assert_eq!(read(bad, &LINE, 0), refused(5, bad, 0));
    }
    let longer = [&bytes_of(&State::fresh())[..], &[1, 2, 3]].concat();
    let left = read(&longer, &LINE, ROW);
    assert_eq!((left.answer, left.count), (0, 1));
    assert_eq!(left.state[SIZE..], [1, 2, 3]);
}

#[test]
fn a_frame_that_waits_and_does_not_stand_is_refused() {
    let mut whole = State::fresh();
    whole.feed_all(&LINE).unwrap();
    for place in whole.end - whole.held..whole.end {
        let mut damaged = whole.clone();
        damaged.cells[place / 32] ^= 1 << (31 - place % 32);
        let state = bytes_of(&damaged);
        for room in [0, ROW] {
            assert_eq!(read(&state, &LINE, room), refused(5, &state, room));
        }
    }
    for held in 0..whole.held {
        let cut = State {
            held,
            ..whole.clone()
        };
        let state = bytes_of(&cut);
        assert_eq!(read(&state, &LINE, ROW), refused(5, &state, ROW));
    }
}

/// A reader that says that word 1 is right, and it is not: the hunt believes it.
#[test]
fn a_frame_that_comes_to_wait_and_does_not_stand_ends_the_turns() {
    let mut reader = State::fresh();
    reader.feed_all(&LINE[..7]).unwrap();
    assert_eq!((reader.words, reader.waits), (1, false));
    let place = reader.end - reader.held + 3;
    reader.cells[place / 32] ^= 1 << (31 - place % 32);
    let state = bytes_of(&reader);
    let bytes = [&LINE[7..], &LINE[1..]].concat();
    let left = read(&state, &bytes, 5 * ROW);
    assert_eq!((left.answer, left.count), (0, 0));
    assert_eq!((left.used, left.passed), (4, 0));
    assert!(waits(&left.state));
    assert_eq!(left, by_turns(&state, &bytes, 5 * ROW));
    let rest = &bytes[left.used..];
    assert_eq!(read(&left.state, rest, ROW), refused(5, &left.state, ROW));
}

#[test]
fn on_every_stream_it_is_the_two_calls_in_turns() {
    let mut rng = Rng::named("turns");
    for stream in streams::all() {
        let (mut state, mut rest) = (bytes_of(&State::fresh()), &stream.bytes[..]);
        let (mut positions, mut passed) = (Vec::new(), 0);
        while !rest.is_empty() || waits(&state) {
            let piece = &rest[..rest.len().min(rng.place(400))];
            let room = ROW * (1 + rng.place(4)) + rng.place(ROW);
            let left = read(&state, piece, room);
            assert_eq!(left, by_turns(&state, piece, room), "{}", stream.name);
            for row in left.rows.chunks_exact(ROW).take(left.count) {
                positions.push(u32::from_le_bytes(row[..4].try_into().unwrap()) as usize);
            }
            passed += left.passed;
            rest = &rest[left.used..];
            state = left.state;
        }
        let bits = bits_of_bytes(&stream.bytes);
        let standing: Vec<usize> = scan(&bits, false).iter().map(|(at, _)| *at).collect();
        assert_eq!(positions, standing, "{}", stream.name);
        assert_eq!(6 * (stream.bytes.len() - passed), bits.len());
    }
}
