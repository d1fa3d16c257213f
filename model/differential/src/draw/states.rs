//! Bytes that hold a reader's state, or nearly: forged counts around the limits,
//! forged words, flags and bits, a damaged mark, any number of bytes.

use super::bits::{line_bits, line_bytes};
use super::ends::{longer, one_of};
use rtcm2_model::library::state::{State, MARK, MOST_HELD, MOST_WORDS, ROOM, SIZE};
use rtcm2_model::rng::Rng;

/// Bytes of a state without the two counters, and its mark.
const OLD_SIZE: usize = 188;
const OLD_MARK: u32 = 0x3153_3252;

/// Forged bytes, most of which hold a state.
pub fn forged(rng: &mut Rng) -> Vec<u8> {
    let mut state = match rng.below(4) {
        0 => held_frames(rng),
        1 => under_way(rng),
        2 => State {
            cells: std::array::from_fn(|_| rng.draw() as u32),
            ..State::fresh()
        },
        _ => State::fresh(),
    };
    for _ in 0..rng.place(4) {
        forge(rng, &mut state);
    }
    let mut bytes: Vec<u8> = (0..size(rng)).map(|_| rng.byte()).collect();
    state.put(&mut bytes);
    match rng.below(12) {
        0 => bytes.truncate(one_of(rng, &[0, 1, 36, OLD_SIZE, SIZE - 4, SIZE - 1, SIZE])),
        1 => bytes.truncate(rng.place(SIZE + 1)),
        2 => damage(rng, &mut bytes),
        _ => {}
    }
    bytes
}

/// How many bytes are lent: enough for a state, sometimes too few modulo 2^8.
fn size(rng: &mut Rng) -> usize {
    match rng.below(16) {
        0 => {
            let few = rng.place(SIZE);
            longer(rng, few)
        }
        _ => SIZE + rng.place(13),
    }
}

/// A state whose cells hold line bits, a frame of them often the one that waits.
fn held_frames(rng: &mut Rng) -> State {
    let mut state = State::fresh();
    let line = line_bits(rng);
    let from = rng.place(ROOM);
    state.end = ROOM.min(from + line.len());
    for (place, bit) in (from..state.end).zip(&line.0) {
        state.cells[place / 32] |= u32::from(*bit) << (31 - place % 32);
    }
    state.waits = rng.bit();
    state.ended = rng.bit();
    state.held = MOST_HELD[usize::from(state.waits)].min(state.end - from);
    if rng.bit() {
        // from two bits before the frame that follows the opening on
        state.held = state.held.saturating_sub(4);
    }
    state.at = rng.draw() as u32;
    state
}

/// A state of a reader that was fed some of a line.
fn under_way(rng: &mut Rng) -> State {
    let mut state = State::fresh();
    let line = line_bytes(rng);
    let mut rest = &line[..rng.place(line.len() + 1)];
    while let Ok(fed) = state.feed_all(rest) {
        rest = &rest[fed.used..];
        if !state.waits || rng.bit() || state.take().is_err() {
            break;
        }
    }
    state
}

/// Gives one of the numbers another value, or turns over a bit that is held.
fn forge(rng: &mut Rng, state: &mut State) {
    match rng.below(17) {
        0 => state.end = around(rng, ROOM),
        1 => state.end = around(rng, ROOM - 64),
        2 => state.end = state.held + rng.place(ROOM),
        3 => state.held = around(rng, MOST_HELD[usize::from(state.waits)]),
        4 => state.held = rng.place(state.end + 2),
        5 => state.held = 30 * rng.place(34) + rng.place(4),
        6 => state.words = rng.place(MOST_WORDS + 3),
        7 => {
            state.words = rng.place(MOST_WORDS + 2);
            state.held = 30 * state.words + 1 + rng.place(3);
            state.end = state.end.max(state.held);
        }
        8 => state.at = (rng.below(64) as u32).wrapping_sub(32),
        9 => state.waits = !state.waits,
        10 => state.ended = !state.ended,
        11 | 12 => turn_bit(rng, state),
        13 => state.counts.odd = counter(rng),
        14 => state.counts.even = counter(rng),
        15 => (state.counts.odd, state.counts.even) = (counter(rng), counter(rng)),
        _ => {
            let more = 1 << one_of(rng, &[8, 16, 31]);
            let counts = [&mut state.end, &mut state.held, &mut state.words];
            *counts[rng.place(3)] += more;
        }
    }
}

/// A counter: any, small, or just before it goes round.
fn counter(rng: &mut Rng) -> u32 {
    match rng.below(3) {
        0 => rng.draw() as u32,
        1 => rng.below(4) as u32,
        _ => u32::MAX - rng.below(4) as u32,
    }
}

/// Turns over one of the bits held.
fn turn_bit(rng: &mut Rng, state: &mut State) {
    let place = state.end.wrapping_sub(1 + rng.place(state.held + 1));
    if let Some(cell) = state.cells.get_mut(place / 32) {
        *cell ^= 1 << (31 - place % 32);
    }
}

/// A number near this one.
fn around(rng: &mut Rng, number: usize) -> usize {
    (number + rng.place(9)).saturating_sub(4)
}

/// Damages the mark or a flag, or makes a count far too large.
fn damage(rng: &mut Rng, bytes: &mut [u8]) {
    let any = rng.draw() as u32;
    let (place, number) = match rng.below(4) {
        0 => (0, MARK ^ 1 << rng.below(32)),
        1 => (0, OLD_MARK),
        2 => {
            let flags = [2, 255, 1 << 8, (1 << 8) + 1, (1 << 16) + 1, 1 << 31, any];
            (5 + rng.place(2), one_of(rng, &flags))
        }
        _ => (1 + rng.place(3), any),
    };
    bytes[4 * place..4 * place + 4].copy_from_slice(&number.to_le_bytes());
}
