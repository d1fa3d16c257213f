//! Numbers at the ends of their ranges, just past them, and far past them but equal
//! to one inside modulo a power of two.

use rtcm2_model::rng::{Draw, Rng};

/// Draws the numbers of records that are right, each often at an end of its range.
pub struct Ends<'a>(pub &'a mut Rng);

impl Draw for Ends<'_> {
    fn any(&mut self, most: i64) -> i64 {
        inside(self.0, 0, most)
    }

    fn pulled(&mut self, least: i64, most: i64) -> i64 {
        inside(self.0, least, most)
    }

    fn place(&mut self, bound: usize) -> usize {
        self.0.place(bound)
    }
}

/// One of these.
pub fn one_of<T: Copy>(rng: &mut Rng, these: &[T]) -> T {
    these[rng.place(these.len())]
}

/// A number from the least to the most, often an end or the number beside it.
pub fn inside(rng: &mut Rng, least: i64, most: i64) -> i64 {
    match rng.below(3) {
        0 => {
            let ends = [least, least + 1, most - 1, most];
            one_of(rng, &ends).clamp(least, most)
        }
        _ => least + rng.below((most - least + 1) as u64) as i64,
    }
}

/// A number of so many bits: mostly from 0 or 1 to the most, else just past an end,
/// one inside with another bit turned over, or any.
pub fn around(rng: &mut Rng, least: i64, most: i64, bits: u32) -> i64 {
    let number = inside(rng, least, most);
    let drawn = match rng.below(48) {
        0 => least - 1,
        1 => most + 1,
        2 => number ^ 1 << rng.below(bits.into()),
        3 => -1,
        4 => rng.draw() as i64,
        _ => number,
    };
    drawn & ((1 << bits) - 1)
}

/// A larger number that equals this one modulo 2^8 or, seldom, 2^16.
pub fn longer(rng: &mut Rng, count: usize) -> usize {
    match rng.below(32) {
        0 => count + (1 << 16),
        _ => count + 256 * (1 + rng.place(3)),
    }
}

/// An entry number: mostly below the count or just past it, else equal to such a
/// number modulo 2^8, 2^16 or 2^32, or any.
pub fn index(rng: &mut Rng, count: usize) -> i64 {
    let near = rng.place(count + 2) as u64;
    let number = match rng.below(12) {
        0 => near + (1 << one_of(rng, &[8, 16, 31, 32, 33, 48, 63])),
        1 => rng.draw(),
        2 => u64::MAX - near,
        3 => count as u64,
        4 => count.saturating_sub(1) as u64,
        _ => near,
    };
    number as i64
}

/// A header's Z count, mostly inside the hour.
pub fn z_count(rng: &mut Rng) -> i64 {
    match rng.below(16) {
        0 => inside(rng, 6000, 8191),
        1 => one_of(rng, &[5999, 6000, 8191, 8192]),
        _ => around(rng, 0, 5999, 16),
    }
}
