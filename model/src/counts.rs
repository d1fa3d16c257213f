//! The reader's two counters: positions that a word ruled out, by whether the
//! number of ones in its remainder is odd or even.

/// The counters, each modulo 4,294,967,296.
#[derive(Clone, Copy, Debug, Default, PartialEq, Eq)]
pub struct Counts {
    /// Odd numbers of ones: so many bits of the word are turned.
    pub odd: u32,
    /// Even numbers of ones.
    pub even: u32,
}

impl Counts {
    /// Counts a position whose first word to fail has this remainder.
    pub fn add(&mut self, remainder: u8) {
        let counter = match remainder.count_ones() % 2 {
            1 => &mut self.odd,
            _ => &mut self.even,
        };
        *counter = counter.wrapping_add(1);
    }
}
