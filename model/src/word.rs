//! The thirty-bit word: data bits, parity by the rules' table row by row, the
//! test with its remainder, and the encoder. The slow definition; nothing here is tuned.

/// The two line bits just before a word.
#[derive(Clone, Copy, Debug, PartialEq, Eq)]
pub struct Pair {
    /// D29*, the earlier one.
    pub d29: bool,
    /// D30*, the later one.
    pub d30: bool,
}

/// Which of the two carried bits a row of the table names.
#[derive(Clone, Copy, Debug, PartialEq, Eq)]
pub enum Carried {
    /// D29*.
    D29,
    /// D30*.
    D30,
}

/// One row of the parity table.
pub struct Row {
    /// The carried bit among the terms.
    pub carried: Carried,
    /// The data bits among the terms, numbered from 1.
    pub data: &'static [usize],
}

/// The rows for D25 to D30.
pub const TABLE: [Row; 6] = [
    Row {
        carried: Carried::D29,
        data: &[1, 2, 3, 5, 6, 10, 11, 12, 13, 14, 17, 18, 20, 23],
    },
    Row {
        carried: Carried::D30,
        data: &[2, 3, 4, 6, 7, 11, 12, 13, 14, 15, 18, 19, 21, 24],
    },
    Row {
        carried: Carried::D29,
        data: &[1, 3, 4, 5, 7, 8, 12, 13, 14, 15, 16, 19, 20, 22],
    },
    Row {
        carried: Carried::D30,
        data: &[2, 4, 5, 6, 8, 9, 13, 14, 15, 16, 17, 20, 21, 23],
    },
    Row {
        carried: Carried::D30,
        data: &[1, 3, 5, 6, 7, 9, 10, 14, 15, 16, 17, 18, 21, 22, 24],
    },
    Row {
        carried: Carried::D29,
        data: &[3, 5, 6, 8, 9, 10, 11, 13, 15, 19, 22, 23, 24],
    },
];

/// Whether an odd number of the row's terms are ones.
fn row_bit(row: &Row, data: &[bool; 24], pair: Pair) -> bool {
    let carried = match row.carried {
        Carried::D29 => pair.d29,
        Carried::D30 => pair.d30,
    };
    let ones = row.data.iter().filter(|number| data[**number - 1]).count();
    (ones + usize::from(carried)) % 2 == 1
}

/// The parity bits D25 to D30 for these data bits.
pub fn parity(data: &[bool; 24], pair: Pair) -> [bool; 6] {
    let mut bits = [false; 6];
    for (bit, row) in bits.iter_mut().zip(TABLE.iter()) {
        *bit = row_bit(row, data, pair);
    }
    bits
}

/// The data bits of a line word: di = Di xor D30*.
pub fn data_bits(word: &[bool; 30], pair: Pair) -> [bool; 24] {
    let mut data = [false; 24];
    for (i, bit) in data.iter_mut().enumerate() {
        *bit = word[i] != pair.d30;
    }
    data
}

/// Received parity xor computed parity, D25 first.
pub fn remainder(word: &[bool; 30], pair: Pair) -> [bool; 6] {
    let mut bits = parity(&data_bits(word, pair), pair);
    for (bit, received) in bits.iter_mut().zip(&word[24..]) {
        *bit = *bit != *received;
    }
    bits
}

/// What the word test answers.
#[derive(Clone, Copy, Debug, PartialEq, Eq)]
pub enum Tested {
    /// The word passes parity.
    Passed,
    /// It fails with this remainder, received parity xor computed parity: six bits,
    /// D25 the highest, never 0.
    Failed(u8),
}

impl Tested {
    /// Passed for the remainder 0, else failed with it.
    pub fn of(remainder: u8) -> Tested {
        match remainder {
            0 => Tested::Passed,
            _ => Tested::Failed(remainder),
        }
    }

    /// Whether the word passes.
    pub fn passed(self) -> bool {
        self == Tested::Passed
    }
}

/// Tests the line word.
pub fn test(word: &[bool; 30], pair: Pair) -> Tested {
    let bits = remainder(word, pair);
    Tested::of(bits.iter().fold(0, |sum, bit| sum << 1 | u8::from(*bit)))
}

/// The line word for these data bits.
pub fn encode(data: &[bool; 24], pair: Pair) -> [bool; 30] {
    let mut word = [false; 30];
    for (i, bit) in data.iter().enumerate() {
        word[i] = *bit != pair.d30;
    }
    word[24..].copy_from_slice(&parity(data, pair));
    word
}

/// The word and the pair before it in a window of 32 bits, D29* highest.
pub fn apart(window: u32) -> ([bool; 30], Pair) {
    let bit = |i: usize| (window >> (31 - i)) % 2 == 1;
    let mut word = [false; 30];
    for (i, place) in word.iter_mut().enumerate() {
        *place = bit(i + 2);
    }
    let pair = Pair {
        d29: bit(0),
        d30: bit(1),
    };
    (word, pair)
}

/// Data bits as a number, d1 the highest of 24.
pub fn number_of(data: &[bool; 24]) -> u32 {
    data.iter().fold(0, |sum, bit| sum * 2 + u32::from(*bit))
}

/// The 24 data bits of a number, highest first.
pub fn bits_of(number: u32) -> [bool; 24] {
    let mut data = [false; 24];
    for (i, bit) in data.iter_mut().enumerate() {
        *bit = (number >> (23 - i)) % 2 == 1;
    }
    data
}
