//! A small generator with a fixed seed (splitmix64). No time, no system
//! randomness: the same seed gives the same numbers everywhere.

/// The generator.
#[derive(Clone, Debug)]
pub struct Rng {
    state: u64,
}

impl Rng {
    /// A generator from a number.
    pub fn new(seed: u64) -> Rng {
        Rng { state: seed }
    }

    /// A generator from a name, so that each stream has numbers of its own.
    pub fn named(name: &str) -> Rng {
        let mut seed: u64 = 0xCBF2_9CE4_8422_2325;
        for byte in name.bytes() {
            seed = (seed ^ u64::from(byte)).wrapping_mul(0x0100_0000_01B3);
        }
        Rng::new(seed)
    }

    /// The next 64 bits.
    pub fn draw(&mut self) -> u64 {
        self.state = self.state.wrapping_add(0x9E37_79B9_7F4A_7C15);
        let mut mixed = self.state;
        mixed = (mixed ^ (mixed >> 30)).wrapping_mul(0xBF58_476D_1CE4_E5B9);
        mixed = (mixed ^ (mixed >> 27)).wrapping_mul(0x94D0_49BB_1331_11EB);
        mixed ^ (mixed >> 31)
    }

    /// A number below the bound, which is at least 1.
    pub fn below(&mut self, bound: u64) -> u64 {
        (self.draw() >> 11) % bound
    }

    /// A place below the bound, which is at least 1.
    pub fn place(&mut self, bound: usize) -> usize {
        self.below(bound as u64) as usize
    }

    /// One bit.
    pub fn bit(&mut self) -> bool {
        self.below(2) == 1
    }

    /// One byte of any value.
    pub fn byte(&mut self) -> u8 {
        self.below(256) as u8
    }

    /// One byte with top bits 01.
    pub fn data_byte(&mut self) -> u8 {
        0x40 + self.below(64) as u8
    }

    /// One byte without top bits 01.
    pub fn other_byte(&mut self) -> u8 {
        loop {
            let byte = self.byte();
            if byte >> 6 != 1 {
                return byte;
            }
        }
    }

    /// 24 data bits.
    pub fn word(&mut self) -> u32 {
        self.below(1 << 24) as u32
    }
}

/// Where the numbers of a random record come from: those of samples are mostly any, those
/// of calls mostly at an end.
pub trait Draw {
    /// A number from 0 to the most.
    fn any(&mut self, most: i64) -> i64;

    /// A number from the least to the most, of a field whose ends matter.
    fn pulled(&mut self, least: i64, most: i64) -> i64;

    /// A place below the bound, which is at least 1.
    fn place(&mut self, bound: usize) -> usize;
}

impl Draw for Rng {
    fn any(&mut self, most: i64) -> i64 {
        self.below(most as u64 + 1) as i64
    }

    /// Now and then an end.
    fn pulled(&mut self, least: i64, most: i64) -> i64 {
        match self.below(8) {
            0 => least,
            1 => most,
            _ => least + self.below((most - least + 1) as u64) as i64,
        }
    }

    fn place(&mut self, bound: usize) -> usize {
        Rng::place(self, bound)
    }
}
