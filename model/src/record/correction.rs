//! Types 1 and 9, and 31 and 34 for GLONASS: corrections, 40 bits for each of 1 to
//! 18 satellites. The systems differ in the last eight bits.
//!
//! Choices the rules leave open. Types 31 and 34: tb is the number as sent, 0 to 119;
//! 120 to 127 is 10, on reading for that correction alone. An IOD under these types, or
//! a change bit and tb under 1 and 9, is 10 on making. Type 34: 6 looks at the type
//! alone, so that corrections asked of N 0 or 1 are 8, as of type 6. Made with no
//! correction it is 12 and no null frame. A row holds the last eight bits in one byte
//! for both systems.

use super::fields::{code_of, satellite_of, Fields, Layer};
use super::list::{List, Worked};
use super::{Layout, System};
use crate::rng::Draw;

/// The last tb, the last half minute of an hour.
pub const LAST_TB: u8 = 119;

/// Which data of the satellite a correction belongs to: a correction's last eight
/// bits.
#[derive(Clone, Copy, Debug, PartialEq, Eq)]
pub enum Issue {
    /// Types 1 and 9: IOD.
    Iod(u8),
    /// Types 31 and 34.
    Age {
        /// Change bit.
        change: u8,
        /// Seven bits, 0 to 119: counts of 30 seconds from the full hour.
        tb: u8,
    },
}

impl Default for Issue {
    fn default() -> Issue {
        Issue::Iod(0)
    }
}

impl Issue {
    /// The next eight bits, read for a system.
    fn read(fields: &mut Fields, system: System) -> Issue {
        match system {
            System::Gps => Issue::Iod(fields.unsigned(8) as u8),
            System::Glonass => Issue::Age {
                change: fields.unsigned(1) as u8,
                tb: fields.unsigned(7) as u8,
            },
        }
    }

    /// Lays out the eight bits.
    fn put(self, layer: &mut Layer) {
        match self {
            Issue::Iod(iod) => layer.put(i64::from(iod), 8),
            Issue::Age { change, tb } => {
                layer.put(i64::from(change), 1);
                layer.put(i64::from(tb), 7);
            }
        }
    }

    /// Whether it is of this system and inside its range.
    fn in_range(self, system: System) -> bool {
        match (system, self) {
            (System::Gps, Issue::Iod(_)) => true,
            (System::Glonass, Issue::Age { change, tb }) => change <= 1 && tb <= LAST_TB,
            _ => false,
        }
    }
}

/// The correction of one satellite, numbers as sent.
#[derive(Clone, Copy, Debug, Default, PartialEq, Eq)]
pub struct Correction {
    /// Scale, 0 or 1.
    pub scale: u8,
    /// UDRE, 0 to 3.
    pub udre: u8,
    /// Satellite, 1 to 32.
    pub satellite: u8,
    /// PRC; -32768 means stop.
    pub prc: i16,
    /// RRC; -128 means stop.
    pub rrc: i8,
    /// IOD, or change bit and tb.
    pub issue: Issue,
}

impl List for Correction {
    const LAYOUT: Layout = Layout::Correction;
    const TYPES: &'static [u16] = &[1, 9, 31, 34];
    const MOST: usize = 18;
    const BITS: usize = 40;
    const SIZE: usize = 7;
    const STREAMS: &'static [(&'static str, u16)] = &[
        ("corrections-1", 1),
        ("corrections-9", 9),
        ("corrections-31", 31),
        ("corrections-34", 34),
    ];
    const WORKED: &'static [Worked<Correction>] = WORKED;

    /// 5k, 5k+2, 5k+4 for 3k, 3k+1, 3k+2.
    fn n_for(count: usize) -> usize {
        let k = count / 3;
        match count % 3 {
            0 => 5 * k,
            1 => 5 * k + 2,
            _ => 5 * k + 4,
        }
    }

    fn read(fields: &mut Fields, system: System) -> Correction {
        Correction {
            scale: fields.unsigned(1) as u8,
            udre: fields.unsigned(2) as u8,
            satellite: satellite_of(fields.unsigned(5)),
            prc: fields.signed(16) as i16,
            rrc: fields.signed(8) as i8,
            issue: Issue::read(fields, system),
        }
    }

    fn put(&self, layer: &mut Layer) {
        layer.put(i64::from(self.scale), 1);
        layer.put(i64::from(self.udre), 2);
        layer.put(code_of(self.satellite), 5);
        layer.put(i64::from(self.prc), 16);
        layer.put(i64::from(self.rrc), 8);
        self.issue.put(layer);
    }

    fn in_range(&self, system: System) -> bool {
        self.scale <= 1
            && self.udre <= 3
            && (1..=32).contains(&self.satellite)
            && self.issue.in_range(system)
    }

    /// The last eight bits are one number of GPS and two of GLONASS.
    fn numbers(&self) -> Vec<u64> {
        let (prc, rrc) = (self.prc as u16, self.rrc as u8);
        let mut numbers = vec![self.scale.into(), self.udre.into(), self.satellite.into()];
        numbers.extend([u64::from(prc), u64::from(rrc)]);
        match self.issue {
            Issue::Iod(iod) => numbers.push(iod.into()),
            Issue::Age { change, tb } => numbers.extend([change, tb].map(u64::from)),
        }
        numbers
    }

    /// PRC and RRC in two's complement, PRC low byte first. The last byte is the IOD, or
    /// the change bit and the seven of tb.
    fn row(&self) -> Vec<u8> {
        let [prc_low, prc_high] = self.prc.to_le_bytes();
        let rrc = self.rrc as u8;
        let issue = match self.issue {
            Issue::Iod(iod) => iod,
            Issue::Age { change, tb } => 128 * change + tb,
        };
        let (scale, udre, satellite) = (self.scale, self.udre, self.satellite);
        vec![scale, udre, satellite, prc_low, prc_high, rrc, issue]
    }

    fn of_row(row: &[u8], system: System) -> Correction {
        Correction {
            scale: row[0],
            udre: row[1],
            satellite: row[2],
            prc: i16::from_le_bytes([row[3], row[4]]),
            rrc: row[5] as i8,
            issue: match system {
                System::Gps => Issue::Iod(row[6]),
                System::Glonass => Issue::Age {
                    change: row[6] / 128,
                    tb: row[6] % 128,
                },
            },
        }
    }

    /// Of GLONASS tb is the low seven bits of the last byte.
    fn highest(system: System) -> &'static [u8] {
        match system {
            System::Gps => &[1, 3, 32, 255, 255, 255, 255],
            System::Glonass => &[1, 3, 32, 255, 255, 255, LAST_TB],
        }
    }

    fn drawn(draw: &mut dyn Draw, system: System) -> Correction {
        Correction {
            scale: draw.any(1) as u8,
            udre: draw.any(3) as u8,
            satellite: draw.pulled(1, 32) as u8,
            prc: draw.pulled(-32768, 32767) as i16,
            rrc: draw.pulled(-128, 127) as i8,
            issue: match system {
                System::Gps => Issue::Iod(draw.any(255) as u8),
                System::Glonass => Issue::Age {
                    change: draw.any(1) as u8,
                    tb: draw.pulled(0, LAST_TB.into()) as u8,
                },
            },
        }
    }
}

impl Correction {
    /// A correction of GPS: scale, UDRE, satellite, PRC, RRC, IOD.
    pub const fn gps(numbers: [i32; 6]) -> Correction {
        Correction {
            scale: numbers[0] as u8,
            udre: numbers[1] as u8,
            satellite: numbers[2] as u8,
            prc: numbers[3] as i16,
            rrc: numbers[4] as i8,
            issue: Issue::Iod(numbers[5] as u8),
        }
    }

    /// A correction of GLONASS: the last two numbers are the change bit and tb.
    pub const fn glonass(numbers: [i32; 7]) -> Correction {
        let [scale, udre, satellite, prc, rrc, change, tb] = numbers;
        Correction {
            issue: Issue::Age {
                change: change as u8,
                tb: tb as u8,
            },
            ..Correction::gps([scale, udre, satellite, prc, rrc, 0])
        }
    }
}

/// The worked records.
const WORKED: &[Worked<Correction>] = &[
    Worked {
        name: "V1a",
        type_number: 1,
        entries: &[
            Correction::gps([0, 0, 3, 1000, -5, 77]),
        ],
        words: "660405 032310 0303E8 FB4DAA",
        bytes: "40 66 41 42 68 48 40 53 4C 42 76 7F 7C 43 7A 51 5F 4B 5B 55 54",
    },
    Worked {
        name: "V1b",
        type_number: 1,
        entries: &[
            Correction::gps([0, 1, 32, 32767, 127, 0]),
            Correction::gps([1, 3, 31, -32767, -127, 255]),
        ],
        words: "660405 032320 207FFF 7F00FF 800181 FFAAAA",
        bytes: "40 66 41 42 68 48 40 53 4C 41 5D 44 78 7F 7F 41 7E 43 70 7F 5A 41 40 58 60 47 7F 57 55 55 5D",
    },
    Worked {
        name: "V1c",
        type_number: 1,
        entries: &[
            Correction::gps([0, 2, 7, -32768, 0, 1]),
            Correction::gps([1, 0, 7, 1, -128, 2]),
            Correction::gps([0, 3, 1, -1, -1, 170]),
        ],
        words: "660405 032328 478000 000187 000180 0261FF FFFFAA",
        bytes: "40 66 41 42 68 48 40 53 4C 45 47 62 47 40 40 72 7F 7F 67 47 55 40 40 58 40 60 7F 66 47 40 56 7F 7F 5F 55 4D",
    },
    Worked {
        name: "V9a",
        type_number: 9,
        entries: &[
            Correction::gps([0, 2, 7, -32768, 0, 1]),
            Correction::gps([1, 0, 7, 1, -128, 2]),
            Correction::gps([0, 3, 1, -1, -1, 170]),
            Correction::gps([1, 1, 16, 12345, 67, 89]),
        ],
        words: "662405 032338 478000 000187 000180 0261FF FFFFAA B03039 4359AA",
        bytes: "40 66 51 42 68 6B 7F 6C 73 78 50 62 47 40 40 57 40 40 58 78 4F 40 40 58 40 45 40 59 78 7F 4C 7F 7F 5F 55 68 72 4F 7F 58 51 42 6B 59 55 5D",
    },
    Worked {
        name: "V9b",
        type_number: 9,
        entries: &[
            Correction::gps([0, 0, 3, 1000, -5, 77]),
            Correction::gps([0, 0, 3, 1000, -5, 77]),
        ],
        words: "662405 032320 0303E8 FB4D03 03E8FB 4DAAAA",
        bytes: "40 66 51 42 68 6B 7F 6C 73 7E 47 40 43 7C 45 6E 60 74 74 4F 7C 7F 60 4E 48 60 4D 69 6A 6A 7D",
    },
    Worked {
        name: "V31a",
        type_number: 31,
        entries: &[
            Correction::glonass([0, 0, 3, 1000, -5, 0, 77]),
        ],
        words: "667C05 032310 0303E8 FB4DAA",
        bytes: "40 66 79 43 68 72 7F 6C 73 7D 49 40 43 7C 45 6E 60 74 64 6A 6B",
    },
    Worked {
        name: "V31b",
        type_number: 31,
        entries: &[
            Correction::glonass([1, 3, 32, -32767, -128, 1, 119]),
            Correction::glonass([0, 1, 24, -32768, 127, 1, 0]),
            Correction::glonass([0, 2, 1, 1, 1, 0, 1]),
        ],
        words: "667C05 032328 E08001 80F738 80007F 804100 010101",
        bytes: "40 66 79 43 68 72 7F 6C 73 7A 78 78 7B 7F 5F 5C 41 7C 4E 47 51 41 40 60 7F 7D 7E 77 77 7F 47 40 42 48 60 42",
    },
    Worked {
        name: "V34c",
        type_number: 34,
        entries: &[
            Correction::glonass([0, 0, 3, 1000, -5, 0, 77]),
            Correction::glonass([0, 2, 1, 1, 1, 0, 1]),
        ],
        words: "668805 032320 0303E8 FB4D41 000101 01AAAA",
        bytes: "40 66 45 41 68 40 40 53 4C 41 5D 40 43 7C 45 4B 5F 4B 6B 60 5C 40 40 48 60 4B 40 56 55 55 6A",
    },
    Worked {
        name: "V34d",
        type_number: 34,
        entries: &[
            Correction::glonass([0, 0, 3, 1000, -5, 0, 77]),
        ],
        words: "668805 032310 0303E8 FB4DAA",
        bytes: "40 66 45 41 68 40 40 53 4C 42 76 7F 7C 43 7A 51 5F 4B 5B 55 54",
    },
    Worked {
        name: "G31a",
        type_number: 31,
        entries: &[
            Correction::glonass([0, 0, 1, 0, 0, 0, 0]),
        ],
        words: "667C05 032310 010000 0000AA",
        bytes: "40 66 79 43 68 72 7F 6C 73 7D 49 40 42 40 40 6C 7F 7F 6F 6A 56",
    },
    Worked {
        name: "G31b",
        type_number: 31,
        entries: &[
            Correction::glonass([1, 3, 32, 32767, 127, 1, 119]),
            Correction::glonass([1, 3, 24, -32767, -127, 1, 64]),
        ],
        words: "667C05 032320 E07FFF 7FF7F8 800181 C0AAAA",
        bytes: "40 66 79 43 68 72 7F 6C 73 7E 62 78 47 40 40 60 41 40 41 78 7F 7E 7F 67 5F 5D 43 54 55 55 7D",
    },
    Worked {
        name: "G31c",
        type_number: 31,
        entries: &[
            Correction::glonass([0, 2, 7, -32768, 5, 0, 1]),
            Correction::glonass([0, 2, 8, 5, -128, 1, 0]),
            Correction::glonass([0, 1, 7, -32768, -128, 0, 119]),
        ],
        words: "667C05 032328 478000 050148 000580 802780 008077",
        bytes: "40 66 79 43 68 72 7F 6C 73 7A 78 5D 78 7F 7F 4D 60 42 68 44 42 40 40 5A 40 5A 41 50 5E 40 77 7F 7B 5F 44 50",
    },
    Worked {
        name: "G34a",
        type_number: 34,
        entries: &[
            Correction::glonass([0, 2, 7, -32768, 5, 0, 1]),
        ],
        words: "668805 032310 478000 0501AA",
        bytes: "40 66 45 41 68 40 40 53 4C 42 76 5D 78 7F 7F 4D 60 42 58 55 47",
    },
];
