//! Type 5, and 33 for GLONASS: constellation health, one word for each of 1 to 31
//! satellites. The systems differ in the meaning of the three health bits.
//!
//! Choices the rules leave open. Type 33: the three health bits are one of data health
//! and two reserved ones, kept as read; type 5's code under 33, or the other way round,
//! is 10 on making. A row holds the three bits in one byte for both systems.

use super::fields::{code_of, satellite_of, Fields, Layer};
use super::list::{List, Worked};
use super::{Layout, System};
use crate::frame::Frame;
use crate::rng::Draw;

/// What the three health bits say of a satellite's data.
#[derive(Clone, Copy, Debug, PartialEq, Eq)]
pub enum Condition {
    /// Type 5: a code, 0 to 7.
    Code(u8),
    /// Type 33.
    Data {
        /// Data health, one bit.
        health: u8,
        /// Two reserved bits, kept as read.
        reserved: u8,
    },
}

impl Default for Condition {
    fn default() -> Condition {
        Condition::Code(0)
    }
}

impl Condition {
    /// The next three bits, read for a system.
    fn read(fields: &mut Fields, system: System) -> Condition {
        match system {
            System::Gps => Condition::Code(fields.unsigned(3) as u8),
            System::Glonass => Condition::Data {
                health: fields.unsigned(1) as u8,
                reserved: fields.unsigned(2) as u8,
            },
        }
    }

    /// Lays out the three bits.
    fn put(self, layer: &mut Layer) {
        match self {
            Condition::Code(code) => layer.put(i64::from(code), 3),
            Condition::Data { health, reserved } => {
                layer.put(i64::from(health), 1);
                layer.put(i64::from(reserved), 2);
            }
        }
    }

    /// Whether it is of this system and inside its range.
    fn in_range(self, system: System) -> bool {
        match (system, self) {
            (System::Gps, Condition::Code(code)) => code <= 7,
            (System::Glonass, Condition::Data { health, reserved }) => health <= 1 && reserved <= 3,
            _ => false,
        }
    }
}

/// The health of one satellite, numbers as sent.
#[derive(Clone, Copy, Debug, Default, PartialEq, Eq)]
pub struct Health {
    /// The first reserved bit.
    pub reserved_first: u8,
    /// Satellite, 1 to 32.
    pub satellite: u8,
    /// IOD link, or tb link in type 33, one bit.
    pub link: u8,
    /// Health, three bits.
    pub condition: Condition,
    /// C/N0 code, five bits.
    pub cn0: u8,
    /// Enable, one bit.
    pub enable: u8,
    /// New data, one bit.
    pub new_data: u8,
    /// Loss warning, one bit.
    pub loss_warning: u8,
    /// Time code, four bits.
    pub time: u8,
    /// The last two reserved bits.
    pub reserved_last: u8,
}

impl List for Health {
    const LAYOUT: Layout = Layout::Health;
    const TYPES: &'static [u16] = &[5, 33];
    const MOST: usize = 31;
    const BITS: usize = 24;
    const SIZE: usize = 10;
    const STREAMS: &'static [(&'static str, u16)] = &[("healths", 5), ("healths-33", 33)];
    const WORKED: &'static [Worked<Health>] = WORKED;

    fn n_for(count: usize) -> usize {
        count
    }

    fn read(fields: &mut Fields, system: System) -> Health {
        Health {
            reserved_first: fields.unsigned(1) as u8,
            satellite: satellite_of(fields.unsigned(5)),
            link: fields.unsigned(1) as u8,
            condition: Condition::read(fields, system),
            cn0: fields.unsigned(5) as u8,
            enable: fields.unsigned(1) as u8,
            new_data: fields.unsigned(1) as u8,
            loss_warning: fields.unsigned(1) as u8,
            time: fields.unsigned(4) as u8,
            reserved_last: fields.unsigned(2) as u8,
        }
    }

    fn put(&self, layer: &mut Layer) {
        layer.put(i64::from(self.reserved_first), 1);
        layer.put(code_of(self.satellite), 5);
        layer.put(i64::from(self.link), 1);
        self.condition.put(layer);
        layer.put(i64::from(self.cn0), 5);
        layer.put(i64::from(self.enable), 1);
        layer.put(i64::from(self.new_data), 1);
        layer.put(i64::from(self.loss_warning), 1);
        layer.put(i64::from(self.time), 4);
        layer.put(i64::from(self.reserved_last), 2);
    }

    fn in_range(&self, system: System) -> bool {
        self.reserved_first <= 1
            && (1..=32).contains(&self.satellite)
            && self.link <= 1
            && self.condition.in_range(system)
            && self.cn0 <= 31
            && self.enable <= 1
            && self.new_data <= 1
            && self.loss_warning <= 1
            && self.time <= 15
            && self.reserved_last <= 3
    }

    /// The three health bits are one number of GPS and two of GLONASS.
    fn numbers(&self) -> Vec<u64> {
        let mut numbers = vec![self.reserved_first, self.satellite, self.link];
        match self.condition {
            Condition::Code(code) => numbers.push(code),
            Condition::Data { health, reserved } => numbers.extend([health, reserved]),
        }
        numbers.extend([self.cn0, self.enable, self.new_data]);
        numbers.extend([self.loss_warning, self.time, self.reserved_last]);
        numbers.into_iter().map(u64::from).collect()
    }

    /// The fields in the order sent, the three health bits in one byte.
    fn row(&self) -> Vec<u8> {
        let condition = match self.condition {
            Condition::Code(code) => code,
            Condition::Data { health, reserved } => 4 * health + reserved,
        };
        vec![
            self.reserved_first,
            self.satellite,
            self.link,
            condition,
            self.cn0,
            self.enable,
            self.new_data,
            self.loss_warning,
            self.time,
            self.reserved_last,
        ]
    }

    fn of_row(row: &[u8], system: System) -> Health {
        Health {
            reserved_first: row[0],
            satellite: row[1],
            link: row[2],
            condition: match system {
                System::Gps => Condition::Code(row[3]),
                System::Glonass => Condition::Data {
                    health: row[3] / 4,
                    reserved: row[3] % 4,
                },
            },
            cn0: row[4],
            enable: row[5],
            new_data: row[6],
            loss_warning: row[7],
            time: row[8],
            reserved_last: row[9],
        }
    }

    fn highest(_: System) -> &'static [u8] {
        &[1, 32, 1, 7, 31, 1, 1, 1, 15, 3]
    }

    fn drawn(draw: &mut dyn Draw, system: System) -> Health {
        Health {
            reserved_first: draw.any(1) as u8,
            satellite: draw.pulled(1, 32) as u8,
            link: draw.any(1) as u8,
            condition: match system {
                System::Gps => Condition::Code(draw.any(7) as u8),
                System::Glonass => Condition::Data {
                    health: draw.any(1) as u8,
                    reserved: draw.any(3) as u8,
                },
            },
            cn0: draw.pulled(0, 31) as u8,
            enable: draw.any(1) as u8,
            new_data: draw.any(1) as u8,
            loss_warning: draw.any(1) as u8,
            time: draw.any(15) as u8,
            reserved_last: draw.any(3) as u8,
        }
    }

    /// A word each, so that N says it of every frame.
    fn near(frame: &Frame) -> usize {
        frame.n.into()
    }
}

impl Health {
    /// A satellite of GPS: the fields in the order sent.
    pub const fn gps(numbers: [u8; 10]) -> Health {
        Health {
            reserved_first: numbers[0],
            satellite: numbers[1],
            link: numbers[2],
            condition: Condition::Code(numbers[3]),
            cn0: numbers[4],
            enable: numbers[5],
            new_data: numbers[6],
            loss_warning: numbers[7],
            time: numbers[8],
            reserved_last: numbers[9],
        }
    }

    /// A satellite of GLONASS: health and reserved bits stand for the code.
    pub const fn glonass(numbers: [u8; 11]) -> Health {
        let [first, satellite, link, health, reserved, rest @ ..] = numbers;
        let [cn0, enable, new_data, loss, time, last] = rest;
        Health {
            condition: Condition::Data { health, reserved },
            ..Health::gps([
                first, satellite, link, 0, cn0, enable, new_data, loss, time, last,
            ])
        }
    }
}

/// The worked records.
const WORKED: &[Worked<Health>] = &[
    Worked {
        name: "V5a",
        type_number: 5,
        entries: &[Health::gps([0, 12, 0, 0, 20, 0, 1, 0, 0, 0])],
        words: "661405 032308 302880",
        bytes: "40 66 61 42 68 4F 40 53 4C 44 61 73 6F 6E 7F 76",
    },
    Worked {
        name: "V5b",
        type_number: 5,
        entries: &[
            Health::gps([1, 32, 1, 7, 31, 1, 0, 1, 15, 3]),
            Health::gps([0, 1, 0, 4, 0, 0, 0, 1, 3, 2]),
        ],
        words: "661405 032310 83FF7F 05004E",
        bytes: "40 66 61 42 68 4F 40 53 4C 42 76 7E 40 50 40 62 5F 7D 5F 63 59",
    },
    Worked {
        name: "V33a",
        type_number: 33,
        entries: &[Health::glonass([0, 24, 0, 0, 0, 25, 0, 1, 0, 0, 0])],
        words: "668405 032308 603280",
        bytes: "40 66 45 42 68 70 7F 6C 73 7B 5E 46 70 54 40 5A",
    },
    Worked {
        name: "V33b",
        type_number: 33,
        entries: &[
            Health::glonass([1, 32, 1, 1, 3, 31, 1, 0, 1, 15, 3]),
            Health::glonass([0, 5, 1, 1, 0, 0, 0, 0, 1, 2, 0]),
        ],
        words: "668405 032310 83FF7F 170048",
        bytes: "40 66 45 42 68 70 7F 6C 73 7D 49 41 7F 6F 7F 5D 68 43 60 44 63",
    },
];
