//! RTCM version 2 in use: lines to frames, frames to records, both ways back, journals.
//!
//! A safe crate over `librtcm2.a`, every function of which is proved to meet its contract. What
//! follows of that for a caller:
//!
//! - Every call has a defined answer for every input. What can't be done is a [`Refusal`] with its
//!   number and text, and a refusal changes nothing.
//! - A frame that stands on the line is handed out once and exactly, after a dropped byte, on a line
//!   whose bits are all turned over, and behind a false header. Nothing else is handed out.
//! - A record that is made reads back equal.
//!
//! A line from anything that can be read, such as a file, a serial device or a socket:
//!
//! ```
//! use rtcm2::{Reader, Refusal};
//!
//! let line: &[u8] = &[0x40, 0x66, 0x61, 0x41, 0x68, 0x7F, 0x7F, 0x6C, 0x73, 0x7F, 0x44];
//! for taken in Reader::new(line) {
//!     let taken = taken?;
//!     let header = taken.frame.header();
//!     assert_eq!((taken.at, header.kind, header.station), (6, 6, 5));
//! }
//! # Ok::<(), std::io::Error>(())
//! ```
//!
//! Without the standard library (feature `std` off) bytes are pushed as they come:
//!
//! ```
//! use rtcm2::PushReader;
//!
//! let mut reader = PushReader::new();
//! let mut frames = 0;
//! for byte in [0x40, 0x66, 0x61, 0x41, 0x68, 0x7F, 0x7F, 0x6C, 0x73, 0x7F, 0x44] {
//!     reader.push(&[byte], |_| frames += 1);
//! }
//! assert_eq!(frames, 1);
//! ```
//!
//! What a frame says, and a frame made of it again:
//!
//! ```
//! use rtcm2::{Correction, Frame, Header, Issue, Record};
//!
//! let header = Header { kind: 9, station: 5, z: 100, sequence: 3, health: 0 };
//! let correction = Correction { scale: 0, udre: 1, satellite: 12, prc: -250, rrc: 3, issue: Issue::Iod(77) };
//! let frame = Frame::of_corrections(header, &[correction])?;
//! let Record::Corrections(read) = Record::read(&frame)? else { panic!("type 9 has corrections") };
//! assert_eq!(*read, [correction]);
//! assert_eq!(read[0].prc_mm()?, Some(-5000));
//! # Ok::<(), rtcm2::Refusal>(())
//! ```

#![no_std]
#![deny(unsafe_code)]
#![warn(missing_docs)]

#[cfg(feature = "std")]
extern crate std;

mod ffi;

pub mod corrections;
pub mod frame;
pub mod generals;
pub mod healths;
pub mod journal;
pub mod list;
pub mod mender;
pub mod observations;
pub mod profile;
mod reader;
pub mod record;
mod refusal;
pub mod season;
mod texts;
mod window;
mod writer;

pub use corrections::{Correction, Issue};
pub use frame::{Frame, Header, Pair, State, System};
pub use generals::{General, GeneralHead, GeneralNull, GeneralSystem, Generals};
pub use healths::{Condition, SatelliteHealth};
pub use list::{Bytes, List};
pub use observations::{Edition, Epoch, Mark, Measured, Observation, Observations};
#[cfg(feature = "std")]
pub use reader::Reader;
pub use reader::{room_for, Counts, Frames, PushReader, Taken, Turns, READ_ROW};
pub use record::{Null, Position, Record};
pub use refusal::Refusal;
pub use texts::Text;
pub use window::remainder;
pub use writer::{LineBytes, Writer};
