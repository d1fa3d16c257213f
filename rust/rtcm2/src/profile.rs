//! The small-beacon profile of one harbour group.

use crate::corrections::{Correction, ROOM};
use crate::ffi;
use crate::frame::{rows, Frame, Header, System};
use crate::list::Bytes;
use crate::Refusal;

/// The most bytes of frames that a list is cut into.
const CUT_MOST: usize = 144;

impl Frame {
    /// Whether the frame is in the profile: types 3, 5, 6, 9 and 16, its record readable, type 9 with
    /// at most three satellites and none twice. Refused with 7, 20, 8, 10 or 11, 21, 22.
    pub fn check_profile(&self) -> Result<(), Refusal> {
        ffi::rtcm2_check_profile(self.as_bytes())
    }
}

/// The frames that a list of corrections was cut into.
#[derive(Clone, Copy, Debug, PartialEq, Eq)]
pub struct Cut {
    records: Bytes<CUT_MOST>,
}

impl Cut {
    /// 1 to 18 corrections for different satellites as frames of type 9, three in each but the last,
    /// in their order; the sequence rises by one from the header's. Refused with 5, 6 for any type but
    /// 9, 7, 12, 10, 22.
    pub fn of(header: Header, corrections: &[Correction]) -> Result<Cut, Refusal> {
        let Header { kind, station, z, sequence, health } = header;
        let bytes = rows::<_, 7, ROOM>(corrections, |correction| correction.row(System::Gps));
        let records = Bytes::filled(|frames, length| {
            ffi::rtcm2_cut_corrections(kind, station, z, sequence, health, &bytes, frames, length)
        })?;
        Ok(Cut { records })
    }

    /// The frames, in their order.
    pub fn frames(&self) -> impl Iterator<Item = Frame> + '_ {
        let mut left = &self.records[..];
        core::iter::from_fn(move || {
            let frame = Frame::recall(left).ok()?;
            left = &left[frame.as_bytes().len()..];
            Some(frame)
        })
    }
}
