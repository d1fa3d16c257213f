//! Raw observations, through the static library.

use super::{at, of};
use crate::call::{Call, Function};
use crate::header::*;

pub fn observations(call: &mut Call) -> u8 {
    let (given, [bytes]) = (&call.given, of(&mut call.read));
    let (size, bytes) = (bytes.size(), at(bytes));
    match call.function {
        Function::CountObservations => {
            let [count] = of(&mut call.lent);
            unsafe { rtcm2_count_observations(bytes, size, at(count)) }
        }
        Function::ReadEpoch => {
            let [frequency, smoothing, time] = of(&mut call.lent);
            unsafe { rtcm2_read_epoch(bytes, size, at(frequency), at(smoothing), at(time)) }
        }
        Function::ObservationAt => {
            let (edition, index) = (given[0] as u8, given[1] as usize);
            let [row] = of(&mut call.lent);
            unsafe { rtcm2_observation_at(edition, bytes, size, index, at(row), row.size()) }
        }
        Function::MakeObservations => {
            let head = call.head();
            let [edition, frequency, smoothing] = [5, 6, 7].map(|i| call.given[i] as u8);
            let [frame, length] = of(&mut call.lent);
            let (room, frame) = (frame.size(), at(frame));
            unsafe {
                rtcm2_make_observations(
                    edition,
                    head.kind,
                    head.station,
                    head.z,
                    head.sequence,
                    head.health,
                    frequency,
                    smoothing,
                    call.given[8] as u32,
                    bytes,
                    size,
                    frame,
                    room,
                    at(length),
                )
            }
        }
        other => unreachable!("{other:?}"),
    }
}
