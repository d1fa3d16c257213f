//! Raw observations, through the model.

use super::of;
use crate::call::{Call, Function};
use rtcm2_model::library::observations;
use rtcm2_model::record::observation::Epoch;

pub fn observations(call: &mut Call) -> u8 {
    let (given, head) = (&call.given, call.head());
    let [bytes] = of(&mut call.read);
    let bytes = bytes.bytes();
    match call.function {
        Function::CountObservations => {
            let [count] = of(&mut call.lent);
            observations::count_observations(bytes, count.number())
        }
        Function::ReadEpoch => {
            let [frequency, smoothing, time] = of(&mut call.lent);
            let (frequency, smoothing) = (frequency.number(), smoothing.number());
            observations::read_epoch(bytes, frequency, smoothing, time.number())
        }
        Function::ObservationAt => {
            let (edition, index) = (given[0] as u8, given[1] as usize);
            let [row] = of(&mut call.lent);
            observations::observation_at(edition, bytes, index, row.bytes())
        }
        Function::MakeObservations => {
            let epoch = Epoch {
                frequency: given[6] as u8,
                smoothing: given[7] as u8,
                time: given[8] as u32,
            };
            let edition = given[5] as u8;
            let [frame, length] = of(&mut call.lent);
            let (frame, length) = (frame.bytes(), length.number());
            observations::make_observations(edition, head, epoch, bytes, frame, length)
        }
        other => unreachable!("{other:?}"),
    }
}
