//! What a record's numbers stand for. Where there is no number, 0 stands.

use super::numbered;
use crate::frame::State;
use crate::record::values::{self, Value};
use crate::refusal::{refuse_if, Answer, Refusal};

/// PRC in mm. Refuses with 10.
pub fn prc_mm(scale: u8, prc: i16, stop: &mut u8, mm: &mut i32) -> u8 {
    numbered(values::prc_mm(scale, prc).map(|value| (*stop, *mm) = stop_or(value)))
}

/// RRC in mm/s. Refuses with 10.
pub fn rrc_mm_s(scale: u8, rrc: i8, stop: &mut u8, mm_s: &mut i32) -> u8 {
    numbered(values::rrc_mm_s(scale, rrc).map(|value| (*stop, *mm_s) = stop_or(value)))
}

/// 1 where a correction stops its satellite, else 0. Never refuses.
pub fn stops(prc: i16, rrc: i8, stop: &mut u8) -> u8 {
    *stop = u8::from(values::stops(prc, rrc));
    0
}

/// 1 beside 0 for stop, 0 beside the number.
fn stop_or(value: Value) -> (u8, i32) {
    match value {
        Value::Stop => (1, 0),
        Value::Is(number) => (0, number),
    }
}

/// The upper limit of a UDRE code in mm. Refuses with 5, 10.
pub fn udre_limit_mm(health: u8, udre: u8, limited: &mut u8, mm: &mut u32) -> u8 {
    let limit = state_of(health).and_then(|state| values::udre_limit_mm(state, udre));
    numbered(limit.map(|limit| {
        *limited = u8::from(limit.is_some());
        *mm = limit.unwrap_or(0);
    }))
}

/// PRC of types 41 and 42 in mm. Refuses with 10.
pub fn general_prc_mm(prc: i16, stop: &mut u8, mm: &mut i32) -> u8 {
    numbered(values::general_prc_mm(prc).map(|value| (*stop, *mm) = stop_or(value)))
}

/// The delay of types 41 and 42 in mm. Refuses with 10.
pub fn delay_mm(delay: u16, usable: &mut u8, mm: &mut u32) -> u8 {
    numbered(values::delay_mm(delay).map(|number| {
        *usable = u8::from(number.is_some());
        *mm = number.unwrap_or(0);
    }))
}

/// The upper limit of a UDRE code of types 41 and 42 in hundredths of a mm. Refuses
/// with 5, 10.
pub fn general_udre(health: u8, udre: u8, limited: &mut u8, hundredths: &mut u32) -> u8 {
    let limit = state_of(health).and_then(|state| values::general_udre(state, udre));
    numbered(limit.map(|limit| {
        *limited = u8::from(limit.is_some());
        *hundredths = limit.unwrap_or(0);
    }))
}

/// For how many seconds corrections of types 41 and 42 may be used. Refuses with 10.
pub fn use_seconds(code: u8, seconds: &mut u8) -> u8 {
    numbered(values::use_seconds(code).map(|number| *seconds = number))
}

/// The state of a health code. Refuses with 5.
fn state_of(health: u8) -> Answer<State> {
    refuse_if(health > 7, Refusal::OutsideWidths)?;
    Ok(State::of_code(u32::from(health)))
}

/// C/N0 in dBHz. Refuses with 10.
pub fn cn0_dbhz(code: u8, tracked: &mut u8, dbhz: &mut u8) -> u8 {
    numbered(values::cn0_dbhz(code).map(|number| {
        *tracked = u8::from(number.is_some());
        *dbhz = number.unwrap_or(0);
    }))
}

/// The letter of a character's code, as its Unicode number. Refuses with 11.
pub fn letter_of(code: u8, letter: &mut u32) -> u8 {
    numbered(values::letter(code).map(|number| *letter = number))
}
