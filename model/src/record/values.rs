//! What the fields of records and headers mean: millimetres, millimetres a second,
//! dBHz, minutes, tenths of a second, the UDRE limit and letters.

use crate::frame::{State, Z_COUNTS};
use crate::refusal::{refuse_if, Answer, Refusal};

/// A correction's value.
#[derive(Clone, Copy, Debug, PartialEq, Eq)]
pub enum Value {
    /// Stop using this satellite.
    Stop,
    /// So many mm, or mm/s.
    Is(i32),
}

/// The step of a scale, or refusal 10.
fn step(scale: u8, fine: i32, coarse: i32) -> Answer<i32> {
    match scale {
        0 => Ok(fine),
        1 => Ok(coarse),
        _ => Err(Refusal::OutsideRange),
    }
}

/// PRC in mm, steps 20 or 320. Refuses with 10.
pub fn prc_mm(scale: u8, prc: i16) -> Answer<Value> {
    let step = step(scale, 20, 320)?;
    Ok(match prc {
        i16::MIN => Value::Stop,
        _ => Value::Is(step * i32::from(prc)),
    })
}

/// RRC in mm/s, steps 2 or 32. Refuses with 10.
pub fn rrc_mm_s(scale: u8, rrc: i8) -> Answer<Value> {
    let step = step(scale, 2, 32)?;
    Ok(match rrc {
        i8::MIN => Value::Stop,
        _ => Value::Is(step * i32::from(rrc)),
    })
}

/// Whether a correction says to stop using its satellite: PRC or RRC does.
pub fn stops(prc: i16, rrc: i8) -> bool {
    prc == i16::MIN || rrc == i8::MIN
}

/// The upper limit of a UDRE code in mm, none for code 3. Refuses with 5, 10.
pub fn udre_limit_mm(state: State, udre: u8) -> Answer<Option<u32>> {
    refuse_if(state.code().is_none(), Refusal::OutsideWidths)?;
    let scaled = |limit: u32| Some(limit * u32::from(state.factor()) / 100);
    match udre {
        0 => Ok(scaled(1000)),
        1 => Ok(scaled(4000)),
        2 => Ok(scaled(8000)),
        3 => Ok(None),
        _ => Err(Refusal::OutsideRange),
    }
}

/// PRC of types 41 and 42 in mm, steps of 20. Refuses with 10.
pub fn general_prc_mm(prc: i16) -> Answer<Value> {
    match prc {
        -8192 => Ok(Value::Stop),
        -8191..=8191 => Ok(Value::Is(20 * i32::from(prc))),
        _ => Err(Refusal::OutsideRange),
    }
}

/// The delay of types 41 and 42 in mm, steps of 20; none where it must not be used.
/// Refuses with 10.
pub fn delay_mm(delay: u16) -> Answer<Option<u32>> {
    match delay {
        0..=4094 => Ok(Some(20 * u32::from(delay))),
        4095 => Ok(None),
        _ => Err(Refusal::OutsideRange),
    }
}

/// Upper limits in mm of the UDRE codes 0 to 14 of types 41 and 42, at factor 1.
const GENERAL_LIMITS: [u32; 15] = [
    40, 62, 96, 149, 231, 358, 555, 860, 1333, 2066, 3202, 4963, 7692, 11923, 18480,
];

/// The upper limit of a UDRE code of types 41 and 42 in hundredths of a mm, none for
/// code 15. Refuses with 5, 10.
pub fn general_udre(state: State, udre: u8) -> Answer<Option<u32>> {
    refuse_if(state.code().is_none(), Refusal::OutsideWidths)?;
    refuse_if(udre > 15, Refusal::OutsideRange)?;
    let limit = GENERAL_LIMITS.get(usize::from(udre));
    Ok(limit.map(|mm| mm * u32::from(state.factor())))
}

/// For how many seconds corrections of types 41 and 42 may be used. Refuses with 10.
pub fn use_seconds(code: u8) -> Answer<u8> {
    let seconds = [15, 30, 60, 120].get(usize::from(code));
    seconds.copied().ok_or(Refusal::OutsideRange)
}

/// C/N0 in dBHz, none when not tracked. Refuses with 10.
pub fn cn0_dbhz(code: u8) -> Answer<Option<u8>> {
    match code {
        0 => Ok(None),
        1..=31 => Ok(Some(24 + code)),
        _ => Err(Refusal::OutsideRange),
    }
}

/// The Russian letters of type 36, codes 128 to 191.
const LETTERS: &str = "АБВГДЕЖЗИЙКЛМНОПРСТУФХЦЧШЩЪЫЬЭЮЯабвгдежзийклмнопрстуфхцчшщъыьэюя";

/// The letter of a character's code, as its Unicode number. Refuses with 11.
pub fn letter(code: u8) -> Answer<u32> {
    match code {
        0 => Err(Refusal::ForbiddenCharacter),
        1..=127 => Ok(u32::from(code)),
        _ => {
            let russian = LETTERS.chars().nth(usize::from(code) - 128);
            russian.map(u32::from).ok_or(Refusal::ForbiddenCharacter)
        }
    }
}

/// The time code of types 5 and 33 in minutes. Refuses with 10.
pub fn minutes(code: u8) -> Answer<u8> {
    refuse_if(code > 15, Refusal::OutsideRange)?;
    Ok(5 * code)
}

/// A Z count in tenths of a second, 6 each. Refuses with 5, 7.
pub fn z_tenths(z_count: u16) -> Answer<u16> {
    refuse_if(z_count >= 1 << 13, Refusal::OutsideWidths)?;
    refuse_if(z_count >= Z_COUNTS, Refusal::ZCount)?;
    Ok(6 * z_count)
}
