//! The functions of librtcm2.a, declared as their source declares them, and around each a safe
//! function of the same name. Every `unsafe` of the crate is in this file; the gate compares its
//! declarations with the proved source (tools/header).
#![allow(unsafe_code)]

use crate::refusal::{checked, Refusal};

/// Reads the parameters of a declaration one by one: what C is given, what the safe function
/// takes, and how the one becomes the other. A slice is a pointer and a length.
macro_rules! function {
    ($name:ident [$($c:ty,)*] [$($p:ident: $safe:ty,)*] [$($given:expr,)*] $slice:ident: &[u8], $($rest:tt)*) => {
        function!($name [$($c,)* *const u8, usize,] [$($p: $safe,)* $slice: &[u8],]
            [$($given,)* $slice.as_ptr(), $slice.len(),] $($rest)*);
    };
    ($name:ident [$($c:ty,)*] [$($p:ident: $safe:ty,)*] [$($given:expr,)*] $slice:ident: &mut [u8], $($rest:tt)*) => {
        function!($name [$($c,)* *mut u8, usize,] [$($p: $safe,)* $slice: &mut [u8],]
            [$($given,)* $slice.as_mut_ptr(), $slice.len(),] $($rest)*);
    };
    ($name:ident [$($c:ty,)*] [$($p:ident: $safe:ty,)*] [$($given:expr,)*] $place:ident: &mut $number:ident, $($rest:tt)*) => {
        function!($name [$($c,)* *mut $number,] [$($p: $safe,)* $place: &mut $number,] [$($given,)* $place,] $($rest)*);
    };
    ($name:ident [$($c:ty,)*] [$($p:ident: $safe:ty,)*] [$($given:expr,)*] $value:ident: $number:ident, $($rest:tt)*) => {
        function!($name [$($c,)* $number,] [$($p: $safe,)* $value: $number,] [$($given,)* $value,] $($rest)*);
    };
    ($name:ident [$($c:ty,)*] [$($p:ident: $safe:ty,)*] [$($given:expr,)*]) => {
        #[allow(clippy::too_many_arguments)]
        pub(crate) fn $name($($p: $safe),*) -> Result<(), Refusal> {
            extern "C" {
                fn $name($(_: $c),*) -> u8;
            }
            // Safe: a pointer to bytes comes with how many lie behind it, a reference is never
            // null, and no two places that are lent at once overlap, which is all that the library
            // trusts its caller for (include/rtcm2.h).
            checked(unsafe { $name($($given),*) })
        }
    };
}

macro_rules! library {
    ($(fn $name:ident($($parameters:tt)*);)*) => { $(function!($name [] [] [] $($parameters)*,);)* };
}

library! {
    fn rtcm2_start(state: &mut [u8]);
    fn rtcm2_feed(state: &mut [u8], byte: u8);
    fn rtcm2_feed_all(state: &mut [u8], bytes: &[u8], used: &mut usize, passed: &mut usize);
    fn rtcm2_end(state: &mut [u8]);
    fn rtcm2_take(state: &mut [u8], frame: &mut [u8], length: &mut usize, at: &mut u32, d29: &mut u8, d30: &mut u8);
    fn rtcm2_read(state: &mut [u8], bytes: &[u8], rows: &mut [u8], used: &mut usize, passed: &mut usize, count: &mut usize);
    fn rtcm2_counts(state: &[u8], odd: &mut u32, even: &mut u32);
    fn rtcm2_open(line: &mut [u8]);
    fn rtcm2_write(frame: &[u8], d29: &mut u8, d30: &mut u8, line: &mut [u8], length: &mut usize);
    fn rtcm2_keep(kind: u8, station: u16, z: u16, sequence: u8, health: u8, bytes: &[u8], frame: &mut [u8], length: &mut usize);
    fn rtcm2_recall(frame: &[u8], kind: &mut u8, station: &mut u16, z: &mut u16, sequence: &mut u8, health: &mut u8, n: &mut u8, length: &mut usize);
    fn rtcm2_keep_words(frame: &[u8], d29: u8, d30: u8, words: &mut [u8], length: &mut usize);
    fn rtcm2_recall_words(words: &[u8], frame: &mut [u8], d29: &mut u8, d30: &mut u8, read: &mut usize, length: &mut usize);
    fn rtcm2_count_corrections(frame: &[u8], count: &mut usize);
    fn rtcm2_correction_at(frame: &[u8], index: usize, correction: &mut [u8]);
    fn rtcm2_make_corrections(kind: u8, station: u16, z: u16, sequence: u8, health: u8, corrections: &[u8], frame: &mut [u8], length: &mut usize);
    fn rtcm2_count_healths(frame: &[u8], count: &mut usize);
    fn rtcm2_health_at(frame: &[u8], index: usize, bytes: &mut [u8]);
    fn rtcm2_make_healths(kind: u8, station: u16, z: u16, sequence: u8, health: u8, healths: &[u8], frame: &mut [u8], length: &mut usize);
    fn rtcm2_count_observations(frame: &[u8], count: &mut usize);
    fn rtcm2_read_epoch(frame: &[u8], frequency: &mut u8, smoothing: &mut u8, time: &mut u32);
    fn rtcm2_observation_at(edition: u8, frame: &[u8], index: usize, observation: &mut [u8]);
    fn rtcm2_make_observations(edition: u8, kind: u8, station: u16, z: u16, sequence: u8, health: u8, frequency: u8, smoothing: u8, time: u32, observations: &[u8], frame: &mut [u8], length: &mut usize);
    fn rtcm2_count_generals(frame: &[u8], count: &mut usize);
    fn rtcm2_read_head(frame: &[u8], system: &mut u8, signal: &mut u8, ephemeris: &mut u8, period: &mut u8, ionosphere: &mut u8);
    fn rtcm2_general_at(frame: &[u8], index: usize, general: &mut [u8]);
    fn rtcm2_make_generals(kind: u8, station: u16, z: u16, sequence: u8, health: u8, system: u8, signal: u8, ephemeris: u8, period: u8, ionosphere: u8, generals: &[u8], frame: &mut [u8], length: &mut usize);
    fn rtcm2_read_general_null(frame: &[u8], n: &mut u8, system: &mut u8);
    fn rtcm2_make_general_null(kind: u8, station: u16, z: u16, sequence: u8, health: u8, n: u8, system: u8, frame: &mut [u8], length: &mut usize);
    fn rtcm2_read_position(frame: &[u8], x_cm: &mut i32, y_cm: &mut i32, z_cm: &mut i32);
    fn rtcm2_make_position(kind: u8, station: u16, z: u16, sequence: u8, health: u8, x_cm: i32, y_cm: i32, z_cm: i32, frame: &mut [u8], length: &mut usize);
    fn rtcm2_read_null(frame: &[u8], n: &mut u8);
    fn rtcm2_make_null(kind: u8, station: u16, z: u16, sequence: u8, health: u8, n: u8, frame: &mut [u8], length: &mut usize);
    fn rtcm2_read_text(frame: &[u8], text: &mut [u8], length: &mut usize);
    fn rtcm2_make_text(kind: u8, station: u16, z: u16, sequence: u8, health: u8, text: &[u8], frame: &mut [u8], length: &mut usize);
    fn rtcm2_check_profile(frame: &[u8]);
    fn rtcm2_cut_corrections(kind: u8, station: u16, z: u16, sequence: u8, health: u8, corrections: &[u8], frames: &mut [u8], length: &mut usize);
    fn rtcm2_prc_mm(scale: u8, prc: i16, stop: &mut u8, mm: &mut i32);
    fn rtcm2_rrc_mm_s(scale: u8, rrc: i8, stop: &mut u8, rate: &mut i32);
    fn rtcm2_stops(prc: i16, rrc: i8, stop: &mut u8);
    fn rtcm2_udre_limit_mm(health: u8, udre: u8, limited: &mut u8, mm: &mut u32);
    fn rtcm2_cn0_dbhz(code: u8, tracked: &mut u8, dbhz: &mut u8);
    fn rtcm2_letter_of(code: u8, letter: &mut u32);
    fn rtcm2_general_prc_mm(prc: i16, stop: &mut u8, mm: &mut i32);
    fn rtcm2_delay_mm(delay: u16, usable: &mut u8, mm: &mut u32);
    fn rtcm2_general_udre(health: u8, udre: u8, limited: &mut u8, hundredths: &mut u32);
    fn rtcm2_use_seconds(code: u8, seconds: &mut u8);
    fn rtcm2_remainder(window: u32, remainder: &mut u8);
    fn rtcm2_mend(bytes: &mut [u8], at: u64, searching: u8, report: &mut [u8], step: &mut u8, read: &mut usize, written: &mut usize);
    fn rtcm2_season_start(report: &mut [u8]);
    fn rtcm2_season_journal(report: &mut [u8], bytes: &[u8], used: &mut usize);
    fn rtcm2_season_add(first: &mut [u8], second: &[u8]);
    fn rtcm2_season_row(report: &[u8], index: usize, row: &mut [u8]);
}

/// How many bytes a reader's state takes.
pub(crate) fn rtcm2_state_size() -> usize {
    extern "C" {
        fn rtcm2_state_size() -> usize;
    }
    // Safe: it is lent nothing.
    unsafe { rtcm2_state_size() }
}
