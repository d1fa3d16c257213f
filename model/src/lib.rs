//! Reference model of the RTCM version 2 line package, written from the rules
//! alone: the slow definitions (`line`, `word`, `frame`, `scan`) and the calls.
#![forbid(unsafe_code)]
#![warn(missing_docs)]

pub mod again;
pub mod bits;
pub mod counts;
pub mod example;
pub mod frame;
pub mod joining;
pub mod journal;
pub mod journals;
pub mod library;
pub mod line;
pub mod listing;
pub mod mangle;
pub mod mender;
pub mod profile;
pub mod reader;
pub mod record;
pub mod refusal;
pub mod rng;
pub mod samples;
pub mod scan;
pub mod season;
pub mod season_runs;
pub mod seasons;
pub mod streams;
pub mod tables;
pub mod tally;
pub mod trials;
pub mod window;
pub mod word;
pub mod word_journal;
pub mod writer;
