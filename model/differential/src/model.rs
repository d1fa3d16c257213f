//! The same calls through the model.

mod generals;
mod journals;
mod observations;
mod season;

use crate::call::{Call, Function};
use crate::place::Place;
use rtcm2_model::library::frames::{self, Recalled};
use rtcm2_model::library::line::{self, Taking};
use rtcm2_model::library::turns::{self, Reading};
use rtcm2_model::library::{numbers, profile, records, words as windows};
use rtcm2_model::record::position::Position;
use rtcm2_model::tables::LISTS;

/// Makes the call and gives its answer.
pub fn answer(call: &mut Call) -> u64 {
    match call.function {
        Function::StateSize => line::state_size() as u64,
        Function::Start
        | Function::Feed
        | Function::FeedAll
        | Function::End
        | Function::Take
        | Function::Read => u64::from(reader(call)),
        Function::Counts => u64::from(counts(call)),
        Function::Open | Function::Write => u64::from(writer(call)),
        Function::Recall | Function::ReadPosition | Function::ReadNull | Function::ReadText => {
            u64::from(read(call))
        }
        Function::KeepWords | Function::RecallWords => u64::from(journals::words(call)),
        Function::Mend => u64::from(journals::mend(call)),
        Function::Count(_) | Function::At(_) => u64::from(list(call)),
        Function::Keep
        | Function::Make(_)
        | Function::MakePosition
        | Function::MakeNull
        | Function::MakeText
        | Function::CutCorrections => u64::from(make(call)),
        Function::CheckProfile => u64::from(check_profile(call)),
        Function::CountObservations
        | Function::ReadEpoch
        | Function::ObservationAt
        | Function::MakeObservations => u64::from(observations::observations(call)),
        Function::CountGenerals
        | Function::ReadHead
        | Function::GeneralAt
        | Function::ReadGeneralNull => u64::from(generals::read(call)),
        Function::MakeGenerals => u64::from(generals::make(call)),
        Function::MakeGeneralNull => u64::from(generals::make_null(call)),
        Function::SeasonStart
        | Function::SeasonJournal
        | Function::SeasonAdd
        | Function::SeasonRow => u64::from(season::season(call)),
        Function::PrcMm | Function::RrcMmS | Function::UdreLimitMm | Function::Cn0Dbhz => {
            u64::from(number(call))
        }
        Function::GeneralPrcMm
        | Function::DelayMm
        | Function::GeneralUdre
        | Function::UseSeconds => u64::from(generals::number(call)),
        Function::Stops => u64::from(stops(call)),
        Function::LetterOf => u64::from(letter_of(call)),
        Function::Remainder => u64::from(remainder(call)),
    }
}

/// The places, as many as the function has.
fn of<const COUNT: usize>(places: &mut [Place]) -> &mut [Place; COUNT] {
    places.try_into().expect("as many places as the call has")
}

fn reader(call: &mut Call) -> u8 {
    let (state, rest) = call.lent.split_first_mut().expect("a state");
    let state = state.bytes();
    match call.function {
        Function::Start => line::start(state),
        Function::Feed => line::feed(state, call.given[0] as u8),
        Function::FeedAll => {
            let ([used, passed], [bytes]) = (of(rest), of(&mut call.read));
            line::feed_all(state, bytes.bytes(), used.number(), passed.number())
        }
        Function::End => line::end(state),
        Function::Take => {
            let [frame, length, at, d29, d30] = of(rest);
            let into = Taking {
                length: length.number(),
                at: at.number(),
                d29: d29.number(),
                d30: d30.number(),
            };
            line::take(state, frame.bytes(), into)
        }
        Function::Read => {
            let ([rows, used, passed, count], [bytes]) = (of(rest), of(&mut call.read));
            let into = Reading {
                used: used.number(),
                passed: passed.number(),
                count: count.number(),
            };
            turns::read(state, bytes.bytes(), rows.bytes(), into)
        }
        other => unreachable!("{other:?}"),
    }
}

fn counts(call: &mut Call) -> u8 {
    let ([state], [odd, even]) = (of(&mut call.read), of(&mut call.lent));
    line::counts(state.bytes(), odd.number(), even.number())
}

fn writer(call: &mut Call) -> u8 {
    match call.function {
        Function::Open => {
            let [line] = of(&mut call.lent);
            line::open(line.bytes())
        }
        Function::Write => {
            let ([frame], [d29, d30, line, length]) = (of(&mut call.read), of(&mut call.lent));
            let (d29, d30) = (d29.number(), d30.number());
            line::write(frame.bytes(), d29, d30, line.bytes(), length.number())
        }
        other => unreachable!("{other:?}"),
    }
}

fn read(call: &mut Call) -> u8 {
    let ([frame], lent) = (of(&mut call.read), &mut call.lent);
    let frame = frame.bytes();
    match call.function {
        Function::Recall => {
            let [kind, station, z, sequence, health, n, length] = of(lent);
            let into = Recalled {
                kind: kind.number(),
                station: station.number(),
                z: z.number(),
                sequence: sequence.number(),
                health: health.number(),
                n: n.number(),
                length: length.number(),
            };
            frames::recall(frame, into)
        }
        Function::ReadPosition => {
            let [x, y, z] = of(lent);
            records::read_position(frame, x.number(), y.number(), z.number())
        }
        Function::ReadNull => {
            let [n] = of(lent);
            records::read_null(frame, n.number())
        }
        Function::ReadText => {
            let [text, length] = of(lent);
            records::read_text(frame, text.bytes(), length.number())
        }
        other => unreachable!("{other:?}"),
    }
}

fn list(call: &mut Call) -> u8 {
    let ([frame], [lent]) = (of(&mut call.read), of(&mut call.lent));
    let frame = frame.bytes();
    match call.function {
        Function::Count(place) => (LISTS[place].count)(frame, lent.number()),
        Function::At(place) => (LISTS[place].at)(frame, call.given[0] as usize, lent.bytes()),
        other => unreachable!("{other:?}"),
    }
}

fn make(call: &mut Call) -> u8 {
    let head = call.head();
    let [frame, length] = of(&mut call.lent);
    let (frame, length) = (frame.bytes(), length.number());
    let read = &mut call.read;
    match call.function {
        Function::Keep => frames::keep(head, of::<1>(read)[0].bytes(), frame, length),
        Function::Make(place) => (LISTS[place].make)(head, of::<1>(read)[0].bytes(), frame, length),
        Function::CutCorrections => {
            profile::cut_corrections(head, of::<1>(read)[0].bytes(), frame, length)
        }
        Function::MakePosition => {
            let [x, y, z] = [5, 6, 7].map(|i| call.given[i] as i32);
            records::make_position(head, Position { x, y, z }, frame, length)
        }
        Function::MakeNull => records::make_null(head, call.given[5] as u8, frame, length),
        Function::MakeText => records::make_text(head, of::<1>(read)[0].bytes(), frame, length),
        other => unreachable!("{other:?}"),
    }
}

fn check_profile(call: &mut Call) -> u8 {
    let [frame] = of(&mut call.read);
    profile::check_profile(frame.bytes())
}

fn stops(call: &mut Call) -> u8 {
    let (given, [stop]) = (&call.given, of(&mut call.lent));
    numbers::stops(given[0] as i16, given[1] as i8, stop.number())
}

fn letter_of(call: &mut Call) -> u8 {
    let [letter] = of(&mut call.lent);
    numbers::letter_of(call.given[0] as u8, letter.number())
}

fn remainder(call: &mut Call) -> u8 {
    let [remainder] = of(&mut call.lent);
    windows::remainder(call.given[0] as u32, remainder.number())
}

fn number(call: &mut Call) -> u8 {
    let (given, [is, value]) = (&call.given, of(&mut call.lent));
    let (code, is) = (given[0] as u8, is.number());
    match call.function {
        Function::PrcMm => numbers::prc_mm(code, given[1] as i16, is, value.number()),
        Function::RrcMmS => numbers::rrc_mm_s(code, given[1] as i8, is, value.number()),
        Function::UdreLimitMm => numbers::udre_limit_mm(code, given[1] as u8, is, value.number()),
        Function::Cn0Dbhz => numbers::cn0_dbhz(code, is, value.number()),
        other => unreachable!("{other:?}"),
    }
}
