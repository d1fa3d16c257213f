//! The calls through the static library.

mod generals;
mod journals;
mod observations;
mod season;

use crate::call::{Call, Function};
use crate::header::*;
use crate::place::Place;

/// Makes the call and gives its answer.
pub fn answer(call: &mut Call) -> u64 {
    match call.function {
        Function::StateSize => rtcm2_state_size() as u64,
        Function::Start
        | Function::Feed
        | Function::FeedAll
        | Function::End
        | Function::Take
        | Function::Read => u64::from(reader(call)),
        Function::Counts => u64::from(counts(call)),
        Function::Open | Function::Write => u64::from(writer(call)),
        Function::Recall | Function::ReadPosition | Function::ReadNull | Function::ReadText => {
            u64::from(read(call))
        }
        Function::KeepWords | Function::RecallWords => u64::from(journals::words(call)),
        Function::Mend => u64::from(journals::mend(call)),
        Function::Count(place) => u64::from(count(&LISTS[place], call)),
        Function::At(place) => u64::from(entry_at(&LISTS[place], call)),
        Function::Make(place) => u64::from(make(LISTS[place].make, call)),
        Function::Keep => u64::from(make(rtcm2_keep, call)),
        Function::MakeText => u64::from(make(rtcm2_make_text, call)),
        Function::CutCorrections => u64::from(make(rtcm2_cut_corrections, call)),
        Function::CheckProfile => u64::from(check_profile(call)),
        Function::MakePosition => u64::from(make_position(call)),
        Function::MakeNull => u64::from(make_null(call)),
        Function::CountObservations
        | Function::ReadEpoch
        | Function::ObservationAt
        | Function::MakeObservations => u64::from(observations::observations(call)),
        Function::CountGenerals
        | Function::ReadHead
        | Function::GeneralAt
        | Function::ReadGeneralNull => u64::from(generals::read(call)),
        Function::MakeGenerals => u64::from(generals::make(call)),
        Function::MakeGeneralNull => u64::from(generals::make_null(call)),
        Function::SeasonStart
        | Function::SeasonJournal
        | Function::SeasonAdd
        | Function::SeasonRow => u64::from(season::season(call)),
        Function::PrcMm | Function::RrcMmS | Function::UdreLimitMm | Function::Cn0Dbhz => {
            u64::from(number(call))
        }
        Function::GeneralPrcMm
        | Function::DelayMm
        | Function::GeneralUdre
        | Function::UseSeconds => u64::from(generals::number(call)),
        Function::Stops => u64::from(stops(call)),
        Function::LetterOf => u64::from(letter_of(call)),
        Function::Remainder => u64::from(remainder(call)),
    }
}

// Safety of all calls below: each pointer comes with the size of its place, or
// points to an aligned number of its type, and no two places overlap.

/// Where the lent bytes or the number of a place lie.
fn at<T>(place: &mut Place) -> *mut T {
    place.pointer().cast()
}

/// The places, as many as the function has.
fn of<const COUNT: usize>(places: &mut [Place]) -> &mut [Place; COUNT] {
    places.try_into().expect("as many places as the call has")
}

fn reader(call: &mut Call) -> u8 {
    let (state, rest) = call.lent.split_first_mut().expect("a state");
    let (size, state) = (state.size(), at(state));
    match call.function {
        Function::Start => unsafe { rtcm2_start(state, size) },
        Function::Feed => unsafe { rtcm2_feed(state, size, call.given[0] as u8) },
        Function::FeedAll => {
            let ([used, passed], [bytes]) = (of(rest), of(&mut call.read));
            let (count, bytes) = (bytes.size(), at(bytes));
            unsafe { rtcm2_feed_all(state, size, bytes, count, at(used), at(passed)) }
        }
        Function::End => unsafe { rtcm2_end(state, size) },
        Function::Take => {
            let [frame, length, position, d29, d30] = of(rest);
            let (room, frame) = (frame.size(), at(frame));
            let (length, position) = (at(length), at(position));
            let (d29, d30) = (at(d29), at(d30));
            unsafe { rtcm2_take(state, size, frame, room, length, position, d29, d30) }
        }
        Function::Read => {
            let ([rows, used, passed, count], [bytes]) = (of(rest), of(&mut call.read));
            let (length, bytes) = (bytes.size(), at(bytes));
            let (room, rows) = (rows.size(), at(rows));
            let (used, passed, count) = (at(used), at(passed), at(count));
            unsafe { rtcm2_read(state, size, bytes, length, rows, room, used, passed, count) }
        }
        other => unreachable!("{other:?}"),
    }
}

fn counts(call: &mut Call) -> u8 {
    let ([state], [odd, even]) = (of(&mut call.read), of(&mut call.lent));
    unsafe { rtcm2_counts(at(state), state.size(), at(odd), at(even)) }
}

fn writer(call: &mut Call) -> u8 {
    match call.function {
        Function::Open => {
            let [line] = of(&mut call.lent);
            unsafe { rtcm2_open(at(line), line.size()) }
        }
        Function::Write => {
            let ([frame], [d29, d30, line, length]) = (of(&mut call.read), of(&mut call.lent));
            let (size, frame) = (frame.size(), at(frame));
            let (room, line) = (line.size(), at(line));
            unsafe { rtcm2_write(frame, size, at(d29), at(d30), line, room, at(length)) }
        }
        other => unreachable!("{other:?}"),
    }
}

fn read(call: &mut Call) -> u8 {
    let [frame] = of(&mut call.read);
    let (size, frame) = (frame.size(), at(frame));
    let lent = &mut call.lent;
    match call.function {
        Function::Recall => {
            let [kind, station, z, sequence, health, n, length] = of(lent);
            let (kind, station, z, sequence) = (at(kind), at(station), at(z), at(sequence));
            let (health, n, length) = (at(health), at(n), at(length));
            unsafe { rtcm2_recall(frame, size, kind, station, z, sequence, health, n, length) }
        }
        Function::ReadPosition => {
            let [x, y, z] = of(lent);
            unsafe { rtcm2_read_position(frame, size, at(x), at(y), at(z)) }
        }
        Function::ReadNull => {
            let [n] = of(lent);
            unsafe { rtcm2_read_null(frame, size, at(n)) }
        }
        Function::ReadText => {
            let [text, length] = of(lent);
            unsafe { rtcm2_read_text(frame, size, at(text), text.size(), at(length)) }
        }
        other => unreachable!("{other:?}"),
    }
}

fn count(list: &List, call: &mut Call) -> u8 {
    let ([frame], [count]) = (of(&mut call.read), of(&mut call.lent));
    unsafe { (list.count)(at(frame), frame.size(), at(count)) }
}

fn entry_at(list: &List, call: &mut Call) -> u8 {
    let ([frame], [row]) = (of(&mut call.read), of(&mut call.lent));
    let (size, frame) = (frame.size(), at(frame));
    unsafe { (list.at)(frame, size, call.given[0] as usize, at(row), row.size()) }
}

/// The makers that have the same arguments.
fn make(maker: Maker, call: &mut Call) -> u8 {
    let head = call.head();
    let ([bytes], [frame, length]) = (of(&mut call.read), of(&mut call.lent));
    let (size, bytes) = (bytes.size(), at(bytes));
    let (room, frame) = (frame.size(), at(frame));
    unsafe {
        maker(
            head.kind,
            head.station,
            head.z,
            head.sequence,
            head.health,
            bytes,
            size,
            frame,
            room,
            at(length),
        )
    }
}

fn make_position(call: &mut Call) -> u8 {
    let head = call.head();
    let [x, y, z] = [5, 6, 7].map(|i| call.given[i] as i32);
    let [frame, length] = of(&mut call.lent);
    let (room, frame) = (frame.size(), at(frame));
    unsafe {
        rtcm2_make_position(
            head.kind,
            head.station,
            head.z,
            head.sequence,
            head.health,
            x,
            y,
            z,
            frame,
            room,
            at(length),
        )
    }
}

fn make_null(call: &mut Call) -> u8 {
    let (head, n) = (call.head(), call.given[5] as u8);
    let [frame, length] = of(&mut call.lent);
    let (room, frame) = (frame.size(), at(frame));
    unsafe {
        rtcm2_make_null(
            head.kind,
            head.station,
            head.z,
            head.sequence,
            head.health,
            n,
            frame,
            room,
            at(length),
        )
    }
}

fn check_profile(call: &mut Call) -> u8 {
    let [frame] = of(&mut call.read);
    unsafe { rtcm2_check_profile(at(frame), frame.size()) }
}

fn stops(call: &mut Call) -> u8 {
    let (given, [stop]) = (&call.given, of(&mut call.lent));
    unsafe { rtcm2_stops(given[0] as i16, given[1] as i8, at(stop)) }
}

fn letter_of(call: &mut Call) -> u8 {
    let [letter] = of(&mut call.lent);
    unsafe { rtcm2_letter_of(call.given[0] as u8, at(letter)) }
}

fn remainder(call: &mut Call) -> u8 {
    let [remainder] = of(&mut call.lent);
    unsafe { rtcm2_remainder(call.given[0] as u32, at(remainder)) }
}

fn number(call: &mut Call) -> u8 {
    let (given, [is, value]) = (&call.given, of(&mut call.lent));
    let code = given[0] as u8;
    match call.function {
        Function::PrcMm => unsafe { rtcm2_prc_mm(code, given[1] as i16, at(is), at(value)) },
        Function::RrcMmS => unsafe { rtcm2_rrc_mm_s(code, given[1] as i8, at(is), at(value)) },
        Function::UdreLimitMm => unsafe {
            rtcm2_udre_limit_mm(code, given[1] as u8, at(is), at(value))
        },
        Function::Cn0Dbhz => unsafe { rtcm2_cn0_dbhz(code, at(is), at(value)) },
        other => unreachable!("{other:?}"),
    }
}
