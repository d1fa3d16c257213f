//! A call of the library as data: the function, numbers given, bytes to read,
//! places lent, each in the order of `include/rtcm2.h`.

use crate::header::LISTS;
use crate::place::Place;
use rtcm2_model::library::Head;
use std::fmt::{self, Display, Formatter};
use std::sync::LazyLock;

/// The functions of the library.
#[derive(Clone, Copy, Debug, PartialEq, Eq)]
pub enum Function {
    StateSize,
    Start,
    Feed,
    FeedAll,
    End,
    Take,
    Read,
    Counts,
    Open,
    Write,
    Keep,
    Recall,
    KeepWords,
    RecallWords,
    Mend,
    /// Counts the entries of the list at this place.
    Count(usize),
    /// Reads an entry of it.
    At(usize),
    /// Makes a frame of it.
    Make(usize),
    ReadPosition,
    MakePosition,
    ReadNull,
    MakeNull,
    ReadText,
    MakeText,
    CountObservations,
    ReadEpoch,
    ObservationAt,
    MakeObservations,
    CountGenerals,
    ReadHead,
    GeneralAt,
    MakeGenerals,
    ReadGeneralNull,
    MakeGeneralNull,
    CheckProfile,
    CutCorrections,
    SeasonStart,
    SeasonJournal,
    SeasonAdd,
    SeasonRow,
    PrcMm,
    RrcMmS,
    Stops,
    UdreLimitMm,
    Cn0Dbhz,
    GeneralPrcMm,
    DelayMm,
    GeneralUdre,
    UseSeconds,
    LetterOf,
    Remainder,
}

/// A function, its name and every number that it can answer.
#[derive(Clone, Copy)]
pub struct Row {
    /// The function.
    pub function: Function,
    /// Its name in the header.
    pub name: &'static str,
    /// Its answers.
    pub answers: &'static [u64],
}

const fn row(function: Function, name: &'static str, answers: &'static [u64]) -> Row {
    Row {
        function,
        name,
        answers,
    }
}

/// All functions but those of the lists, in the order of the header.
const OTHERS: &[Row] = &[
    row(Function::StateSize, "rtcm2_state_size", &[196]),
    row(Function::Start, "rtcm2_start", &[0, 13]),
    row(Function::Feed, "rtcm2_feed", &[0, 1, 2, 3, 5]),
    row(Function::FeedAll, "rtcm2_feed_all", &[0, 2, 3, 5]),
    row(Function::End, "rtcm2_end", &[0, 2, 3, 5]),
    row(Function::Take, "rtcm2_take", &[0, 4, 5, 13]),
    row(Function::Read, "rtcm2_read", &[0, 3, 5, 13]),
    row(Function::Counts, "rtcm2_counts", &[0, 5]),
    row(Function::Open, "rtcm2_open", &[0, 13]),
    row(Function::Write, "rtcm2_write", &[0, 5, 7, 13, 14, 15, 16]),
    row(Function::Keep, "rtcm2_keep", &[0, 5, 13]),
    row(Function::Recall, "rtcm2_recall", &[0, 14, 15, 16]),
    row(
        Function::KeepWords,
        "rtcm2_keep_words",
        &[0, 5, 13, 14, 15, 16],
    ),
    row(
        Function::RecallWords,
        "rtcm2_recall_words",
        &[0, 13, 14, 15, 16, 17],
    ),
    row(Function::Mend, "rtcm2_mend", &[0, 13]),
    row(
        Function::ReadPosition,
        "rtcm2_read_position",
        &[0, 6, 7, 8, 10, 14, 15, 16],
    ),
    row(
        Function::MakePosition,
        "rtcm2_make_position",
        &[0, 5, 6, 7, 10, 13],
    ),
    row(
        Function::ReadNull,
        "rtcm2_read_null",
        &[0, 6, 7, 8, 14, 15, 16],
    ),
    row(Function::MakeNull, "rtcm2_make_null", &[0, 5, 6, 7, 12, 13]),
    row(
        Function::ReadText,
        "rtcm2_read_text",
        &[0, 6, 7, 8, 11, 13, 14, 15, 16],
    ),
    row(
        Function::MakeText,
        "rtcm2_make_text",
        &[0, 5, 6, 7, 11, 12, 13],
    ),
    row(
        Function::CountObservations,
        "rtcm2_count_observations",
        &[0, 6, 7, 8, 14, 15, 16],
    ),
    row(
        Function::ReadEpoch,
        "rtcm2_read_epoch",
        &[0, 6, 7, 8, 10, 14, 15, 16],
    ),
    row(
        Function::ObservationAt,
        "rtcm2_observation_at",
        &[0, 5, 6, 7, 8, 9, 10, 13, 14, 15, 16],
    ),
    row(
        Function::MakeObservations,
        "rtcm2_make_observations",
        &[0, 5, 6, 7, 10, 12, 13],
    ),
    row(
        Function::CountGenerals,
        "rtcm2_count_generals",
        &[0, 6, 7, 8, 14, 15, 16, 23],
    ),
    row(
        Function::ReadHead,
        "rtcm2_read_head",
        &[0, 6, 7, 8, 14, 15, 16, 23],
    ),
    row(
        Function::GeneralAt,
        "rtcm2_general_at",
        &[0, 6, 7, 8, 9, 10, 13, 14, 15, 16, 23],
    ),
    row(
        Function::MakeGenerals,
        "rtcm2_make_generals",
        &[0, 5, 6, 7, 10, 12, 13, 23],
    ),
    row(
        Function::ReadGeneralNull,
        "rtcm2_read_general_null",
        &[0, 6, 7, 8, 14, 15, 16, 23],
    ),
    row(
        Function::MakeGeneralNull,
        "rtcm2_make_general_null",
        &[0, 5, 6, 7, 12, 13, 23],
    ),
    row(
        Function::CheckProfile,
        "rtcm2_check_profile",
        &[0, 7, 8, 10, 11, 14, 15, 16, 20, 21, 22],
    ),
    row(
        Function::CutCorrections,
        "rtcm2_cut_corrections",
        &[0, 5, 6, 7, 10, 12, 13, 22],
    ),
    row(Function::SeasonStart, "rtcm2_season_start", &[0, 13]),
    row(
        Function::SeasonJournal,
        "rtcm2_season_journal",
        &[0, 5, 18, 19],
    ),
    row(Function::SeasonAdd, "rtcm2_season_add", &[0, 5, 18, 19]),
    row(Function::SeasonRow, "rtcm2_season_row", &[0, 5, 9, 13]),
    row(Function::PrcMm, "rtcm2_prc_mm", &[0, 10]),
    row(Function::RrcMmS, "rtcm2_rrc_mm_s", &[0, 10]),
    row(Function::Stops, "rtcm2_stops", &[0]),
    row(Function::UdreLimitMm, "rtcm2_udre_limit_mm", &[0, 5, 10]),
    row(Function::Cn0Dbhz, "rtcm2_cn0_dbhz", &[0, 10]),
    row(Function::GeneralPrcMm, "rtcm2_general_prc_mm", &[0, 10]),
    row(Function::DelayMm, "rtcm2_delay_mm", &[0, 10]),
    row(Function::GeneralUdre, "rtcm2_general_udre", &[0, 5, 10]),
    row(Function::UseSeconds, "rtcm2_use_seconds", &[0, 10]),
    row(Function::LetterOf, "rtcm2_letter_of", &[0, 11]),
    row(Function::Remainder, "rtcm2_remainder", &[0]),
];

/// The three functions of the list at a place.
fn of_list(place: usize) -> [Row; 3] {
    let list = &LISTS[place];
    let [count, at, make] = list.names;
    [
        row(Function::Count(place), count, &[0, 6, 7, 8, 14, 15, 16]),
        row(Function::At(place), at, list.answers),
        row(Function::Make(place), make, &[0, 5, 6, 7, 10, 12, 13]),
    ]
}

/// All functions, in the order of the header: the lists stand behind the mender.
pub static FUNCTIONS: LazyLock<Vec<Row>> = LazyLock::new(|| {
    let mender = OTHERS.iter().position(|row| row.function == Function::Mend);
    let (before, behind) = OTHERS.split_at(mender.expect("its row") + 1);
    let lists = (0..LISTS.len()).flat_map(of_list);
    let mut all = before.to_vec();
    all.extend(lists);
    all.extend_from_slice(behind);
    all
});

/// The place of a function in the table.
pub fn row_of(function: Function) -> usize {
    let found = FUNCTIONS.iter().position(|row| row.function == function);
    found.expect("every function has its row")
}

/// A call and all the memory that it is lent.
#[derive(Clone, PartialEq, Eq)]
pub struct Call {
    /// The function.
    pub function: Function,
    /// Numbers given by value.
    pub given: Vec<i64>,
    /// Bytes that are only read.
    pub read: Vec<Place>,
    /// Bytes and numbers that may be changed.
    pub lent: Vec<Place>,
}

impl Call {
    /// The header's five numbers, of a call that makes a frame; else zeros where there
    /// are none.
    pub fn head(&self) -> Head {
        let number = |i: usize| self.given.get(i).copied().unwrap_or(0);
        Head {
            kind: number(0) as u8,
            station: number(1) as u16,
            z: number(2) as u16,
            sequence: number(3) as u8,
            health: number(4) as u8,
        }
    }
}

impl Display for Call {
    fn fmt(&self, to: &mut Formatter) -> fmt::Result {
        writeln!(to, "{}", FUNCTIONS[row_of(self.function)].name)?;
        writeln!(to, "  given {:?}", self.given)?;
        for place in &self.read {
            writeln!(to, "  read {} bytes: {}", place.size(), place.hex())?;
        }
        for place in &self.lent {
            writeln!(to, "  lent {} bytes: {}", place.size(), place.hex())?;
        }
        Ok(())
    }
}
