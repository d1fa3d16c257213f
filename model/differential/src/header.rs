//! `include/rtcm2.h` in Rust.

unsafe extern "C" {
    pub safe fn rtcm2_state_size() -> usize;
    pub fn rtcm2_start(state: *mut u8, state_size: usize) -> u8;
    pub fn rtcm2_feed(state: *mut u8, state_size: usize, byte: u8) -> u8;
    pub fn rtcm2_feed_all(
        state: *mut u8,
        state_size: usize,
        bytes: *const u8,
        bytes_size: usize,
        used: *mut usize,
        passed: *mut usize,
    ) -> u8;
    pub fn rtcm2_end(state: *mut u8, state_size: usize) -> u8;
    pub fn rtcm2_take(
        state: *mut u8,
        state_size: usize,
        frame: *mut u8,
        frame_size: usize,
        length: *mut usize,
        at: *mut u32,
        d29: *mut u8,
        d30: *mut u8,
    ) -> u8;
    pub fn rtcm2_read(
        state: *mut u8,
        state_size: usize,
        bytes: *const u8,
        bytes_size: usize,
        rows: *mut u8,
        rows_size: usize,
        used: *mut usize,
        passed: *mut usize,
        count: *mut usize,
    ) -> u8;
    pub fn rtcm2_counts(state: *const u8, state_size: usize, odd: *mut u32, even: *mut u32) -> u8;
    pub fn rtcm2_open(line: *mut u8, line_size: usize) -> u8;
    pub fn rtcm2_write(
        frame: *const u8,
        frame_size: usize,
        d29: *mut u8,
        d30: *mut u8,
        line: *mut u8,
        line_size: usize,
        length: *mut usize,
    ) -> u8;
    pub fn rtcm2_keep(
        kind: u8,
        station: u16,
        z: u16,
        sequence: u8,
        health: u8,
        data: *const u8,
        data_size: usize,
        frame: *mut u8,
        frame_size: usize,
        length: *mut usize,
    ) -> u8;
    pub fn rtcm2_recall(
        frame: *const u8,
        frame_size: usize,
        kind: *mut u8,
        station: *mut u16,
        z: *mut u16,
        sequence: *mut u8,
        health: *mut u8,
        n: *mut u8,
        length: *mut usize,
    ) -> u8;
    pub fn rtcm2_keep_words(
        frame: *const u8,
        frame_size: usize,
        d29: u8,
        d30: u8,
        words: *mut u8,
        words_size: usize,
        length: *mut usize,
    ) -> u8;
    pub fn rtcm2_recall_words(
        words: *const u8,
        words_size: usize,
        frame: *mut u8,
        frame_size: usize,
        d29: *mut u8,
        d30: *mut u8,
        read: *mut usize,
        length: *mut usize,
    ) -> u8;
    pub fn rtcm2_mend(
        bytes: *mut u8,
        bytes_size: usize,
        at: u64,
        searching: u8,
        report: *mut u8,
        report_size: usize,
        step: *mut u8,
        read: *mut usize,
        written: *mut usize,
    ) -> u8;
    pub fn rtcm2_read_position(
        frame: *const u8,
        frame_size: usize,
        x_cm: *mut i32,
        y_cm: *mut i32,
        z_cm: *mut i32,
    ) -> u8;
    pub fn rtcm2_make_position(
        kind: u8,
        station: u16,
        z: u16,
        sequence: u8,
        health: u8,
        x_cm: i32,
        y_cm: i32,
        z_cm: i32,
        frame: *mut u8,
        frame_size: usize,
        length: *mut usize,
    ) -> u8;
    pub fn rtcm2_read_null(frame: *const u8, frame_size: usize, n: *mut u8) -> u8;
    pub fn rtcm2_make_null(
        kind: u8,
        station: u16,
        z: u16,
        sequence: u8,
        health: u8,
        n: u8,
        frame: *mut u8,
        frame_size: usize,
        length: *mut usize,
    ) -> u8;
    pub fn rtcm2_read_text(
        frame: *const u8,
        frame_size: usize,
        text: *mut u8,
        text_size: usize,
        length: *mut usize,
    ) -> u8;
    pub fn rtcm2_make_text(
        kind: u8,
        station: u16,
        z: u16,
        sequence: u8,
        health: u8,
        text: *const u8,
        text_size: usize,
        frame: *mut u8,
        frame_size: usize,
        length: *mut usize,
    ) -> u8;
    pub fn rtcm2_count_observations(frame: *const u8, frame_size: usize, count: *mut usize) -> u8;
    pub fn rtcm2_read_epoch(
        frame: *const u8,
        frame_size: usize,
        frequency: *mut u8,
        smoothing: *mut u8,
        time: *mut u32,
    ) -> u8;
    pub fn rtcm2_observation_at(
        edition: u8,
        frame: *const u8,
        frame_size: usize,
        index: usize,
        observation: *mut u8,
        observation_size: usize,
    ) -> u8;
    pub fn rtcm2_make_observations(
        edition: u8,
        kind: u8,
        station: u16,
        z: u16,
        sequence: u8,
        health: u8,
        frequency: u8,
        smoothing: u8,
        time: u32,
        observations: *const u8,
        observations_size: usize,
        frame: *mut u8,
        frame_size: usize,
        length: *mut usize,
    ) -> u8;
    pub fn rtcm2_count_generals(frame: *const u8, frame_size: usize, count: *mut usize) -> u8;
    pub fn rtcm2_read_head(
        frame: *const u8,
        frame_size: usize,
        system: *mut u8,
        signal: *mut u8,
        ephemeris: *mut u8,
        period: *mut u8,
        ionosphere: *mut u8,
    ) -> u8;
    pub fn rtcm2_general_at(
        frame: *const u8,
        frame_size: usize,
        index: usize,
        general: *mut u8,
        general_size: usize,
    ) -> u8;
    pub fn rtcm2_make_generals(
        kind: u8,
        station: u16,
        z: u16,
        sequence: u8,
        health: u8,
        system: u8,
        signal: u8,
        ephemeris: u8,
        period: u8,
        ionosphere: u8,
        generals: *const u8,
        generals_size: usize,
        frame: *mut u8,
        frame_size: usize,
        length: *mut usize,
    ) -> u8;
    pub fn rtcm2_read_general_null(
        frame: *const u8,
        frame_size: usize,
        n: *mut u8,
        system: *mut u8,
    ) -> u8;
    pub fn rtcm2_make_general_null(
        kind: u8,
        station: u16,
        z: u16,
        sequence: u8,
        health: u8,
        n: u8,
        system: u8,
        frame: *mut u8,
        frame_size: usize,
        length: *mut usize,
    ) -> u8;
    pub fn rtcm2_check_profile(frame: *const u8, frame_size: usize) -> u8;
    pub fn rtcm2_cut_corrections(
        kind: u8,
        station: u16,
        z: u16,
        sequence: u8,
        health: u8,
        corrections: *const u8,
        corrections_size: usize,
        frames: *mut u8,
        frames_size: usize,
        length: *mut usize,
    ) -> u8;
    pub fn rtcm2_season_start(report: *mut u8, report_size: usize) -> u8;
    pub fn rtcm2_season_journal(
        report: *mut u8,
        report_size: usize,
        bytes: *const u8,
        bytes_size: usize,
        used: *mut usize,
    ) -> u8;
    pub fn rtcm2_season_add(
        first: *mut u8,
        first_size: usize,
        second: *const u8,
        second_size: usize,
    ) -> u8;
    pub fn rtcm2_season_row(
        report: *const u8,
        report_size: usize,
        index: usize,
        row: *mut u8,
        row_size: usize,
    ) -> u8;
    pub fn rtcm2_prc_mm(scale: u8, prc: i16, stop: *mut u8, mm: *mut i32) -> u8;
    pub fn rtcm2_rrc_mm_s(scale: u8, rrc: i8, stop: *mut u8, mm_s: *mut i32) -> u8;
    pub fn rtcm2_stops(prc: i16, rrc: i8, stop: *mut u8) -> u8;
    pub fn rtcm2_udre_limit_mm(health: u8, udre: u8, limited: *mut u8, mm: *mut u32) -> u8;
    pub fn rtcm2_cn0_dbhz(code: u8, tracked: *mut u8, dbhz: *mut u8) -> u8;
    pub fn rtcm2_general_prc_mm(prc: i16, stop: *mut u8, mm: *mut i32) -> u8;
    pub fn rtcm2_delay_mm(delay: u16, usable: *mut u8, mm: *mut u32) -> u8;
    pub fn rtcm2_general_udre(health: u8, udre: u8, limited: *mut u8, hundredths: *mut u32) -> u8;
    pub fn rtcm2_use_seconds(code: u8, seconds: *mut u8) -> u8;
    pub fn rtcm2_letter_of(code: u8, letter: *mut u32) -> u8;
    pub fn rtcm2_remainder(window: u32, remainder: *mut u8) -> u8;
}

/// Counts the entries of a list.
pub type Counter = unsafe extern "C" fn(*const u8, usize, *mut usize) -> u8;

/// Reads an entry of a list.
pub type EntryReader = unsafe extern "C" fn(*const u8, usize, usize, *mut u8, usize) -> u8;

/// Makes a frame of a header's five numbers and bytes.
pub type Maker =
    unsafe extern "C" fn(u8, u16, u16, u8, u8, *const u8, usize, *mut u8, usize, *mut usize) -> u8;

/// The three functions of a list layout, their names, and every number that the second
/// can answer; the other two can answer the same for all.
pub struct List {
    pub count: Counter,
    pub at: EntryReader,
    pub make: Maker,
    pub names: [&'static str; 3],
    pub answers: &'static [u64],
}

/// The lists, in the order of the header, which is the model's.
macro_rules! lists {
    ($($count:ident $at:ident $make:ident $answers:expr;)*) => {
        unsafe extern "C" {
            $(
                fn $count(frame: *const u8, frame_size: usize, count: *mut usize) -> u8;
                fn $at(
                    frame: *const u8,
                    frame_size: usize,
                    index: usize,
                    row: *mut u8,
                    row_size: usize,
                ) -> u8;
                fn $make(
                    kind: u8,
                    station: u16,
                    z: u16,
                    sequence: u8,
                    health: u8,
                    rows: *const u8,
                    rows_size: usize,
                    frame: *mut u8,
                    frame_size: usize,
                    length: *mut usize,
                ) -> u8;
            )*
        }

        pub const LISTS: &[List] = &[
            $(List {
                count: $count,
                at: $at,
                make: $make,
                names: [stringify!($count), stringify!($at), stringify!($make)],
                answers: &$answers,
            },)*
        ];
    };
}

lists! {
    rtcm2_count_corrections rtcm2_correction_at rtcm2_make_corrections
        [0, 6, 7, 8, 9, 10, 13, 14, 15, 16];
    rtcm2_count_healths rtcm2_health_at rtcm2_make_healths [0, 6, 7, 8, 9, 13, 14, 15, 16];
}
