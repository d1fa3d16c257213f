//! Statistics over a season: the worked journal and its split, the worked additions,
//! reports as bytes, journals of both forms cut anywhere, and what the program prints.

mod common;

use common::number;
use rtcm2_model::library::season::{
    report_bytes, report_in, row_bytes, season_add, season_journal, season_row, season_start,
    REPORT_SIZE, ROW_SIZE,
};
use rtcm2_model::record::correction::Correction;
use rtcm2_model::record::list::List;
use rtcm2_model::record::values::Value;
use rtcm2_model::record::System;
use rtcm2_model::refusal::Answer;
use rtcm2_model::rng::Rng;
use rtcm2_model::season::{
    add, check, entries_of, of_entries, take_records, Entry, Key, Report, Row, MOST_ROWS,
};
use rtcm2_model::season_runs::{files, full, worked};
use rtcm2_model::seasons::{run, run_from};
use rtcm2_model::{journal, journals, word_journal};

fn key(system: System, station: u16, satellite: u8) -> Key {
    Key {
        system,
        station,
        satellite,
    }
}

/// A row of a GPS satellite of station 0.
fn row(satellite: u8, usable: u32, stops: u32, extremes: Option<(i32, i32)>, sum: i64) -> Row {
    Row {
        key: key(System::Gps, 0, satellite),
        usable,
        stops,
        extremes,
        sum,
    }
}

fn report(rows: &[Row]) -> Report {
    Report {
        rows: rows.to_vec(),
    }
}

/// So many keys, each with one stop.
fn keys(count: usize) -> Report {
    let row = |i: usize| Row {
        key: key(System::Glonass, (i / 32) as u16, (i % 32) as u8 + 1),
        ..row(0, 0, 1, None, 0)
    };
    Report {
        rows: (0..count).map(row).collect(),
    }
}

fn of_bytes(bytes: &[u8]) -> Report {
    let taken = take_records(bytes);
    assert_eq!(taken.used, bytes.len());
    of_entries(&taken.entries).unwrap()
}

/// The rows of the worked journal.
fn worked_rows() -> Vec<Row> {
    let row = |system, station, satellite, usable, stops, extremes, sum| Row {
        key: key(system, station, satellite),
        usable,
        stops,
        extremes,
        sum,
    };
    let (gps, glonass) = (System::Gps, System::Glonass);
    vec![
        row(gps, 5, 3, 2, 1, Some((-20, 20_000)), 19_980),
        row(
            gps,
            5,
            7,
            2,
            0,
            Some((-10_485_440, -10_485_440)),
            -20_970_880,
        ),
        row(gps, 5, 32, 0, 1, None, 0),
        row(
            glonass,
            5,
            3,
            1,
            0,
            Some((10_485_440, 10_485_440)),
            10_485_440,
        ),
        row(glonass, 6, 3, 1, 0, Some((0, 0)), 0),
        row(glonass, 7, 3, 1, 0, Some((20_000, 20_000)), 20_000),
    ]
}

#[test]
fn s1() {
    assert_eq!(of_bytes(&worked()).rows, worked_rows());
    let words = word_journal::renewed(&worked()).unwrap();
    assert_eq!(of_bytes(&words).rows, worked_rows());
}

#[test]
fn s2() {
    let (all, rows) = (worked(), worked_rows());
    let (first, second) = (of_bytes(&all[..45]), of_bytes(&all[45..]));
    let once = Row {
        usable: 1,
        sum: -10_485_440,
        ..rows[1]
    };
    assert_eq!(first.rows, [rows[0], once, rows[2]]);
    assert_eq!(second.rows, [rows[3], rows[4], rows[5], once]);
    assert_eq!(add(&first, &second).unwrap().rows, rows);
    let order = [3, 4, 5, 1, 0, 2].map(|i| rows[i]);
    assert_eq!(add(&second, &first).unwrap().rows, order);
}

/// Adds reports, also as bytes: the answers agree, and a refusal changes nothing.
fn added(first: &Report, second: &Report) -> Answer<Report> {
    let answer = add(first, second);
    let (mut bytes, other) = (report_bytes(first), report_bytes(second));
    let before = bytes.clone();
    assert_eq!(season_add(&mut bytes, &other), number(answer.clone()));
    match &answer {
        Ok(all) => assert_eq!(bytes, report_bytes(all)),
        Err(_) => assert_eq!(bytes, before),
    }
    answer
}

#[test]
fn worked_additions() {
    let most = u32::MAX;
    let one = |usable, stops| match usable {
        0 => report(&[row(1, 0, stops, None, 0)]),
        _ => report(&[row(1, usable, stops, Some((-5, 7)), -3)]),
    };
    let last = Report {
        rows: vec![keys(MOST_ROWS).rows[511]],
    };
    assert_eq!(number(added(&keys(512), &one(1, 0))), 18);
    assert_eq!(added(&keys(512), &last).unwrap().rows.len(), 512);
    assert_eq!(number(added(&one(most, 0), &one(1, 0))), 19);
    let stopped = added(&one(most, 0), &one(0, 1)).unwrap();
    assert_eq!(stopped.rows, [row(1, most, 1, Some((-5, 7)), -3)]);
    assert_eq!(number(added(&one(0, most), &one(0, 1))), 19);
    let mut crowded = keys(511);
    crowded.rows.push(one(most, 0).rows[0]);
    let mut passing = one(1, 0);
    passing.rows.push(row(2, 0, 1, None, 0));
    assert_eq!(number(added(&crowded, &passing)), 18);
    assert_eq!(number(added(&crowded, &one(1, 0))), 19);
    assert_eq!(number(added(&keys(513), &one(1, 0))), 5);
    assert_eq!(number(added(&one(1, 0), &keys(513))), 5);
    let twice = report(&[
        row(1, 0, 1, None, 0),
        row(2, 0, 1, None, 0),
        row(1, 0, 2, None, 0),
    ]);
    assert_eq!(number(added(&twice, &keys(0))), 5);
    let ends = Some((-5, 7));
    for (sum, expected) in [
        (21, 0),
        (22, 5),
        (-15, 0),
        (-16, 5),
        (0, 0),
        (20, 0),
        (-14, 0),
    ] {
        let rows = report(&[row(1, 3, 0, ends, sum)]);
        assert_eq!(number(added(&rows, &keys(0))), expected);
    }
    for wrong in [
        row(1, 0, 1, None, 1),
        row(1, 0, 1, None, -1),
        row(1, 0, 1, Some((0, 0)), 0),
        row(1, 1, 0, None, 0),
        row(1, 2, 0, Some((7, 5)), 12),
        row(1, 1, 0, Some((1, 0)), 0),
    ] {
        assert_eq!(number(check(&report(&[wrong]))), 5);
        assert_eq!(number(added(&report(&[wrong]), &keys(512))), 5);
        assert_eq!(number(added(&keys(512), &report(&[wrong]))), 5);
    }
    for (end, sum) in [
        (i32::MIN, -9_223_372_034_707_292_160),
        (i32::MAX, 9_223_372_030_412_324_865),
    ] {
        let largest = report(&[row(1, most, 0, Some((end, end)), sum)]);
        assert_eq!(added(&largest, &keys(0)), Ok(largest.clone()));
        assert_eq!(added(&keys(0), &largest), Ok(largest.clone()));
        let half = report(&[row(1, most - 1, 0, Some((end, end)), sum - i64::from(end))]);
        let other = report(&[row(1, 1, 0, Some((end, end)), end.into())]);
        assert_eq!(added(&half, &other), Ok(largest));
    }
}

#[test]
fn rows_without_entries_and_any_key_are_rows() {
    let none = row(0, 0, 0, None, 0);
    let far = Row {
        key: key(System::Glonass, u16::MAX, u8::MAX),
        ..none
    };
    let rows = report(&[none, far]);
    assert_eq!(added(&rows, &rows), Ok(rows.clone()));
}

#[test]
fn bytes_of_a_report() {
    let worked = report(&worked_rows());
    let bytes = report_bytes(&worked);
    assert_eq!((REPORT_SIZE, ROW_SIZE, bytes.len()), (14852, 29, 14852));
    assert_eq!(
        bytes[..33],
        common::bytes(
            "06 00 00 00  00  05 00  03  02 00 00 00  01 00 00 00  01  EC FF FF FF  20 4E 00 00  \
             0C 4E 00 00 00 00 00 00"
        )
    );
    assert!(bytes[4 + 6 * 29..].iter().all(|byte| *byte == 0));
    assert_eq!(report_in(&bytes), Ok(worked.clone()));
    for size in [0, 1, 4, 33, 14851] {
        assert_eq!(number(report_in(&bytes[..size])), 5);
        let mut lent = vec![7; size];
        assert_eq!(season_start(&mut lent), 13);
        assert_eq!(lent, vec![7; size]);
    }
    let mut lent = vec![7; 14860];
    assert_eq!(season_start(&mut lent), 0);
    assert!(lent[..14852].iter().all(|byte| *byte == 0));
    assert_eq!(lent[14852..], [7; 8]);
    // rows that are not in use are not looked at, and zeros afterwards
    let mut lent = [&bytes[..], &[7; 3]].concat();
    lent[4 + 6 * 29..14852].fill(255);
    assert_eq!(report_in(&lent), Ok(worked));
    let mut used = 9;
    assert_eq!(season_journal(&mut lent, &[0x52], &mut used), 0);
    assert_eq!(
        (&lent[..14852], &lent[14852..], used),
        (&bytes[..], &[7; 3][..], 0)
    );
}

#[test]
fn bytes_that_are_no_report() {
    let bytes = report_bytes(&report(&worked_rows()));
    let absent = 4 + 2 * ROW_SIZE;
    let changes: &[(usize, u8, u8)] = &[
        (0, 5, 0),
        (0, 7, 0), // a blank row is one: no entry of GPS satellite 0 of station 0
        (0, 8, 5), // but not twice
        (1, 2, 5),
        (2, 1, 5),
        (3, 128, 5),
        (4, 1, 5), // the key of a later row
        (absent, 1, 0),
        (4, 2, 5),
        (4, 255, 5),
        (5, 255, 0),
        (6, 255, 0),
        (7, 0, 0),
        (7, 255, 0),
        (7, 7, 5), // the key of the next row
        (16, 0, 5),
        (16, 2, 5),
        (16, 255, 5),
        (absent + 12, 1, 5),
        (absent + 13, 1, 5),
        (absent + 16, 128, 5),
        (absent + 17, 1, 5),
        (absent + 20, 1, 5),
        (absent + 21, 1, 5),
        (absent + 28, 128, 5),
        (absent + 4, 1, 5),
        (absent + 8, 200, 0),
    ];
    for (at, byte, expected) in changes {
        let mut changed = bytes.clone();
        changed[*at] = *byte;
        assert_eq!(number(report_in(&changed)), *expected, "byte {at}");
        let mut lent = changed.clone();
        assert_eq!(season_add(&mut lent, &bytes), *expected);
        assert!(*expected == 0 || lent == changed);
        let mut lent = bytes.clone();
        assert_eq!(season_add(&mut lent, &changed), *expected);
        let (mut lent, mut used) = (changed.clone(), 77);
        assert_eq!(season_journal(&mut lent, &worked(), &mut used), *expected);
        assert_eq!(used, if *expected == 0 { 168 } else { 77 });
        let mut row = [7; ROW_SIZE];
        assert_eq!(season_row(&changed, 0, &mut row), *expected);
        assert_eq!(
            season_row(&changed, 99, &mut []),
            if *expected == 0 { 9 } else { 5 }
        );
    }
    let mut full = report_bytes(&keys(512));
    assert_eq!(number(report_in(&full)), 0);
    full[0] = 1;
    assert_eq!(number(report_in(&full)), 5);
    full[1] = 1;
    assert_eq!(number(report_in(&full)), 0);
}

#[test]
fn rows_one_by_one() {
    let rows = worked_rows();
    let bytes = report_bytes(&report(&rows));
    for (i, expected) in rows.iter().enumerate() {
        let mut lent = [7; 31];
        assert_eq!(season_row(&bytes, i, &mut lent), 0);
        assert_eq!(lent[..29], row_bytes(expected));
        assert_eq!(lent[29..], [7; 2]);
        assert_eq!(season_row(&bytes, i, &mut lent[..28]), 13);
    }
    for index in [6, 511, 512, 256, 1 << 32, usize::MAX] {
        assert_eq!(season_row(&bytes, index, &mut []), 9);
    }
    assert_eq!(season_row(&bytes[..14851], 9, &mut []), 5);
}

#[test]
fn journals_are_taken_while_they_recall() {
    let (mut report, mut used) = (report_bytes(&keys(0)), 0);
    let worked = worked();
    for size in 0..=worked.len() {
        assert_eq!(season_start(&mut report), 0);
        assert_eq!(season_journal(&mut report, &worked[..size], &mut used), 0);
        assert!(used <= size && worked.len().min(used + 24) >= size);
        assert_eq!(report, report_bytes(&of_bytes(&worked[..used])));
        // the rest, in a second call
        let rest = used;
        assert_eq!(season_journal(&mut report, &worked[rest..], &mut used), 0);
        assert_eq!(used, worked.len() - rest);
        assert_eq!(report_in(&report).unwrap().rows, worked_rows());
    }
    // a full report takes no new key, whatever else the journal holds
    let mut report = report_bytes(&keys(512));
    let before = report.clone();
    let mut used = 5;
    assert_eq!(season_journal(&mut report, &worked, &mut used), 18);
    assert_eq!((report, used), (before, 5));
    // a count that passes; 18 before it
    let last = Row {
        usable: u32::MAX - 1,
        sum: 0,
        extremes: Some((-1, 1)),
        ..worked_rows()[0]
    };
    let mut lent = report_bytes(&self::report(&[last]));
    let before = lent.clone();
    assert_eq!(season_journal(&mut lent, &worked, &mut used), 19);
    assert_eq!(season_journal(&mut lent, &worked[..21], &mut used), 0);
    assert_eq!(report_in(&lent).unwrap().rows[0].usable, u32::MAX);
    let mut crowded = keys(511);
    crowded.rows.push(last);
    let mut lent = report_bytes(&crowded);
    assert_eq!(season_journal(&mut lent, &worked, &mut used), 18);
    assert_ne!(lent, before);
}

#[test]
fn values_that_are_counted() {
    let of = |words: &[u32], kind| {
        let mut frame = common::frame(kind, words.len() as u8);
        frame.words[..words.len()].copy_from_slice(words);
        let entries = entries_of(&frame);
        entries
            .iter()
            .map(|entry| entry.value)
            .collect::<Vec<Value>>()
    };
    // scale 0 and 1, PRC 32767 and -32767; stops by PRC, by RRC, by both
    assert_eq!(of(&[0x017FFF, 0x000000], 1), [Value::Is(655_340)]);
    assert_eq!(of(&[0x818001, 0x000000], 9), [Value::Is(-10_485_440)]);
    assert_eq!(of(&[0x018000, 0x000000], 1), [Value::Stop]);
    assert_eq!(of(&[0x010005, 0x800000], 31), [Value::Stop]);
    assert_eq!(of(&[0x018000, 0x800000], 34), [Value::Stop]);
    assert_eq!(of(&[0x010005, 0x810000], 31), [Value::Is(100)]);
    assert_eq!(of(&[0x010005, 0x81_7800], 31), []);
    for kind in [2, 3, 5, 6, 16, 18, 33, 36, 41, 42, 64] {
        assert_eq!(of(&[0x018000, 0x000000], kind), []);
    }
}

/// Entries of few keys, so that each comes often.
fn drawn_entries(rng: &mut Rng, count: usize) -> Vec<Entry> {
    let entry = |_| Entry {
        key: key(
            [System::Gps, System::Glonass][rng.place(2)],
            rng.below(3) as u16,
            1 + rng.below(3) as u8,
        ),
        value: match rng.below(4) {
            0 => Value::Stop,
            _ => Value::Is(20 * (rng.below(65535) as i32 - 32767)),
        },
    };
    (0..count).map(entry).collect()
}

#[test]
fn splitting_and_adding_gives_the_report_of_all() {
    let mut rng = Rng::named("season splits");
    for _ in 0..300 {
        let count = rng.place(60);
        let all = drawn_entries(&mut rng, count);
        let (first, second) = all.split_at(rng.place(count + 1));
        let [first, second, whole] = [first, second, &all].map(|part| of_entries(part).unwrap());
        assert_eq!(added(&first, &second), Ok(whole));
    }
}

#[test]
fn long_journals_split_anywhere() {
    let old = journals::old_journal();
    let whole = of_bytes(&old);
    assert_eq!(whole.rows.len(), 512);
    let new = word_journal::renewed(&old).unwrap();
    assert_eq!(of_bytes(&new), whole);
    let offsets: Vec<usize> = word_journal::each(&old, journal::recall)
        .unwrap()
        .iter()
        .map(|(at, _)| *at)
        .collect();
    for part in 1..4 {
        let at = offsets[part * offsets.len() / 4];
        let (first, second) = (of_bytes(&old[..at]), of_bytes(&old[at..]));
        assert_eq!(added(&first, &second), Ok(whole.clone()));
    }
    let entries: u64 = whole
        .rows
        .iter()
        .map(|row| u64::from(row.usable) + u64::from(row.stops))
        .sum();
    assert_eq!(entries as usize, take_records(&old).entries.len());
}

#[test]
fn a_frame_that_can_not_be_counted_adds_nothing() {
    let mut rng = Rng::named("season frames");
    for _ in 0..200 {
        let mut frame = Correction::sample(&mut rng, 1, 3);
        assert_eq!(entries_of(&frame).len(), 3);
        frame.header.z_count = 6000;
        assert_eq!(entries_of(&frame), []);
    }
}

#[test]
fn what_the_program_prints() {
    let worked = worked();
    let expected = "# types 1, 9, 31 and 34 are counted, types 41 and 42 are not\n\
        system\tstation\tsatellite\tusable\tstops\tleast\tlargest\tsum\tcount\n\
        GPS\t5\t3\t2\t1\t-20\t20000\t19980\t2\n\
        GPS\t5\t7\t2\t0\t-10485440\t-10485440\t-20970880\t2\n\
        GPS\t5\t32\t0\t1\t-\t-\t0\t0\n\
        GLONASS\t5\t3\t1\t0\t10485440\t10485440\t10485440\t1\n\
        GLONASS\t6\t3\t1\t0\t0\t0\t0\t1\n\
        GLONASS\t7\t3\t1\t0\t20000\t20000\t20000\t1\n\
        total\t-\t-\t7\t2\t-10485440\t10485440\t-10445460\t7\n";
    let printed = run(&[("a", &worked)]);
    assert_eq!(
        (printed.output.as_str(), printed.errors.as_str()),
        (expected, "")
    );
    let printed = run(&[("a", &worked[..44]), ("b", b"x"), ("c", &worked[21..])]);
    assert_eq!(printed.output, expected);
    assert_eq!(
        printed.errors,
        "season: a: refusal 15 at byte 21\nseason: b: refusal 14 at byte 0\n"
    );
    let full = full();
    let printed = run(&[("a", &full), ("b", &worked), ("c", &full)]);
    assert_eq!(printed.output.lines().count(), 515);
    assert_eq!(printed.errors, "");
    let crowded = keys(512);
    let none = run_from(&crowded, &[]);
    for files in [
        &[("a", &worked[..])][..],
        &[("a", &worked[..]), ("b", b"x")],
    ] {
        let printed = run_from(&crowded, files);
        assert_eq!(printed.output, none.output);
        assert_eq!(printed.errors, "season: a: refusal 18\n");
    }
    // the files before it are in the report, and nothing of the file that is refused
    let last = Row {
        usable: u32::MAX - 2,
        sum: 0,
        extremes: Some((-1, 1)),
        ..worked_rows()[0]
    };
    let twice = [&worked[..], &worked].concat();
    let printed = run_from(
        &report(&[last]),
        &[("a", &worked), ("b", &twice), ("c", &[])],
    );
    assert_eq!(printed, {
        let mut before = run_from(&report(&[last]), &[("a", &worked)]);
        before.errors += "season: b: refusal 19\n";
        before
    });
    assert!(printed
        .output
        .contains("GPS\t5\t3\t4294967295\t2\t-20\t20000\t19980\t4294967295\n"));
}

#[test]
fn the_runs_meet_what_their_names_say() {
    let files = files();
    let text = |name: &str| {
        let found = files.iter().find(|file| file.path == name);
        String::from_utf8(found.unwrap().bytes.clone()).unwrap()
    };
    assert_eq!(text("worked.stdout"), text("split.stdout"));
    assert_ne!(text("worked.stdout"), text("second-first.stdout"));
    for (run, lines) in [
        ("full", 515),
        ("no-row", 515),
        ("no-row-first", 3),
        ("long", 515),
    ] {
        assert_eq!(
            text(&format!("{run}.stdout")).lines().count(),
            lines,
            "{run}"
        );
    }
    let all: String = files
        .iter()
        .filter(|file| file.path.ends_with(".stderr"))
        .map(|file| String::from_utf8(file.bytes.clone()).unwrap())
        .collect();
    for number in [14, 15, 16, 17, 18] {
        assert!(all.contains(&format!("refusal {number}")), "{number}");
    }
}
