//! Types 18 and 19: the worked records of both editions, reading and making refused
//! in their order, and that the editions differ in the first bit's meaning alone.

mod common;

use common::{bytes, frame, head, header, kept, number, stands, with_words, words};
use rtcm2_model::frame::Header;
use rtcm2_model::library::observations::{
    make_observations, observation_at, observation_row, read_epoch, OBSERVATION_SIZE,
};
use rtcm2_model::line::bits_of_bytes;
use rtcm2_model::record::observation::{
    count, entry, epoch, make, Edition, Epoch, Mark, Measured, Observation, MOST, NONE,
};
use rtcm2_model::rng::Rng;
use rtcm2_model::samples;
use rtcm2_model::scan::scan;

const EDITIONS: [Edition; 2] = [Edition::Gost, Edition::Bd];

/// First bit, code, system, satellite, quality, losses or multipath, phase or range.
fn observed(edition: Edition, kind: u16, numbers: [i64; 7]) -> Observation {
    let [bit, code, system, satellite, quality, second, number] = numbers;
    Observation {
        mark: Mark::of(edition, kind, bit as u8),
        code: code as u8,
        system: system as u8,
        satellite: satellite as u8,
        quality: quality as u8,
        measured: match kind {
            18 => Measured::Phase {
                losses: second as u8,
                phase: number as i32,
            },
            _ => Measured::Range {
                multipath: second as u8,
                range: number as u32,
            },
        },
    }
}

fn of_epoch([frequency, smoothing, time]: [u32; 3]) -> Epoch {
    Epoch {
        frequency: frequency as u8,
        smoothing: smoothing as u8,
        time,
    }
}

/// A record under each edition: made it is these words, and the bytes of the stream
/// of this name; read it is what it was.
fn worked(name: &str, kind: u16, head: [u32; 3], all: &[[i64; 7]], data: &str) {
    let whole = with_words(kind, &words(data));
    for edition in EDITIONS {
        let mut entries = [NONE; MOST];
        for (place, numbers) in entries.iter_mut().zip(all) {
            *place = observed(edition, kind, *numbers);
        }
        let made = make(edition, &header(kind), &of_epoch(head), &entries, all.len());
        assert_eq!(made, Ok(whole), "{name}");
        assert_eq!(count(&whole), Ok(all.len()));
        assert_eq!(epoch(&whole), Ok(of_epoch(head)));
        for (i, expected) in entries[..all.len()].iter().enumerate() {
            assert_eq!(entry(edition, &whole, i), Ok(*expected), "{name}");
        }
        assert_eq!(number(entry(edition, &whole, all.len())), 9);
    }
    stands(name, whole);
}

#[test]
fn o18() {
    let least = [0, 0, 0, 1, 0, 0, 0];
    worked("O18a", 18, [0, 0, 0], &[least], "000000 010000 000000");
    worked(
        "O18b",
        18,
        [3, 3, 599_999],
        &[
            [1, 1, 1, 32, 7, 31, -2_147_483_648],
            [0, 1, 0, 31, 1, 1, 2_147_483_647],
        ],
        "F927BF E0FF80 000000 5F217F FFFFFF",
    );
    worked(
        "O18c",
        18,
        [2, 0, 471_014],
        &[[1, 1, 0, 5, 4, 16, -1]],
        "872FE6 C590FF FFFFFF",
    );
}

#[test]
fn o19() {
    let least = [0, 0, 0, 1, 0, 0, 0];
    worked("O19a", 19, [0, 0, 0], &[least], "000000 010000 000000");
    worked(
        "O19b",
        19,
        [1, 3, 599_999],
        &[
            [1, 1, 1, 32, 15, 15, 4_294_967_295],
            [1, 0, 1, 24, 8, 7, 2_147_483_648],
        ],
        "7927BF E0FFFF FFFFFF B88780 000000",
    );
    let all: Vec<[i64; 7]> = (0..15)
        .map(|i| {
            [
                i % 2,
                i % 2,
                0,
                i + 1,
                i,
                15 - i,
                1_000_000_007 * i % (1 << 32),
            ]
        })
        .collect();
    worked(
        "O19c",
        19,
        [2, 2, 123_456],
        &all,
        "A1E240 010F00 000000 C21E3B 9ACA07 032D77 35940E C43CB2 D05E15 054BEE 6B281C C65A2A \
         05F223 076965 A0BC2A C878A1 3B8631 0987DC D65038 CA9618 711A3F 0BA554 0BE446 CCB48F \
         A6AE4D 0DC3CB 417854 CED206 DC425B 0FE142 770C62",
    );
}

#[test]
fn v18_v19() {
    worked(
        "V18a",
        18,
        [0, 0, 471_014],
        &[[1, 0, 0, 32, 2, 17, -256]],
        "072FE6 8051FF FFFF00",
    );
    worked(
        "V18b",
        18,
        [2, 3, 599_999],
        &[
            [0, 1, 0, 5, 7, 31, -2_147_483_648],
            [1, 1, 1, 24, 0, 0, 2_147_483_647],
        ],
        "B927BF 45FF80 000000 F8007F FFFFFF",
    );
    let all: Vec<[i64; 7]> = (0..15)
        .map(|i| [1, 0, 0, i + 1, i % 8, i, 1_000_003 * i - 7_000_000])
        .collect();
    worked(
        "V18c",
        18,
        [0, 0, 200_000],
        &all,
        "030D40 8100FF 953040 8221FF A47283 8342FF B3B4C6 8463FF C2F709 8584FF D2394C 86A5FF \
         E17B8F 87C6FF F0BDD2 88E700 000015 890800 0F4258 8A2900 1E849B 8B4A00 2DC6DE 8C6B00 \
         3D0921 8D8C00 4C4B64 8EAD00 5B8DA7 8FCE00 6ACFEA",
    );
    worked(
        "V19a",
        19,
        [0, 1, 0],
        &[[0, 0, 0, 1, 4, 15, 1_099_511_627]],
        "100000 014F41 89374B",
    );
    worked(
        "V19b",
        19,
        [2, 3, 248_972],
        &[[1, 1, 1, 32, 15, 0, 4_294_967_295], [1, 0, 0, 31, 0, 14, 0]],
        "B3CC8C E0F0FF FFFFFF 9F0E00 000000",
    );
}

#[test]
fn the_same_words_by_edition_and_type() {
    let data = words("072FE6 8051FF FFFF00");
    let read = |kind, edition| entry(edition, &with_words(kind, &data), 0).unwrap();
    let phase = |mark| Observation {
        mark,
        code: 0,
        system: 0,
        satellite: 32,
        quality: 2,
        measured: Measured::Phase {
            losses: 17,
            phase: -256,
        },
    };
    assert_eq!(read(18, Edition::Gost), phase(Mark::Half(1)));
    assert_eq!(read(18, Edition::Bd), phase(Mark::More(1)));
    let range = |mark| Observation {
        quality: 5,
        measured: Measured::Range {
            multipath: 1,
            range: 4_294_967_040,
        },
        ..phase(mark)
    };
    assert_eq!(read(19, Edition::Gost), range(Mark::Reserved(1)));
    assert_eq!(read(19, Edition::Bd), range(Mark::More(1)));
}

#[test]
fn refusals_on_reading() {
    for kind in [18, 19] {
        for n in 0..=31 {
            let found = count(&frame(kind, n));
            match n {
                3..=31 if n % 2 == 1 => assert_eq!(found, Ok(usize::from(n) / 2)),
                _ => assert_eq!(number(found), 8),
            }
        }
        for edition in EDITIONS {
            let of = |time: u32, n: u8| {
                let mut whole = frame(kind, n);
                whole.words[0] = time;
                let entry = |i| number(entry(edition, &whole, i));
                let others = [entry(0), entry(1), entry(usize::MAX)];
                (number(count(&whole)), number(epoch(&whole)), others)
            };
            assert_eq!(of(599_999, 3), (0, 0, [0, 9, 9]));
            assert_eq!(of(600_000, 3), (0, 10, [10, 9, 9]));
            assert_eq!(of(1_048_575, 3), (0, 10, [10, 9, 9]));
            assert_eq!(of(1_048_575, 5), (0, 10, [10, 10, 9]));
            assert_eq!(of(1_048_575, 2), (8, 8, [8, 8, 8]));
            // frequency and smoothing do not matter for the time
            assert_eq!(of(0xF_9_27BF, 3), (0, 0, [0, 9, 9]));
            let mut whole = frame(kind, 2);
            whole.words[0] = 600_000;
            whole.header.z_count = 6000;
            assert_eq!(number(entry(edition, &whole, 9)), 7);
            whole.header.type_number = 20;
            assert_eq!(number(entry(edition, &whole, 9)), 6);
            assert_eq!((number(count(&whole)), number(epoch(&whole))), (6, 6));
            whole.carried.d30 = 2;
            assert_eq!(number(entry(edition, &whole, 9)), 5);
            assert_eq!((number(count(&whole)), number(epoch(&whole))), (5, 5));
        }
    }
}

/// What is made of the first of these entries, and so many of them.
fn made(edition: Edition, kind: u16, head: [u32; 3], one: Observation, many: usize) -> u8 {
    number(make(
        edition,
        &header(kind),
        &of_epoch(head),
        &[one; MOST],
        many,
    ))
}

#[test]
fn worked_makings() {
    let (gost, bd) = (Edition::Gost, Edition::Bd);
    let phase = observed(gost, 18, [1, 0, 0, 1, 7, 31, 0]);
    let range = observed(bd, 19, [1, 0, 0, 1, 15, 15, 0]);
    let reserved = observed(gost, 19, [1, 0, 0, 1, 0, 0, 0]);
    let more = Observation {
        mark: Mark::More(1),
        ..phase
    };
    let zero = [0, 0, 0];
    assert_eq!(made(gost, 18, zero, phase, 1), 0);
    assert_eq!(made(bd, 18, zero, phase, 1), 10);
    assert_eq!(made(gost, 18, zero, more, 1), 10);
    assert_eq!(made(bd, 18, zero, more, 1), 0);
    assert_eq!(made(gost, 19, zero, reserved, 1), 0);
    assert_eq!(made(bd, 19, zero, reserved, 1), 10);
    assert_eq!(made(bd, 19, zero, range, 1), 0);
    assert_eq!(made(bd, 19, zero, more, 1), 10);
    assert_eq!(made(bd, 18, zero, range, 1), 10);
    let with = |change: fn(&mut Observation), mut one: Observation| {
        change(&mut one);
        one
    };
    assert_eq!(
        made(gost, 18, zero, with(|one| one.quality = 8, phase), 1),
        10
    );
    assert_eq!(
        made(bd, 19, zero, with(|one| one.quality = 16, range), 1),
        10
    );
    let sixteen = |one: &mut Observation| {
        one.measured = Measured::Range {
            multipath: 16,
            range: 0,
        }
    };
    assert_eq!(made(bd, 19, zero, with(sixteen, range), 1), 10);
    let losses = |one: &mut Observation| {
        one.measured = Measured::Phase {
            losses: 32,
            phase: 0,
        }
    };
    assert_eq!(made(gost, 18, zero, with(losses, phase), 1), 10);
    for change in [
        (|one| one.code = 2) as fn(&mut Observation),
        |one| one.system = 2,
        |one| one.satellite = 0,
        |one| one.satellite = 33,
        |one| one.mark = Mark::Half(2),
        |one| one.mark = Mark::Reserved(1),
    ] {
        assert_eq!(made(gost, 18, zero, with(change, phase), 1), 10);
    }
    assert_eq!(made(gost, 18, [0, 0, 599_999], phase, 15), 0);
    assert_eq!(made(gost, 18, [0, 0, 600_000], phase, 1), 10);
    assert_eq!(made(gost, 18, [0, 0, u32::MAX], phase, 1), 10);
    assert_eq!(made(gost, 18, [1, 3, 0], phase, 1), 0);
    assert_eq!(made(gost, 18, [4, 0, 0], phase, 1), 10);
    assert_eq!(made(gost, 18, [0, 4, 0], phase, 1), 10);
    assert_eq!(made(gost, 18, zero, phase, 0), 12);
    for many in [16, 256 + 1, usize::MAX] {
        assert_eq!(made(gost, 18, [0, 0, 600_000], NONE, many), 12);
    }
    let mut late = header(18);
    late.z_count = 6000;
    let order = |header: &Header| number(make(gost, header, &of_epoch(zero), &[NONE; MOST], 16));
    assert_eq!(order(&late), 7);
    late.type_number = 20;
    assert_eq!(order(&late), 6);
    late.station = 1024;
    assert_eq!(order(&late), 5);
    assert_eq!(order(&header(18)), 12);
}

#[test]
fn entries_past_the_count_are_not_read() {
    let good = observed(Edition::Bd, 19, [0, 0, 0, 32, 0, 0, 0]);
    for place in 0..MOST {
        let mut entries = [good; MOST];
        entries[place].satellite = 33;
        let made = |many| {
            let epoch = Epoch::default();
            number(make(Edition::Bd, &header(19), &epoch, &entries, many))
        };
        assert_eq!(made(place + 1), 10);
        assert!(place == 0 || made(place) == 0);
    }
}

#[test]
fn made_and_read_back() {
    let mut rng = Rng::named("observations");
    for round in 0..600 {
        let (kind, edition) = ([18, 19][rng.place(2)], samples::edition(&mut rng));
        let mut entries = [NONE; MOST];
        entries.fill_with(|| samples::observation(&mut rng, edition, kind));
        let (many, head) = (1 + round % MOST, samples::epoch(&mut rng));
        let header = samples::header(&mut rng, kind);
        let whole = make(edition, &header, &head, &entries, many).unwrap();
        assert_eq!(usize::from(whole.n), 2 * many + 1);
        assert_eq!((count(&whole), epoch(&whole)), (Ok(many), Ok(head)));
        for (i, expected) in entries[..many].iter().enumerate() {
            assert_eq!(entry(edition, &whole, i), Ok(*expected));
        }
    }
}

#[test]
fn editions_differ_in_the_first_bit_alone() {
    let mut rng = Rng::named("editions");
    for _ in 0..600 {
        let (kind, n) = ([18, 19, 20][rng.place(3)], rng.below(32) as u8);
        let mut whole = samples::plain_frame(&mut rng, kind, n);
        if rng.bit() {
            whole.words[0] %= 600_000 * u32::from(n > 0) + 1;
        }
        for i in 0..17 {
            let (gost, bd) = (
                entry(Edition::Gost, &whole, i),
                entry(Edition::Bd, &whole, i),
            );
            let retold = bd.map(|found| Observation {
                mark: Mark::of(Edition::Gost, kind, found.mark.bit()),
                ..found
            });
            assert_eq!(gost, retold);
        }
    }
}

#[test]
fn the_worked_line_of_document_002() {
    let line =
        bytes("40 66 49 41 68 49 40 53 4C 46 6C 5E 6C 40 66 4E 63 66 70 7F 62 40 40 40 40 6A");
    let frames = scan(&bits_of_bytes(&line), true);
    assert_eq!(epoch(&frames[0].1).unwrap().time, 471_014);
}

/// O18b's rows by GOST's edition.
const ROWS: &str = "00 01 01 01 20 07 1F 00 00 00 00 80 00 00 01 00 1F 01 01 00 FF FF FF 7F";

#[test]
fn rows_of_the_library() {
    let record = kept(&with_words(
        18,
        &words("F927BF E0FF80 000000 5F217F FFFFFF"),
    ));
    let rows = bytes(ROWS);
    for i in 0..2 {
        let mut row = [0xEE; 13];
        let expected = &rows[12 * i..12 * i + 12];
        assert_eq!(observation_at(0, &record, i, &mut row), 0);
        assert_eq!(row[..12], *expected);
        assert_eq!(row[12], 0xEE);
        assert_eq!(observation_at(1, &record, i, &mut row), 0);
        assert_eq!((row[0], &row[1..12]), (2, &expected[1..]));
    }
    let (mut frequency, mut smoothing, mut time) = (9, 9, 9);
    let answer = read_epoch(&record, &mut frequency, &mut smoothing, &mut time);
    assert_eq!((answer, frequency, smoothing, time), (0, 3, 3, 599_999));
    let made = |edition, kind, rows: &[u8]| {
        let (mut frame, mut length) = ([0xEE; 102], 0);
        let epoch = of_epoch([3, 3, 599_999]);
        let answer = make_observations(edition, head(kind), epoch, rows, &mut frame, &mut length);
        (answer, frame[..length].to_vec())
    };
    assert_eq!(made(0, 18, &rows), (0, record));
    let changed = |place: usize, byte: u8| {
        let mut rows = rows.clone();
        rows[place] = byte;
        made(0, 18, &rows).0
    };
    for (place, past) in [
        (0, 1),
        (0, 2),
        (0, 3),
        (1, 2),
        (2, 2),
        (3, 2),
        (4, 33),
        (5, 8),
        (6, 32),
        (7, 1),
        (7, 2),
    ] {
        assert_eq!((changed(place, past), changed(12 + place, past)), (10, 10));
    }
    assert_eq!((made(2, 18, &[]).0, made(255, 18, &rows).0), (5, 5));
    assert_eq!((made(0, 20, &[]).0, made(0, 18, &[]).0), (6, 12));
    assert_eq!(
        (
            made(0, 18, &rows[1..]).0,
            made(0, 18, &[0; 16 * OBSERVATION_SIZE]).0
        ),
        (12, 12)
    );
    assert_eq!(
        observation_row(&observed(
            Edition::Gost,
            19,
            [1, 0, 1, 2, 3, 4, 0x0102_0304]
        )),
        [1, 1, 0, 1, 2, 3, 4, 1, 4, 3, 2, 1]
    );
}

#[test]
fn an_edition_over_1_comes_behind_the_record() {
    let mut late = with_words(18, &[600_000, 0, 0]);
    late.header.z_count = 6000;
    let record = kept(&late);
    let read = |edition, bytes: &[u8]| observation_at(edition, bytes, 9, &mut []);
    assert_eq!((read(2, &record), read(1, &record)), (5, 7));
    assert_eq!(read(2, &record[..17]), 15);
    let other = kept(&frame(20, 3));
    assert_eq!((read(2, &other), read(0, &other)), (5, 6));
    let time = kept(&with_words(18, &[600_000, 0, 0]));
    assert_eq!(observation_at(0, &time, 1, &mut []), 9);
    assert_eq!(observation_at(0, &time, 0, &mut []), 10);
    let good = kept(&with_words(18, &[599_999, 0, 0]));
    assert_eq!(observation_at(0, &good, 0, &mut [0; 11]), 13);
    assert_eq!(observation_at(0, &good, 0, &mut [0; 12]), 0);
}
