//! Types 41 and 42: the worked records, the counts of every N, reading and making
//! refused in their order, the null frame, and what the numbers stand for.

mod common;

use common::{bytes, frame, header, number, stands, with_words, words};
use rtcm2_model::frame::{Frame, Header, State};
use rtcm2_model::library::generals::{
    count_generals, general_at, general_row, make_general_null, make_generals, read_general_null,
    read_head, Heading, GENERAL_SIZE,
};
use rtcm2_model::library::{numbers, Head};
use rtcm2_model::record::general::{
    count, entry, head, make, most, n_for, General, GeneralHead, MOST, SYSTEMS,
};
use rtcm2_model::record::general_null::{self, GeneralNull};
use rtcm2_model::record::values::{delay_mm, general_prc_mm, general_udre, use_seconds, Value};
use rtcm2_model::rng::Rng;
use rtcm2_model::{journal, samples};

/// System, signal, ephemeris type, use, ionosphere.
fn of_head([system, signal, ephemeris, period, ionosphere]: [u8; 5]) -> GeneralHead {
    GeneralHead {
        system,
        signal,
        ephemeris,
        period,
        ionosphere,
    }
}

/// Satellite, UDRE, IOD, PRC, delay.
fn of_entry([satellite, udre, iod, prc, delay]: [i32; 5]) -> General {
    General {
        satellite: satellite as u8,
        udre: udre as u8,
        iod: iod as u8,
        prc: prc as i16,
        delay: delay as u16,
    }
}

fn entries_of(all: &[[i32; 5]]) -> [General; MOST] {
    let mut entries = [General::default(); MOST];
    for (entry, numbers) in entries.iter_mut().zip(all) {
        *entry = of_entry(*numbers);
    }
    entries
}

/// A record: made it is these words, and the bytes of the stream of this name; read it
/// is what it was.
fn worked(name: &str, kind: u16, numbers: [u8; 5], all: &[[i32; 5]], data: &str) {
    let whole = with_words(kind, &words(data));
    let entries = entries_of(all);
    let made = make(&header(kind), &of_head(numbers), &entries, all.len());
    assert_eq!(made, Ok(whole), "{name}");
    assert_eq!(head(&whole), Ok(of_head(numbers)), "{name}");
    assert_eq!(count(&whole), Ok(all.len()));
    for (i, expected) in entries[..all.len()].iter().enumerate() {
        assert_eq!(entry(&whole, i), Ok(*expected), "{name}");
    }
    assert_eq!(number(entry(&whole, all.len())), 9);
    stands(name, whole);
}

#[test]
fn c41() {
    let least = [1, 0, 0, 0, 0];
    worked("C41a", 41, least, &[least.map(i32::from)], "100020 000005");
    worked(
        "C41b",
        41,
        [6, 15, 3, 3, 0],
        &[[63, 15, 255, 8191, 0], [1, 0, 0, -8192, 0]],
        "6FF7FF FEFFF8 200100 055555",
    );
    worked(
        "C41c",
        41,
        [2, 1, 0, 1, 0],
        &[
            [24, 3, 95, 100, 0],
            [1, 4, 223, -1, 0],
            [32, 8, 128, -8191, 0],
        ],
        "211306 BE0320 29BFFF FC1101 000D55",
    );
    worked(
        "C41d",
        41,
        [6, 1, 0, 2, 1],
        &[[7, 5, 200, -321, 4095]],
        "6128EB 91F5FF FFD555",
    );
    let all: Vec<[i32; 5]> = (0..22)
        .map(|i| [63 - i, i % 16, 5 * i, 500 * i - 4000, 0])
        .collect();
    worked(
        "C41e",
        41,
        [1, 1, 0, 0, 0],
        &all,
        "1107E0 018307 C20B92 A7A415 A24786 1FB1E7 6829C1 874A33 D1272C 3DE0C7 0E47F0 66F050 0006D2 \
         5A0FA6 B4641F 46966E 2EE678 783E86 5A824E 263C8C 5DC61E 966D65 E0A07D 05C2AA 8CA5A4 B49C45 \
         86BEAB E568C8 BB854A D2CB25",
    );
}

#[test]
fn c42() {
    worked(
        "C42a",
        42,
        [5, 6, 2, 0, 1],
        &[[3, 14, 9, 8191, 0], [16, 15, 255, -8192, 4094]],
        "56887C 12FFF8 0021FF F0007F F55555",
    );
    let all: Vec<[i32; 5]> = (0..6)
        .map(|i| [i + 1, i, 40 * i, 1000 * i - 3000, 700 * i])
        .collect();
    worked(
        "C42b",
        42,
        [1, 4, 1, 1, 1],
        &all,
        "145820 01A240 000425 1C1815 E064A1 E0C2BC 086F00 0041A0 A9401F 45780C B903E8 6D6555",
    );
}

#[test]
fn records_of_the_digest() {
    worked(
        "V41a",
        41,
        [6, 1, 0, 1, 0],
        &[[7, 5, 200, -321, 0]],
        "6110EB 91F5FD",
    );
    worked(
        "V41b",
        41,
        [1, 1, 0, 3, 0],
        &[
            [1, 0, 1, 8191, 0],
            [32, 15, 255, -8191, 0],
            [63, 8, 128, -8192, 0],
        ],
        "113020 02FFFC 1FFF00 0FF101 000555",
    );
    worked(
        "V41c",
        41,
        [2, 1, 0, 0, 1],
        &[[24, 3, 95, 100, 0], [1, 14, 127, -1, 4095]],
        "210B06 BE0320 0003CF FFFFFF FD5555",
    );
    let all: Vec<[i32; 5]> = (0..22)
        .map(|i| [i + 1, i % 16, 11 * i, 700 * i - 8000, 0])
        .collect();
    worked(
        "V41d",
        41,
        [6, 3, 1, 2, 0],
        &all,
        "636020 010600 42171B E0642D 31C086 4347A0 A8595D 80CA6F 7360EC 858941 0E9B9F 2130B1 B50152 \
         C7CAE1 74DDE0 C196F3 F6A1B9 080C81 DB1E22 61FD34 38421F 4A4E22 216064 024376 79E265 8C8FC2 \
         87A2A5 A2A9B8 BB82CB CED165",
    );
    let all: Vec<[i32; 5]> = (0..16)
        .map(|i| [2 * i + 1, 15 - i, 17 * i, 1000 * i - 8192, 273 * i])
        .collect();
    worked(
        "V41e",
        41,
        [1, 4, 1, 0, 1],
        &all,
        "14483E 010000 0007C2 31F408 88BA45 3E8111 0F8675 DC1999 36897D 022217 4AB9C4 2AA9B2 CDBB83 \
         331F0E FDAC3B BA2F11 FA0444 26D321 944CCA AB5438 85552E 97657C 5DDB27 987706 66365B A9646E \
         EBA3DC B58777 3E1FED 4C7FFD",
    );
    worked(
        "V42a",
        42,
        [5, 1, 0, 2, 1],
        &[[13, 2, 44, 5000, 4094]],
        "5129A4 589C47 FF5555",
    );
    worked(
        "V42b",
        42,
        [6, 5, 0, 0, 0],
        &[[37, 7, 9, 0, 0], [1, 0, 0, 1, 0]],
        "6504AE 120000 200000 0D5555",
    );
}

#[test]
fn null_frames_of_42() {
    let names = [
        ("C42c", 1),
        ("C42d", 2),
        ("C42e", 5),
        ("C42f", 6),
        ("V42c", 6),
        ("V42d", 1),
    ];
    for (name, system) in names {
        let null = GeneralNull { n: 1, system };
        let made = general_null::make(&header(42), &null).unwrap();
        assert_eq!(made.n, 1);
        assert_eq!(made.words[0], u32::from(system) << 20 | 0xA_AAAA);
        assert_eq!(general_null::read(&made), Ok(null));
        assert_eq!(general_null::fill_is_standard(&made), Ok(true));
        stands(name, made);
    }
    // other fill is read, and made again it is the standard one
    let other = with_words(42, &[0x612345]);
    stands("C42g", other);
    let null = general_null::read(&other).unwrap();
    assert_eq!(null, GeneralNull { n: 1, system: 6 });
    assert_eq!(general_null::fill_is_standard(&other), Ok(false));
    let again = general_null::make(&header(42), &null).unwrap();
    assert_eq!(again.words[0], 0x6AAAAA);
}

#[test]
fn c41f_other_fill_is_read() {
    let whole = with_words(41, &words("110020 000002"));
    stands("C41f", whole);
    assert_eq!(entry(&whole, 0), Ok(of_entry([1, 0, 0, 0, 0])));
    let (head, entries) = (head(&whole).unwrap(), entries_of(&[[1, 0, 0, 0, 0]]));
    let again = make(&header(41), &head, &entries, 1);
    assert_eq!(again, Ok(with_words(41, &words("110020 000005"))));
}

/// What counting answers, r and the number for a refusal.
fn counted(frame: &Frame) -> String {
    count(frame).map_or_else(
        |refusal| format!("r{}", refusal.number()),
        |count| count.to_string(),
    )
}

#[test]
fn counts_of_every_n() {
    let without = "r8 r8 1 r8 2 3 4 r8 5 6 7 r8 8 9 10 r8 11 12 13 r8 14 15 16 r8 17 18 19 r8 20 \
                   21 22 r8";
    let with = "r8 r8 r8 1 r8 2 r8 3 4 r8 5 r8 6 r8 7 r8 8 r8 9 10 r8 11 r8 12 r8 13 r8 14 r8 15 \
                16 r8";
    for (kind, first, expected) in [
        (41, 0x100000, without),
        (41, 0x100800, with),
        (42, 0x600000, without),
        (42, 0x5FF800, with),
    ] {
        let of_n = |n: u8| {
            let mut whole = frame(kind, n);
            whole.words[0] = if n == 0 { 0 } else { first };
            counted(&whole)
        };
        let all: Vec<String> = (0..=31).map(of_n).collect();
        assert_eq!(all.join(" "), expected);
    }
    assert_eq!([0, 1, 2, 255].map(most), [22, 16, 16, 16]);
    assert_eq!((n_for(0, 22), n_for(1, 16)), (30, 30));
}

#[test]
fn systems() {
    let expected = "r23 1 1 r23 r23 1 1 r23 r23 r23 r23 r23 r23 r23 r23 r23";
    let of_system = |system: u32| counted(&with_words(41, &[system << 20 | 0x10000, 0]));
    let all: Vec<String> = (0..16).map(of_system).collect();
    assert_eq!(all.join(" "), expected);
    for system in 0..=255 {
        let expected = if [1, 2, 5, 6].contains(&system) {
            0
        } else {
            23
        };
        let head = GeneralHead {
            system,
            ..GeneralHead::default()
        };
        let one = entries_of(&[[1, 0, 0, 0, 0]]);
        assert_eq!(number(make(&header(41), &head, &one, 1)), expected);
        let null = GeneralNull { n: 1, system };
        assert_eq!(number(general_null::make(&header(42), &null)), expected);
    }
}

#[test]
fn refusals_of_reading() {
    let galileo = 0x300000;
    assert_eq!(number(count(&with_words(41, &[galileo]))), 8);
    assert_eq!(number(count(&with_words(42, &[galileo]))), 23);
    assert_eq!(number(count(&with_words(42, &[0x600000]))), 8);
    assert_eq!(number(count(&with_words(42, &[0xAAAAAA]))), 23);
    assert_eq!(number(count(&with_words(41, &[galileo, 0, 0]))), 23);
    assert_eq!(number(count(&with_words(41, &[0x600000, 0, 0]))), 8);
    let satellite_0 = with_words(41, &[0x100000, 0]);
    assert_eq!(number(entry(&satellite_0, 0)), 10);
    assert_eq!(number(entry(&satellite_0, 1)), 9);
    assert_eq!(
        (number(count(&satellite_0)), number(head(&satellite_0))),
        (0, 0)
    );
    let null = |kind, words: &[u32]| number(general_null::read(&with_words(kind, words)));
    assert_eq!(null(42, &[0x100000, 0]), 8);
    assert_eq!(null(42, &[]), 8);
    assert_eq!(null(41, &[0x1AAAAA]), 6);
    assert_eq!(null(42, &[0x3AAAAA]), 23);
    assert_eq!(null(42, &[0xAAAAAA]), 23);
    assert_eq!(null(42, &[0x3AAAAA, 0]), 8);
    assert_eq!(null(6, &[0x1AAAAA]), 6);
    for kind in [1, 6, 18, 34, 40, 43, 64] {
        assert_eq!(number(count(&with_words(kind, &[0x100020, 5]))), 6);
    }
    for kind in [41, 42] {
        let mut late = with_words(kind, &[galileo]);
        late.header.z_count = 6000;
        assert_eq!(number(count(&late)), 7);
        late.header.type_number = 40;
        assert_eq!(number(count(&late)), 6);
        late.carried.d30 = 2;
        assert_eq!(number(head(&late)), 5);
        assert_eq!(number(entry(&late, 99)), 5);
        assert_eq!(number(general_null::read(&late)), 5);
    }
}

#[test]
fn refusals_of_making() {
    let one = entries_of(&[[1, 0, 0, 0, 0]; MOST]);
    let head = |ionosphere| of_head([1, 0, 0, 0, ionosphere]);
    let of = |kind, head: &GeneralHead, entries: &[General; MOST], count| {
        let made = make(&header(kind), head, entries, count);
        made.map_or_else(
            |refusal| i32::from(refusal.number()),
            |made| -i32::from(made.n),
        )
    };
    assert_eq!(of(41, &head(0), &one, 22), -30);
    assert_eq!(of(41, &head(0), &one, 23), 12);
    assert_eq!(of(41, &head(1), &one, 16), -30);
    assert_eq!(of(41, &head(1), &one, 17), 12);
    for count in [0, 23, 256 + 1, usize::MAX] {
        assert_eq!(of(42, &head(0), &one, count), 12);
    }
    let of_system = |system| of_head([system, 16, 4, 4, 2]);
    assert_eq!(of(41, &of_system(3), &one, 0), 23);
    assert_eq!(of(41, &of_system(4), &one, 1), 23);
    assert_eq!(of(41, &of_system(16), &one, 1), 23);
    let with = |numbers: [i32; 5]| entries_of(&[[1, 0, 0, 0, 0], numbers]);
    for (numbers, ionosphere, expected) in [
        ([0, 0, 0, 0, 0], 0, 10),
        ([64, 0, 0, 0, 0], 0, 10),
        ([63, 15, 255, 8191, 0], 0, -4),
        ([1, 16, 0, 0, 0], 0, 10),
        ([1, 0, 0, 8192, 0], 0, 10),
        ([1, 0, 0, -8192, 0], 0, -4),
        ([1, 0, 0, -8193, 0], 0, 10),
        ([1, 0, 0, 0, 1], 0, 10),
        ([1, 0, 0, 0, 4095], 0, 10),
        ([1, 0, 0, 0, 4095], 1, -5),
        ([1, 0, 0, 0, 4096], 1, 10),
    ] {
        assert_eq!(
            of(41, &head(ionosphere), &with(numbers), 2),
            expected,
            "{numbers:?}"
        );
        // those past the count are not looked at
        assert!(of(41, &head(ionosphere), &with(numbers), 1) < 0);
    }
    assert_eq!(of(41, &head(2), &one, 17), 12);
    assert_eq!(of(41, &head(2), &one, 16), 10);
    for wrong in [
        [1, 16, 0, 0, 0],
        [1, 0, 4, 0, 0],
        [1, 0, 0, 4, 0],
        [1, 0, 0, 0, 2],
    ] {
        assert_eq!(of(42, &of_head(wrong), &one, 1), 10);
    }
    assert_eq!(of(42, &of_head([6, 15, 3, 3, 1]), &one, 1), -3);
    assert_eq!(of(43, &head(0), &one, 1), 6);
    let null = |kind, n, system| {
        number(general_null::make(
            &header(kind),
            &GeneralNull { n, system },
        ))
    };
    assert_eq!(null(42, 1, 3), 23);
    assert_eq!(null(41, 1, 1), 6);
    for n in [0, 2, 255] {
        assert_eq!(null(42, n, 1), 12);
        assert_eq!(null(42, n, 3), 23);
        assert_eq!(null(41, n, 3), 6);
    }
    let late = Header {
        z_count: 6000,
        ..header(42)
    };
    assert_eq!(number(make(&late, &of_system(3), &one, 0)), 7);
    assert_eq!(
        number(general_null::make(&late, &GeneralNull { n: 0, system: 3 })),
        7
    );
    let far = Header {
        type_number: 65,
        ..late
    };
    assert_eq!(number(make(&far, &of_system(3), &one, 0)), 5);
    assert_eq!(
        number(general_null::make(&far, &GeneralNull { n: 0, system: 3 })),
        5
    );
}

#[test]
fn made_generals_read_back_equal() {
    let mut rng = Rng::named("generals");
    for round in 0..2000 {
        let (kind, ionosphere) = (41 + rng.below(2) as u16, rng.below(2) as u8);
        let mut entries = [General::default(); MOST];
        entries.fill_with(|| samples::general(&mut rng, ionosphere));
        let wanted = samples::general_head(&mut rng, ionosphere);
        let number_of = 1 + round % most(ionosphere);
        let made = make(
            &samples::header(&mut rng, kind),
            &wanted,
            &entries,
            number_of,
        )
        .unwrap();
        assert_eq!(usize::from(made.n), n_for(ionosphere, number_of));
        assert_eq!((head(&made), count(&made)), (Ok(wanted), Ok(number_of)));
        for (i, expected) in entries[..number_of].iter().enumerate() {
            assert_eq!(entry(&made, i), Ok(*expected));
        }
    }
}

#[test]
fn what_the_numbers_stand_for() {
    assert_eq!(general_prc_mm(8191), Ok(Value::Is(163_820)));
    assert_eq!(general_prc_mm(-8191), Ok(Value::Is(-163_820)));
    assert_eq!(general_prc_mm(-8192), Ok(Value::Stop));
    for prc in [8192, -8193, i16::MAX, i16::MIN] {
        assert_eq!(number(general_prc_mm(prc)), 10);
    }
    assert_eq!(
        [0, 1, 4094].map(delay_mm),
        [Ok(Some(0)), Ok(Some(20)), Ok(Some(81_880))]
    );
    assert_eq!(delay_mm(4095), Ok(None));
    assert_eq!(
        (number(delay_mm(4096)), number(delay_mm(u16::MAX))),
        (10, 10)
    );
    assert_eq!(
        [0, 1, 2, 3].map(use_seconds),
        [Ok(15), Ok(30), Ok(60), Ok(120)]
    );
    assert_eq!((number(use_seconds(4)), number(use_seconds(255))), (10, 10));
    let limits = |state| (0..15).map(move |code| general_udre(state, code).unwrap().unwrap());
    assert_eq!(
        limits(State::Factor(100)).collect::<Vec<u32>>(),
        [
            4000, 6200, 9600, 14900, 23100, 35800, 55500, 86000, 133_300, 206_600, 320_200,
            496_300, 769_200, 1_192_300, 1_848_000
        ]
    );
    assert_eq!(
        limits(State::Factor(30)).collect::<Vec<u32>>(),
        [
            1200, 1860, 2880, 4470, 6930, 10740, 16650, 25800, 39990, 61980, 96060, 148_890,
            230_760, 357_690, 554_400
        ]
    );
    assert!(limits(State::NotMonitored).eq(limits(State::Factor(100))));
    assert_eq!(general_udre(State::NotWorking, 15), Ok(None));
    assert_eq!(number(general_udre(State::Factor(75), 16)), 10);
    assert_eq!(number(general_udre(State::Factor(74), 16)), 5);
}

#[test]
fn numbers_of_the_library() {
    let (mut is, mut mm) = (7, 7);
    assert_eq!(numbers::general_prc_mm(-8192, &mut is, &mut mm), 0);
    assert_eq!((is, mm), (1, 0));
    assert_eq!(numbers::general_prc_mm(-8193, &mut is, &mut mm), 10);
    assert_eq!(numbers::general_prc_mm(-1, &mut is, &mut mm), 0);
    assert_eq!((is, mm), (0, -20));
    let (mut is, mut value) = (7, 7);
    assert_eq!(numbers::delay_mm(4096, &mut is, &mut value), 10);
    assert_eq!((is, value), (7, 7));
    assert_eq!(numbers::delay_mm(4095, &mut is, &mut value), 0);
    assert_eq!((is, value), (0, 0));
    assert_eq!(numbers::delay_mm(4094, &mut is, &mut value), 0);
    assert_eq!((is, value), (1, 81_880));
    assert_eq!(numbers::general_udre(8, 16, &mut is, &mut value), 5);
    assert_eq!(numbers::general_udre(7, 16, &mut is, &mut value), 10);
    assert_eq!((is, value), (1, 81_880));
    assert_eq!(numbers::general_udre(1, 8, &mut is, &mut value), 0);
    assert_eq!((is, value), (1, 99_975));
    assert_eq!(numbers::general_udre(1, 15, &mut is, &mut value), 0);
    assert_eq!((is, value), (0, 0));
    let mut seconds = 7;
    assert_eq!(numbers::use_seconds(4, &mut seconds), 10);
    assert_eq!(numbers::use_seconds(3, &mut seconds), 0);
    assert_eq!(seconds, 120);
}

#[test]
fn frames_of_the_library() {
    let entries = [
        of_entry([3, 14, 9, 8191, 0]),
        of_entry([16, 15, 255, -8192, 4094]),
    ];
    let rows: Vec<u8> = entries.iter().flat_map(general_row).collect();
    assert_eq!(rows, bytes("03 0E 09 FF 1F 00 00  10 0F FF 00 E0 FE 0F"));
    let numbers = of_head([5, 6, 2, 0, 1]);
    let call = |kind, numbers, rows: &[u8], room: usize| {
        let (mut frame, mut length) = (vec![0xEE; room], 999);
        let answer = make_generals(common::head(kind), numbers, rows, &mut frame, &mut length);
        (answer, length, frame)
    };
    let (answer, length, record) = call(42, numbers, &rows, 26);
    assert_eq!((answer, length, &record[24..]), (0, 24, &[0xEE; 2][..]));
    let expected = with_words(42, &words("56887C 12FFF8 0021FF F0007F F55555"));
    assert_eq!(journal::recall(&record), Ok((expected, 24)));
    assert_eq!(call(42, numbers, &rows, 23), (13, 999, vec![0xEE; 23]));
    assert_eq!(call(42, numbers, &rows[1..], 24).0, 12);
    assert_eq!(call(42, numbers, &rows.repeat(9), 24).0, 12);
    assert_eq!(call(40, numbers, &rows, 24).0, 6);
    assert_eq!(call(42, of_head([5, 6, 2, 0, 0]), &rows, 24).0, 10);
    assert_eq!(call(42, of_head([3, 16, 9, 9, 9]), &[], 0).0, 23);

    let mut number_of = 9;
    assert_eq!(count_generals(&record, &mut number_of), 0);
    assert_eq!(number_of, 2);
    assert_eq!(count_generals(&record[..23], &mut number_of), 15);
    let [mut system, mut signal, mut ephemeris, mut period, mut ionosphere] = [9; 5];
    let into = Heading {
        system: &mut system,
        signal: &mut signal,
        ephemeris: &mut ephemeris,
        period: &mut period,
        ionosphere: &mut ionosphere,
    };
    assert_eq!(read_head(&record, into), 0);
    assert_eq!(
        [system, signal, ephemeris, period, ionosphere],
        [5, 6, 2, 0, 1]
    );
    let mut row = [0xEE; GENERAL_SIZE + 1];
    assert_eq!(general_at(&record, 1, &mut row), 0);
    assert_eq!((&row[..7], row[7]), (&rows[7..], 0xEE));
    assert_eq!(general_at(&record, 1, &mut row[..6]), 13);
    assert_eq!(general_at(&record, 2, &mut row), 9);
}

#[test]
fn null_frames_of_the_library() {
    let call = |kind, n, system, room: usize| {
        let (mut frame, mut length) = (vec![0xEE; room], 999);
        let wanted = GeneralNull { n, system };
        let answer = make_general_null(common::head(kind), wanted, &mut frame, &mut length);
        (answer, length, frame)
    };
    for system in SYSTEMS {
        let (answer, length, record) = call(42, 1, system, 13);
        assert_eq!((answer, length, record[12]), (0, 12, 0xEE));
        assert_eq!(record[9..12], [system << 4 | 0xA, 0xAA, 0xAA]);
        let (mut n, mut read) = (9, 9);
        assert_eq!(read_general_null(&record, &mut n, &mut read), 0);
        assert_eq!((n, read), (1, system));
        assert_eq!(read_general_null(&record[..11], &mut n, &mut read), 15);
    }
    assert_eq!(call(42, 1, 6, 11), (13, 999, vec![0xEE; 11]));
    assert_eq!(call(42, 0, 6, 11).0, 12);
    assert_eq!(call(42, 2, 7, 11).0, 23);
    assert_eq!(call(41, 2, 7, 11).0, 6);
    let head = Head {
        health: 8,
        ..common::head(41)
    };
    let (mut frame, mut length) = ([0; 12], 0);
    let wanted = GeneralNull { n: 1, system: 1 };
    assert_eq!(make_general_null(head, wanted, &mut frame, &mut length), 5);
}
