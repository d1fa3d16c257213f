//! Types 31 to 34 and 36: the worked refusals on reading and making, the bytes of the
//! library's rows, and the letters.

mod common;

use common::{frame, head, header, kept, number, with_words};
use rtcm2_model::frame::Frame;
use rtcm2_model::library::{lists, numbers, records};
use rtcm2_model::record::correction::{Correction, Issue};
use rtcm2_model::record::health::{Condition, Health};
use rtcm2_model::record::list::List;
use rtcm2_model::record::position::{self, Position};
use rtcm2_model::record::values::letter;
use rtcm2_model::record::{null, text};
use rtcm2_model::refusal::Answer;
use rtcm2_model::{bits::Bits, rng::Rng, tally};

fn age(change: u8, tb: u8) -> Issue {
    Issue::Age { change, tb }
}

/// A correction whose other fields are zeros, satellite 32.
fn with_issue(issue: Issue) -> Correction {
    Correction {
        satellite: 32,
        issue,
        ..Correction::default()
    }
}

/// Makes a frame of this one correction, so many times.
fn make(type_number: u16, entry: Correction, count: usize) -> Answer<Frame> {
    Correction::make(&header(type_number), &[entry; Correction::MOST], count)
}

#[test]
fn tb_of_120_is_refused_for_its_entry_alone() {
    let whole = with_words(31, &[0x0303E8, 0xFB4D01, 0x0001FF, 0x78AAAA]);
    assert_eq!(Correction::count(&whole), Ok(2));
    let first = Correction {
        satellite: 3,
        prc: 1000,
        rrc: -5,
        issue: age(0, 77),
        ..Correction::default()
    };
    assert_eq!(Correction::entry(&whole, 0), Ok(first));
    assert_eq!(number(Correction::entry(&whole, 1)), 10);
    assert_eq!(number(Correction::entry(&whole, 2)), 9);
}

#[test]
fn last_eight_bits_as_read() {
    for last in 0..=255_u8 {
        let words = [0, u32::from(last) << 8 | 0xAA];
        let read = |type_number| Correction::entry(&with_words(type_number, &words), 0);
        for type_number in [1, 9] {
            assert_eq!(read(type_number), Ok(with_issue(Issue::Iod(last))));
        }
        for type_number in [31, 34] {
            match last % 128 {
                120..=127 => assert_eq!(number(read(type_number)), 10),
                tb => assert_eq!(read(type_number), Ok(with_issue(age(last / 128, tb)))),
            }
        }
    }
}

#[test]
fn last_eight_bits_as_made() {
    for change in [0, 1, 2, 255] {
        for tb in 0..=255 {
            let made = |type_number| number(make(type_number, with_issue(age(change, tb)), 1));
            let inside = change <= 1 && tb <= 119;
            for type_number in [31, 34] {
                assert_eq!(made(type_number), if inside { 0 } else { 10 });
            }
            assert_eq!((made(1), made(9)), (10, 10));
        }
    }
    for iod in 0..=255 {
        let made = |type_number| number(make(type_number, with_issue(Issue::Iod(iod)), 1));
        assert_eq!([1, 9, 31, 34].map(made), [0, 0, 10, 10]);
    }
}

#[test]
fn n_of_type_34() {
    for n in 0..=31 {
        let (short, whole) = (frame(34, n), frame(31, n));
        let counted = Correction::count(&whole);
        assert_eq!(Correction::count(&short), counted);
        assert_eq!(number(null::read(&short)), if n <= 1 { 0 } else { 8 });
        assert_eq!(number(null::read(&whole)), 6);
        if n <= 1 {
            assert_eq!(number(counted), 8);
            assert_eq!(number(Correction::entry(&short, usize::MAX)), 8);
        }
    }
    let mut late = frame(34, 0);
    late.header.z_count = 6000;
    assert_eq!(number(null::read(&late)), 7);
}

#[test]
fn refusals_on_reading() {
    assert_eq!(number(position::read(&frame(32, 3))), 8);
    let outside = with_words(32, &[0x800000, 0, 0, 0]);
    assert_eq!(number(position::read(&outside)), 10);
    assert_eq!(number(Health::count(&frame(33, 0))), 8);
    let mut buffer = [0; text::MOST];
    let texts: [(u16, &[u32], u8); 8] = [
        (36, &[0x4142C0], 11),
        (36, &[0x4142BF], 0),
        (16, &[0x414280], 11),
        (36, &[0x800000], 0),
        (36, &[0x808080, 0], 11),
        (36, &[0], 11),
        (36, &[0x410041], 11),
        (36, &[0x80FF80], 11),
    ];
    for (type_number, words, expected) in texts {
        let read = text::read(&with_words(type_number, words), &mut buffer);
        assert_eq!(number(read), expected, "{type_number} {words:X?}");
    }
    assert_eq!(number(text::read(&frame(36, 31), &mut buffer)), 8);
    let one = text::read(&with_words(36, &[0x800000]), &mut buffer);
    assert_eq!((one, buffer[0]), (Ok(1), 128));
    let three = text::read(&with_words(36, &[0x4142BF]), &mut buffer);
    assert_eq!((three, &buffer[..3]), (Ok(3), &[65, 66, 191][..]));
}

#[test]
fn refusals_on_making() {
    let good = with_issue(age(1, 119));
    assert_eq!(number(make(31, good, 1)), 0);
    let far = Correction {
        satellite: 33,
        ..good
    };
    assert_eq!(number(make(31, far, 1)), 10);
    assert_eq!(number(make(34, good, 0)), 12);
    assert_eq!(number(make(34, with_issue(age(0, 120)), 19)), 12);
    assert_eq!(number(make(33, good, 1)), 6);
    assert_eq!(number(null::make(&header(34), 2)), 12);
    assert_eq!(number(null::make(&header(31), 2)), 6);
    let mut late = header(34);
    late.z_count = 6000;
    assert_eq!(number(null::make(&late, 2)), 7);
    assert_eq!(number(text::make(&header(36), &[192])), 11);
    assert_eq!(number(text::make(&header(36), &[192; 91])), 12);
    assert_eq!(number(text::make(&header(16), &[128])), 11);
    let far = Position {
        x: 0,
        y: i32::MIN,
        z: 0,
    };
    assert_eq!(number(position::make(&header(32), &far)), 10);
}

#[test]
fn three_health_bits() {
    for bits in 0..8 {
        let words = [u32::from(bits) << 14];
        let read = |type_number| Health::entry(&with_words(type_number, &words), 0).unwrap();
        assert_eq!(read(5).condition, Condition::Code(bits));
        let (health, reserved) = (bits / 4, bits % 4);
        assert_eq!(read(33).condition, Condition::Data { health, reserved });
    }
    let made = |type_number, condition| {
        let entry = Health {
            satellite: 1,
            condition,
            ..Health::default()
        };
        number(Health::make(
            &header(type_number),
            &[entry; Health::MOST],
            1,
        ))
    };
    for health in [0, 1, 2, 255] {
        for reserved in [0, 3, 4, 255] {
            let condition = Condition::Data { health, reserved };
            let inside = health <= 1 && reserved <= 3;
            assert_eq!(made(33, condition), if inside { 0 } else { 10 });
            assert_eq!(made(5, condition), 10);
        }
    }
    for code in 0..=255 {
        assert_eq!(made(33, Condition::Code(code)), 10);
        assert_eq!(
            made(5, Condition::Code(code)),
            if code <= 7 { 0 } else { 10 }
        );
    }
}

#[test]
fn rows_of_corrections_hold_the_bits_as_sent() {
    for kind in [1, 9, 31, 34] {
        for last in 0..=255 {
            let row = [1, 3, 32, 0x01, 0x80, 0x81, last];
            let (mut made, mut length) = ([0xEE; 15], 7);
            let answer = lists::make::<Correction>(head(kind), &row, &mut made, &mut length);
            if kind > 9 && last % 128 > 119 {
                assert_eq!((answer, made, length), (10, [0xEE; 15], 7));
            } else {
                assert_eq!((answer, made[13], made[14], length), (0, last, 0xAA, 15));
                let mut back = [0; 7];
                assert_eq!(lists::at::<Correction>(&made, 0, &mut back), 0);
                assert_eq!(back, row);
            }
        }
    }
}

#[test]
fn a_tb_of_120_comes_before_a_short_buffer() {
    let bytes = kept(&with_words(34, &[0, 0x0078AA]));
    for room in [0, 6, 7] {
        let mut row = vec![0xEE; room];
        assert_eq!(lists::at::<Correction>(&bytes, 0, &mut row), 10);
        assert_eq!(lists::at::<Correction>(&bytes, 1, &mut row), 9);
        assert_eq!(row, vec![0xEE; room]);
    }
    let bytes = kept(&with_words(34, &[0, 0x0077AA]));
    assert_eq!(lists::at::<Correction>(&bytes, 0, &mut [0; 6]), 13);
}

#[test]
fn rows_of_healths_hold_the_bits_as_sent() {
    for kind in [5, 33] {
        for bits in 0..=255 {
            let row = [0, 24, 1, bits, 31, 1, 0, 1, 15, 3];
            let (mut made, mut length) = ([0xEE; 12], 7);
            let answer = lists::make::<Health>(head(kind), &row, &mut made, &mut length);
            assert_eq!(answer, if bits <= 7 { 0 } else { 10 });
            if bits <= 7 {
                let mut back = [0; 10];
                assert_eq!(lists::at::<Health>(&made, 0, &mut back), 0);
                assert_eq!(back, row);
            }
        }
    }
}

#[test]
fn null_frames_of_the_library() {
    for kind in [6, 34] {
        for n in 0..=255 {
            let (mut made, mut length) = ([0xEE; 12], 7);
            let answer = records::make_null(head(kind), n, &mut made, &mut length);
            if n > 1 {
                assert_eq!((answer, made, length), (12, [0xEE; 12], 7));
                continue;
            }
            assert_eq!((answer, length), (0, 9 + 3 * usize::from(n)));
            let mut found = 0xEE;
            assert_eq!(records::read_null(&made, &mut found), 0);
            assert_eq!(found, n);
            let mut short = vec![0xEE; length - 1];
            let answer = records::make_null(head(kind), n, &mut short, &mut length);
            assert_eq!((answer, &short[..]), (13, &vec![0xEE; length - 1][..]));
        }
    }
    let mut n = 0xEE;
    for kind in [6, 34] {
        assert_eq!(records::read_null(&kept(&frame(kind, 2)), &mut n), 8);
    }
    assert_eq!(n, 0xEE);
}

/// The same words under another type: the IOD's bits are then change bit and tb.
#[test]
fn records_of_type_1_read_as_31() {
    let mut rng = Rng::named("other type");
    for _ in 0..2000 {
        let mut whole = Correction::sample(&mut rng, 1, 18);
        let iods: Vec<u8> = (0..18).map(|i| row(&whole, i).unwrap()[6]).collect();
        whole.header.type_number = 31;
        for (i, iod) in iods.into_iter().enumerate() {
            match iod % 128 {
                120..=127 => assert_eq!(row(&whole, i), Err(10)),
                _ => assert_eq!(row(&whole, i).unwrap()[6], iod),
            }
        }
    }
}

fn row(frame: &Frame, index: usize) -> Result<[u8; 7], u8> {
    let mut row = [0; 7];
    match lists::at::<Correction>(&kept(frame), index, &mut row) {
        0 => Ok(row),
        refusal => Err(refusal),
    }
}

#[test]
fn letters() {
    for code in 0..=255_u8 {
        let mut found = 0xEEEE;
        let answer = numbers::letter_of(code, &mut found);
        match code {
            0 | 192.. => {
                assert_eq!(number(letter(code)), 11);
                assert_eq!((answer, found), (11, 0xEEEE));
            }
            1..=127 => assert_eq!((answer, found), (0, code.into())),
            128..=191 => assert_eq!((answer, found), (0, 0x0410 + u32::from(code) - 128)),
        }
    }
    assert_eq!(letter(128).ok().and_then(char::from_u32), Some('А'));
    assert_eq!(letter(191).ok().and_then(char::from_u32), Some('я'));
}

/// A frame's line of the tally has a record or none, and these fields.
fn tallied(frame: &Frame, record: u8, remade: u8, fields: &[u64]) {
    let mut bits = Bits::opened();
    bits.push_frame(frame);
    let line = tally::line(&bits.to_bytes());
    let counts = format!("records {record} remade {remade} kept 1 written 1 ");
    let (mut sum, mut sums) = (0, 0);
    for field in fields {
        sum += field;
        sums += sum;
    }
    assert!(line.starts_with(&counts), "{line}");
    assert!(line.ends_with(&format!(" fields {sum} {sums}\n")), "{line}");
}

#[test]
fn fields_that_are_tallied() {
    let two = with_words(31, &[0xE07FFF, 0x7FF7F8, 0x800181, 0xC0AAAA]);
    let first = [1, 3, 32, 32767, 127, 1, 119];
    let second = [1, 3, 24, 32769, 129, 1, 64];
    tallied(&two, 1, 1, &[first, second].concat());
    let as_type_1 = with_words(1, &[0xE07FFF, 0x7FF7F8]);
    tallied(&as_type_1, 1, 0, &[1, 3, 32, 32767, 127, 247]);
    let refused = with_words(34, &[0x0303E8, 0xFB4D01, 0x0001FF, 0x78AAAA]);
    tallied(&refused, 0, 0, &[0, 0, 3, 1000, 251, 0, 77, 10]);
    for kind in [6, 34] {
        tallied(&with_words(kind, &[]), 1, 1, &[0]);
        tallied(&with_words(kind, &[0xAAAAAA]), 1, 1, &[1]);
        tallied(&with_words(kind, &[0x123456]), 1, 0, &[1]);
    }
    tallied(&with_words(6, &[0xAAAAAA; 2]), 0, 0, &[8]);
    tallied(&with_words(31, &[0xAAAAAA]), 0, 0, &[8]);
    let health = [1, 32, 1, 1, 3, 31, 1, 0, 1, 15, 3];
    tallied(&with_words(33, &[0x83FF7F]), 1, 1, &health);
    let health = [1, 32, 1, 7, 31, 1, 0, 1, 15, 3];
    tallied(&with_words(5, &[0x83FF7F]), 1, 1, &health);
    let place = [1, 0xFFFF_FFFF, 2];
    let words = [0x000000, 0x01FFFF, 0xFFFF00, 0x000002];
    tallied(&with_words(32, &words), 1, 1, &place);
    tallied(&with_words(36, &[0x80BF00]), 1, 1, &[128, 191]);
    tallied(&with_words(16, &[0x80BF00]), 0, 0, &[11]);
    tallied(&with_words(35, &[0x80BF00]), 0, 0, &[6]);
}
