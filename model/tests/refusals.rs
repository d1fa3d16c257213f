//! Refusals and their orders: every call is given all its faults at once, then
//! they are mended one by one, first number first. Buffers stay.

mod common;

use common::{frame, header, making_order, number, reading_order};
use rtcm2_model::frame::{check_frame, check_header, CarriedBits, Frame, Header, State};
use rtcm2_model::journal;
use rtcm2_model::reader::Reader;
use rtcm2_model::record::correction::Correction;
use rtcm2_model::record::health::{Condition, Health};
use rtcm2_model::record::list::List;
use rtcm2_model::record::position::{self, Position};
use rtcm2_model::record::values::{cn0_dbhz, minutes, prc_mm, rrc_mm_s, udre_limit_mm, z_tenths};
use rtcm2_model::record::{layout, may_have, null, text, types, Layout};
use rtcm2_model::writer;

#[test]
fn five_for_headers() {
    let good = header(64);
    assert_eq!(number(check_header(&good)), 0);
    let breaks: [fn(&mut Header); 8] = [
        |header| header.type_number = 0,
        |header| header.type_number = 65,
        |header| header.station = 1024,
        |header| header.z_count = 8192,
        |header| header.sequence = 8,
        |header| header.state = State::Factor(0),
        |header| header.state = State::Factor(99),
        |header| header.state = State::Factor(65535),
    ];
    for bad in breaks {
        let mut header = good;
        bad(&mut header);
        assert_eq!(number(check_header(&header)), 5);
        let whole = Frame {
            header,
            ..frame(64, 0)
        };
        assert_eq!(number(check_frame(&whole)), 5);
    }
}

#[test]
fn five_for_frames() {
    assert_eq!(number(check_frame(&frame(1, 31))), 0);
    assert_eq!(number(check_frame(&frame(1, 32))), 5);
    assert_eq!(number(check_frame(&frame(1, 255))), 5);
    for n in 0..=31_u8 {
        for place in 0..31 {
            let mut whole = frame(1, n);
            whole.words[place] = 0xFF_FFFF;
            let past = place >= usize::from(n);
            assert_eq!(number(check_frame(&whole)), if past { 5 } else { 0 });
            whole.words[place] = 0x100_0000;
            assert_eq!(number(check_frame(&whole)), 5);
        }
    }
}

/// Every call that takes a frame, with room and a number that it would not refuse.
fn calls_on(whole: &Frame) -> [u8; 10] {
    let mut bytes = [0xEE; 165];
    let answers = [
        number(check_frame(whole)),
        number(Correction::count(whole)),
        number(Correction::entry(whole, 0)),
        number(position::read(whole)),
        number(Health::count(whole)),
        number(Health::entry(whole, 0)),
        number(null::read(whole)),
        number(text::read(whole, &mut bytes)),
        number(writer::write(whole, CarriedBits::ZEROS, &mut bytes)),
        number(journal::keep(whole, &mut bytes)),
    ];
    assert!(answers != [5; 10] || bytes == [0xEE; 165]);
    answers
}

#[test]
fn five_for_carried_bits() {
    for (d29, d30) in [(2, 0), (0, 2), (1, 255), (254, 1), (2, 2)] {
        for type_number in [1, 2, 3, 5, 6, 16] {
            let mut whole = frame(type_number, 5).after(CarriedBits { d29, d30 });
            assert_eq!(calls_on(&whole), [5; 10]);
            // 5 is the first number of every one of these orders
            whole.header.z_count = 6000;
            assert_eq!(calls_on(&whole), [5; 10]);
        }
    }
    for (d29, d30) in [(0, 0), (0, 1), (1, 0), (1, 1)] {
        for type_number in [1, 2, 3, 5, 6, 16] {
            let whole = frame(type_number, 5);
            let paired = whole.after(CarriedBits { d29, d30 });
            assert_eq!(calls_on(&paired), calls_on(&whole));
            assert_eq!(calls_on(&paired)[0], 0);
        }
    }
}

#[test]
fn health_codes() {
    for code in 0..8 {
        assert_eq!(State::of_code(code).code(), Some(code));
    }
    let factors = (0..8).map(|code| State::of_code(code).factor());
    let expected = [100, 75, 50, 30, 20, 10, 100, 100];
    assert_eq!(factors.collect::<Vec<u16>>(), expected);
    let known = (0..=u16::MAX).filter(|factor| State::Factor(*factor).code().is_some());
    assert_eq!(known.count(), 6);
}

#[test]
fn layouts() {
    let listed = |wanted| -> Vec<u16> {
        let all = 0..=u16::MAX;
        all.filter(|number| may_have(*number, wanted)).collect()
    };
    assert_eq!(listed(Layout::Correction), [1, 9, 31, 34]);
    assert_eq!(listed(Layout::Position), [3, 32]);
    assert_eq!(listed(Layout::Health), [5, 33]);
    assert_eq!(listed(Layout::Null), [6, 34]);
    assert_eq!(listed(Layout::Text), [16, 36]);
    assert_eq!(listed(Layout::Observation), [18, 19]);
    assert_eq!(listed(Layout::General), [41, 42]);
    assert_eq!(listed(Layout::GeneralNull), [42]);
    let named = types();
    let plain = (0..=u16::MAX).filter(|number| !named.contains(number));
    assert_eq!(listed(Layout::Plain), plain.collect::<Vec<u16>>());
    for type_number in 0..=u16::MAX {
        let of_n = (0..=31).map(|n| layout(type_number, n));
        let same = of_n.clone().all(|of_n| of_n == layout(type_number, 0));
        assert_eq!(same, ![34, 42].contains(&type_number));
    }
    let null = (0..=31).filter(|n| layout(34, *n) == Layout::Null);
    assert_eq!(null.collect::<Vec<u8>>(), [0, 1]);
    let null = (0..=31).filter(|n| layout(42, *n) == Layout::GeneralNull);
    assert_eq!(null.collect::<Vec<u8>>(), [1]);
}

#[test]
fn reading_orders() {
    let count = |whole: &Frame| number(Correction::count(whole));
    let entry = |whole: &Frame| number(Correction::entry(whole, 1));
    for (type_number, bad_n) in [(1, 3), (9, 0), (31, 31), (34, 0), (34, 1), (34, 3)] {
        assert_eq!(reading_order(type_number, 2, bad_n, count), [5, 6, 7, 8, 0]);
        assert_eq!(reading_order(type_number, 2, bad_n, entry), [5, 6, 7, 8, 9]);
    }
    let count = |whole: &Frame| number(Health::count(whole));
    let entry = |whole: &Frame| number(Health::entry(whole, usize::MAX));
    for type_number in [5, 33] {
        assert_eq!(reading_order(type_number, 31, 0, count), [5, 6, 7, 8, 0]);
        assert_eq!(reading_order(type_number, 1, 0, entry), [5, 6, 7, 8, 9]);
    }
    let read = |whole: &Frame| number(position::read(whole));
    for type_number in [3, 32] {
        assert_eq!(reading_order(type_number, 4, 5, read), [5, 6, 7, 8, 0]);
    }
    let read = |whole: &Frame| number(null::read(whole));
    for (type_number, good_n, bad_n) in [(6, 0, 2), (6, 1, 31), (34, 0, 2), (34, 1, 31)] {
        let order = reading_order(type_number, good_n, bad_n, read);
        assert_eq!(order, [5, 6, 7, 8, 0]);
    }
    let read = |whole: &Frame| number(text::read(whole, &mut []));
    for type_number in [16, 36] {
        assert_eq!(reading_order(type_number, 1, 0, read), [5, 6, 7, 8, 11]);
        assert_eq!(reading_order(type_number, 30, 31, read), [5, 6, 7, 8, 11]);
    }
}

/// A null frame has N 0 or 1; 5, 6 and 7 come before 8 and 12.
#[test]
fn null_frames() {
    let read = |type_number, n, z_count| {
        let mut whole = frame(type_number, n);
        whole.header.z_count = z_count;
        number(null::read(&whole))
    };
    assert_eq!([0, 1, 2, 31].map(|n| read(6, n, 100)), [0, 0, 8, 8]);
    assert_eq!(read(6, 2, 6000), 7);
    assert_eq!(read(5, 1, 100), 6);
    let make = |type_number, n| number(null::make(&header(type_number), n));
    assert_eq!([0, 1, 2, 255].map(|n| make(6, n)), [0, 0, 12, 12]);
    assert_eq!(make(5, 2), 6);
    let mut late = header(6);
    late.z_count = 6000;
    assert_eq!(number(null::make(&late, 2)), 7);
    late.sequence = 8;
    assert_eq!(number(null::make(&late, 2)), 5);
}

#[test]
fn n_of_corrections() {
    let fits = [
        2, 4, 5, 7, 9, 10, 12, 14, 15, 17, 19, 20, 22, 24, 25, 27, 29, 30,
    ];
    for n in 0..=31 {
        let whole = frame(1, n);
        let place = fits.iter().position(|fit| *fit == n);
        match place {
            Some(place) => {
                assert_eq!(Correction::count(&whole), Ok(place + 1));
                assert_eq!(number(Correction::entry(&whole, place)), 0);
                assert_eq!(number(Correction::entry(&whole, place + 1)), 9);
            }
            None => assert_eq!(number(Correction::entry(&whole, 99)), 8),
        }
    }
}

#[test]
fn position_range() {
    for place in 0..3 {
        let mut numbers = [i32::MAX, 0, -i32::MAX];
        numbers[place] = i32::MIN;
        let [x, y, z] = numbers;
        let made = position::make(&header(3), &Position { x, y, z });
        assert_eq!(number(made), 10);
    }
    let outside = [
        [0x80_0000, 0, 0, 0],
        [0, 0x00_8000, 0, 0],
        [0, 0, 0x00_0080, 0],
    ];
    for words in outside {
        let mut whole = frame(3, 4);
        whole.words[..4].copy_from_slice(&words);
        assert_eq!(number(position::read(&whole)), 10);
        whole.words[3] = 1;
        whole.words[1] |= 1;
        assert_eq!(
            number(position::read(&whole)),
            if words[0] == 0 { 0 } else { 10 }
        );
    }
}

#[test]
fn texts_that_are_refused() {
    let texts: [(&[u32], u8); 9] = [
        (&[0x00_0000], 11),
        (&[0x41_0041], 11),
        (&[0x00_4141], 11),
        (&[0x41_4243, 0x00_0000], 11),
        (&[0x41_4200, 0x41_4243], 11),
        (&[0x41_4280], 11),
        (&[0xFF_4243], 11),
        (&[0x41_0000], 13),
        (&[0x01_7F00], 13),
    ];
    for (words, expected) in texts {
        let mut whole = frame(16, words.len() as u8);
        whole.words[..words.len()].copy_from_slice(words);
        assert_eq!(number(text::read(&whole, &mut [])), expected);
    }
    let mut whole = frame(16, 1);
    whole.words[0] = 0x41_4200;
    let mut buffer = [0xEE; 1];
    assert_eq!(number(text::read(&whole, &mut buffer)), 13);
    assert_eq!(buffer, [0xEE]);
    let mut buffer = [0xEE; 3];
    assert_eq!(text::read(&whole, &mut buffer), Ok(2));
    assert_eq!(buffer, [0x41, 0x42, 0xEE]);
}

#[test]
fn making_orders() {
    let bad = [Correction::default(); Correction::MOST];
    for (count, last) in [(0, 12), (19, 12), (usize::MAX, 12), (1, 10), (18, 10)] {
        let make = |header: &Header| number(Correction::make(header, &bad, count));
        for type_number in [1, 9, 31, 34] {
            assert_eq!(making_order(type_number, make), [5, 6, 7, last]);
        }
    }
    let bad = [Health::default(); Health::MOST];
    for (count, last) in [(0, 12), (32, 12), (usize::MAX, 12), (1, 10), (31, 10)] {
        let make = |header: &Header| number(Health::make(header, &bad, count));
        assert_eq!(making_order(5, make), [5, 6, 7, last]);
        assert_eq!(making_order(33, make), [5, 6, 7, last]);
    }
    for (codes, last) in [(&[][..], 12), (&[0; 91][..], 12), (&[0][..], 11)] {
        let make = |header: &Header| number(text::make(header, codes));
        assert_eq!(making_order(16, make), [5, 6, 7, last]);
        assert_eq!(making_order(36, make), [5, 6, 7, last]);
    }
    let bad = Position {
        x: i32::MIN,
        y: 0,
        z: 0,
    };
    let make = |header: &Header| number(position::make(header, &bad));
    assert_eq!(making_order(3, make), [5, 6, 7, 10]);
    assert_eq!(making_order(32, make), [5, 6, 7, 10]);
    for n in 0..=255 {
        let make = |header: &Header| number(null::make(header, n));
        let last = if n <= 1 { 0 } else { 12 };
        assert_eq!(making_order(6, make), [5, 6, 7, last]);
        assert_eq!(making_order(34, make), [5, 6, 7, last]);
    }
}

#[test]
fn entries_past_the_count_are_not_read() {
    let good = Correction {
        satellite: 32,
        prc: -32768,
        rrc: -128,
        ..Correction::default()
    };
    let breaks: [fn(&mut Correction); 4] = [
        |entry| entry.scale = 2,
        |entry| entry.udre = 4,
        |entry| entry.satellite = 0,
        |entry| entry.satellite = 33,
    ];
    for bad in breaks {
        for place in 0..Correction::MOST {
            let mut entries = [good; Correction::MOST];
            bad(&mut entries[place]);
            let below = Correction::make(&header(1), &entries, place + 1);
            assert_eq!(number(below), 10);
            if place > 0 {
                assert_eq!(number(Correction::make(&header(1), &entries, place)), 0);
            }
        }
    }
}

#[test]
fn health_fields_outside_their_range() {
    let good = Health {
        satellite: 1,
        ..Health::default()
    };
    let breaks: [fn(&mut Health); 11] = [
        |entry| entry.reserved_first = 2,
        |entry| entry.satellite = 0,
        |entry| entry.satellite = 33,
        |entry| entry.link = 2,
        |entry| entry.condition = Condition::Code(8),
        |entry| entry.cn0 = 32,
        |entry| entry.enable = 2,
        |entry| entry.new_data = 2,
        |entry| entry.loss_warning = 2,
        |entry| entry.time = 16,
        |entry| entry.reserved_last = 4,
    ];
    for bad in breaks {
        let mut entries = [good; Health::MOST];
        bad(&mut entries[7]);
        assert_eq!(number(Health::make(&header(5), &entries, 8)), 10);
        assert_eq!(number(Health::make(&header(5), &entries, 7)), 0);
    }
}

#[test]
fn characters_that_are_refused() {
    for (type_number, last) in [(16, 127), (36, 191)] {
        for code in 0..=255 {
            let expected = if (1..=last).contains(&code) { 0 } else { 11 };
            let made = text::make(&header(type_number), &[65, code, 65]);
            assert_eq!(number(made), expected);
        }
        assert_eq!(number(text::make(&header(type_number), &[0; 90])), 11);
    }
}

#[test]
fn values_outside_their_range() {
    assert_eq!(number(prc_mm(2, i16::MIN)), 10);
    assert_eq!(number(rrc_mm_s(2, i8::MIN)), 10);
    assert_eq!(number(udre_limit_mm(State::Factor(1), 4)), 5);
    assert_eq!(number(udre_limit_mm(State::Factor(1), 3)), 5);
    assert_eq!(number(udre_limit_mm(State::NotWorking, 4)), 10);
    assert_eq!(number(cn0_dbhz(32)), 10);
    assert_eq!(number(minutes(16)), 10);
    assert_eq!(minutes(15), Ok(75));
    assert_eq!(number(z_tenths(8192)), 5);
    assert_eq!(number(z_tenths(6000)), 7);
    assert_eq!(z_tenths(5999), Ok(35_994));
    let limits = [[1000, 4000, 8000], [750, 3000, 6000], [500, 2000, 4000]];
    for (code, row) in limits.iter().enumerate() {
        for (udre, limit) in row.iter().enumerate() {
            let state = State::of_code(code as u32);
            assert_eq!(udre_limit_mm(state, udre as u8), Ok(Some(*limit)));
        }
    }
}

#[test]
fn writing_order() {
    let zero = CarriedBits::ZEROS;
    let mut whole = frame(64, 1);
    whole.header.z_count = 6000;
    whole.header.station = 1024;
    let mut buffer = [0xEE; 14];
    assert_eq!(number(writer::write(&whole, zero, &mut buffer)), 5);
    whole.header.station = 0;
    for (d29, d30) in [(2, 0), (0, 2), (1, 255)] {
        let carried = CarriedBits { d29, d30 };
        assert_eq!(number(writer::write(&whole, carried, &mut buffer)), 5);
    }
    assert_eq!(number(writer::write(&whole, zero, &mut buffer)), 7);
    whole.header.z_count = 5999;
    assert_eq!(number(writer::write(&whole, zero, &mut buffer)), 13);
    assert_eq!(buffer, [0xEE; 14]);
    let mut buffer = [0xEE; 17];
    assert_eq!(writer::write(&whole, zero, &mut buffer).unwrap().length, 15);
    assert_eq!(buffer[15..], [0xEE; 2]);
    assert_eq!(number(writer::open(&mut [])), 13);
}

#[test]
fn journal_orders() {
    let mut whole = frame(1, 1);
    whole.header.z_count = 8191;
    whole.words[1] = 1;
    let mut buffer = [0xEE; 11];
    assert_eq!(number(journal::keep(&whole, &mut buffer)), 5);
    whole.words[1] = 0;
    assert_eq!(number(journal::keep(&whole, &mut buffer)), 13);
    assert_eq!(buffer, [0xEE; 11]);

    let recall = |bytes: &[u8]| number(journal::recall(bytes));
    for bytes in [
        &[][..],
        &[0x52],
        &[0x32, 0x52],
        &[0x52, 0x33, 0, 0],
        &[0x51, 0x32, 40],
    ] {
        assert_eq!(recall(bytes), 14);
    }
    assert_eq!(recall(&[0x52, 0x32]), 15);
    assert_eq!(recall(&[0x52, 0x32, 32]), 16);
    assert_eq!(recall(&[0x52, 0x32, 255]), 16);
    assert_eq!(recall(&[0x52, 0x32, 31]), 15);
    assert_eq!(recall(&[0x52, 0x32, 0, 0x67, 0, 0, 0, 0]), 15);
    assert_eq!(recall(&[0x52, 0x32, 0, 0x67, 0, 0, 0, 0, 0]), 16);
    assert_eq!(recall(&[0x52, 0x32, 0, 0x66, 0, 0, 0, 0, 8]), 16);
    assert_eq!(recall(&[0x52, 0x32, 0, 0x66, 0, 0, 0, 0, 7]), 0);
    assert_eq!(recall(&[0x52, 0x32, 0, 0x66, 0, 0, 0, 0, 7, 0x52]), 0);
}

#[test]
fn reader_orders() {
    let stream = [
        0x40, 0x66, 0x61, 0x41, 0x68, 0x7F, 0x7F, 0x6C, 0x73, 0x7F, 0x44,
    ];
    let mut reader = Reader::new();
    assert_eq!(number(reader.take()), 4);
    assert_eq!(number(reader.feed(0x80)), 1);
    reader.feed_all(&stream).unwrap();
    for byte in [0x40, 0x3F, 0xFF] {
        assert_eq!(number(reader.feed(byte)), 2);
    }
    assert_eq!(number(reader.feed_all(&[])), 2);
    assert_eq!(number(reader.end()), 2);
    assert_eq!(number(reader.take()), 0);
    assert_eq!(number(reader.take()), 4);
    assert_eq!(number(reader.end()), 0);
    for byte in [0x40, 0x3F] {
        assert_eq!(number(reader.feed(byte)), 3);
    }
    assert_eq!(number(reader.feed_all(&[])), 3);
    assert_eq!(number(reader.end()), 3);
    assert_eq!(number(reader.take()), 4);
}

#[test]
fn after_end_comes_before_a_waiting_frame() {
    let null = [0x66, 0x61, 0x41, 0x68, 0x7F, 0x7F, 0x6C, 0x73, 0x7F, 0x44];
    let mut bits = rtcm2_model::bits::Bits::opened();
    bits.push_words(&rtcm2_model::frame::header_words(&header(1), 31));
    bits.push_frame(&frame(6, 0));
    let mut reader = Reader::new();
    reader.feed_all(&bits.to_bytes()).unwrap();
    assert!(!reader.waits());
    reader.end().unwrap();
    assert!(reader.waits());
    assert_eq!(number(reader.feed(0x3F)), 3);
    assert_eq!(number(reader.feed_all(&null)), 3);
    assert_eq!(number(reader.end()), 3);
    assert_eq!(reader.take().unwrap().position, 66);
    assert_eq!(number(reader.take()), 4);
}
