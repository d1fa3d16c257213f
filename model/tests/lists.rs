//! Every list layout, whatever its entries are: the worked records, types and counts,
//! refusals in their order, ranges, the library's rows, random entries read back, and the
//! streams.

mod common;

use common::{
    bytes, frame, head, header, kept, making_order, number, of_words, reading_order, stands, stream,
};
use rtcm2_model::frame::{check_frame, CarriedBits, Frame, Header};
use rtcm2_model::library::lists;
use rtcm2_model::line::bits_of_bytes;
use rtcm2_model::record::list::List;
use rtcm2_model::record::{for_each_list, may_have, system, ForEach};
use rtcm2_model::rng::Rng;
use rtcm2_model::samples;
use rtcm2_model::scan::scan;

/// As many of an entry as a frame can have.
fn all_of<L: List>(entry: L) -> Vec<L> {
    vec![entry; L::MOST]
}

/// The counts by N, those that fit.
fn count_for<L: List>(n: u8) -> Option<usize> {
    (1..=L::MOST).find(|count| (L::BITS * count).div_ceil(24) == usize::from(n))
}

/// Made it is these words and the bytes of the stream of its name; read it is what it
/// was.
struct WorkedRecords;

impl ForEach for WorkedRecords {
    fn list<L: List>(&mut self) {
        for one in L::WORKED {
            let (name, count) = (one.name, one.entries.len());
            let mut entries = all_of(L::default());
            entries[..count].copy_from_slice(one.entries);
            let made = L::make(&header(one.type_number), &entries, count).unwrap();
            assert_eq!(made, of_words(one.words), "{name}");
            assert_eq!(stream(name), Some(bytes(one.bytes)), "{name}");
            stands(name, made);
            assert_eq!(L::count(&made), Ok(count), "{name}");
            for (i, entry) in one.entries.iter().enumerate() {
                assert_eq!(L::entry(&made, i), Ok(*entry), "{name}");
            }
        }
    }
}

#[test]
fn worked_records() {
    for_each_list(&mut WorkedRecords);
}

/// The types that may have the layout are its own, and its counts are what their words
/// have room for.
struct TypesAndCounts;

impl ForEach for TypesAndCounts {
    fn list<L: List>(&mut self) {
        let types = (0..=u16::MAX).filter(|number| may_have(*number, L::LAYOUT));
        assert_eq!(types.collect::<Vec<u16>>(), L::TYPES);
        for n in 0..=31 {
            for type_number in L::TYPES {
                let whole = frame(*type_number, n);
                match count_for::<L>(n) {
                    Some(count) => {
                        assert_eq!(L::n_for(count), usize::from(n));
                        assert_eq!(L::count(&whole), Ok(count));
                        assert_eq!(number(L::entry(&whole, count - 1)), 0);
                        assert_eq!(number(L::entry(&whole, count)), 9);
                    }
                    None => assert_eq!(number(L::entry(&whole, 99)), 8),
                }
            }
        }
    }
}

#[test]
fn types_and_counts() {
    for_each_list(&mut TypesAndCounts);
}

/// 5, 6, 7, 8, 9 on reading, 5 for carried bits too; 5, 6, 7, 12, 10 on making.
struct Orders;

impl ForEach for Orders {
    fn list<L: List>(&mut self) {
        let count = |whole: &Frame| number(L::count(whole));
        let entry = |whole: &Frame| number(L::entry(whole, usize::MAX));
        let good = L::n_for(L::MOST) as u8;
        for type_number in L::TYPES {
            for bad in (0..=31).filter(|n| count_for::<L>(*n).is_none()) {
                assert_eq!(
                    reading_order(*type_number, good, bad, count),
                    [5, 6, 7, 8, 0]
                );
                assert_eq!(
                    reading_order(*type_number, good, bad, entry),
                    [5, 6, 7, 8, 9]
                );
            }
            let paired = frame(*type_number, good).after(CarriedBits { d29: 0, d30: 2 });
            assert_eq!([count(&paired), entry(&paired)], [5, 5]);
            let bad = all_of(L::of_row(&vec![255; L::SIZE], system(*type_number)));
            let make = |count| {
                let make = |header: &Header| number(L::make(header, &bad, count));
                making_order(*type_number, make)
            };
            for count in [0, L::MOST + 1, 256 + 1, usize::MAX] {
                assert_eq!(make(count), [5, 6, 7, 12]);
            }
            for count in 1..=L::MOST {
                assert_eq!(make(count), [5, 6, 7, 10]);
            }
        }
    }
}

#[test]
fn orders() {
    for_each_list(&mut Orders);
}

/// A byte of a row one past its highest value is 10, in any entry; behind the last it is
/// not looked at.
struct Ranges;

impl ForEach for Ranges {
    fn list<L: List>(&mut self) {
        let mut rng = Rng::named("ranges");
        for type_number in L::TYPES {
            let system = system(*type_number);
            let highest = L::highest(system);
            assert_eq!(highest.len(), L::SIZE);
            for (at, most) in highest.iter().enumerate() {
                let good = L::drawn(&mut rng, system);
                let with = |byte| {
                    let mut row = good.row();
                    row[at] = byte;
                    L::of_row(&row, system)
                };
                let place = rng.place(L::MOST - 1) + 1;
                let made = |byte, count| {
                    let mut entries = all_of(good);
                    entries[place] = with(byte);
                    number(L::make(&header(*type_number), &entries, count))
                };
                if let Some(past) = most.checked_add(1) {
                    assert_eq!((made(past, place + 1), made(past, place)), (10, 0));
                }
            }
        }
    }
}

#[test]
fn ranges() {
    for_each_list(&mut Ranges);
}

/// Random entries, made and read back, also as rows of the library.
struct ReadBack;

impl ForEach for ReadBack {
    fn list<L: List>(&mut self) {
        let mut rng = Rng::named("read back");
        for round in 0..1000 {
            let type_number = L::TYPES[rng.place(L::TYPES.len())];
            let entries = L::all_drawn(&mut rng, type_number);
            let count = 1 + round % L::MOST;
            let header = samples::header(&mut rng, type_number);
            let frame = L::make(&header, &entries, count).unwrap();
            assert_eq!(usize::from(frame.n), L::n_for(count));
            assert_eq!(check_frame(&frame), Ok(()));
            assert_eq!(L::count(&frame), Ok(count));
            assert_eq!(L::fill_is_standard(&frame), Ok(true));
            for (i, entry) in entries[..count].iter().enumerate() {
                assert_eq!(L::entry(&frame, i), Ok(*entry));
            }
            let mut numbers = Vec::new();
            assert_eq!(L::again(&frame, &mut numbers), Ok(frame));
            let expected = entries[..count].iter().flat_map(L::numbers);
            assert!(expected.eq(numbers));
            rows_back(type_number, &entries[..count]);
        }
    }
}

/// The same through the library's calls.
fn rows_back<L: List>(type_number: u16, entries: &[L]) {
    let rows: Vec<u8> = entries.iter().flat_map(L::row).collect();
    let (mut record, mut length) = ([0xEE; 110], 0);
    let head = head(type_number as u8);
    assert_eq!(lists::make::<L>(head, &rows, &mut record, &mut length), 0);
    let made = L::make(
        &header(type_number),
        &L::of_rows(type_number, &rows),
        entries.len(),
    );
    assert_eq!(record[..length], kept(&made.unwrap()));
    let mut counted = 0;
    assert_eq!(lists::count::<L>(&record, &mut counted), 0);
    assert_eq!(counted, entries.len());
    for (i, expected) in rows.chunks(L::SIZE).enumerate() {
        let mut row = vec![0xEE; L::SIZE];
        assert_eq!(lists::at::<L>(&record, i, &mut row), 0);
        assert_eq!(
            (&row[..], L::of_row(&row, system(type_number))),
            (expected, entries[i])
        );
        assert_eq!(lists::at::<L>(&record, i, &mut row[1..]), 13);
    }
    assert_eq!(lists::at::<L>(&record, entries.len(), &mut []), 9);
}

#[test]
fn made_entries_read_back_equal() {
    for_each_list(&mut ReadBack);
}

/// Each stream has a frame of every count.
struct Streams;

impl ForEach for Streams {
    fn list<L: List>(&mut self) {
        for (name, type_number) in L::STREAMS {
            let frames = scan(&bits_of_bytes(&stream(name).unwrap()), true);
            let counts = frames.iter().map(|(_, frame)| L::count(frame).unwrap());
            assert!(counts.eq(1..=L::MOST), "{name}");
            let mut types = frames.iter().map(|(_, frame)| frame.header.type_number);
            assert!(types.all(|found| found == *type_number), "{name}");
        }
    }
}

#[test]
fn streams() {
    for_each_list(&mut Streams);
}
