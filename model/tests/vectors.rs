//! The worked records of types 3, 6, 16, 32, 34 and 36 and the longest of the list
//! layouts: made into frames, written to the bytes of the stream of that name, found again
//! in them and read back. The other ones of a list layout are in its file.

mod common;

use common::{header, line_of, of_words, stands, stream};
use rtcm2_model::frame::{Frame, Header, State};
use rtcm2_model::record::correction::Correction;
use rtcm2_model::record::health::Health;
use rtcm2_model::record::list::List;
use rtcm2_model::record::position::{self, Position};
use rtcm2_model::record::{null, text};
use rtcm2_model::refusal::Refusal;

/// The made frame has these words, and the bytes of the stream of this name hold it
/// alone.
fn agrees(frame: &Frame, header_words: &str, data_words: &str, name: &str) {
    assert_eq!(*frame, of_words(&format!("{header_words} {data_words}")));
    assert!(
        name.is_empty() || stream(name).is_some(),
        "no stream {name}"
    );
    stands(name, *frame);
}

/// A record of a list layout that is too long for a stream of its own.
fn list<L: List>(type_number: u16, entries: &[L], words: [&str; 2]) {
    let mut array = vec![L::default(); L::MOST];
    array[..entries.len()].copy_from_slice(entries);
    let frame = L::make(&header(type_number), &array, entries.len()).unwrap();
    agrees(&frame, words[0], words[1], "");
    assert_eq!(L::count(&frame), Ok(entries.len()));
    for (i, entry) in entries.iter().enumerate() {
        assert_eq!(L::entry(&frame, i), Ok(*entry));
    }
}

#[test]
fn v1d() {
    let entry = |i: i32| Correction::gps([i % 2, i % 4, i + 1, 100 * i - 900, 7 * i - 60, 13 * i]);
    let entries: Vec<Correction> = (0..18).map(entry).collect();
    let words = [
        "660405 0323F0",
        "01FC7C C400A2 FCE0CB 0D43FD 44D21A E4FDA8 D92705 FE0CE0 34A6FE 70E741
         47FED4 EE4EE8 FF38F5 5B09FF 9CFC68 AA0000 03754B 00640A 82EC00 C8118F
         0D012C 189CAE 01901F A94F01 F426B6 F00258 2DC311 02BC34 D0B203 203BDD",
    ];
    list(1, &entries, words);
}

fn a_position(type_number: u16, [x, y, z]: [i32; 3], words: [&str; 3]) {
    let position = Position { x, y, z };
    let frame = position::make(&header(type_number), &position).unwrap();
    agrees(&frame, words[0], words[1], words[2]);
    assert_eq!(position::read(&frame), Ok(position));
}

#[test]
fn v3a_v3b() {
    let words = ["660C05 032320", "075BCD 15C521 974F7F FFFFFF", "V3a"];
    a_position(3, [123_456_789, -987_654_321, 2_147_483_647], words);
    let words = ["660C05 032320", "800000 010000 0000FF FFFFFF", "V3b"];
    a_position(3, [-2_147_483_647, 0, -1], words);
}

#[test]
fn v6a() {
    let frame = null::make(&header(6), 0).unwrap();
    agrees(&frame, "661805 032300", "", "V6a");
    assert_eq!(null::read(&frame), Ok(0));
}

#[test]
fn n6a_n6b() {
    let last = Header {
        z_count: 5999,
        sequence: 7,
        state: State::of_code(7),
        ..header(6)
    };
    for (header, words, name) in [
        (header(6), "661805 032308", "N6a"),
        (last, "661805 BB7F0F", "N6b"),
    ] {
        let frame = null::make(&header, 1).unwrap();
        agrees(&frame, words, "AAAAAA", name);
        assert_eq!(null::read(&frame), Ok(1));
        assert_eq!(null::fill_is_standard(&frame), Ok(true));
    }
}

/// Read only: any word is a null frame's, and made again it is the fill.
#[test]
fn n6c_n6d_n6e_g34d() {
    for (header_words, word, name) in [
        ("661805 032308", "555555", "N6c"),
        ("661805 032308", "000000", "N6d"),
        ("661805 032308", "FFFFFF", "N6e"),
        ("668805 032308", "123456", "G34d"),
    ] {
        let frame = of_words(&format!("{header_words} {word}"));
        agrees(&frame, header_words, word, name);
        assert_eq!(null::read(&frame), Ok(1));
        assert_eq!(null::fill_is_standard(&frame), Ok(false));
        let again = null::make(&frame.header, 1).unwrap();
        assert_eq!(again, of_words(&format!("{header_words} AAAAAA")));
    }
}

fn a_text(type_number: u16, codes: &[u8], words: [&str; 3]) {
    let frame = text::make(&header(type_number), codes).unwrap();
    agrees(&frame, words[0], words[1], words[2]);
    let mut buffer = [0xEE; 100];
    assert_eq!(text::read(&frame, &mut buffer), Ok(codes.len()));
    assert_eq!(buffer[..codes.len()], *codes);
    assert!(buffer[codes.len()..].iter().all(|byte| *byte == 0xEE));
}

#[test]
fn v16a_v16b_v16c() {
    let words = ["664005 032310", "515549 434B00", "V16a"];
    a_text(16, b"QUICK", words);
    let words = ["664005 032318", "414243 444546 470000", "V16b"];
    a_text(16, b"ABCDEFG", words);
    let words = ["664005 032308", "017F20", "V16c"];
    a_text(16, &[1, 127, 32], words);
}

/// Entry i of G31d.
fn g31d_entry(i: i32) -> Correction {
    let (prc, rrc) = (1000 * i - 9000, 9 * i - 80);
    Correction::glonass([i % 2, i % 4, i + 1, prc, rrc, i % 2, 7 * i])
}

#[test]
fn g31d() {
    let entries: Vec<Correction> = (0..18).map(g31d_entry).collect();
    let words = [
        "667C05 0323F0",
        "01DCD8 B000A2 E0C0B9 8743E4 A8C20E E4E890 CB9505 EC78D4 1CA6F0 60DDA3
         47F448 E62AE8 F830EF B109FC 18F838 AA0000 01BF4B 03E80A 46EC07 D013CD
         0D0BB8 1C54AE 0FA025 DB4F13 882E62 F01770 37E911 1B5840 70B21F 4049F7",
    ];
    list(31, &entries, words);
}

#[test]
fn g34b_g34c() {
    for (n, words, data, name) in [
        (0, "668805 032300", "", "G34b"),
        (1, "668805 032308", "AAAAAA", "G34c"),
    ] {
        let frame = null::make(&header(34), n).unwrap();
        agrees(&frame, words, data, name);
        assert_eq!(null::read(&frame), Ok(n));
        assert_eq!(null::fill_is_standard(&frame), Ok(true));
        assert_eq!(Correction::count(&frame), Err(Refusal::NDoesNotFit));
    }
}

/// Read only: four satellites, zeros for the fill.
#[test]
fn g34e() {
    let header_words = "668805 032338";
    let six = "01DCD8 B000A2 E0C0B9 8743E4 A8C20E E4E890";
    let frame = of_words(&format!("{header_words} {six} CB9500"));
    assert_eq!(Some(line_of(&frame)), stream("G34e"));
    assert_eq!(Correction::count(&frame), Ok(4));
    assert_eq!(Correction::fill_is_standard(&frame), Ok(false));
    let mut entries = [Correction::default(); Correction::MOST];
    for (i, entry) in entries[..4].iter_mut().enumerate() {
        *entry = Correction::entry(&frame, i).unwrap();
        assert_eq!(*entry, g31d_entry(i as i32));
    }
    let again = Correction::make(&frame.header, &entries, 4).unwrap();
    assert_eq!(again, of_words(&format!("{header_words} {six} CB95AA")));
    assert_eq!(null::read(&frame), Err(Refusal::NDoesNotFit));
}

#[test]
fn v32a_v32b_g32a() {
    let words = ["668005 032320", "110082 940CFE 9AB91F 335115", "V32a"];
    a_position(32, [285_246_100, 218_012_345, 523_456_789], words);
    let words = ["668005 032320", "FFFFFF FF0000 000180 000001", "V32b"];
    a_position(32, [-1, 1, -2_147_483_647], words);
    let words = ["668005 032320", "7FFFFF FF8000 000100 000000", "G32a"];
    a_position(32, [2_147_483_647, -2_147_483_647, 0], words);
}

#[test]
fn g33a() {
    let entry = |i: u8| {
        let three = if i == 30 { 0b100 } else { i % 8 };
        let (health, reserved) = (three / 4, three % 4);
        let (time, last) = (i % 16, i % 4);
        Health::glonass([0, i + 1, i % 2, health, reserved, i, 1, 0, 1, time, last])
    };
    let entries: Vec<Health> = (0..31).map(entry).collect();
    let words = [
        "668405 0323F8",
        "040140 0A4345 0C854A 12C74F 150950 1B4B55 1D8D5A 23CF5F 241160 2A5365
         2C956A 32D76F 351970 3B5B75 3D9D7A 43DF7F 442140 4A6345 4CA54A 52E74F
         552950 5B6B55 5DAD5A 63EF5F 643160 6A7365 6CB56A 72F76F 753970 7B7B75
         7D3D7A",
    ];
    list(33, &entries, words);
}

#[test]
fn v36a_v36b_v36c() {
    let words = ["669005 032310", "98928E 908C00", "V36a"];
    a_text(36, &[152, 146, 142, 144, 140], words);
    let words = ["669005 032318", "8FAEB0 B22035 3A20BF", "V36b"];
    a_text(36, &[143, 174, 176, 178, 32, 53, 58, 32, 191], words);
    let words = ["669005 032310", "544F50 4D0000", "V36c"];
    a_text(36, b"TOPM", words);
}

#[test]
fn g36a_g36b_g36c() {
    let words = ["669005 032310", "017F80 BF0000", "G36a"];
    a_text(36, &[1, 127, 128, 191], words);
    let letters: Vec<u8> = (128..=191).collect();
    let words = [
        "669005 0323B0",
        "808182 838485 868788 898A8B 8C8D8E 8F9091 929394 959697 98999A 9B9C9D
         9E9FA0 A1A2A3 A4A5A6 A7A8A9 AAABAC ADAEAF B0B1B2 B3B4B5 B6B7B8 B9BABB
         BCBDBE BF0000",
        "",
    ];
    a_text(36, &letters, words);
    let data = "BFBFBF ".repeat(30);
    a_text(36, &[191; 90], ["669005 0323F0", &data, ""]);
}
