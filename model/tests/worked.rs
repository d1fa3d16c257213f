//! The rules' worked values: the whole stream with its listing and journal
//! record, and every line of 'Worked values'.

mod common;

use common::{frame, header, turned};
use rtcm2_model::frame::State;
use rtcm2_model::line::{bits_of_byte, turned_over};
use rtcm2_model::reader::{Fed, Reader};
use rtcm2_model::record::correction::Correction;
use rtcm2_model::record::list::List;
use rtcm2_model::record::values::{cn0_dbhz, prc_mm, rrc_mm_s, stops, udre_limit_mm, Value};
use rtcm2_model::record::{null, text};
use rtcm2_model::refusal::Refusal;
use rtcm2_model::word::{bits_of, encode, Pair};
use rtcm2_model::{journal, listing, writer};

const STREAM: [u8; 11] = [
    0x40, 0x66, 0x61, 0x41, 0x68, 0x7F, 0x7F, 0x6C, 0x73, 0x7F, 0x44,
];
const TURNED: [u8; 11] = [
    0x7F, 0x59, 0x5E, 0x7E, 0x57, 0x40, 0x40, 0x53, 0x4C, 0x40, 0x7B,
];
const TEXT: &str = "6 6 5 100 3 0 0 00\nodd 0 even 0\nframes 1 bytes 11 passed 0\n";
const TURNED_TEXT: &str = "6 6 5 100 3 0 0 11\nodd 0 even 0\nframes 1 bytes 11 passed 0\n";

fn through_reader(bytes: &[u8]) -> String {
    let mut text = Vec::new();
    listing::through_reader(bytes, &mut text).unwrap();
    String::from_utf8(text).unwrap()
}

fn line(text: &str) -> Vec<bool> {
    let bits = text.chars().filter(|c| *c != ' ');
    bits.map(|c| c == '1').collect()
}

#[test]
fn the_stream_is_listed() {
    for (bytes, text) in [(STREAM, TEXT), (TURNED, TURNED_TEXT)] {
        assert_eq!(listing::by_definition(&bytes), text);
        assert_eq!(through_reader(&bytes), text);
    }
    assert_eq!(turned_over(&STREAM), TURNED);
}

#[test]
fn the_words_have_their_parities() {
    let zero = Pair {
        d29: false,
        d30: false,
    };
    let first = encode(&bits_of(0x66_1805), zero);
    assert_eq!(first.to_vec(), line("011001100001100000000101 111111"));
    let pair = Pair {
        d29: first[28],
        d30: first[29],
    };
    let second = encode(&bits_of(0x03_2300), pair);
    assert_eq!(second.to_vec(), line("111111001101110011111111 001000"));
}

#[test]
fn the_writer_gives_the_stream() {
    let mut buffer = [0xEE; 13];
    let opened = writer::open(&mut buffer).unwrap();
    assert_eq!(opened.length, 1);
    let null = null::make(&header(6), 0).unwrap();
    let written = writer::write(&null, opened.carried, &mut buffer[1..]).unwrap();
    assert_eq!(written.length, 10);
    assert_eq!((written.carried.d29, written.carried.d30), (0, 0));
    assert_eq!(buffer[..11], STREAM);
    assert_eq!(buffer[11..], [0xEE; 2]);
}

#[test]
fn the_journal_record_is_printed_so() {
    let record = [0x52, 0x32, 0x00, 0x66, 0x18, 0x05, 0x03, 0x23, 0x00];
    let mut buffer = [0; 9];
    let null = frame(6, 0);
    assert_eq!(journal::keep(&null, &mut buffer), Ok(9));
    assert_eq!(buffer, record);
    assert_eq!(journal::recall(&record), Ok((null, 9)));
}

#[test]
fn both_streams_give_one_frame_but_for_its_pair_and_ten_bytes_none() {
    for (bytes, expected) in [(STREAM, frame(6, 0)), (TURNED, turned(frame(6, 0)))] {
        let mut reader = Reader::new();
        let fed = reader.feed_all(&bytes).unwrap();
        assert_eq!(
            fed,
            Fed {
                used: 11,
                passed: 0
            }
        );
        let taken = reader.take().unwrap();
        assert_eq!((taken.position, taken.frame), (6, expected));
        assert_eq!(reader.end(), Ok(()));
        assert_eq!(reader.take(), Err(Refusal::NoFrameWaits));

        let mut reader = Reader::new();
        reader.feed_all(&bytes[..10]).unwrap();
        reader.end().unwrap();
        assert_eq!(reader.take(), Err(Refusal::NoFrameWaits));
    }
}

#[test]
fn bytes_3f_and_40() {
    let mut reader = Reader::new();
    assert_eq!(reader.feed(0x3F).unwrap_err().number(), 1);
    assert_eq!(reader.feed(0x40), Ok(()));
    assert_eq!(bits_of_byte(0x3F), None);
    assert_eq!(bits_of_byte(0x40), Some([false; 6]));
    let lowest_first = [true, false, false, false, false, false];
    assert_eq!(bits_of_byte(0x41), Some(lowest_first));
}

#[test]
fn corrections_in_millimetres() {
    assert_eq!(prc_mm(0, 32767), Ok(Value::Is(655_340)));
    assert_eq!(prc_mm(1, -32767), Ok(Value::Is(-10_485_440)));
    assert_eq!(prc_mm(0, -32768), Ok(Value::Stop));
    assert_eq!(prc_mm(1, -32768), Ok(Value::Stop));
    assert_eq!(rrc_mm_s(0, 127), Ok(Value::Is(254)));
    assert_eq!(rrc_mm_s(1, -127), Ok(Value::Is(-4064)));
    assert_eq!(rrc_mm_s(0, -128), Ok(Value::Stop));
    assert_eq!(rrc_mm_s(1, -128), Ok(Value::Stop));
    assert!(stops(-32768, 0) && stops(0, -128) && stops(-32768, -128));
    assert!(!stops(-32767, -127) && !stops(32767, 127));
}

#[test]
fn udre_limits_and_cn0() {
    let factor = State::of_code(3);
    assert_eq!(udre_limit_mm(factor, 2), Ok(Some(2400)));
    let unmonitored = State::of_code(6);
    assert_eq!(udre_limit_mm(unmonitored, 2), Ok(Some(8000)));
    assert_eq!(udre_limit_mm(factor, 3), Ok(None));
    assert_eq!(cn0_dbhz(31), Ok(Some(55)));
    assert_eq!(cn0_dbhz(0), Ok(None));
}

#[test]
fn satellites_that_n_gives() {
    assert_eq!(Correction::count(&frame(1, 5)), Ok(3));
    assert_eq!(Correction::count(&frame(1, 7)), Ok(4));
    for n in [1, 3, 31] {
        assert_eq!(Correction::count(&frame(1, n)), Err(Refusal::NDoesNotFit));
    }
}

#[test]
fn z_count_5999_is_read() {
    let mut frame = frame(6, 0);
    frame.header.z_count = 5999;
    assert_eq!(null::read(&frame), Ok(0));
    frame.header.z_count = 6000;
    assert_eq!(null::read(&frame).unwrap_err().number(), 7);
}

#[test]
fn journal_of_31_words() {
    let mut buffer = [0; 102];
    let longest = frame(2, 31);
    assert_eq!(journal::keep(&longest, &mut buffer), Ok(102));
    assert_eq!(journal::recall(&buffer), Ok((longest, 102)));
    assert_eq!(journal::recall(&buffer[..101]).unwrap_err().number(), 15);
}

#[test]
fn text_of_90_characters() {
    let made = text::make(&header(16), &[65; 90]).unwrap();
    assert_eq!(made.n, 30);
    let refused = text::make(&header(16), &[65; 91]);
    assert_eq!(refused.unwrap_err().number(), 12);
}
