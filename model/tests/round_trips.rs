//! Round trips at random: records to frames and back, frames to bytes and back,
//! frames to journal records and back.

use rtcm2_model::again::made_again;
use rtcm2_model::frame::{check_frame, header_of, header_words, n_of};
use rtcm2_model::frame::{CarriedBits, Frame, Header, State};
use rtcm2_model::line::bits_of_bytes;
use rtcm2_model::record::observation::Edition;
use rtcm2_model::record::{general, general_null, layout, null, position, text, types, Layout};
use rtcm2_model::refusal::Answer;
use rtcm2_model::rng::Rng;
use rtcm2_model::scan::scan;
use rtcm2_model::writer;
use rtcm2_model::{journal, samples, tables};

#[test]
fn made_positions_nulls_and_texts_read_back_equal() {
    let mut rng = Rng::named("positions and texts");
    for round in 0..1000 {
        let record = samples::position(&mut rng);
        let header = samples::header(&mut rng, [3, 32][round % 2]);
        let frame = position::make(&header, &record).unwrap();
        assert_eq!(position::read(&frame), Ok(record));

        for type_number in [6, 34] {
            let n = round as u8 % 2;
            let frame = samples::null_frame(&mut rng, type_number, n);
            assert_eq!(null::read(&frame), Ok(n));
        }

        let count = 1 + round % text::MOST;
        let type_number = [16, 36][rng.place(2)];
        let codes = samples::characters(&mut rng, type_number, count);
        let frame = text::make(&samples::header(&mut rng, type_number), &codes).unwrap();
        assert_eq!(usize::from(frame.n), count.div_ceil(3));
        let mut buffer = vec![0xEE; count];
        assert_eq!(text::read(&frame, &mut buffer), Ok(count));
        assert_eq!(buffer, codes);
    }
}

/// Reads whatever record the frame has and makes the frame anew.
fn made_anew(frame: &Frame) -> Answer<Frame> {
    let edition = [Edition::Gost, Edition::Bd][usize::from(frame.header.station) % 2];
    match layout(frame.header.type_number, frame.n) {
        Layout::Plain => Ok(frame.bare()),
        _ => made_again(frame, edition, &mut Vec::new()),
    }
}

/// Whether the frame has standard fill, wherever its layout has fill.
fn fill_is_standard(frame: &Frame) -> bool {
    let layout = layout(frame.header.type_number, frame.n);
    if let Some(list) = tables::of(layout) {
        return (list.fill_is_standard)(frame).unwrap();
    }
    match layout {
        Layout::Null => null::fill_is_standard(frame).unwrap(),
        Layout::General => general::fill_is_standard(frame).unwrap(),
        Layout::GeneralNull => general_null::fill_is_standard(frame).unwrap(),
        _ => true,
    }
}

fn any_pair(rng: &mut Rng) -> CarriedBits {
    CarriedBits {
        d29: rng.below(2) as u8,
        d30: rng.below(2) as u8,
    }
}

fn written(frame: &Frame, carried: CarriedBits) -> Vec<u8> {
    let mut buffer = vec![0; 165];
    let written = writer::write(frame, carried, &mut buffer).unwrap();
    buffer.truncate(written.length);
    buffer
}

#[test]
fn readable_frames_made_anew_give_their_own_bits() {
    let mut rng = Rng::named("made anew");
    let types = types();
    let mut readable = 0;
    for _ in 0..20_000 {
        let type_number = types[rng.place(types.len())];
        let bound = if rng.bit() { 32 } else { 3 };
        let n = rng.below(bound) as u8;
        let mut frame = samples::plain_frame(&mut rng, type_number, n).after(any_pair(&mut rng));
        if type_number == 16 || type_number == 36 {
            for word in &mut frame.words {
                *word &= 0x7F_7F7F;
            }
        }
        let Ok(anew) = made_anew(&frame) else {
            continue;
        };
        readable += 1;
        assert_eq!(anew.carried, CarriedBits::ZEROS);
        let carried = any_pair(&mut rng);
        let same = written(&frame, carried) == written(&anew, carried);
        assert_eq!(same, fill_is_standard(&frame));
    }
    assert!(readable > 5000, "only {readable} frames were readable");
}

#[test]
fn sample_frames_made_anew_are_equal() {
    let mut rng = Rng::named("samples made anew");
    for _ in 0..5000 {
        let frame = samples::record_frame(&mut rng).after(any_pair(&mut rng));
        assert_eq!(made_anew(&frame), Ok(frame.bare()));
    }
}

#[test]
fn header_words_go_both_ways() {
    let mut rng = Rng::named("header words");
    for _ in 0..20_000 {
        let header = Header {
            type_number: 1 + rng.below(64) as u16,
            station: rng.below(1024) as u16,
            z_count: rng.below(8192) as u16,
            sequence: rng.below(8) as u8,
            state: State::of_code(rng.below(8) as u32),
        };
        let n = rng.below(32) as u8;
        let [first, second] = header_words(&header, n);
        assert_eq!((header_of(first, second), n_of(second)), (header, n));
        let any = [0x66_0000 | rng.word() & 0xFFFF, rng.word()];
        assert_eq!(header_words(&header_of(any[0], any[1]), n_of(any[1])), any);
    }
}

#[test]
fn written_streams_give_their_frames() {
    let mut rng = Rng::named("written streams");
    for _ in 0..300 {
        let frames = samples::frames(&mut rng, 6);
        let mut bytes = vec![0];
        let mut carried = writer::open(&mut bytes).unwrap().carried;
        let mut expected = Vec::new();
        for frame in &frames {
            expected.push((6 * bytes.len(), frame.after(carried)));
            let mut buffer = [0; 165];
            let written = writer::write(frame, carried, &mut buffer).unwrap();
            assert_eq!(written.length, 5 * (usize::from(frame.n) + 2));
            carried = written.carried;
            bytes.extend(&buffer[..written.length]);
        }
        assert_eq!(scan(&bits_of_bytes(&bytes), true), expected);
    }
}

#[test]
fn journal_records_give_their_frames() {
    let mut rng = Rng::named("journal");
    for _ in 0..5000 {
        let mut frame = samples::any_frame(&mut rng).after(any_pair(&mut rng));
        frame.header.z_count = rng.below(8192) as u16;
        let mut buffer = [0xEE; 110];
        let length = journal::keep(&frame, &mut buffer).unwrap();
        assert_eq!(length, 3 * usize::from(frame.n) + 9);
        assert!(buffer[length..].iter().all(|byte| *byte == 0xEE));
        let recalled = Ok((frame.bare(), length));
        assert_eq!(journal::recall(&buffer), recalled);
        assert_eq!(journal::recall(&buffer[..length]), recalled);
        let mut of_bare = [0xEE; 110];
        journal::keep(&frame.bare(), &mut of_bare).unwrap();
        assert_eq!(of_bare, buffer);
    }
}

#[test]
fn recalled_records_are_kept_as_they_were() {
    let mut rng = Rng::named("recalled");
    for _ in 0..5000 {
        let n = rng.below(32) as u8;
        let mut bytes = vec![0x52, 0x32, n, 0x66];
        bytes.resize_with(3 * usize::from(n) + 9, || rng.byte());
        bytes[8] = bytes[8] & 7 | n << 3;
        let (frame, length) = journal::recall(&bytes).unwrap();
        assert_eq!(check_frame(&frame), Ok(()));
        let mut buffer = vec![0; length];
        assert_eq!(journal::keep(&frame, &mut buffer), Ok(length));
        assert_eq!(buffer, bytes);
    }
}
