//! The reader against the definition: random and mangled streams, cut in random
//! pieces, calls interleaved at random, refused ones too.

mod common;

use common::turned;
use rtcm2_model::bits::Bits;
use rtcm2_model::counts::Counts;
use rtcm2_model::frame::{header_words, Frame};
use rtcm2_model::line::{bits_of_byte, bits_of_bytes, turned_over};
use rtcm2_model::mangle::mangle;
use rtcm2_model::reader::{Fed, Reader, Taken};
use rtcm2_model::refusal::{Answer, Refusal};
use rtcm2_model::rng::Rng;
use rtcm2_model::samples;
use rtcm2_model::scan::{faults, hunt, odd_and_even, scan, standing, Standing};

/// The reader's calls answered from all bits taken, by the definition.
#[derive(Default)]
struct Defined {
    bits: Vec<bool>,
    from: usize,
    ended: bool,
    taken: usize,
}

impl Defined {
    fn waiting(&mut self) -> Option<(usize, Frame)> {
        let (p, frame) = hunt(&self.bits, self.from, self.ended);
        self.from = p;
        frame.map(|frame| (p, frame))
    }

    fn check_open(&mut self) -> Answer<()> {
        if self.ended {
            return Err(Refusal::AfterEnd);
        }
        match self.waiting() {
            Some(_) => Err(Refusal::FrameWaits),
            None => Ok(()),
        }
    }

    fn feed(&mut self, byte: u8) -> Answer<()> {
        self.check_open()?;
        let six = bits_of_byte(byte).ok_or(Refusal::NotDataByte)?;
        self.bits.extend(six);
        Ok(())
    }

    fn feed_all(&mut self, bytes: &[u8]) -> Answer<Fed> {
        self.check_open()?;
        let mut fed = Fed { used: 0, passed: 0 };
        for byte in bytes {
            match self.feed(*byte) {
                Err(Refusal::NotDataByte) => fed.passed += 1,
                Err(_) => break,
                Ok(()) => {}
            }
            fed.used += 1;
        }
        Ok(fed)
    }

    fn end(&mut self) -> Answer<()> {
        self.check_open()?;
        self.ended = true;
        Ok(())
    }

    fn take(&mut self) -> Answer<Taken> {
        let (p, frame) = self.waiting().ok_or(Refusal::NoFrameWaits)?;
        self.from = p + 30 * (usize::from(frame.n) + 2);
        self.taken += 1;
        let position = p as u32;
        Ok(Taken { position, frame })
    }

    /// The faults met by now, counted.
    fn counts(&self) -> Counts {
        let met = faults(&self.bits, self.ended, self.taken);
        let [odd, even] = odd_and_even(&met).map(|count| count as u32);
        Counts { odd, even }
    }
}

/// A stream of frames, noise and lone headers, mangled a little or a lot.
fn stream(rng: &mut Rng) -> Vec<u8> {
    let mut bits = Bits::empty();
    let lead = rng.place(12);
    bits.push_noise(rng, lead);
    for _ in 0..rng.place(9) {
        match rng.below(6) {
            0 => {
                let count = rng.place(80);
                bits.push_noise(rng, count);
            }
            1 => {
                let n = rng.below(32) as u8;
                bits.push_words(&header_words(&samples::header(rng, 1), n));
            }
            2 => {
                bits.push_frame(&samples::any_null_frame(rng, 6));
                bits.push_frame(&samples::any_null_frame(rng, 6));
            }
            _ => {
                bits.push_frame(&samples::any_frame(rng));
            }
        }
    }
    let mut bytes = bits.to_bytes();
    for _ in 0..[0, 0, 1, 2, 8][rng.place(5)] {
        mangle(&mut bytes, rng);
    }
    bytes
}

/// One call of a random kind on both; refused calls change nothing.
fn call(rng: &mut Rng, reader: &mut Reader, defined: &mut Defined, rest: &mut &[u8]) {
    let before = reader.clone();
    let refused = match rng.below(8) {
        0..=2 if !rest.is_empty() => {
            let answer = reader.feed(rest[0]);
            assert_eq!(answer, defined.feed(rest[0]));
            if matches!(answer, Ok(()) | Err(Refusal::NotDataByte)) {
                *rest = &rest[1..];
            }
            answer.is_err()
        }
        3 | 4 => {
            let piece = &rest[..rng.place(rest.len().min(60) + 1)];
            let answer = reader.feed_all(piece);
            assert_eq!(answer, defined.feed_all(piece));
            *rest = &rest[answer.map_or(0, |fed| fed.used)..];
            answer.is_err()
        }
        5 if rest.is_empty() || rng.below(400) == 0 => {
            let answer = reader.end();
            assert_eq!(answer, defined.end());
            answer.is_err()
        }
        _ => {
            let answer = reader.take();
            assert_eq!(answer, defined.take());
            answer.is_err()
        }
    };
    assert_eq!(reader.waits(), defined.waiting().is_some());
    if rng.below(30) == 0 {
        assert_eq!(reader.counts(), defined.counts());
    }
    assert!(!refused || *reader == before, "a refusal changed the state");
}

#[test]
fn random_calls_answer_as_defined() {
    let mut rng = Rng::named("random calls");
    let (mut frames, mut odd, mut even) = (0, 0, 0);
    for _ in 0..4500 {
        let bytes = stream(&mut rng);
        let (mut reader, mut defined) = (Reader::new(), Defined::default());
        let mut rest = &bytes[..];
        for _ in 0..2000 {
            call(&mut rng, &mut reader, &mut defined, &mut rest);
            if defined.ended && defined.waiting().is_none() {
                break;
            }
        }
        frames += defined.taken;
        for _ in 0..6 {
            call(&mut rng, &mut reader, &mut defined, &mut rest);
        }
        assert_eq!(reader.counts(), defined.counts());
        (odd, even) = (odd + reader.counts().odd, even + reader.counts().even);
    }
    assert!(frames > 10_000, "only {frames} frames");
    assert!(odd > 1000 && even > 1000, "only {odd} and {even} faults");
}

/// Frames handed out with the bits taken by then, all waiting ones taken at once.
fn handed_out(bytes: &[u8]) -> Vec<(usize, Taken)> {
    let mut reader = Reader::new();
    let mut frames = Vec::new();
    let mut taken_bits = 0;
    for byte in bytes {
        if reader.feed(*byte).is_ok() {
            taken_bits += 6;
        }
        while let Ok(taken) = reader.take() {
            frames.push((taken_bits, taken));
        }
    }
    reader.end().unwrap();
    while let Ok(taken) = reader.take() {
        frames.push((usize::MAX, taken));
    }
    frames
}

/// What the turned stream hands out: the same frames at the same bits, with the two
/// carried bits of each turned.
fn turned_pairs(out: &[(usize, Taken)]) -> Vec<(usize, Taken)> {
    let one = |(when, taken): &(usize, Taken)| {
        let frame = turned(taken.frame);
        (*when, Taken { frame, ..*taken })
    };
    out.iter().map(one).collect()
}

#[test]
fn whole_streams_agree_with_the_scan() {
    let mut rng = Rng::named("whole streams");
    let mut frames = 0;
    for _ in 0..4500 {
        let bytes = stream(&mut rng);
        let expected = scan(&bits_of_bytes(&bytes), true);
        let out = handed_out(&bytes);
        let found: Vec<(usize, Frame)> = out
            .iter()
            .map(|(_, taken)| (taken.position as usize, taken.frame))
            .collect();
        assert_eq!(found, expected);
        assert_eq!(handed_out(&turned_over(&bytes)), turned_pairs(&out));
        frames += found.len();
    }
    assert!(frames > 10_000, "only {frames} frames");
}

#[test]
fn every_standing_frame_is_handed_out_in_time_or_covered() {
    let mut rng = Rng::named("in time");
    let (mut in_time, mut covered) = (0, 0);
    for _ in 0..1500 {
        let bytes = stream(&mut rng);
        let bits = bits_of_bytes(&bytes);
        let out = handed_out(&bytes);
        for p in 2..bits.len() {
            let Standing::Stands(frame) = standing(&bits, p) else {
                continue;
            };
            let own: Vec<_> = out
                .iter()
                .filter(|(_, taken)| taken.position as usize == p)
                .collect();
            match own.as_slice() {
                [(when, taken)] => {
                    assert_eq!(taken.frame, *frame);
                    let at_end = *when == usize::MAX && bits.len() < p + 990;
                    assert!(at_end || when - 6 < p + 990);
                    in_time += 1;
                }
                [] => {
                    assert!(is_covered(&out, p));
                    covered += 1;
                }
                _ => panic!("handed out twice"),
            }
        }
    }
    assert!(in_time > 3000 && covered > 100, "{in_time} {covered}");
}

/// Whether a frame handed out covers the bit.
fn is_covered(out: &[(usize, Taken)], p: usize) -> bool {
    out.iter().any(|(_, taken)| {
        let first = taken.position as usize;
        first < p && p < first + 30 * (usize::from(taken.frame.n) + 2)
    })
}

#[test]
fn one_byte_releases_many_frames() {
    let mut rng = Rng::named("many at once");
    let mut bits = Bits::opened();
    bits.push_words(&header_words(&samples::header(&mut rng, 1), 31));
    for _ in 0..16 {
        bits.push_frame(&samples::null_frame(&mut rng, 6, 0));
    }
    let end_of_last_word = 6 + 990;
    bits.turn(end_of_last_word - 10);
    let bytes = bits.to_bytes();
    let mut reader = Reader::new();
    let before = end_of_last_word / 6 - 1;
    assert_eq!(reader.feed_all(&bytes[..before]).unwrap().used, before);
    assert!(!reader.waits());
    reader.feed(bytes[before]).unwrap();
    let mut count = 0;
    while reader.take().is_ok() {
        count += 1;
    }
    assert_eq!(count, 15);
}
