//! Late joiners by the definition: the worked streams, and on every test stream
//! readers from any byte on, which have the same frames once they meet.

use rtcm2_model::frame::Frame;
use rtcm2_model::joining::{from_byte, from_meeting, worked};
use rtcm2_model::rng::Rng;
use rtcm2_model::streams;

/// Where frames begin, with N.
fn places(frames: &[(usize, Frame)]) -> Vec<(usize, u8)> {
    frames.iter().map(|(at, frame)| (*at, frame.n)).collect()
}

#[test]
fn worked_streams() {
    for (bytes, starts) in worked() {
        for (from, before, after) in starts {
            assert_eq!(places(&from_byte(&bytes, from, false)), before);
            assert_eq!(places(&from_byte(&bytes, from, true)), after);
        }
    }
}

#[test]
fn readers_that_meet_have_the_same_from_there_on() {
    let mut rng = Rng::named("joining");
    let (mut met, mut apart) = (0, 0);
    for stream in streams::all() {
        let from = rng.place(stream.bytes.len() + 1);
        for ended in [false, true] {
            let first = from_byte(&stream.bytes, 0, ended);
            let late = from_byte(&stream.bytes, from, ended);
            match from_meeting(&first, &late) {
                Some([rest, late_rest]) => {
                    assert_eq!(rest, late_rest, "{} from byte {from}", stream.name);
                    met += 1;
                }
                None => apart += 1,
            }
        }
    }
    assert!(met > 100 && apart > 10, "{met} met, {apart} did not");
}
