//! The stream of the examples and what they must print: a line for each
//! correction, by the definition, then the words that failed and the totals.

use crate::bits::Bits;
use crate::frame::{Frame, State};
use crate::line::bits_of_bytes;
use crate::record::correction::{Correction, Issue, LAST_TB};
use crate::record::list::List;
use crate::record::values::{prc_mm, rrc_mm_s, udre_limit_mm, Value};
use crate::record::{system, System};
use crate::refusal::Answer;
use crate::rng::Rng;
use crate::samples;
use crate::scan::{faults, odd_and_even, scan};

/// Frames of types 1, 9, 31 and 34 among others: one past the hour, one with all
/// that stands for no number, one with a tb that can't be; noise, a false start,
/// turned polarity and bytes without bits.
pub fn stream() -> Vec<u8> {
    let mut rng = Rng::named("examples");
    let mut bits = Bits::opened();
    bits.push_frame(&Correction::sample(&mut rng, 1, 9));
    bits.push_frame(&samples::position_frame(&mut rng, 3));
    bits.push_noise(&mut rng, 40);
    let mut late = Correction::sample(&mut rng, 9, 2);
    late.header.z_count = 6000;
    bits.push_frames(&[late, without_numbers(&mut rng)]);
    let cut = bits.push_frame(&Correction::sample(&mut rng, 1, 18));
    bits.remove(cut + 300, 7);
    bits.push_frame(&samples::text_frame(&mut rng, 16, 20));
    let turned = bits.len();
    bits.push_noise(&mut rng, 2);
    bits.push_frame(&Correction::sample(&mut rng, 9, 3));
    bits.push_frame(&samples::null_frame(&mut rng, 6, 1));
    bits.push_frame(&Correction::sample(&mut rng, 9, 1));
    bits.push_frame(&late_tb(&mut rng));
    bits.push_frame(&samples::null_frame(&mut rng, 34, 1));
    bits.push_frame(&Correction::sample(&mut rng, 34, 4));
    bits.push_frame(&samples::text_frame(&mut rng, 36, 11));
    bits.turn_from(turned);
    let mut bytes = bits.to_bytes();
    bytes.splice(100..100, *b"\r\n");
    bytes
}

/// A frame with stop for PRC alone, for RRC alone, and no UDRE limit.
fn without_numbers(rng: &mut Rng) -> Frame {
    let mut entries = [Correction::default(); Correction::MOST];
    entries.fill_with(|| Correction::drawn(rng, System::Gps));
    entries[0].prc = i16::MIN;
    entries[1].rrc = i8::MIN;
    entries[2].udre = 3;
    Correction::make(&samples::header(rng, 1), &entries, 3).expect("a correct record")
}

/// A frame of type 31 with three satellites. The second one's tb is past the hour: its
/// eight bits end with seven that say the first number that no tb has.
fn late_tb(rng: &mut Rng) -> Frame {
    let mut frame = Correction::sample(rng, 31, 3);
    let eight = frame.words[3] >> 16;
    let late = eight / 128 * 128 + u32::from(LAST_TB) + 1;
    frame.words[3] = late << 16 | frame.words[3] & 0xFFFF;
    frame
}

/// What the examples print of a stream: a line for each correction and for each one
/// that can't be read, then the positions that a word ruled out and the totals.
pub fn expected(bytes: &[u8]) -> String {
    let bits = bits_of_bytes(bytes);
    let frames = scan(&bits, true);
    let mut text = String::new();
    let (mut corrections, mut refused) = (0, 0);
    for (position, frame) in &frames {
        for i in 0..Correction::count(frame).unwrap_or(0) {
            let shown = match correction_line(frame, i) {
                Ok(line) => {
                    corrections += 1;
                    line
                }
                Err(refusal) => {
                    refused += 1;
                    format!("entry {i} refused {}", refusal.number())
                }
            };
            text += &format!("{} {} {shown}\n", *position as u32, source(frame));
        }
    }
    let frames = frames.len();
    let [odd, even] = odd_and_even(&faults(&bits, true, frames));
    text += &format!("odd {odd} even {even}\n");
    text + &format!("frames {frames} corrections {corrections} refused {refused}\n")
}

/// Where a correction comes from: the two bits before its frame, station, Z count,
/// system.
fn source(frame: &Frame) -> String {
    let (header, carried) = (&frame.header, frame.carried);
    let system = match system(header.type_number) {
        System::Gps => "GPS",
        System::Glonass => "GLO",
    };
    format!(
        "{}{} {} {} {system}",
        carried.d29, carried.d30, header.station, header.z_count
    )
}

/// What a correction says: satellite, PRC, RRC, UDRE limit, issue.
fn correction_line(frame: &Frame, number: usize) -> Answer<String> {
    let entry = Correction::entry(frame, number)?;
    Ok(format!(
        "{} {} {} {}",
        entry.satellite,
        values(&entry)?,
        limit(frame.header.state, entry.udre)?,
        issue(entry.issue),
    ))
}

/// IOD, or the change bit and tb with a stroke between them.
fn issue(issue: Issue) -> String {
    match issue {
        Issue::Iod(iod) => iod.to_string(),
        Issue::Age { change, tb } => format!("{change}/{tb}"),
    }
}

/// PRC and RRC of a correction, or "stop" for both where either stops the
/// satellite.
fn values(entry: &Correction) -> Answer<String> {
    let prc = prc_mm(entry.scale, entry.prc)?;
    let rrc = rrc_mm_s(entry.scale, entry.rrc)?;
    Ok(match (prc, rrc) {
        (Value::Is(mm), Value::Is(mm_s)) => format!("{mm} {mm_s}"),
        _ => "stop stop".to_string(),
    })
}

fn limit(state: State, udre: u8) -> Answer<String> {
    let limit = udre_limit_mm(state, udre)?;
    Ok(limit.map_or("none".to_string(), |mm| mm.to_string()))
}
