//! Late joiners: a reader that starts at a later byte of a stream, and its
//! frames at their places on the line; the worked streams of this rule.

use crate::bits::Bits;
use crate::frame::Frame;
use crate::line::bits_of_bytes;
use crate::scan::scan;

/// The frames of a stream read from a byte on, each with the line bit that it
/// begins at, counted from the start of the stream.
pub fn from_byte(bytes: &[u8], from: usize, ended: bool) -> Vec<(usize, Frame)> {
    let before = bits_of_bytes(&bytes[..from]).len();
    let frames = scan(&bits_of_bytes(&bytes[from..]), ended);
    let on_line = |(at, frame)| (before + at, frame);
    frames.into_iter().map(on_line).collect()
}

/// What each of two readers has from the first line bit on at which both have a
/// frame; none where they do not meet.
pub fn from_meeting<'a, T>(
    first: &'a [(usize, T)],
    late: &'a [(usize, T)],
) -> Option<[&'a [(usize, T)]; 2]> {
    for (i, (at, _)) in first.iter().enumerate() {
        if let Some(j) = late.iter().position(|(other, _)| other == at) {
            return Some([&first[i..], &late[j..]]);
        }
    }
    None
}

/// A reader of a worked stream: the byte that it starts at, and the line bits
/// and N of the frames that it has, before the end and after it.
pub type Start = (usize, Vec<(usize, u8)>, Vec<(usize, u8)>);

/// The worked streams A to D, and what readers of each have.
pub fn worked() -> [(Vec<u8>, Vec<Start>); 4] {
    [
        (back_to_back().to_bytes(), A.map(same).to_vec()),
        (false_header().to_bytes(), B.map(held_back).to_vec()),
        (bytes_of(INNER_C), C.map(same).to_vec()),
        (bytes_of(INNER_D), D.map(same).to_vec()),
    ]
}

const NULL: [u32; 2] = [0x66_1805, 0x03_2300];

/// A: a null frame, V1a, a frame of type 6 with N 1, a null frame.
fn back_to_back() -> Bits {
    let mut bits = Bits::opened();
    bits.push_words(&NULL);
    bits.push_words(&[0x66_0405, 0x03_2310, 0x03_03E8, 0xFB_4DAA]);
    bits.push_words(&[0x66_1805, 0x03_2308, 0xAA_AAAA]);
    bits.push_words(&NULL);
    bits
}

/// B: the same, then a header with N 31, most of whose words do not come, and a
/// null frame in them.
fn false_header() -> Bits {
    let mut bits = back_to_back();
    bits.push_words(&[0x66_0405, 0x03_23F8]);
    bits.push_words(&NULL);
    bits
}

/// C: a frame of type 16 with N 2 whose data words are a header with N 0, then a
/// null frame and V1a. A reader that starts within takes the header for a frame.
const INNER_C: &str = "40 66 49 40 68 66 7F 6C 73 7D 6C 59 5E 7E 57 65 7F 6C 73 7F 61 59 5E 7E 57 65 7F 6C 73 7F 61 59 7E 7D 57 52 40 53 4C 42 53 40 43 7C 45 4B 5F 4B 5B 55 71";

/// D: the inner header has N 2 and covers the null frame; a frame more at last.
const INNER_D: &str = "40 66 49 40 68 66 7F 6C 73 7D 6C 59 5E 7E 57 65 7F 6C 73 7D 6C 59 5E 7E 57 65 7F 6C 73 7F 61 59 7E 7D 57 52 40 53 4C 42 53 40 43 7C 45 4B 5F 4B 5B 55 71 59 5E 7E 57 40 40 53 4C 44 61 6A 6A 6A 6A 55";

/// The byte that a reader starts at, and its frames before the end.
type Before = (usize, &'static [(usize, u8)]);

const A: [Before; 6] = [
    (0, &[(6, 0), (66, 2), (186, 1), (276, 0)]),
    (1, &[(66, 2), (186, 1), (276, 0)]),
    (3, &[(66, 2), (186, 1), (276, 0)]),
    (7, &[(66, 2), (186, 1), (276, 0)]),
    (11, &[(186, 1), (276, 0)]),
    (12, &[(186, 1), (276, 0)]),
];

const B: [Before; 2] = [
    (0, &[(6, 0), (66, 2), (186, 1), (276, 0)]),
    (11, &[(186, 1), (276, 0)]),
];

const C: [Before; 3] = [
    (0, &[(6, 2), (126, 0), (186, 2)]),
    (3, &[(66, 0), (126, 0), (186, 2)]),
    (12, &[(126, 0), (186, 2)]),
];

const D: [Before; 3] = [
    (0, &[(6, 2), (126, 0), (186, 2), (306, 1)]),
    (3, &[(66, 2), (186, 2), (306, 1)]),
    (12, &[(126, 0), (186, 2), (306, 1)]),
];

/// The end brings no frame more.
fn same((from, before): Before) -> Start {
    (from, before.to_vec(), before.to_vec())
}

/// The end brings the frame that the false header held back.
fn held_back((from, before): Before) -> Start {
    (from, before.to_vec(), [before, &[(396, 0)]].concat())
}

/// The bytes that a text of two-digit numbers stands for.
fn bytes_of(text: &str) -> Vec<u8> {
    let byte = |part| u8::from_str_radix(part, 16).expect("two digits");
    text.split(' ').map(byte).collect()
}
