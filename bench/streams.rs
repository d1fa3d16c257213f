// Makes the streams of the benchmark, 4,000,000 bytes each, in the folder given: always the same ones.
use std::path::Path;

const LENGTH: usize = 4_000_000;

// Six line bits a byte, the first one lowest.
const BITS: usize = 6 * LENGTH;

// The first eight data bits of a header, and how many words a chain of false headers has: more of them would make a frame of the second ones.
const PREAMBLE: u32 = 0b0110_0110;
const CHAIN: usize = 25;

// The data bits of each parity bit, D1 highest, and whether D30* is carried into it, else D29*.
const PARITY: [(u32, bool); 6] = [
    (0xEC7CD2, false),
    (0x763E69, true),
    (0xBB1F34, false),
    (0x5D8F9A, true),
    (0xAEC7CD, true),
    (0x2DEA27, false),
];

// Random numbers by xorshift, from a fixed start.
struct Random(u64);

impl Random {
    fn below(&mut self, limit: u64) -> u64 {
        self.0 ^= self.0 << 13;
        self.0 ^= self.0 >> 7;
        self.0 ^= self.0 << 17;
        (self.0 >> 11) % limit
    }
}

// Line bits in the order sent.
struct Line(Vec<bool>);

impl Line {
    // A word of 24 data bits with its parity, after the two bits that are carried.
    fn word(&mut self, data: u32) {
        let d29 = self.0[self.0.len() - 2];
        let d30 = self.0[self.0.len() - 1];
        for i in (0..24).rev() {
            self.0.push((data >> i & 1 == 1) ^ d30);
        }
        for (mask, with_d30) in PARITY {
            let odd = (data & mask).count_ones() % 2 == 1;
            self.0.push(odd ^ if with_d30 { d30 } else { d29 });
        }
    }

    // Two right header words: preamble, type, station; Z count, sequence, N, health.
    fn header(&mut self, random: &mut Random, kind: u32, n: u32) {
        let station = random.below(1024) as u32;
        let z = random.below(6000) as u32;
        let sequence = random.below(8) as u32;
        let health = random.below(8) as u32;
        self.word(PREAMBLE << 16 | kind << 10 | station);
        self.word(z << 11 | sequence << 8 | n << 3 | health);
    }

    fn words(&mut self, random: &mut Random, n: u64) {
        for _ in 0..n {
            let data = random.below(1 << 24) as u32;
            self.word(data);
        }
    }

    fn bytes(&self) -> Vec<u8> {
        let byte = |six: &[bool]| 0x40 + six.iter().rev().fold(0, |x, &bit| 2 * x + bit as u8);
        self.0.chunks_exact(6).take(LENGTH).map(byte).collect()
    }
}

const SEED: u64 = 0x9E37_79B9_7F4A_7C15;

// A frame of type 1 or 9 with N as those have it and random data.
fn frame(line: &mut Line, random: &mut Random) {
    let n = [2, 4, 5, 7, 9, 10, 12, 14, 15, 17][random.below(10) as usize];
    let kind = [1, 9][random.below(2) as usize];
    line.header(random, kind, n);
    line.words(random, n as u64);
}

// A frame of type 1 with N one of those given.
fn short(line: &mut Line, random: &mut Random, numbers: &[u32]) {
    let n = numbers[random.below(numbers.len() as u64) as usize];
    line.header(random, 1, n);
    line.words(random, n as u64);
}

// Bytes of a line that begins with zero bits and goes on piece by piece.
fn stream(lead: usize, piece: impl Fn(&mut Line, &mut Random)) -> Vec<u8> {
    let mut random = Random(SEED);
    let mut line = Line(vec![false; lead]);
    while line.0.len() < BITS {
        piece(&mut line, &mut random);
    }
    line.bytes()
}

// Before each frame a header that says N 31, up to five right words and a stray bit: it holds until a word fails, and covers the frame.
fn false_start(line: &mut Line, random: &mut Random) {
    line.header(random, 1, 31);
    let n = random.below(6);
    line.words(random, n);
    stray(line, random);
    frame(line, random);
}

// A header that says N 31, fewer right words than that, and a stray bit. The few frames in it are those that the random words make.
fn cut_short(line: &mut Line, random: &mut Random) {
    line.header(random, 1, 31);
    let n = random.below(30);
    line.words(random, n);
    stray(line, random);
}

fn stray(line: &mut Line, random: &mut Random) {
    line.0.push(random.below(2) == 1);
}

// A frame of any type and length with random data.
fn any_frame(line: &mut Line, random: &mut Random) {
    let kind = random.below(64) as u32;
    let n = random.below(32) as u32;
    line.header(random, kind, n);
    line.words(random, n as u64);
}

// What a harbour beacon sends: corrections of three satellites in most frames, else a reference station, a health or a null frame.
fn beacon_frame(line: &mut Line, random: &mut Random) {
    let (kind, n) = [(9, 5), (9, 5), (9, 5), (9, 5), (9, 5), (9, 5), (3, 4), (5, 1), (6, 0), (6, 1)][random.below(10) as usize];
    line.header(random, kind, n);
    line.words(random, n as u64);
}

// 32 right words, each of which could be both words of a header that says N 31; a stray bit, which none of these frames gets over, and a frame.
fn headers(line: &mut Line, random: &mut Random) {
    for _ in 0..32 {
        let rest = random.below(256) as u32;
        line.word(PREAMBLE << 16 | rest << 8 | 31 << 3 | rest % 8);
    }
    stray(line, random);
    short(line, random, &[2, 5]);
}

// A word's data bits with polarity undone, where the word that starts at a bit is right.
fn right_at(line: &[bool], start: usize) -> Option<u32> {
    let (before, word) = line[start - 2..start + 30].split_at(2);
    let data = word[..24].iter().fold(0, |x, &bit| 2 * x + (bit ^ before[1]) as u32);
    let right = |(&sent, (mask, with_d30)): (&bool, (u32, bool))| {
        sent == ((data & mask).count_ones() % 2 == 1) ^ if with_d30 { before[1] } else { before[0] }
    };
    word[24..].iter().zip(PARITY).all(right).then_some(data)
}

// A word with a preamble stands behind so many: it fits when the word 28 bits after the start of the one before it is right and has a preamble too,
// no header that either of them ends says so few words that its frame would stand within the chain, and its last bits can go on so.
fn chains(line: &[bool], words: usize) -> bool {
    let says = |data: u32| (data >> 3 & 31) as usize;
    let end = line.len();
    if line[end - 3] != line[end - 2] || line[end - 2] == line[end - 1] {
        return false;
    }
    if words == 0 {
        return true;
    }
    let last = right_at(line, end - 30).expect("a word");
    let Some(between) = right_at(line, end - 32) else {
        return false;
    };
    between >> 16 == PREAMBLE && says(last) + words >= CHAIN && (words == 1 || says(between) + words >= CHAIN)
}

// Such words to the end of the chain; false where there are none.
fn chain(line: &mut Line, words: usize) -> bool {
    if words == CHAIN {
        return true;
    }
    for rest in 0..1 << 16 {
        line.word(PREAMBLE << 16 | rest);
        if chains(&line.0, words) && chain(line, words + 1) {
            return true;
        }
        line.0.truncate(line.0.len() - 30);
    }
    false
}

// Two bits and a chain of right words, each of which starts a header; 28 bits after the start of each another header starts, whose words are right
// too. Then a stray bit, which none of these frames gets over, and a frame.
fn chained() -> Vec<u8> {
    let mut made = Line(vec![false; 2]);
    assert!(chain(&mut made, 0));
    stream(6, |line, random| {
        line.0.extend(&made.0);
        stray(line, random);
        short(line, random, &[2, 5]);
    })
}

// Random line bits.
fn noise() -> Vec<u8> {
    let mut random = Random(SEED);
    (0..LENGTH).map(|_| 0x40 + random.below(64) as u8).collect()
}

// Every bit turned over.
fn turned(bytes: &[u8]) -> Vec<u8> {
    bytes.iter().map(|byte| byte ^ 0x3F).collect()
}

// One byte of every 2,000 lost.
fn dropped(bytes: &[u8]) -> Vec<u8> {
    let kept = bytes.iter().enumerate().filter(|(i, _)| i % 2000 != 1000);
    kept.map(|(_, byte)| *byte).collect()
}

fn main() {
    let folder = std::env::args().nth(1).expect("a folder");
    let clean = stream(6, frame);
    let streams = [
        ("turned", turned(&clean)),
        ("dropped", dropped(&clean)),
        ("clean", clean),
        ("false", stream(6, false_start)),
        ("off_grid", stream(7, frame)),
        ("noise", noise()),
        ("cut_short", stream(6, cut_short)),
        ("all_types", stream(6, any_frame)),
        ("all_types_off", stream(7, any_frame)),
        ("beacon", stream(6, beacon_frame)),
        ("headers", stream(6, headers)),
        ("chained", chained()),
        ("short_0", stream(6, |line, random| short(line, random, &[0]))),
        ("short_0_to_2", stream(6, |line, random| short(line, random, &[0, 1, 2]))),
        ("short_2", stream(6, |line, random| short(line, random, &[2]))),
    ];
    for (name, bytes) in streams {
        std::fs::write(Path::new(&folder).join(name), bytes).expect("a stream written");
    }
}
