// Feeds each stream to the library and to the model, in turns, and prints for each: its name, how many frames stand in it by the definition, how many
// each of the two handed out, millions of bytes a second of each, nanoseconds a byte of the library fed byte by byte, with a taking after each, and
// millions of bytes a second of the library read into rows, a call for 4096 bytes. Compiled with `other`, it has another build of the library in the
// turns too, whose names begin with `other_`, and prints its three speeds behind; without `other_reads`, where that build has no call for rows, 0.0.
// Arguments: the folder of the streams, how often (byte by byte an eighth of that), the streams' names.
mod clock;

use clock::now;
use rtcm2_model::reader::Reader;
use std::path::Path;

const STATE: usize = 196;
const FRAME: usize = 102;
const ROW: usize = 108;

// Bytes of a read, and rows that it never fills: at most 997 bits are held, a byte has six, and a frame sixty or more.
const READ: usize = 4096;
const ROWS: usize = (997 + 6 * READ) / 60 + 1;

// A call that feeds and takes: state, bytes, rows; how many bytes were used, how many carry no bit, how many rows were put.
type Read = unsafe extern "C" fn(*mut u8, usize, *const u8, usize, *mut u8, usize, &mut usize, &mut usize, &mut usize) -> u8;

// The calls of a build of the library, each place lent with its length.
#[derive(Clone, Copy)]
struct Calls {
    start: unsafe extern "C" fn(*mut u8, usize) -> u8,
    feed: unsafe extern "C" fn(*mut u8, usize, u8) -> u8,
    feed_all: unsafe extern "C" fn(*mut u8, usize, *const u8, usize, &mut usize, &mut usize) -> u8,
    end: unsafe extern "C" fn(*mut u8, usize) -> u8,
    take: unsafe extern "C" fn(*mut u8, usize, *mut u8, usize, &mut usize, &mut u32, &mut u8, &mut u8) -> u8,
    read: Option<Read>,
}

macro_rules! calls {
    ($name:ident, $start:literal, $feed:literal, $feed_all:literal, $end:literal, $take:literal, $read:expr) => {
        fn $name() -> Calls {
            extern "C" {
                #[link_name = $start]
                fn start(state: *mut u8, size: usize) -> u8;
                #[link_name = $feed]
                fn feed(state: *mut u8, size: usize, byte: u8) -> u8;
                #[link_name = $feed_all]
                fn feed_all(state: *mut u8, size: usize, bytes: *const u8, n: usize, used: &mut usize, passed: &mut usize) -> u8;
                #[link_name = $end]
                fn end(state: *mut u8, size: usize) -> u8;
                #[link_name = $take]
                fn take(
                    state: *mut u8,
                    size: usize,
                    frame: *mut u8,
                    room: usize,
                    length: &mut usize,
                    at: &mut u32,
                    d29: &mut u8,
                    d30: &mut u8,
                ) -> u8;
            }
            Calls { start, feed, feed_all, end, take, read: $read }
        }
    };
}

macro_rules! reads {
    ($name:ident, $read:literal) => {
        extern "C" {
            #[link_name = $read]
            fn $name(
                state: *mut u8,
                size: usize,
                bytes: *const u8,
                n: usize,
                rows: *mut u8,
                room: usize,
                used: &mut usize,
                passed: &mut usize,
                count: &mut usize,
            ) -> u8;
        }
    };
}

reads!(read, "rtcm2_read");
calls!(library, "rtcm2_start", "rtcm2_feed", "rtcm2_feed_all", "rtcm2_end", "rtcm2_take", Some(read));
#[cfg(other_reads)]
reads!(other_read, "other_rtcm2_read");
#[cfg(other_reads)]
const OTHER_READ: Option<Read> = Some(other_read);
#[cfg(all(other, not(other_reads)))]
const OTHER_READ: Option<Read> = None;
#[cfg(other)]
calls!(other, "other_rtcm2_start", "other_rtcm2_feed", "other_rtcm2_feed_all", "other_rtcm2_end", "other_rtcm2_take", OTHER_READ);

// A reader's state in lent bytes, the place of a frame's record, and how many frames came out so far.
struct Line {
    calls: Calls,
    state: [u8; STATE],
    record: [u8; FRAME],
    frames: usize,
}

// Each place is lent with its own length, and no two overlap.
impl Line {
    fn new(calls: Calls) -> Line {
        let mut line = Line { calls, state: [0; STATE], record: [0; FRAME], frames: 0 };
        assert_eq!(unsafe { (calls.start)(line.state.as_mut_ptr(), STATE) }, 0);
        line
    }

    fn take_all(&mut self) {
        let (mut length, mut at, mut d29, mut d30) = (0, 0, 0, 0);
        let (state, record) = (self.state.as_mut_ptr(), self.record.as_mut_ptr());
        while unsafe { (self.calls.take)(state, STATE, record, FRAME, &mut length, &mut at, &mut d29, &mut d30) } == 0 {
            self.frames += 1;
        }
    }

    fn end(&mut self) -> usize {
        assert_eq!(unsafe { (self.calls.end)(self.state.as_mut_ptr(), STATE) }, 0);
        self.take_all();
        self.frames
    }
}

// Frames that a library hands out, fed as many bytes at once as it takes.
fn in_slices(calls: Calls, bytes: &[u8]) -> usize {
    let mut line = Line::new(calls);
    let (mut used, mut passed) = (0, 0);
    let mut rest = bytes;
    while !rest.is_empty() {
        let state = line.state.as_mut_ptr();
        assert_eq!(unsafe { (calls.feed_all)(state, STATE, rest.as_ptr(), rest.len(), &mut used, &mut passed) }, 0);
        line.take_all();
        rest = &rest[used..];
    }
    line.end()
}

// The same, fed byte by byte.
fn in_bytes(calls: Calls, bytes: &[u8]) -> usize {
    let mut line = Line::new(calls);
    for &byte in bytes {
        assert_eq!(unsafe { (calls.feed)(line.state.as_mut_ptr(), STATE, byte) }, 0);
        line.take_all();
    }
    line.end()
}

// The same, read into rows.
fn in_rows(calls: Calls, read: Read, bytes: &[u8]) -> usize {
    let mut line = Line::new(calls);
    let mut rows = vec![0; ROW * ROWS];
    let (mut used, mut passed, mut count) = (0, 0, 0);
    for piece in bytes.chunks(READ) {
        let (state, room) = (line.state.as_mut_ptr(), rows.as_mut_ptr());
        let (from, to) = (piece.as_ptr(), rows.len());
        assert_eq!(unsafe { read(state, STATE, from, piece.len(), room, to, &mut used, &mut passed, &mut count) }, 0);
        assert_eq!(used, piece.len());
        line.frames += count;
    }
    line.end()
}

// Frames that the model hands out.
fn by_model(bytes: &[u8]) -> usize {
    let mut reader = Reader::new();
    let mut frames = 0;
    let mut rest = bytes;
    while !rest.is_empty() {
        let fed = reader.feed_all(rest).expect("fed");
        rest = &rest[fed.used..];
        while reader.take().is_ok() {
            frames += 1;
        }
    }
    reader.end().expect("ended");
    while reader.take().is_ok() {
        frames += 1;
    }
    frames
}

// A way to feed a stream: the frames of its last run, and the least time of all its runs so far.
struct Way {
    frames: usize,
    least: f64,
}

impl Way {
    fn new() -> Way {
        Way { frames: 0, least: f64::MAX }
    }

    fn run(&mut self, feed: impl Fn() -> usize) {
        let start = now();
        self.frames = feed();
        self.least = self.least.min(now() - start);
    }

    // Millions of bytes a second; nanoseconds a byte.
    fn speed(&self, bytes: &[u8]) -> f64 {
        bytes.len() as f64 / 1e6 / self.least
    }

    fn a_byte(&self, bytes: &[u8]) -> f64 {
        self.least * 1e9 / bytes.len() as f64
    }
}

fn main() {
    let arguments: Vec<String> = std::env::args().skip(1).collect();
    let runs: usize = arguments[1].parse().expect("a number of runs");
    #[cfg_attr(not(other), allow(unused_mut))]
    let mut builds = vec![library()];
    #[cfg(other)]
    builds.push(other());
    for name in &arguments[2..] {
        let bytes = std::fs::read(Path::new(&arguments[0]).join(name)).expect("a stream");
        let standing = rtcm2_model::scan::scan(&rtcm2_model::line::bits_of_bytes(&bytes), true).len();
        let mut model = Way::new();
        let mut ways: Vec<(Way, Way, Way)> = builds.iter().map(|_| (Way::new(), Way::new(), Way::new())).collect();
        for run in 0..runs {
            for (calls, (slices, singly, rows)) in builds.iter().zip(&mut ways) {
                slices.run(|| in_slices(*calls, &bytes));
                if let Some(read) = calls.read {
                    rows.run(|| in_rows(*calls, read, &bytes));
                }
                if run % 8 == 0 {
                    singly.run(|| in_bytes(*calls, &bytes));
                }
            }
            model.run(|| by_model(&bytes));
        }
        let (slices, singly, rows) = &ways[0];
        let all = ways.iter().flat_map(|(a, b, c)| [a, b, c]).filter(|way| way.least != f64::MAX);
        assert!(all.into_iter().all(|way| way.frames == slices.frames));
        print!("{name} {standing} {} {}", slices.frames, model.frames);
        print!(" {:.1} {:.1} {:.1} {:.1}", slices.speed(&bytes), model.speed(&bytes), singly.a_byte(&bytes), rows.speed(&bytes));
        for (slices, singly, rows) in &ways[1..] {
            print!(" {:.1} {:.1} {:.1}", slices.speed(&bytes), singly.a_byte(&bytes), rows.speed(&bytes));
        }
        println!();
    }
}
