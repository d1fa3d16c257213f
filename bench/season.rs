// Adds journals that lie in memory to a report by the library's rtcm2_season_journal, in pieces of 64 kB of which what is not used is carried over,
// and prints millions of entries a second of each, the best of so many runs: the journal of a harbour with ten stations of both systems, and one
// whose entries use all 512 rows. Argument: how often.
mod clock;

use clock::now;

const REPORT: usize = 14852;
const ROW: usize = 29;
const PIECE: usize = 65536;

extern "C" {
    fn rtcm2_season_start(report: *mut u8, report_size: usize) -> u8;
    fn rtcm2_season_journal(report: *mut u8, report_size: usize, bytes: *const u8, bytes_size: usize, used: &mut usize) -> u8;
}

// A record that keeps the data of a frame of corrections, with an entry of 40 bits for each satellite: scale 0, UDRE 1, PRC, RRC 2, and 77.
fn put_record(journal: &mut Vec<u8>, kind: u8, station: u16, z: u16, satellites: impl Iterator<Item = u8>) {
    let mut data = Vec::new();
    for satellite in satellites {
        let prc = (i16::from(satellite) * 31 - 500 + (z % 97) as i16).to_be_bytes();
        data.extend([0x20 | satellite % 32, prc[0], prc[1], 2, 77]);
    }
    while data.len() % 3 != 0 {
        data.push(0xAA);
    }
    let n = (data.len() / 3) as u8;
    let header = [0x66, kind << 2 | (station >> 8) as u8, station as u8, (z >> 5) as u8, (z << 3) as u8, n << 3];
    journal.extend([0x52, 0x32, n]);
    journal.extend(header);
    journal.extend(data);
}

// So many rounds of the stations, a frame of type 1 and one of type 31 each; how many entries a frame has, and the satellites from which it goes on.
fn journal(rounds: u16, stations: u16, count: u8, next: impl Fn(u16, u16) -> u8) -> Vec<u8> {
    let mut bytes = Vec::new();
    for round in 0..rounds {
        for station in 1..=stations {
            let first = next(round, station);
            for kind in [1, 31] {
                put_record(&mut bytes, kind, station, round % 6000, (0..count).map(|i| (first + i) % 32 + 1));
            }
        }
    }
    bytes
}

// Adds a journal piece by piece; the report.
fn add(journal: &[u8]) -> Vec<u8> {
    let mut report = vec![0u8; REPORT];
    assert_eq!(unsafe { rtcm2_season_start(report.as_mut_ptr(), REPORT) }, 0);
    let mut at = 0;
    while at < journal.len() {
        let piece = &journal[at..(at + PIECE).min(journal.len())];
        let mut used = 0;
        // Each place is lent with its own length, and no two overlap.
        let answer = unsafe { rtcm2_season_journal(report.as_mut_ptr(), REPORT, piece.as_ptr(), piece.len(), &mut used) };
        assert!(answer == 0 && used > 0);
        at += used;
    }
    report
}

// How many rows a report has, and how many usable entries and stops they count.
fn counted(report: &[u8]) -> (usize, u64) {
    let number = |at: usize| u32::from_le_bytes(report[at..at + 4].try_into().unwrap());
    let used = number(0) as usize;
    let entries = (0..used).map(|i| 4 + ROW * i).map(|at| u64::from(number(at + 4)) + u64::from(number(at + 8))).sum();
    (used, entries)
}

fn main() {
    let runs = std::env::args().nth(1).map_or(5, |runs| runs.parse().unwrap());
    // Seven of ten satellites a frame; and eight stations of which every satellite comes.
    let harbour = journal(5000, 10, 7, |round, station| (station * 3 + round % 4) as u8);
    let full = journal(5000, 8, 8, |round, _| (round % 4 * 8) as u8);
    for (name, journal, rows, entries) in [("harbour", &harbour, 200, 700_000), ("full", &full, 512, 640_000)] {
        let mut best = f64::MAX;
        for _ in 0..runs {
            let start = now();
            let report = add(journal);
            best = best.min(now() - start);
            assert_eq!(counted(&report), (rows, entries));
        }
        println!("{name} {:.2}", entries as f64 / 1e6 / best);
    }
}
