// Mends two journals of about nine million bytes by the library's rtcm2_mend, step after step, and prints millions of bytes a second of each, the best
// of so many runs: three sound records over and over, and the same with one turned bit in each. Argument: how often.
mod clock;

use clock::now;

const REPORT: usize = 986;
const LONGEST: usize = 135;

// Three records that keep the words, with N 0, 1 and 2.
const KEPT: [u8; 45] = [
    0x52, 0x34, 0x00, 0x19, 0x86, 0x01, 0x7F, 0xFF, 0x37, 0x3F, 0xC8, 0x52, 0x34, 0x01, 0xE6, 0x79, 0xFE, 0x80, 0x00, 0xC8, 0xC2, 0x21, 0x55,
    0x55, 0x55, 0x6A, 0x52, 0x34, 0x02, 0x19, 0x81, 0x01, 0x44, 0x00, 0xC8, 0xC4, 0x1B, 0xFF, 0x3F, 0x05, 0xE2, 0xBE, 0xD3, 0x6A, 0x8A,
];

extern "C" {
    fn rtcm2_mend(
        bytes: *mut u8,
        bytes_size: usize,
        at: u64,
        searching: u8,
        report: *mut u8,
        report_size: usize,
        step: &mut u8,
        read: &mut usize,
        written: &mut usize,
    ) -> u8;
}

// Mends a journal in place; how many records were whole.
fn mend(journal: &mut [u8]) -> usize {
    let mut report = [0u8; REPORT];
    let (mut step, mut read, mut written) = (0, 0, 0);
    let (mut at, mut searching, mut whole) = (0, 0, 0);
    loop {
        let left = &mut journal[at..];
        let size = left.len().min(LONGEST);
        // Each place is lent with its own length, and no two overlap.
        let answer =
            unsafe { rtcm2_mend(left.as_mut_ptr(), size, at as u64, searching, report.as_mut_ptr(), REPORT, &mut step, &mut read, &mut written) };
        assert_eq!(answer, 0);
        at += read;
        whole += (step == 1) as usize;
        searching = (step >= 4) as u8;
        if step == 0 || step == 3 {
            return whole;
        }
    }
}

fn main() {
    let runs = std::env::args().nth(1).map_or(5, |runs| runs.parse().unwrap());
    let sound: Vec<u8> = KEPT.iter().copied().cycle().take(45 * 200_000).collect();
    let mut turned = sound.clone();
    for record in turned.chunks_mut(45) {
        record[4] ^= 0x10;
        record[25] ^= 0x40;
        record[38] ^= 0x01;
    }
    for (name, journal) in [("sound", &sound), ("turned", &turned)] {
        let mut best = f64::MAX;
        for _ in 0..runs {
            let mut bytes = journal.clone();
            let start = now();
            assert_eq!(mend(&mut bytes), 600_000);
            best = best.min(now() - start);
            assert!(bytes == sound);
        }
        println!("{name} {:.1}", sound.len() as f64 / 1e6 / best);
    }
}
