//! Calls that streams do not show: refusals with their numbers, makers at their ends, both journals,
//! the mender, the profile, and lines that can't be read on.

use rtcm2::journal::{self, Form, Journal, Unread};
use rtcm2::mender::{self, Totals};
use rtcm2::profile::Cut;
use rtcm2::season::{Report, Row};
use rtcm2::{
    Condition, Correction, Frame, General, GeneralHead, GeneralNull, GeneralSystem, Header, Issue, Null, Pair,
    Position, PushReader, Reader, Record, Refusal, SatelliteHealth, State, System, READ_ROW,
};
use std::io::{self, Read};

const HEADER: Header = Header { kind: 9, station: 5, z: 100, sequence: 3, health: 0 };
const LINE: [u8; 11] = [0x40, 0x66, 0x61, 0x41, 0x68, 0x7F, 0x7F, 0x6C, 0x73, 0x7F, 0x44];

fn of(kind: u8) -> Header {
    Header { kind, ..HEADER }
}

fn correction(satellite: u8) -> Correction {
    Correction { scale: 0, udre: 1, satellite, prc: -250, rrc: 3, issue: Issue::Iod(77) }
}

#[test]
fn every_refusal_has_its_number_and_text() {
    assert_eq!(Refusal::ALL.len(), 23);
    for (place, refusal) in Refusal::ALL.iter().enumerate() {
        assert_eq!(usize::from(refusal.number()), place + 1);
        assert_eq!(Refusal::of(refusal.number()), Some(*refusal));
        assert!(refusal.to_string().starts_with(&format!("refusal {}: ", place + 1)));
    }
    assert_eq!((Refusal::of(0), Refusal::of(24)), (None, None));
}

#[test]
fn a_push_reader_refuses_in_order_and_stays_as_it_is() {
    let mut reader = PushReader::new();
    assert_eq!(reader.feed(0x3F), Err(Refusal::NoDataByte));
    assert_eq!(reader.feed_all(&LINE), Ok((11, 0)));
    assert_eq!(reader.feed(0x40), Err(Refusal::FrameWaits));
    assert_eq!(reader.end(), Err(Refusal::FrameWaits));
    let taken = reader.take().expect("a frame waits");
    assert_eq!((taken.at, taken.frame.header(), taken.frame.n()), (6, of(6), 0));
    assert_eq!(reader.take(), None);
    assert_eq!(reader.end(), Ok(()));
    assert_eq!(reader.feed(0x40), Err(Refusal::Ended));
    assert_eq!(reader.push(&LINE, |_| panic!("the line has ended")), 0);
}

#[test]
fn a_call_that_reads_feeds_and_takes_in_turns() {
    let twice = [&LINE[..], &LINE[1..], &[0]].concat();
    let (mut reader, mut rows) = (PushReader::new(), [0xA5; 3 * READ_ROW]);
    for room in [0, READ_ROW - 1] {
        assert_eq!(reader.read(&twice, &mut rows[..room]).err(), Some(Refusal::TooShort));
    }
    let turns = reader.read(&twice, &mut rows[..2 * READ_ROW - 1]).expect("there is room for a row");
    assert_eq!((turns.used, turns.passed, turns.frames.len()), (11, 0, 1));
    let turns = reader.read(&twice[11..], &mut rows).expect("the line goes on");
    assert_eq!((turns.used, turns.passed), (11, 1));
    let frames: Vec<_> = turns.frames.map(|taken| (taken.at, taken.frame.header(), taken.pair)).collect();
    assert_eq!(frames, [(66, of(6), Pair::default())]);
    assert!(rows[READ_ROW..].iter().all(|&byte| byte == 0xA5), "no more rows are written than put");
    assert_eq!(reader.end(), Ok(()));
    assert_eq!(reader.read(&LINE, &mut rows[..0]).err(), Some(Refusal::Ended));
}

#[test]
fn a_waiting_frame_is_read_first() {
    let (mut reader, mut rows) = (PushReader::new(), [0; 2 * READ_ROW]);
    assert_eq!(reader.feed_all(&LINE), Ok((11, 0)));
    let mut one = reader.clone();
    let turns = one.read(&LINE[1..], &mut rows[..READ_ROW]).expect("a frame waits");
    assert_eq!((turns.used, turns.frames.map(|taken| taken.at).collect::<Vec<_>>()), (0, vec![6]));
    let turns = reader.read(&LINE[1..], &mut rows).expect("a frame waits");
    assert_eq!((turns.used, turns.frames.map(|taken| taken.at).collect::<Vec<_>>()), (10, vec![6, 66]));
    let mut reader = PushReader::new();
    assert_eq!(reader.feed_all(&LINE), Ok((11, 0)));
    let mut pushed = Vec::new();
    assert_eq!(reader.push(&LINE[1..], |taken| pushed.push(taken.at)), 0);
    assert_eq!(pushed, [6, 66]);
}

/// Some bytes, and then an error.
struct Vanishing<'a>(&'a [u8]);

impl Read for Vanishing<'_> {
    fn read(&mut self, buffer: &mut [u8]) -> io::Result<usize> {
        match self.0.read(buffer)? {
            0 => Err(io::Error::other("gone")),
            size => Ok(size),
        }
    }
}

#[test]
fn frames_before_an_error_are_handed_out() {
    let mut reader = Reader::new(Vanishing(&LINE));
    assert_eq!(reader.next().expect("a frame").expect("read").at, 6);
    assert_eq!(reader.next().expect("an error").expect_err("gone").to_string(), "gone");
    assert!(reader.next().is_none());
}

#[test]
fn makers_refuse_by_the_table() {
    let good = [correction(1)];
    assert_eq!(Frame::of_corrections(Header { station: 1024, ..HEADER }, &good), Err(Refusal::Outside));
    assert_eq!(Frame::of_corrections(of(3), &good), Err(Refusal::OtherType));
    assert_eq!(Frame::of_corrections(Header { z: 6000, ..HEADER }, &good), Err(Refusal::ZCount));
    assert_eq!(Frame::of_corrections(HEADER, &[]), Err(Refusal::Entries));
    assert_eq!(Frame::of_corrections(HEADER, &[correction(1); 19]), Err(Refusal::Entries));
    assert_eq!(Frame::of_corrections(HEADER, &[correction(1); 5000]), Err(Refusal::Entries));
    assert_eq!(Frame::of_corrections(HEADER, &[correction(33)]), Err(Refusal::Field));
    assert_eq!(Frame::of_corrections(of(31), &good), Err(Refusal::Field), "an IOD under a type of GLONASS");
    let aged = |tb| Correction { issue: Issue::Age { change: true, tb }, ..correction(1) };
    assert_eq!(Frame::of_corrections(HEADER, &[aged(0)]), Err(Refusal::Field), "a tb under a type of GPS");
    assert_eq!(Frame::of_corrections(of(31), &[aged(120)]), Err(Refusal::Field));
    assert_eq!(Frame::of_corrections(of(31), &[aged(128)]), Err(Refusal::Field));
    assert!(Frame::of_corrections(of(31), &[aged(119)]).is_ok());
    assert_eq!(Frame::of_null(of(6), Null { n: 2 }), Err(Refusal::Entries));
    assert_eq!(Frame::of_text(of(16), &[0]), Err(Refusal::Character));
    assert_eq!(Frame::of_text(of(16), &[65; 91]), Err(Refusal::Entries));
    assert_eq!(Frame::keep(HEADER, &[0; 4]), Err(Refusal::Outside));
    let edge = Position { x_cm: i32::MIN, ..Position::default() };
    assert_eq!(Frame::of_position(of(3), edge), Err(Refusal::Field));
}

#[test]
fn healths_are_told_as_their_system_tells_them() {
    let code = SatelliteHealth { satellite: 3, health: Condition::Code(5), cn0: 31, ..SatelliteHealth::default() };
    let data = SatelliteHealth { health: Condition::Data(1, 2), ..code };
    assert_eq!(Frame::of_healths(of(33), &[code]), Err(Refusal::Field));
    assert_eq!(Frame::of_healths(of(5), &[data]), Err(Refusal::Field));
    let wide = SatelliteHealth { health: Condition::Data(2, 0), ..code };
    assert_eq!(Frame::of_healths(of(33), &[wide]), Err(Refusal::Field));
    for (kind, entry) in [(5, code), (33, data)] {
        let frame = Frame::of_healths(of(kind), &[entry]).expect("it can be sent");
        assert_eq!(frame.health(0), Ok(entry));
        assert_eq!(frame.health(1), Err(Refusal::NoEntry));
    }
    assert_eq!(code.cn0_dbhz(), Ok(Some(55)));
    assert_eq!(SatelliteHealth::default().cn0_dbhz(), Ok(None));
}

#[test]
fn values_at_their_ends() {
    let with = |scale, prc, rrc| Correction { scale, prc, rrc, ..correction(1) };
    assert_eq!(with(0, 32767, 127).prc_mm(), Ok(Some(655_340)));
    assert_eq!(with(1, -32767, -127).prc_mm(), Ok(Some(-10_485_440)));
    assert_eq!(with(1, -32767, -127).rrc_mm_s(), Ok(Some(-4064)));
    assert_eq!(with(0, 1, -128).prc_mm(), Ok(None), "RRC stops the satellite");
    assert_eq!(with(0, -32768, 1).rrc_mm_s(), Ok(None), "PRC stops the satellite");
    assert_eq!(with(2, 1, 1).prc_mm(), Err(Refusal::Field));
    assert_eq!(Correction { udre: 2, ..correction(1) }.udre_limit_mm(3), Ok(Some(2400)));
    assert_eq!(Correction { udre: 3, ..correction(1) }.udre_limit_mm(0), Ok(None));
    assert_eq!(Correction { udre: 2, ..correction(1) }.udre_limit_mm(8), Err(Refusal::Outside));
    let states = [0, 5, 6, 7, 8].map(|health| Header { health, ..HEADER }.state());
    let [first, last] = [100, 10].map(|factor| Some(State::Factor(factor)));
    assert_eq!(states, [first, last, Some(State::NotMonitored), Some(State::NotWorking), None]);
}

#[test]
fn russian_letters_are_read() {
    let frame = Frame::of_text(of(36), &[65, 128, 191]).expect("it can be sent");
    assert_eq!(frame.text().expect("it reads").to_string(), "A\u{410}\u{44F}");
    assert_eq!(Record::read(&frame).and_then(|record| record.make(frame.header())), Ok(frame));
}

/// Two frames kept, in a form.
fn journal_of(form: Form) -> Vec<u8> {
    let frames = [Frame::of_null(of(6), Null { n: 1 }), Frame::of_corrections(HEADER, &[correction(4)])];
    let pair = Pair { d29: true, d30: false };
    let record = |frame: &Frame| match form {
        Form::Data => frame.as_bytes().to_vec(),
        Form::Words => frame.words(pair).to_vec(),
    };
    frames.iter().flat_map(|frame| record(frame.as_ref().expect("it can be sent"))).collect()
}

#[test]
fn journals_are_read_in_either_form() {
    for form in [Form::Data, Form::Words] {
        let bytes = journal_of(form);
        let kept: Vec<_> = Journal::new(&bytes[..]).map(|kept| kept.expect("it reads")).collect();
        assert_eq!(kept.len(), 2);
        assert!(kept.iter().all(|kept| kept.form == form && kept.frame.header().station == 5));
        assert_eq!(kept[1].at, kept[0].length as u64);
    }
    let both = [journal_of(Form::Data), journal_of(Form::Words)].concat();
    assert_eq!(Journal::new(&both[..]).filter(Result::is_ok).count(), 4);
    let last = Journal::of(Form::Data, &both[..]).last().expect("a record");
    assert!(matches!(last, Err(Unread::Refused(at, Refusal::NoMark)) if at == journal_of(Form::Data).len() as u64));
}

#[test]
fn a_journal_that_is_cut_or_altered_says_where() {
    let mut bytes = journal_of(Form::Words);
    let first = journal::recall(&bytes, 0).expect("it reads").length;
    let cut = Journal::new(&bytes[..first + 5]).last().expect("a record");
    assert!(matches!(cut, Err(Unread::Refused(at, Refusal::CutShort)) if at == first as u64), "{cut:?}");
    bytes[first + 6] ^= 4;
    let altered = Journal::new(&bytes[..]).last().expect("a record");
    assert!(matches!(altered, Err(Unread::Refused(at, Refusal::Broken)) if at == first as u64), "{altered:?}");
}

#[test]
fn moved_there_and_back_a_journal_is_the_same() {
    let bytes = journal_of(Form::Data);
    let moved = |bytes: &[u8]| -> Vec<u8> {
        Journal::new(bytes).flat_map(|kept| kept.expect("it reads").moved().to_vec()).collect()
    };
    assert_eq!(moved(&moved(&bytes)), bytes);
}

#[test]
fn the_mender_turns_a_bit_back_and_reports_it() {
    let (kept, mut bytes) = (journal_of(Form::Words), journal_of(Form::Words));
    bytes[20] ^= 1;
    let (mut mended, mut report) = (Vec::new(), Vec::new());
    let totals = mender::mend(&bytes[..], &mut mended, &mut report).expect("memory can be read");
    assert_eq!(mended, kept);
    assert_eq!(totals, Totals { records: 2, changed: 1, lost: 0, passed: 0 });
    assert_eq!(report, format!("20 {} {}\n", bytes[20], kept[20]).into_bytes());
}

#[test]
fn generals_of_every_system_are_made_and_read() {
    let entry = General { satellite: 63, udre: 14, iod: 200, prc: -8191, delay: 0 };
    let delayed = General { delay: 4094, ..entry };
    for system in [GeneralSystem::Gps, GeneralSystem::Glonass, GeneralSystem::Qzss, GeneralSystem::BeiDou] {
        for (ionosphere, entry, most) in [(0, entry, 22), (1, delayed, 16)] {
            let head = GeneralHead { system, signal: 15, ephemeris: 3, period: 2, ionosphere };
            for kind in [41, 42] {
                let frame = Frame::of_generals(of(kind), head, &vec![entry; most]).expect("it can be sent");
                let Ok(Record::Generals(read)) = Record::read(&frame) else { panic!("type {kind} is read") };
                assert_eq!((read.head, &read.satellites[..]), (head, &vec![entry; most][..]));
                assert_eq!(Record::Generals(read).make(frame.header()), Ok(frame));
                assert_eq!(Frame::of_generals(of(kind), head, &vec![entry; most + 1]), Err(Refusal::Entries));
            }
        }
        let null = GeneralNull { n: 1, system };
        let frame = Frame::of_general_null(of(42), null).expect("it can be sent");
        assert_eq!((frame.general_null(), frame.is_null()), (Ok(null), true));
        assert_eq!(Frame::of_general_null(of(41), null), Err(Refusal::OtherType));
        assert_eq!(Frame::of_general_null(of(42), GeneralNull { n: 0, system }), Err(Refusal::Entries));
    }
    let head = GeneralHead::default();
    assert_eq!(Frame::of_generals(of(41), head, &[delayed]), Err(Refusal::Field), "a delay without ionosphere");
    assert_eq!(Frame::of_generals(of(41), head, &[General { satellite: 0, ..entry }]), Err(Refusal::Field));
    assert_eq!(Frame::of_generals(of(9), head, &[entry]), Err(Refusal::OtherType));
    let galileo = Frame::keep(of(41), &[0x30, 0, 0, 0, 0, 0]).expect("a frame of two words");
    assert_eq!(Record::read(&galileo), Err(Refusal::OtherSystem));
}

#[test]
fn values_of_generals_at_their_ends() {
    let with = |prc, delay, udre| General { satellite: 1, udre, iod: 0, prc, delay };
    assert_eq!(with(8191, 0, 0).prc_mm(), Ok(Some(163_820)));
    assert_eq!(with(-8192, 0, 0).prc_mm(), Ok(None));
    assert_eq!(with(8192, 0, 0).prc_mm(), Err(Refusal::Field));
    assert_eq!(with(0, 4094, 0).delay_mm(), Ok(Some(81_880)));
    assert_eq!(with(0, 4095, 0).delay_mm(), Ok(None));
    assert_eq!(with(0, 4096, 0).delay_mm(), Err(Refusal::Field));
    assert_eq!(with(0, 0, 15).udre_limit_hundredths(0), Ok(None));
    assert_eq!(with(0, 0, 16).udre_limit_hundredths(0), Err(Refusal::Field));
    assert_eq!(with(0, 0, 0).udre_limit_hundredths(8), Err(Refusal::Outside));
    let seconds = [0, 1, 2, 3, 4].map(|period| GeneralHead { period, ..GeneralHead::default() }.seconds());
    assert_eq!(seconds, [Ok(15), Ok(30), Ok(60), Ok(120), Err(Refusal::Field)]);
}

/// A journal of one frame with a correction for each satellite of a station.
fn corrections_of(station: u16, satellites: impl Iterator<Item = u8>) -> Vec<u8> {
    let list: Vec<_> = satellites.map(correction).collect();
    let frame = Frame::of_corrections(Header { station, ..HEADER }, &list).expect("it can be sent");
    frame.as_bytes().to_vec()
}

#[test]
fn a_season_counts_usable_corrections_and_stops() {
    let stop = Correction { rrc: -128, ..correction(2) };
    let wide = Correction { scale: 1, prc: 32767, ..correction(2) };
    let frame = Frame::of_corrections(HEADER, &[correction(2), stop, wide]).expect("it can be sent");
    let journal = [frame.as_bytes(), &frame.words(Pair::default()), b"rest"].concat();
    let mut report = Report::new();
    assert_eq!(report.add_journal(&journal), Ok(journal.len() - 4));
    let extremes = Some((-5000, 10_485_440));
    let row = Row {
        system: System::Gps,
        station: 5,
        satellite: 2,
        usable: 4,
        stops: 2,
        extremes,
        sum: 2 * (10_485_440 - 5000),
    };
    assert_eq!(report.rows().collect::<Vec<_>>(), [row]);
    assert_eq!(report.row(1), Err(Refusal::NoEntry));
    let again = Report::of_bytes(report.as_bytes()).expect("its own bytes");
    assert_eq!(again.rows().collect::<Vec<_>>(), [row]);
    assert!(Report::of_bytes(&report.as_bytes()[1..]).is_err());
    assert!(matches!(Report::of_bytes(&[255; 20000]), Err(Refusal::Outside)));
}

#[test]
fn a_season_of_two_halves_is_that_of_the_whole() {
    let halves = [corrections_of(1, 1..=18), corrections_of(1, 10..=20)];
    let [mut first, mut second, mut whole] = [(); 3].map(|()| Report::new());
    assert_eq!(first.add_journal(&halves[0]), Ok(halves[0].len()));
    assert_eq!(second.add_journal(&halves[1]), Ok(halves[1].len()));
    assert!(matches!(whole.add_from(&halves.concat()[..]), Ok(None)));
    assert_eq!(first.add(&second), Ok(()));
    assert!(first == whole);
    assert_eq!(whole.rows().count(), 20);
}

#[test]
fn a_season_without_a_row_left_is_refused_and_stays() {
    let mut report = Report::new();
    for station in 0..32 {
        assert!(report.add_journal(&corrections_of(station, 1..=16)).is_ok());
    }
    assert_eq!(report.rows().count(), 512);
    let before = report.clone();
    let more = [corrections_of(0, 1..=16), corrections_of(32, 1..=1)].concat();
    assert!(matches!(report.add_from(&more[..]), Err(Refusal::NoRoom)));
    assert!(report == before, "nothing of the journal is added");
    let cut = Report::new().add_from(&more[..more.len() - 1]);
    assert!(
        matches!(cut, Ok(Some(Unread::Refused(at, Refusal::CutShort))) if at == corrections_of(0, 1..=16).len() as u64)
    );
}

#[test]
fn the_profile_takes_what_was_cut() {
    let list: Vec<_> = (1..=7).map(correction).collect();
    let cut = Cut::of(HEADER, &list).expect("it can be cut");
    let frames: Vec<_> = cut.frames().collect();
    assert_eq!(frames.iter().map(|frame| frame.header().sequence).collect::<Vec<_>>(), [3, 4, 5]);
    assert!(frames.iter().all(|frame| frame.check_profile().is_ok()));
    let read: Vec<_> =
        frames.iter().flat_map(|frame| frame.corrections().expect("type 9")).map(Result::unwrap).collect();
    assert_eq!(read, list);
    assert_eq!(Cut::of(HEADER, &[correction(1), correction(1)]), Err(Refusal::Twice));
    let aged = Correction { issue: Issue::Age { change: false, tb: 1 }, ..correction(1) };
    assert_eq!(Cut::of(HEADER, &[aged, aged]), Err(Refusal::Field), "10 comes before 22");
    let all = Frame::of_corrections(HEADER, &list).expect("it can be sent");
    assert_eq!(all.check_profile(), Err(Refusal::Satellites));
    assert_eq!(
        Frame::of_corrections(of(1), &list).expect("it can be sent").check_profile(),
        Err(Refusal::OtherProfile)
    );
}

#[test]
fn the_remainder_of_an_xor_is_the_xor_of_the_remainders() {
    let windows = [0x1234_5678, 0xFFFF_FFFF, 0x8000_0001, 0x0660_1805];
    for (a, b) in windows.iter().flat_map(|a| windows.map(|b| (*a, b))) {
        assert_eq!(rtcm2::remainder(a ^ b), rtcm2::remainder(a) ^ rtcm2::remainder(b));
    }
}
