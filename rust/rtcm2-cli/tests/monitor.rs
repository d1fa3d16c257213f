//! The monitor against a clock that the test turns: the rules of docs/MONITOR.md one by one, and the
//! model's streams (crates/test_streams) replayed.

use rtcm2::{Correction, Frame, Header, Issue, Null, PushReader, Writer};
use rtcm2_cli::monitor::{Event, Heard, Monitor};
use std::fs;
use std::path::PathBuf;
use std::time::Duration;

const QUIET: u64 = 30;

fn s(seconds: u64) -> Duration {
    Duration::from_secs(seconds)
}

/// A monitor, and the frames and moments that a test gives it.
struct Trial {
    monitor: Monitor,
    told: Vec<(Duration, Event)>,
}

impl Trial {
    fn new() -> Trial {
        Trial { monitor: Monitor::new(s(QUIET), s(0)), told: Vec::new() }
    }

    fn frame(&mut self, at: u64, station: u16, health: u8) -> &mut Trial {
        self.told.extend(self.monitor.frame(s(at), Heard { station, health, is_null: false }));
        self
    }

    fn null(&mut self, at: u64) -> &mut Trial {
        self.told.extend(self.monitor.frame(s(at), Heard { station: 5, health: 0, is_null: true }));
        self
    }

    fn tick(&mut self, at: u64) -> &mut Trial {
        self.told.extend(self.monitor.tick(s(at)));
        self
    }

    /// What was told, in whole seconds.
    fn told(&self) -> Vec<(u64, Event)> {
        self.told.iter().map(|(at, event)| (at.as_secs(), *event)).collect()
    }
}

const HEARD: Event = Event::Heard { station: 5, health: 0 };

#[test]
fn a_station_is_heard_with_its_second_frame_and_once() {
    let mut trial = Trial::new();
    for at in 1..=100 {
        trial.frame(at, 5, 0).tick(at);
    }
    assert_eq!(trial.told(), [(2, HEARD)]);
    assert!(trial.monitor.is_well());
}

#[test]
fn a_silence_is_told_once_and_its_end_once() {
    let mut trial = Trial::new();
    trial.frame(1, 5, 0).frame(2, 5, 0);
    for at in 3..=500 {
        trial.tick(at);
    }
    assert!(!trial.monitor.is_well());
    trial.frame(500, 5, 0).frame(501, 5, 0).frame(502, 5, 0);
    let back = Event::Back { after: s(498) };
    assert_eq!(trial.told(), [(2, HEARD), (32, Event::Quiet { since: s(2) }), (501, back)]);
    assert!(trial.monitor.is_well());
}

#[test]
fn a_silence_is_told_also_when_nobody_looked_while_it_lasted() {
    let mut trial = Trial::new();
    trial.frame(1, 5, 0).frame(2, 5, 0).frame(500, 5, 0).frame(501, 5, 0);
    assert_eq!(trial.told()[1..], [(32, Event::Quiet { since: s(2) }), (501, Event::Back { after: s(498) })]);
}

#[test]
fn silence_from_the_start_is_told_and_ends() {
    let mut trial = Trial::new();
    trial.tick(29).tick(30).tick(400).frame(400, 5, 0).frame(401, 5, 0);
    assert_eq!(trial.told(), [(30, Event::Quiet { since: s(0) }), (401, Event::Back { after: s(400) }), (401, HEARD)]);
}

#[test]
fn a_lone_frame_in_a_silence_is_not_believed() {
    let mut trial = Trial::new();
    trial.frame(1, 5, 0).frame(2, 5, 0).tick(40);
    trial.frame(100, 813, 7).tick(200).frame(300, 5, 0).tick(400).frame(500, 5, 0).tick(600);
    assert_eq!(trial.told(), [(2, HEARD), (32, Event::Quiet { since: s(2) })]);
}

#[test]
fn a_lone_frame_of_another_station_changes_nothing() {
    let mut trial = Trial::new();
    trial.frame(1, 5, 0).frame(2, 5, 0).frame(3, 813, 7).frame(4, 5, 0).frame(5, 5, 0);
    assert_eq!(trial.told(), [(2, HEARD)]);
}

#[test]
fn two_stations_in_turn_on_one_line_are_no_change() {
    let mut trial = Trial::new();
    for at in 1..=100 {
        trial.frame(at, if at % 2 == 0 { 5 } else { 6 }, 0);
    }
    assert_eq!(trial.told(), [(3, Event::Heard { station: 6, health: 0 })]);
}

#[test]
fn another_number_twice_in_a_row_is_told_once() {
    let mut trial = Trial::new();
    for at in 1..=10 {
        trial.frame(at, 5, 0);
    }
    for at in 11..=100 {
        trial.frame(at, 9, 0);
    }
    assert_eq!(trial.told(), [(2, HEARD), (12, Event::StationChanged { from: 5, to: 9 })]);
}

#[test]
fn health_7_is_told_once_and_so_is_its_end() {
    let mut trial = Trial::new();
    for at in 1..=10 {
        trial.frame(at, 5, 0);
    }
    for at in 11..=50 {
        trial.frame(at, 5, 7);
    }
    assert!(!trial.monitor.is_well());
    for at in 51..=90 {
        trial.frame(at, 5, 3);
    }
    let back = Event::HealthBack { station: 5, health: 3 };
    assert_eq!(trial.told(), [(2, HEARD), (11, Event::NotWorking { station: 5 }), (51, back)]);
}

#[test]
fn a_station_that_is_not_monitored_from_the_start_is_told() {
    let mut trial = Trial::new();
    trial.frame(1, 5, 6).frame(2, 5, 6).frame(3, 5, 6).frame(4, 5, 7).frame(5, 5, 7);
    let heard = Event::Heard { station: 5, health: 6 };
    let (unmonitored, down) = (Event::NotMonitored { station: 5 }, Event::NotWorking { station: 5 });
    assert_eq!(trial.told(), [(2, heard), (2, unmonitored), (4, down)]);
}

#[test]
fn health_is_remembered_over_a_silence() {
    let mut trial = Trial::new();
    trial.frame(1, 5, 7).frame(2, 5, 7).tick(100).frame(200, 5, 7).frame(201, 5, 7);
    let names: Vec<_> = trial.told.iter().map(|(_, event)| event.name()).collect();
    assert_eq!(names, ["heard", "not-working", "quiet", "back"]);
}

#[test]
fn only_null_frames_are_told_once_and_so_is_their_end() {
    let mut trial = Trial::new();
    trial.frame(1, 5, 0).frame(2, 5, 0);
    for at in 3..=100 {
        trial.null(at);
    }
    assert!(!trial.monitor.is_well());
    trial.frame(101, 5, 0).frame(102, 5, 0);
    let (only, again) = (Event::OnlyNull { since: s(2) }, Event::DataAgain { after: s(99) });
    assert_eq!(trial.told(), [(2, HEARD), (32, only), (101, again)]);
}

#[test]
fn null_frames_between_others_are_no_event() {
    let mut trial = Trial::new();
    for at in 1..=300 {
        if at % 20 == 0 {
            trial.frame(at, 5, 0);
        } else {
            trial.null(at);
        }
    }
    assert_eq!(trial.told().len(), 1);
}

/// A stream of the model, and where its frames end by the model's own listing, in line bits.
struct Stream {
    name: String,
    bytes: Vec<u8>,
    ends: Vec<u64>,
}

fn streams() -> Vec<Stream> {
    let folder = PathBuf::from(concat!(env!("CARGO_MANIFEST_DIR"), "/../../crates/test_streams"));
    let text = fs::read_to_string(folder.join("stdout")).expect("the model's text");
    let mut found: Vec<Stream> = Vec::new();
    for line in text.lines() {
        if line.ends_with(".bin") {
            let bytes = fs::read(folder.join("data").join(line)).expect("the stream");
            found.push(Stream { name: line.to_string(), bytes, ends: Vec::new() });
        }
        let numbers: Vec<u64> = line.split(' ').map_while(|word| word.parse().ok()).collect();
        if let ([at, _, _, _, _, n, _, _], Some(stream)) = (&numbers[..], found.last_mut()) {
            stream.ends.push(at + 30 * (n + 2));
        }
    }
    found
}

/// The longest time that a stream has no frame to its end, in bits; a frame may be held back by 990.
fn longest_gap(stream: &Stream) -> u64 {
    let bits = 6 * stream.bytes.len() as u64;
    let places: Vec<u64> = [0].into_iter().chain(stream.ends.iter().copied()).chain([bits]).collect();
    places.windows(2).map(|two| two[1].saturating_sub(two[0])).max().unwrap_or(0) + 990
}

/// The events of a stream to its end. The clock goes by line bits, as the model's places do: a bit is a
/// millisecond, and a byte without bits takes no time.
fn replayed(monitor: &mut Monitor, bytes: &[u8], clock: &mut Duration, station: Option<u16>) -> Vec<Event> {
    let (mut reader, mut events) = (PushReader::new(), Vec::new());
    for place in 0..=bytes.len() {
        let mut heard = Vec::new();
        match bytes.get(place) {
            Some(byte) => {
                *clock += Duration::from_millis(if byte >> 6 == 1 { 6 } else { 0 });
                reader.push(&[*byte], |taken| heard.push(Heard::of(&taken)));
            }
            None => reader.finish(|taken| heard.push(Heard::of(&taken))),
        }
        for frame in heard {
            let frame = Heard { station: station.unwrap_or(frame.station), ..frame };
            events.extend(monitor.frame(*clock, frame).into_iter().map(|(_, event)| event));
        }
        events.extend(monitor.tick(*clock).map(|(_, event)| event));
    }
    events
}

fn quiets(events: &[Event]) -> usize {
    events.iter().filter(|event| matches!(event, Event::Quiet { .. })).count()
}

/// Slips, turned lines, bytes without bits, false starts, noise between frames, turned bits: the quiet
/// time of each stream is what the model says its frames need, and no more.
#[test]
fn no_stream_of_the_model_is_quiet_while_its_frames_come() {
    let mut groups = [0; 14];
    for stream in streams() {
        let quiet = Duration::from_millis(longest_gap(&stream) + 7);
        let (mut monitor, mut clock) = (Monitor::new(quiet, s(0)), s(0));
        let events = replayed(&mut monitor, &stream.bytes, &mut clock, None);
        assert_eq!(quiets(&events), 0, "{}", stream.name);
        groups[stream.name[..2].parse::<usize>().expect("a group")] += 1;
    }
    for group in [2, 3, 5, 7, 9] {
        assert!(groups[group] > 0, "streams of group {group}");
    }
}

/// A true silence behind each stream: one event when it begins, and one when it ends.
#[test]
fn a_silence_behind_any_stream_is_told_once_and_ends_once() {
    for stream in streams().iter().filter(|stream| stream.ends.len() >= 2) {
        let quiet = Duration::from_millis(longest_gap(stream) + 7);
        let (mut monitor, mut clock) = (Monitor::new(quiet, s(0)), s(0));
        let mut events = replayed(&mut monitor, &stream.bytes, &mut clock, Some(5));
        assert_eq!(quiets(&events), 0, "{}", stream.name);
        for _ in 0..40 {
            clock += quiet / 10;
            events.extend(monitor.tick(clock).map(|(_, event)| event));
        }
        assert_eq!(quiets(&events), 1, "{}", stream.name);
        events.extend(replayed(&mut monitor, &stream.bytes, &mut clock, Some(5)));
        let backs = events.iter().filter(|event| matches!(event, Event::Back { .. })).count();
        assert_eq!((quiets(&events), backs), (1, 1), "{}", stream.name);
    }
}

/// The bytes of a station's frames, 40 of them, of which some have a health code.
fn line_of(health: u8) -> Vec<u8> {
    let (mut writer, first) = Writer::open();
    let mut line = vec![first];
    for number in 0..40 {
        let header = Header { kind: 9, station: 5, z: 10 * number, sequence: (number % 8) as u8, health };
        let entry = Correction { scale: 0, udre: 0, satellite: 7, prc: 1, rrc: 1, issue: Issue::Iod(1) };
        let frame = if number % 4 == 3 {
            Frame::of_null(Header { kind: 6, ..header }, Null { n: 0 })
        } else {
            Frame::of_corrections(header, &[entry])
        };
        line.extend(&*writer.write(&frame.expect("it can be sent")).expect("it can be written"));
    }
    line
}

/// A line from its bytes to its events: bytes lost, noise, all bits turned over, noise again, and sound.
#[test]
fn a_damaged_line_of_a_station_that_is_down_raises_one_event_of_it() {
    let sound = line_of(7);
    let slipped: Vec<u8> =
        sound.iter().enumerate().filter(|(place, _)| place % 97 != 50).map(|(_, byte)| *byte).collect();
    let turned: Vec<u8> = sound.iter().map(|byte| byte ^ 0x3F).collect();
    let noise: Vec<u8> = (0..200u32).map(|number| 0x40 | (number.wrapping_mul(2_654_435_761) >> 26) as u8).collect();
    let line = [&slipped[..], &noise, &turned, &noise, &sound].concat();
    let (mut monitor, mut clock) = (Monitor::new(Duration::from_millis(4000), s(0)), s(0));
    let names: Vec<_> = replayed(&mut monitor, &line, &mut clock, None).iter().map(Event::name).collect();
    assert_eq!(names, ["heard", "not-working"]);
}
