//! `monitor`: a line watched, live or as it was recorded.

use crate::clock::{rounded, seconds, Clock};
use crate::fault::{Fault, Outcome, Verdict};
use crate::input::Lines;
use crate::monitor::{Event, Heard, Monitor};
use crate::output::Printer;
use crate::stream::Hearer;
use rtcm2::Taken;
use serde_json::{json, Value};
use std::io::{self, ErrorKind, Read};
use std::sync::mpsc::{channel, Receiver, Sender, TryRecvError};
use std::thread;
use std::time::{Duration, Instant, SystemTime};

/// An event as a line of text, behind its time.
pub fn text(event: &Event, clock: Clock) -> String {
    let name = event.name();
    match event {
        Event::Heard { station, health } | Event::HealthBack { station, health } => {
            format!("{name} station {station} health {health}")
        }
        Event::Quiet { since } | Event::OnlyNull { since } => format!("{name} since {}", clock.text(*since)),
        Event::Back { after } | Event::DataAgain { after } => format!("{name} after {} s", seconds(*after)),
        Event::NotMonitored { station } | Event::NotWorking { station } => format!("{name} station {station}"),
        Event::StationChanged { from, to } => format!("{name} from {from} to {to}"),
    }
}

/// An event as a JSON object.
pub fn object(time: Duration, event: &Event, clock: Clock) -> Value {
    let mut value = json!({ "time": clock.json(time), "event": event.name() });
    match event {
        Event::Heard { station, health } | Event::HealthBack { station, health } => {
            value["station"] = json!(station);
            value["health"] = json!(health);
        }
        Event::Quiet { since } | Event::OnlyNull { since } => value["since"] = clock.json(*since),
        Event::Back { after } | Event::DataAgain { after } => value["after"] = json!(rounded(*after)),
        Event::NotMonitored { station } | Event::NotWorking { station } => value["station"] = json!(station),
        Event::StationChanged { from, to } => {
            value["from"] = json!(from);
            value["to"] = json!(to);
        }
    }
    value
}

/// A monitor that prints its events.
struct Watch {
    monitor: Monitor,
    clock: Clock,
    json: bool,
    printer: Printer,
}

impl Watch {
    fn new(quiet: Duration, clock: Clock, json: bool) -> Watch {
        Watch { monitor: Monitor::new(quiet, Duration::ZERO), clock, json, printer: Printer::new() }
    }

    /// A line each, which can be read at once.
    fn tell(&mut self, events: impl IntoIterator<Item = (Duration, Event)>) -> Result<(), Fault> {
        for (time, event) in events {
            if self.json {
                self.printer.line(object(time, &event, self.clock))?;
            } else {
                self.printer.line(format_args!("{} {}", self.clock.text(time), text(&event, self.clock)))?;
            }
            self.printer.flush()?;
        }
        Ok(())
    }

    /// The frames of a call of the reader have come.
    fn heard(&mut self, now: Duration, frames: impl Iterator<Item = Taken>) -> Result<(), Fault> {
        for taken in frames {
            let events = self.monitor.frame(now, Heard::of(&taken));
            self.tell(events)?;
        }
        Ok(())
    }

    fn tick(&mut self, now: Duration) -> Result<(), Fault> {
        let event = self.monitor.tick(now);
        self.tell(event)
    }

    /// How long it can wait for bytes before the line is quiet.
    fn patience(&self, now: Duration) -> Duration {
        let hour = Duration::from_secs(3600);
        self.monitor.deadline().map_or(hour, |due| due.saturating_sub(now).min(hour))
    }

    fn verdict(&self) -> Verdict {
        Verdict::unwell_if(!self.monitor.is_well())
    }
}

/// Watches a recorded line, on which each byte takes the time of six bits at so many bits a second.
pub fn recorded(mut lines: Lines, quiet: Duration, bits: u32, json: bool) -> Outcome {
    let mut watch = Watch::new(quiet, Clock::Line, json);
    let time = |bytes: u64| Duration::from_nanos((u128::from(bytes) * 6_000_000_000 / u128::from(bits)) as u64);
    let mut bytes = 0;
    while let Some(mut line) = lines.next_line()? {
        // The time of a frame is that of the byte that brings it, so each byte is a read of its own.
        let (mut hearer, mut buffer) = (Hearer::new(1), vec![0; 65536]);
        let read = loop {
            let size = match line.read(&mut buffer) {
                Ok(0) => break Ok(()),
                Ok(size) => size,
                Err(error) if error.kind() == ErrorKind::Interrupted => continue,
                Err(error) => break Err(error),
            };
            for byte in &buffer[..size] {
                bytes += 1;
                watch.heard(time(bytes), hearer.read(&[*byte]).frames)?;
            }
        };
        watch.heard(time(bytes), hearer.end())?;
        watch.tick(time(bytes))?;
        lines.after(&line.name, bytes, read)?;
    }
    Ok(watch.verdict())
}

/// Bytes of a read at most.
const MOST: usize = 4096;

/// What the thread that reads has to say, and when it came to know it.
enum Message {
    Bytes(Duration, Vec<u8>),
    /// The line has ended; another may follow.
    End(Duration),
    /// All lines have ended, or one can't be read.
    Over(Result<(), Fault>),
}

/// Watches a live line.
pub fn live(lines: Lines, quiet: Duration, json: bool) -> Outcome {
    let (sender, receiver) = channel();
    let (start, moment) = (Instant::now(), SystemTime::now());
    thread::spawn(move || {
        let over = read_all(lines, start, &sender);
        let _ = sender.send(Message::Over(over));
    });
    watch(receiver, Watch::new(quiet, Clock::Machine(moment), json), start)
}

/// Sends the bytes of every line as they come.
fn read_all(mut lines: Lines, start: Instant, sender: &Sender<Message>) -> Result<(), Fault> {
    while let Some(mut line) = lines.next_line()? {
        let (bytes, read) = read_line(&mut line, start, sender);
        let _ = sender.send(Message::End(start.elapsed()));
        lines.after(&line.name, bytes, read)?;
    }
    Ok(())
}

/// How many bytes a line had, and whether reading failed.
fn read_line(line: &mut impl Read, start: Instant, sender: &Sender<Message>) -> (u64, io::Result<()>) {
    let (mut buffer, mut bytes) = (vec![0; MOST], 0);
    loop {
        match line.read(&mut buffer) {
            Ok(0) => return (bytes, Ok(())),
            Ok(size) => {
                bytes += size as u64;
                // The command ends with its main thread: nobody is left to receive.
                if sender.send(Message::Bytes(start.elapsed(), buffer[..size].to_vec())).is_err() {
                    return (bytes, Ok(()));
                }
            }
            Err(error) if error.kind() == ErrorKind::Interrupted => {}
            Err(error) => return (bytes, Err(error)),
        }
    }
}

/// Hears frames as they come. Whether the quiet time has passed is asked only when all bytes that have
/// come were looked at, so that a monitor that was held up tells no silence that was none.
fn watch(receiver: Receiver<Message>, mut watch: Watch, start: Instant) -> Outcome {
    let mut hearer = Hearer::new(MOST);
    loop {
        let message = match receiver.try_recv() {
            Ok(message) => message,
            Err(TryRecvError::Disconnected) => return Ok(watch.verdict()),
            Err(TryRecvError::Empty) => {
                watch.tick(start.elapsed())?;
                match receiver.recv_timeout(watch.patience(start.elapsed())) {
                    Ok(message) => message,
                    Err(_) => continue,
                }
            }
        };
        match message {
            Message::Bytes(at, bytes) => watch.heard(at, hearer.read(&bytes).frames)?,
            Message::End(at) => {
                watch.heard(at, hearer.end())?;
                hearer = Hearer::new(MOST);
            }
            Message::Over(over) => return over.map(|()| watch.verdict()),
        }
    }
}
