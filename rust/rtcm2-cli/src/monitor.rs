//! The monitor's states and events, by the table of docs/MONITOR.md. It reads no clock: every call is
//! told the time, from any fixed start on.

use rtcm2::Taken;
use std::collections::BTreeMap;
use std::time::Duration;

/// What is told, once each time.
#[derive(Clone, Copy, Debug, PartialEq, Eq)]
pub enum Event {
    /// A station is heard for the first time.
    Heard {
        /// Its number.
        station: u16,
        /// Its health code.
        health: u8,
    },
    /// No frame has come for the quiet time.
    Quiet {
        /// When the last one came, or the monitor started.
        since: Duration,
    },
    /// Frames come again.
    Back {
        /// How long there were none.
        after: Duration,
    },
    /// The station says that it is not monitored, health 6.
    NotMonitored {
        /// Its number.
        station: u16,
    },
    /// The station says that it is not working, health 7.
    NotWorking {
        /// Its number.
        station: u16,
    },
    /// The station's health is 0 to 5 again.
    HealthBack {
        /// Its number.
        station: u16,
        /// Its health code.
        health: u8,
    },
    /// The line has the frames of another station.
    StationChanged {
        /// The number that it had.
        from: u16,
        /// The number that it has.
        to: u16,
    },
    /// For the quiet time every frame was a null frame.
    OnlyNull {
        /// When the last other one came.
        since: Duration,
    },
    /// Other frames than null frames come again.
    DataAgain {
        /// How long there were none.
        after: Duration,
    },
}

impl Event {
    /// The event's name, for a ticket system.
    pub fn name(&self) -> &'static str {
        match self {
            Event::Heard { .. } => "heard",
            Event::Quiet { .. } => "quiet",
            Event::Back { .. } => "back",
            Event::NotMonitored { .. } => "not-monitored",
            Event::NotWorking { .. } => "not-working",
            Event::HealthBack { .. } => "health-back",
            Event::StationChanged { .. } => "station-changed",
            Event::OnlyNull { .. } => "only-null",
            Event::DataAgain { .. } => "data-again",
        }
    }
}

/// What the station says of itself, as far as tickets go.
#[derive(Clone, Copy, Debug, PartialEq, Eq)]
enum Condition {
    Well,
    NotMonitored,
    NotWorking,
}

impl Condition {
    fn of(health: u8) -> Condition {
        match health {
            6 => Condition::NotMonitored,
            7 => Condition::NotWorking,
            _ => Condition::Well,
        }
    }
}

/// What the monitor looks at in a frame.
#[derive(Clone, Copy, Debug, PartialEq, Eq)]
pub struct Heard {
    /// The station's number.
    pub station: u16,
    /// Its health code.
    pub health: u8,
    /// Whether it is a null frame.
    pub is_null: bool,
}

impl Heard {
    /// What it looks at in a frame that was taken.
    pub fn of(taken: &Taken) -> Heard {
        let header = taken.frame.header();
        Heard { station: header.station, health: header.health, is_null: taken.frame.is_null() }
    }
}

/// A monitor of one line.
#[derive(Clone, Debug)]
pub struct Monitor {
    quiet: Duration,
    /// When the last frame came, or the monitor started; while it is quiet, the last one before that.
    last: Duration,
    is_quiet: bool,
    /// When each station number last came.
    came: BTreeMap<u16, Duration>,
    /// The number of the frame before.
    before: Option<u16>,
    station: Option<u16>,
    condition: Condition,
    /// When the last frame came that is no null frame.
    data: Duration,
    only_null: bool,
}

impl Monitor {
    /// A monitor that starts at a time, and calls a line quiet that gives no frame for so long.
    pub fn new(quiet: Duration, now: Duration) -> Monitor {
        Monitor {
            quiet,
            last: now,
            is_quiet: false,
            came: BTreeMap::new(),
            before: None,
            station: None,
            condition: Condition::Well,
            data: now,
            only_null: false,
        }
    }

    /// When the line becomes quiet if no frame comes; none while it is.
    pub fn deadline(&self) -> Option<Duration> {
        (!self.is_quiet).then(|| self.last + self.quiet)
    }

    /// Whether a station is heard and well.
    pub fn is_well(&self) -> bool {
        self.station.is_some() && !self.is_quiet && !self.only_null && self.condition == Condition::Well
    }

    /// Time has passed: the event and when it fell due, if the line has become quiet.
    pub fn tick(&mut self, now: Duration) -> Option<(Duration, Event)> {
        let due = self.deadline().filter(|&due| due <= now)?;
        self.is_quiet = true;
        Some((due, Event::Quiet { since: self.last }))
    }

    /// A frame has come: the events of it, in their order.
    pub fn frame(&mut self, now: Duration, heard: Heard) -> Vec<(Duration, Event)> {
        let mut events: Vec<_> = self.tick(now).into_iter().collect();
        let first = self.came.insert(heard.station, now).filter(|&first| now.saturating_sub(first) < self.quiet);
        let in_a_row = self.before.replace(heard.station) == Some(heard.station);
        if let Some(first) = first {
            let told = self.believed(now, first, in_a_row, heard);
            events.extend(told.into_iter().map(|event| (now, event)));
        }
        if !self.is_quiet {
            self.last = now;
        }
        events
    }

    /// A frame whose station came in another frame of late, the last time at `first`.
    fn believed(&mut self, now: Duration, first: Duration, in_a_row: bool, heard: Heard) -> Vec<Event> {
        let mut events = Vec::new();
        if self.is_quiet {
            events.push(Event::Back { after: first.saturating_sub(self.last) });
            self.is_quiet = false;
            self.data = now;
        }
        events.extend(self.name(in_a_row, heard));
        if self.station == Some(heard.station) {
            events.extend(self.health(heard));
            events.extend(self.content(now, heard.is_null));
        }
        events
    }

    /// Whose frames they are: the first station, or another one twice in a row.
    fn name(&mut self, in_a_row: bool, heard: Heard) -> Option<Event> {
        let Heard { station, health, .. } = heard;
        match self.station {
            None => {
                self.station = Some(station);
                Some(Event::Heard { station, health })
            }
            Some(from) if from != station && in_a_row => {
                self.station = Some(station);
                Some(Event::StationChanged { from, to: station })
            }
            Some(_) => None,
        }
    }

    /// Whether the station says something else of itself than before.
    fn health(&mut self, heard: Heard) -> Option<Event> {
        let Heard { station, health, .. } = heard;
        let condition = Condition::of(health);
        if condition == self.condition {
            return None;
        }
        self.condition = condition;
        Some(match condition {
            Condition::Well => Event::HealthBack { station, health },
            Condition::NotMonitored => Event::NotMonitored { station },
            Condition::NotWorking => Event::NotWorking { station },
        })
    }

    /// Whether anything but null frames comes.
    fn content(&mut self, now: Duration, is_null: bool) -> Option<Event> {
        let since = self.data;
        if !is_null {
            self.data = now;
            return std::mem::take(&mut self.only_null)
                .then_some(Event::DataAgain { after: now.saturating_sub(since) });
        }
        if self.only_null || now.saturating_sub(since) < self.quiet {
            return None;
        }
        self.only_null = true;
        Some(Event::OnlyNull { since })
    }
}
