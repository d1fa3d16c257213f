//! The time of events: of the machine, or of a recorded line by its pace.

use serde_json::{json, Value};
use std::time::{Duration, SystemTime, UNIX_EPOCH};

/// What times are counted from.
#[derive(Clone, Copy, Debug)]
pub enum Clock {
    /// The moment of the machine's clock at which the monitor started.
    Machine(SystemTime),
    /// The first byte of a recorded line.
    Line,
}

impl Clock {
    /// A time for a reader: UTC to the second, or seconds of the line.
    pub fn text(&self, time: Duration) -> String {
        match self {
            Clock::Machine(start) => utc(*start + time),
            Clock::Line => seconds(time),
        }
    }

    /// A time for a program: the same, as text or as a number.
    pub fn json(&self, time: Duration) -> Value {
        match self {
            Clock::Machine(_) => json!(self.text(time)),
            Clock::Line => json!(rounded(time)),
        }
    }
}

/// Seconds with tenths.
pub fn seconds(time: Duration) -> String {
    format!("{}.{}", time.as_secs(), time.subsec_millis() / 100)
}

/// Seconds with tenths, as a number.
pub fn rounded(time: Duration) -> f64 {
    (time.as_millis() / 100) as f64 / 10.0
}

/// A moment in UTC, to the second.
fn utc(moment: SystemTime) -> String {
    let past = moment.duration_since(UNIX_EPOCH).unwrap_or_default().as_secs();
    let (year, month, day) = date(past / 86400);
    let (hour, minute, second) = (past / 3600 % 24, past / 60 % 60, past % 60);
    format!("{year:04}-{month:02}-{day:02}T{hour:02}:{minute:02}:{second:02}Z")
}

/// The date of a day counted from 1970-01-01: years are counted from March on, so that the day of a
/// leap year is the last, in eras of 400 years.
fn date(days: u64) -> (u64, u64, u64) {
    let days = days + 719_468;
    let (era, day) = (days / 146_097, days % 146_097);
    let year = (day - day / 1460 + day / 36_524 - day / 146_096) / 365;
    let day = day - (365 * year + year / 4 - year / 100);
    let from_march = (5 * day + 2) / 153;
    let month = if from_march < 10 { from_march + 3 } else { from_march - 9 };
    let year = 400 * era + year + u64::from(month <= 2);
    (year, month, day - (153 * from_march + 2) / 5 + 1)
}

#[cfg(test)]
mod tests {
    use super::*;

    #[test]
    fn dates_of_known_moments() {
        let at = |seconds| utc(UNIX_EPOCH + Duration::from_secs(seconds));
        assert_eq!(at(0), "1970-01-01T00:00:00Z");
        assert_eq!(at(951_782_400), "2000-02-29T00:00:00Z");
        assert_eq!(at(1_709_251_199), "2024-02-29T23:59:59Z");
        assert_eq!(at(1_794_840_249), "2026-11-16T14:44:09Z");
        assert_eq!(at(4_107_542_400), "2100-03-01T00:00:00Z");
    }
}
