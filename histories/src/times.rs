//! Times: whole numbers, or dates with times of day in UTC, by a calendar of this program's own.
use std::fmt;

/// The seconds of a day.
pub const DAY: i64 = 86_400;

/// The days of 400 years, after which the calendar comes again.
const CYCLE: i64 = 146_097;

/// How the times of a theory are written.
#[derive(Clone, Copy, PartialEq, Eq, PartialOrd, Ord)]
pub enum Time {
    /// As whole numbers.
    Tick,
    /// As civil times: instant 0 is `first` seconds behind the beginning of the year 0, and each further one `step` seconds later.
    Civil { first: i64, step: i64 },
}

/// An instant, by its number in a theory's time.
#[derive(Clone, Copy, PartialEq, Eq, PartialOrd, Ord)]
pub struct Instant {
    number: i64,
    time: Time,
}

impl Time {
    /// The instant of a number.
    pub fn instant(self, number: i64) -> Instant {
        Instant { number, time: self }
    }
}

impl Instant {
    /// Its number.
    pub fn number(self) -> i64 {
        self.number
    }

    /// All instants from this one to another, both among them. Nothing happens between one and the next.
    pub fn up_to(self, last: Instant) -> impl Iterator<Item = Instant> {
        (self.number..=last.number).map(move |number| Instant { number, ..self })
    }
}

/// Whether the calendar has a 29 February in a year.
fn is_leap(year: i64) -> bool {
    year % 400 == 0 || (year % 4 == 0 && year % 100 != 0)
}

/// How many days a year has.
fn days_of_year(year: i64) -> i64 {
    365 + i64::from(is_leap(year))
}

/// How many days a month has, which is counted from 1.
fn days_of_month(year: i64, month: i64) -> i64 {
    match month {
        2 => 28 + i64::from(is_leap(year)),
        4 | 6 | 9 | 11 => 30,
        _ => 31,
    }
}

/// Writes the civil time that lies so many seconds behind the beginning of the year 0.
fn write_civil(f: &mut fmt::Formatter<'_>, seconds: i64) -> fmt::Result {
    let mut year = seconds / DAY / CYCLE * 400;
    let mut days = seconds / DAY % CYCLE;
    while days >= days_of_year(year) {
        days -= days_of_year(year);
        year += 1;
    }
    let mut month = 1;
    while days >= days_of_month(year, month) {
        days -= days_of_month(year, month);
        month += 1;
    }
    let day = days + 1;
    let (hour, minute, second) = (seconds / 3600 % 24, seconds / 60 % 60, seconds % 60);
    write!(
        f,
        "{year:04}-{month:02}-{day:02}T{hour:02}:{minute:02}:{second:02}Z"
    )
}

impl fmt::Display for Instant {
    fn fmt(&self, f: &mut fmt::Formatter<'_>) -> fmt::Result {
        match self.time {
            Time::Tick => write!(f, "{}", self.number),
            Time::Civil { first, step } => write_civil(f, first + step * self.number),
        }
    }
}
