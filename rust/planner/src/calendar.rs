//! Moments and days: seconds since 1970 as a capture has them, dates as people write them.

use std::fmt;
use std::time::Duration;

const MINUTE: i64 = 60;
const HOUR: i64 = 60 * MINUTE;
const DAY: i64 = 24 * HOUR;
const BILLION: u32 = 1_000_000_000;
/// Four hundred years, after which the calendar repeats, have so many days.
const CYCLE: i64 = 146_097;
/// From 0000-03-01 to 1970-01-01.
const BEFORE: i64 = 719_468;
/// The first second behind the year 9999.
const END: i64 = 253_402_300_800;

/// A moment between 1970 and 9999, by seconds since 1970-01-01 00:00:00 UTC, leap seconds not
/// counted.
#[derive(Clone, Copy, Debug, PartialEq, Eq, PartialOrd, Ord, Hash)]
pub struct Moment {
    seconds: i64,
    nanoseconds: u32,
}

/// By how many seconds a place's clock is ahead of UTC.
#[derive(Clone, Copy, Debug, Default, PartialEq, Eq)]
pub struct Offset(i64);

/// A month of a place's calendar.
#[derive(Clone, Copy, Debug, PartialEq, Eq, PartialOrd, Ord, Hash)]
pub struct Month {
    year: i64,
    month: i64,
}

impl Moment {
    /// The moment so many seconds after 1970 began; none outside 1970 to 9999.
    ///
    /// ```
    /// use planner::calendar::{Moment, Offset};
    /// let moment = Moment::new(1_794_843_635, 250_000_000).unwrap();
    /// assert_eq!(moment.shown(Offset::UTC), "2026-11-16 15:40:35");
    /// assert_eq!(moment.exact(Offset::UTC), "2026-11-16T15:40:35.250Z");
    /// assert_eq!(Moment::new(-1, 0), None);
    /// assert_eq!(Moment::new(0, 1_000_000_000), None);
    /// ```
    pub fn new(seconds: i64, nanoseconds: u32) -> Option<Moment> {
        let is_known = (0..END).contains(&seconds) && nanoseconds < BILLION;
        is_known.then_some(Moment {
            seconds,
            nanoseconds,
        })
    }

    /// The moment by a capture's clock, which counts so many units a second and was set so many
    /// seconds late.
    ///
    /// ```
    /// use planner::calendar::{Moment, Offset};
    /// let moment = Moment::by_units(1_500, 1_000, 60).unwrap();
    /// assert_eq!(moment.exact(Offset::UTC), "1970-01-01T00:01:01.500Z");
    /// ```
    pub fn by_units(units: u64, each_second: u128, late: i64) -> Option<Moment> {
        let units = u128::from(units);
        let seconds = i64::try_from(units.checked_div(each_second)?).ok()?;
        let rest = units % each_second * u128::from(BILLION) / each_second;
        Moment::new(seconds.checked_add(late)?, rest.try_into().ok()?)
    }

    /// How far another moment lies from this one, before it or behind it.
    ///
    /// ```
    /// use planner::calendar::Moment;
    /// use std::time::Duration;
    /// let [first, second] = [(5, 900_000_000), (6, 100_000_000)].map(|(s, n)| Moment::new(s, n));
    /// let apart = first.unwrap().apart(second.unwrap());
    /// assert_eq!(apart, Duration::from_millis(200));
    /// ```
    pub fn apart(self, other: Moment) -> Duration {
        let since = |moment: Moment| Duration::new(moment.seconds as u64, moment.nanoseconds);
        since(self).abs_diff(since(other))
    }

    /// Reads seconds since 1970 with a point, as `1731771635.250`; digits behind the ninth are left
    /// off.
    pub fn read_seconds(text: &str) -> Option<Moment> {
        let (whole, part) = text.split_once('.')?;
        Moment::new(digits(whole, 1..=12)?, fraction(part)?)
    }

    /// Reads a date and a time with a zone or, where none is there, by a place's clock.
    ///
    /// ```
    /// use planner::calendar::{Moment, Offset};
    /// let read = |date, time| Moment::read(date, time, Offset::UTC);
    /// let moment = read("2026-11-16", "15:40:35.123Z").unwrap();
    /// assert_eq!(moment.exact(Offset::UTC), "2026-11-16T15:40:35.123Z");
    /// assert_eq!(read("2026-11-16", "16:40:35.123+01:00"), Some(moment));
    /// assert_eq!(read("2026-02-29", "00:00:00"), None);
    /// assert_eq!(read("2026-11-16", "24:00:00"), None);
    /// ```
    pub fn read(date: &str, time: &str, place: Offset) -> Option<Moment> {
        let (time, zone) = match time.find(['Z', '+', '-']) {
            Some(at) => (&time[..at], Offset::read(&time[at..])?),
            None => (time, place),
        };
        let (whole, part) = match time.split_once('.') {
            Some((whole, part)) => (whole, fraction(part)?),
            None => (time, 0),
        };
        let seconds = day(date)? * DAY + time_of_day(whole)? - zone.0;
        Moment::new(seconds, part)
    }

    /// As people write it, by a place's clock, to the second.
    pub fn shown(self, place: Offset) -> String {
        let (date, time) = self.parts(place);
        format!("{date} {time}")
    }

    /// As scripts read it, with the zone and every fraction.
    pub fn exact(self, place: Offset) -> String {
        let (date, time) = self.parts(place);
        let part = match self.nanoseconds {
            0 => String::new(),
            part if part % 1_000_000 == 0 => format!(".{:03}", part / 1_000_000),
            part if part % 1_000 == 0 => format!(".{:06}", part / 1_000),
            part => format!(".{part:09}"),
        };
        let zone = match place {
            Offset::UTC => "Z".into(),
            place => place.to_string(),
        };
        format!("{date}T{time}{part}{zone}")
    }

    /// The month that a place's calendar shows.
    pub fn month(self, place: Offset) -> Month {
        let (year, month, _) = date((self.seconds + place.0).div_euclid(DAY));
        Month { year, month }
    }

    fn parts(self, place: Offset) -> (String, String) {
        let seconds = self.seconds + place.0;
        let (year, month, day) = date(seconds.div_euclid(DAY));
        let second = seconds.rem_euclid(DAY);
        let (hour, minute) = (second / HOUR, second % HOUR / MINUTE);
        let date = format!("{year:04}-{month:02}-{day:02}");
        (
            date,
            format!("{hour:02}:{minute:02}:{:02}", second % MINUTE),
        )
    }
}

impl Offset {
    /// The clock that captures go by.
    pub const UTC: Offset = Offset(0);

    /// Reads `Z`, `+01:00` or `-03:30`, up to 14 hours either way.
    ///
    /// ```
    /// use planner::calendar::Offset;
    /// assert_eq!(Offset::read("+01:00").unwrap().to_string(), "+01:00");
    /// assert_eq!(Offset::read("Z"), Some(Offset::UTC));
    /// assert_eq!(Offset::read("-00:00"), Some(Offset::UTC));
    /// for text in ["", "1", "+1:00", "+14:01", "+01:60", "+0100"] {
    ///     assert_eq!(Offset::read(text), None);
    /// }
    /// ```
    pub fn read(text: &str) -> Option<Offset> {
        if text == "Z" {
            return Some(Offset::UTC);
        }
        let (sign, rest) = match text.strip_prefix('+') {
            Some(rest) => (1, rest),
            None => (-1, text.strip_prefix('-')?),
        };
        let (hours, minutes) = rest.split_once(':')?;
        let minutes = digits(minutes, 2..=2).filter(|minutes| *minutes < 60)?;
        let seconds = digits(hours, 2..=2)? * HOUR + minutes * MINUTE;
        (seconds <= 14 * HOUR).then_some(Offset(sign * seconds))
    }

    /// Its name behind a time.
    pub fn name(self) -> String {
        match self {
            Offset::UTC => "UTC".into(),
            place => place.to_string(),
        }
    }
}

impl fmt::Display for Offset {
    fn fmt(&self, f: &mut fmt::Formatter<'_>) -> fmt::Result {
        let (sign, seconds) = (if self.0 < 0 { '-' } else { '+' }, self.0.abs());
        let (hours, minutes) = (seconds / HOUR, seconds % HOUR / MINUTE);
        write!(f, "{sign}{hours:02}:{minutes:02}")
    }
}

impl fmt::Display for Month {
    fn fmt(&self, f: &mut fmt::Formatter<'_>) -> fmt::Result {
        write!(f, "{:04}-{:02}", self.year, self.month)
    }
}

/// So many digits and nothing else.
fn digits(text: &str, size: std::ops::RangeInclusive<usize>) -> Option<i64> {
    let is_number = size.contains(&text.len()) && text.bytes().all(|digit| digit.is_ascii_digit());
    text.parse().ok().filter(|_| is_number)
}

/// The nanoseconds that the digits behind a point stand for.
fn fraction(text: &str) -> Option<u32> {
    digits(text, 1..=18)?;
    let nine: String = text.chars().chain("00000000".chars()).take(9).collect();
    nine.parse().ok()
}

fn time_of_day(text: &str) -> Option<i64> {
    let parts: Vec<&str> = text.split(':').collect();
    let [hour, minute, second] = parts[..] else {
        return None;
    };
    let part = |text, below| digits(text, 2..=2).filter(|value| *value < below);
    Some(part(hour, 24)? * HOUR + part(minute, 60)? * MINUTE + part(second, 60)?)
}

/// Days since 1970 of a date that the calendar has.
fn day(text: &str) -> Option<i64> {
    let parts: Vec<&str> = text.split('-').collect();
    let [year, month, day] = parts[..] else {
        return None;
    };
    let wanted = (
        digits(year, 4..=4)?,
        digits(month, 2..=2)?,
        digits(day, 2..=2)?,
    );
    let days = days(wanted.0, wanted.1, wanted.2);
    (date(days) == wanted).then_some(days)
}

/// Days since 1970. The year is begun with March, so that the odd day of a leap year is its last.
fn days(year: i64, month: i64, day: i64) -> i64 {
    let years = if month < 3 { year - 1 } else { year };
    let months = (month + 9) % 12;
    let (cycle, year) = (years.div_euclid(400), years.rem_euclid(400));
    let in_year = (153 * months + 2) / 5 + day - 1;
    cycle * CYCLE + year * 365 + year / 4 - year / 100 + in_year - BEFORE
}

/// Year, month and day of so many days since 1970.
fn date(days: i64) -> (i64, i64, i64) {
    let days = days + BEFORE;
    let (cycle, day) = (days.div_euclid(CYCLE), days.rem_euclid(CYCLE));
    let year = (day - day / 1_460 + day / 36_524 - day / 146_096) / 365;
    let in_year = day - (year * 365 + year / 4 - year / 100);
    let months = (5 * in_year + 2) / 153;
    let month = (months + 2) % 12 + 1;
    let year = cycle * 400 + year + i64::from(month < 3);
    (year, month, in_year - (153 * months + 2) / 5 + 1)
}

#[cfg(test)]
mod tests {
    use super::{date, days, DAY, END};

    /// Day by day, with the lengths of the months as everybody knows them.
    #[test]
    fn has_every_day_from_1970_to_9999_once() {
        let (mut year, mut month, mut day) = (1970, 1, 1);
        for number in 0..END / DAY {
            assert_eq!(date(number), (year, month, day));
            assert_eq!(days(year, month, day), number);
            let is_leap = year % 4 == 0 && (year % 100 != 0 || year % 400 == 0);
            let length = match month {
                2 => 28 + i64::from(is_leap),
                4 | 6 | 9 | 11 => 30,
                _ => 31,
            };
            day += 1;
            if day > length {
                (month, day) = (month + 1, 1);
            }
            if month > 12 {
                (year, month) = (year + 1, 1);
            }
        }
        assert_eq!((year, month, day), (10_000, 1, 1));
    }
}
