//! Dates and times of day as people write them, as numbers.

const SECONDS_PER_DAY: i64 = 86_400;

/// What a stored number of a time or a timestamp counts.
#[derive(Clone, Copy, Debug, PartialEq, Eq)]
pub enum Unit {
    Milliseconds,
    Microseconds,
}

impl Unit {
    fn digits(self) -> usize {
        match self {
            Unit::Milliseconds => 3,
            Unit::Microseconds => 6,
        }
    }

    fn per_second(self) -> i64 {
        match self {
            Unit::Milliseconds => 1_000,
            Unit::Microseconds => 1_000_000,
        }
    }

    fn name(self) -> &'static str {
        match self {
            Unit::Milliseconds => "milliseconds",
            Unit::Microseconds => "microseconds",
        }
    }
}

/// `2024-01-01`: the days since 1970-01-01.
pub fn date(text: &str) -> Result<i64, String> {
    let parts: Vec<&str> = text.split('-').collect();
    let [year, month, day] = parts[..] else {
        return Err("a date is written 2024-01-31".to_string());
    };
    let (Some(year), Some(month), Some(day)) = (digits(year, 4), digits(month, 2), digits(day, 2)) else {
        return Err("a date is written 2024-01-31".to_string());
    };
    if !(1..=12).contains(&month) {
        return Err(format!("there is no month {month}"));
    }
    if !(1..=days_of(year, month)).contains(&day) {
        return Err(format!("that month has no day {day}"));
    }
    Ok(days_before_year(year) + (1..month).map(|month| days_of(year, month)).sum::<i64>() + day - 1)
}

/// `10:01:00.5`: the units since midnight.
pub fn time(text: &str, unit: Unit) -> Result<i64, String> {
    let form = || "a time of day is written 10:01:00 or 10:01:00.5".to_string();
    let (clock, fraction) = match text.split_once('.') {
        Some((clock, fraction)) => (clock, Some(fraction)),
        None => (text, None),
    };
    let parts: Vec<&str> = clock.split(':').collect();
    let [hour, minute, second] = parts[..] else {
        return Err(form());
    };
    let (Some(hour), Some(minute), Some(second)) = (digits(hour, 2), digits(minute, 2), digits(second, 2)) else {
        return Err(form());
    };
    if hour > 23 || minute > 59 || second > 59 {
        return Err("a day goes from 00:00:00 to 23:59:59".to_string());
    }
    let part = match fraction {
        Some(fraction) => fraction_of(fraction, unit)?.ok_or_else(form)?,
        None => 0,
    };
    Ok((hour * 3_600 + minute * 60 + second) * unit.per_second() + part)
}

/// `2024-01-01T10:01:00` or with a space: the units since 1970-01-01T00:00:00.
pub fn timestamp(text: &str, unit: Unit) -> Result<i64, String> {
    let (day, clock) = text
        .split_once(['T', ' '])
        .ok_or("a timestamp is written 2024-01-31T10:01:00, '2024-01-31 10:01:00', or with a fraction behind")?;
    Ok(date(day)? * SECONDS_PER_DAY * unit.per_second() + time(clock, unit)?)
}

/// The digits behind the point as units; none if they are no digits. Finer than the unit is an error: rounded, it would ask for
/// another value than was written.
fn fraction_of(fraction: &str, unit: Unit) -> Result<Option<i64>, String> {
    if fraction.is_empty() || !fraction.bytes().all(|byte| byte.is_ascii_digit()) {
        return Ok(None);
    }
    let (kept, finer) = fraction.split_at(fraction.len().min(unit.digits()));
    if finer.bytes().any(|byte| byte != b'0') {
        return Err(format!("the fraction .{fraction} is finer than {}", unit.name()));
    }
    Ok(digits(&format!("{kept:0<width$}", width = unit.digits()), unit.digits()))
}

/// A number of exactly this many digits.
fn digits(text: &str, number: usize) -> Option<i64> {
    if text.len() != number || !text.bytes().all(|byte| byte.is_ascii_digit()) {
        return None;
    }
    text.parse().ok()
}

/// The days from 1970-01-01 to the first of January of a year from 0 to 9999.
fn days_before_year(year: i64) -> i64 {
    // A year has 365 days and one more for each leap year. The leap years before this one are counted from 400 years earlier, where the
    // Gregorian rule began anew, so that no number is negative, which a division would round the other way.
    let days = |years: i64| years * 365 + years / 4 - years / 100 + years / 400;
    days(year + 399) - days(1_970 + 399)
}

fn days_of(year: i64, month: i64) -> i64 {
    match month {
        2 if year % 4 == 0 && (year % 100 != 0 || year % 400 == 0) => 29,
        2 => 28,
        4 | 6 | 9 | 11 => 30,
        _ => 31,
    }
}

#[cfg(test)]
mod tests {
    use super::*;

    #[test]
    fn dates() {
        // The numbers are those of `date -u -d DATE +%s`, divided by 86,400.
        for (text, days) in [
            ("1970-01-01", 0),
            ("1970-01-02", 1),
            ("1969-12-31", -1),
            ("1972-02-29", 789),
            ("2000-02-29", 11_016),
            ("2000-03-01", 11_017),
            ("2024-01-01", 19_723),
            ("2024-12-31", 20_088),
            ("1900-03-01", -25_508),
            ("0001-01-01", -719_162),
            ("0000-01-01", -719_528),
            ("9999-12-31", 2_932_896),
        ] {
            assert_eq!(date(text), Ok(days), "{text}");
        }
    }

    #[test]
    fn every_month_follows_the_one_before() {
        let mut next = date("0000-01-01").unwrap();
        for year in 0..=9999 {
            for month in 1..=12 {
                let last = days_of(year, month);
                assert_eq!(date(&format!("{year:04}-{month:02}-01")), Ok(next));
                assert_eq!(date(&format!("{year:04}-{month:02}-{last:02}")), Ok(next + last - 1));
                next += last;
            }
        }
    }

    #[test]
    fn no_dates() {
        for text in [
            "",
            "2024",
            "2024-01",
            "2024-1-1",
            "24-01-01",
            "2024-13-01",
            "2024-00-01",
            "2024-01-00",
            "2024-01-32",
            "2023-02-29",
            "1900-02-29",
            "2024-04-31",
            "2024-01-01-01",
            "2024-01-0x",
            "+024-01-01",
            "-2024-01-01",
            "2024-01-01 ",
            "２024-01-01",
        ] {
            assert!(date(text).is_err(), "{text}");
        }
    }

    #[test]
    fn times() {
        use Unit::{Microseconds, Milliseconds};
        for (text, unit, number) in [
            ("00:00:00", Milliseconds, 0),
            ("10:01:00", Milliseconds, 36_060_000),
            ("10:01:00.5", Milliseconds, 36_060_500),
            ("10:01:00.050", Milliseconds, 36_060_050),
            ("10:01:00.123000", Milliseconds, 36_060_123),
            ("10:01:00.123456", Microseconds, 36_060_123_456),
            ("23:59:59.999", Milliseconds, 86_399_999),
        ] {
            assert_eq!(time(text, unit), Ok(number), "{text}");
        }
        for text in [
            "",
            "10",
            "10:01",
            "1:01:00",
            "24:00:00",
            "10:60:00",
            "10:00:60",
            "10:01:00.",
            "10:01:00.5x",
            "10:01:00.-5",
            "10:01:00.0001",
            "-10:01:00",
            "10:01:00:00",
            "10.5:01:00",
        ] {
            assert!(time(text, Milliseconds).is_err(), "{text}");
        }
        assert!(time("10:01:00.1234567", Microseconds).is_err());
    }

    #[test]
    fn timestamps() {
        use Unit::{Microseconds, Milliseconds};
        for (text, unit, number) in [
            ("1970-01-01T00:00:00", Milliseconds, 0),
            ("2024-01-01T10:00:00", Milliseconds, 1_704_103_200_000),
            ("2024-01-01 10:00:00.25", Milliseconds, 1_704_103_200_250),
            ("2024-01-01T10:00:00.25", Microseconds, 1_704_103_200_250_000),
            ("1969-12-31T23:59:59.999", Milliseconds, -1),
            ("9999-12-31T23:59:59.999999", Microseconds, 253_402_300_799_999_999),
        ] {
            assert_eq!(timestamp(text, unit), Ok(number), "{text}");
        }
        for text in ["", "2024-01-01", "2024-01-01T", "T10:00:00", "2024-01-01X10:00:00", "2024-01-01T10:00:00Z"] {
            assert!(timestamp(text, Milliseconds).is_err(), "{text}");
        }
    }
}
