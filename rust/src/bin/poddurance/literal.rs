//! Literals as people write them, by the type of the column.

use std::fmt::Display;
use std::str::FromStr;

use poddurance::{Type, Value};

use crate::calendar::{self, Unit};

/// A literal that fits its type in form.
#[derive(Clone, Debug, PartialEq, Eq)]
pub enum Literal {
    Number(i64),
    Boolean(bool),
    Text(String),
}

impl<'a> From<&'a Literal> for Value<'a> {
    fn from(literal: &'a Literal) -> Value<'a> {
        match literal {
            Literal::Number(number) => number.into(),
            Literal::Boolean(boolean) => boolean.into(),
            Literal::Text(text) => text.into(),
        }
    }
}

/// How dates and times are written.
#[derive(Clone, Copy, Debug, PartialEq, Eq)]
pub enum Form {
    /// As people write them; timestamps are stored in the unit. None is assumed, since in the wrong one every literal would be
    /// found nowhere and the data file skipped.
    Written(Option<Unit>),
    /// As the stored numbers. They are asked for apart, since `20240101` as a number of days would be found nowhere either.
    Stored,
}

/// Reads a literal of a type. The error says what is wrong with it.
pub fn parse(text: &str, ty: Type, form: Form) -> Result<Literal, String> {
    // Where no unit is given the finest one shows whether it is all that is missing.
    let timestamp = |text, unit: Option<Unit>| calendar::timestamp(text, unit.unwrap_or(Unit::Microseconds));
    let read = match (ty, form) {
        (Type::TinyInt, _) => whole(text, i8::MIN, i8::MAX).map(Literal::Number),
        (Type::SmallInt, _) => whole(text, i16::MIN, i16::MAX).map(Literal::Number),
        (Type::Int, _) => whole(text, i32::MIN, i32::MAX).map(Literal::Number),
        (Type::BigInt, _) => whole(text, i64::MIN, i64::MAX).map(Literal::Number),
        (Type::Boolean, _) => boolean(text).map(Literal::Boolean),
        (Type::Date | Type::Time, Form::Stored) => stored(text, i32::MIN, i32::MAX),
        (Type::Timestamp | Type::LocalZonedTimestamp, Form::Stored) => stored(text, i64::MIN, i64::MAX),
        (Type::Date, Form::Written(_)) => written(text, calendar::date(text)),
        // Paimon stores a time of day as milliseconds, whatever its precision.
        (Type::Time, Form::Written(_)) => written(text, calendar::time(text, Unit::Milliseconds)),
        (Type::Timestamp, Form::Written(unit)) => written(text, timestamp(text, unit)),
        // It is stored as an instant, so that it is UTC that is read here, with its sign or without.
        (Type::LocalZonedTimestamp, Form::Written(unit)) => {
            written(text, timestamp(text.strip_suffix('Z').unwrap_or(text), unit))
        }
        (Type::Char | Type::VarChar | Type::String, _) => Ok(Literal::Text(text.to_string())),
    };
    let literal = read.map_err(|reason| format!("{text:?} is no {ty}: {reason}"))?;
    match (ty, form) {
        (Type::Timestamp | Type::LocalZonedTimestamp, Form::Written(None)) => Err(format!(
            "{text:?} needs --millis or --micros: a {ty} column of precision up to 3 stores milliseconds, above 3 microseconds"
        )),
        _ => Ok(literal),
    }
}

fn stored<T: FromStr + Into<i64> + Display>(text: &str, least: T, most: T) -> Result<Literal, String> {
    whole(text, least, most).map(Literal::Number).map_err(|reason| format!("with --stored {reason}"))
}

fn written(text: &str, read: Result<i64, String>) -> Result<Literal, String> {
    read.map(Literal::Number).map_err(|reason| match is_whole(text) {
        true => format!("{reason}; for the stored number give --stored"),
        false => reason,
    })
}

fn is_whole(text: &str) -> bool {
    let digits = text.strip_prefix(['-', '+']).unwrap_or(text);
    !digits.is_empty() && digits.bytes().all(|byte| byte.is_ascii_digit())
}

fn whole<T: FromStr + Into<i64> + Display>(text: &str, least: T, most: T) -> Result<i64, String> {
    text.parse::<T>().map(Into::into).map_err(|_| format!("it takes whole numbers from {least} to {most}"))
}

fn boolean(text: &str) -> Result<bool, String> {
    if text.eq_ignore_ascii_case("true") {
        Ok(true)
    } else if text.eq_ignore_ascii_case("false") {
        Ok(false)
    } else {
        Err("it takes true and false".to_string())
    }
}

#[cfg(test)]
mod tests {
    use super::*;

    const MILLIS: Form = Form::Written(Some(Unit::Milliseconds));
    const MICROS: Form = Form::Written(Some(Unit::Microseconds));
    const NO_UNIT: Form = Form::Written(None);

    fn number(text: &str, ty: Type, form: Form) -> Option<i64> {
        match parse(text, ty, form) {
            Ok(Literal::Number(number)) => Some(number),
            Ok(other) => panic!("{other:?}"),
            Err(_) => None,
        }
    }

    #[test]
    fn numbers_to_the_ends_of_their_type() {
        for (ty, form, least, most) in [
            (Type::TinyInt, NO_UNIT, -128, 127),
            (Type::SmallInt, NO_UNIT, -32_768, 32_767),
            (Type::Int, NO_UNIT, i64::from(i32::MIN), i64::from(i32::MAX)),
            (Type::Date, Form::Stored, i64::from(i32::MIN), i64::from(i32::MAX)),
            (Type::Time, Form::Stored, i64::from(i32::MIN), i64::from(i32::MAX)),
            (Type::BigInt, NO_UNIT, i64::MIN, i64::MAX),
            (Type::Timestamp, Form::Stored, i64::MIN, i64::MAX),
            (Type::LocalZonedTimestamp, Form::Stored, i64::MIN, i64::MAX),
        ] {
            assert_eq!(number(&least.to_string(), ty, form), Some(least), "{ty}");
            assert_eq!(number(&most.to_string(), ty, form), Some(most), "{ty}");
            assert_eq!(number(&(i128::from(least) - 1).to_string(), ty, form), None, "{ty}");
            assert_eq!(number(&(i128::from(most) + 1).to_string(), ty, form), None, "{ty}");
            for text in ["", "-", "+", "7.0", "0x7", "seven", " 7", "7 ", "--7", "1e3", "2024-01-01", "10:01:00"] {
                assert_eq!(number(text, ty, form), None, "{text:?} as {ty}");
            }
        }
    }

    #[test]
    fn days_and_times() {
        assert_eq!(number("2024-01-01", Type::Date, NO_UNIT), Some(19_723));
        assert_eq!(number("10:01:00", Type::Time, NO_UNIT), Some(36_060_000));
        assert_eq!(number("10:01:00.0001", Type::Time, NO_UNIT), None);
        for (form, ten_o_clock) in [(MILLIS, 1_704_103_200_000), (MICROS, 1_704_103_200_000_000)] {
            let number = |text, ty| number(text, ty, form);
            assert_eq!(number("2024-01-01T10:00:00", Type::Timestamp), Some(ten_o_clock));
            assert_eq!(number("2024-01-01 10:00:00", Type::LocalZonedTimestamp), Some(ten_o_clock));
            assert_eq!(number("2024-01-01T10:00:00Z", Type::LocalZonedTimestamp), Some(ten_o_clock));
            assert_eq!(number("2024-01-01T10:00:00Z", Type::Timestamp), None);
            assert_eq!(number("2024-01-01", Type::Timestamp), None);
        }
        assert_eq!(number("2024-01-01T10:00:00", Type::Date, NO_UNIT), None);
        assert_eq!(number("2024-01-01", Type::Int, NO_UNIT), None);
    }

    #[test]
    fn timestamps_need_their_unit() {
        for ty in [Type::Timestamp, Type::LocalZonedTimestamp] {
            for text in ["2024-01-01T10:00:00", "2024-01-01 10:00:00.25", "2024-01-01T10:00:00.000001"] {
                assert_eq!(
                    parse(text, ty, NO_UNIT),
                    Err(format!(
                        "{text:?} needs --millis or --micros: \
                         a {ty} column of precision up to 3 stores milliseconds, above 3 microseconds"
                    ))
                );
            }
        }
    }

    #[test]
    fn stored_numbers_are_asked_for_apart() {
        for (text, ty, message) in [
            ("20240101", Type::Date, "a date is written 2024-01-31; for the stored number give --stored"),
            ("-1", Type::Date, "a date is written 2024-01-31; for the stored number give --stored"),
            ("100100", Type::Time, "a time of day is written 10:01:00 or 10:01:00.5; for the stored number give --stored"),
            (
                "1704103200000",
                Type::Timestamp,
                "a timestamp is written 2024-01-31T10:01:00, '2024-01-31 10:01:00', or with a fraction behind; \
                 for the stored number give --stored",
            ),
        ] {
            for form in [NO_UNIT, MILLIS, MICROS] {
                assert_eq!(parse(text, ty, form), Err(format!("{text:?} is no {ty}: {message}")));
            }
        }
        assert_eq!(
            parse("2024-01-01", Type::Date, Form::Stored),
            Err("\"2024-01-01\" is no DATE: with --stored it takes whole numbers from -2147483648 to 2147483647".to_string())
        );
    }

    #[test]
    fn booleans_and_strings() {
        let read = |text, ty| parse(text, ty, NO_UNIT);
        assert_eq!(read("true", Type::Boolean), Ok(Literal::Boolean(true)));
        assert_eq!(read("FALSE", Type::Boolean), Ok(Literal::Boolean(false)));
        assert!(read("1", Type::Boolean).is_err());
        for ty in [Type::Char, Type::VarChar, Type::String] {
            for text in ["", "login", "-3", " spaced ", "\"", "Pumpe läuft"] {
                assert_eq!(read(text, ty), Ok(Literal::Text(text.to_string())));
            }
        }
    }

    #[test]
    fn errors_say_what_is_taken() {
        assert_eq!(
            parse("300", Type::TinyInt, NO_UNIT),
            Err("\"300\" is no TINYINT: it takes whole numbers from -128 to 127".to_string())
        );
        assert_eq!(
            parse("2024-01-01T10:00:00.0005", Type::Timestamp, MILLIS),
            Err("\"2024-01-01T10:00:00.0005\" is no TIMESTAMP: the fraction .0005 is finer than milliseconds".to_string())
        );
    }
}
