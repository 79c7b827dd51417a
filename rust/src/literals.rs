use std::borrow::Cow;

use crate::{Refusal, Type};

/// One value to ask for, before it has the form in which its type is stored.
///
/// ```
/// use poddurance::Value;
///
/// assert_eq!(Value::from(7), Value::Number(7));
/// assert_eq!(Value::from(u64::MAX), Value::Number(18_446_744_073_709_551_615));
/// assert_eq!(Value::from(true), Value::Boolean(true));
/// assert_eq!(Value::from("login"), Value::String(b"login"));
/// assert_eq!(Value::from(b"login"), Value::String(b"login"));
/// ```
///
/// Each converts by reference too, so that [`Literals::of`] takes what a caller has: arrays, slices, vectors, other iterators.
///
/// A date is the days since 1970-01-01, a time the milliseconds of the day, a timestamp the milliseconds or the microseconds since
/// 1970-01-01. A number in another unit fits as well, and finds no row or the wrong ones:
///
/// ```
/// use poddurance::{Literals, Type};
///
/// let first_of_2024 = Literals::of(Type::Date, [19_723])?; // 2024-01-01
/// let ten_o_clock = Literals::of(Type::Time, [36_000_000])?;
/// let millis = Literals::of(Type::Timestamp, [1_704_103_200_000_i64])?; // 2024-01-01 10:00:00, precision up to 3
/// let micros = Literals::of(Type::Timestamp, [1_704_103_200_000_000_i64])?; // the same, precision above 3
/// # Ok::<(), poddurance::Refusal>(())
/// ```
#[derive(Clone, Copy, Debug, PartialEq, Eq, Hash)]
pub enum Value<'a> {
    /// A number of TINYINT, SMALLINT, INT or BIGINT; the days since 1970-01-01 of a DATE; the milliseconds of the day of a TIME;
    /// the milliseconds since 1970-01-01 of a TIMESTAMP or LOCAL ZONED TIMESTAMP whose column has a precision up to 3, and the
    /// microseconds of one above it. One that its type can't hold is [`Refusal::Literal`] to [`Literals`].
    Number(i128),
    /// A BOOLEAN.
    Boolean(bool),
    /// The bytes of CHAR, VARCHAR or STRING.
    String(&'a [u8]),
}

/// Numbers, by value and by reference, as the items of an array and of a slice are.
macro_rules! from_numbers {
    ($($number:ty)*) => {$(
        impl From<$number> for Value<'_> {
            fn from(number: $number) -> Self {
                // None of these types is wider.
                Value::Number(number as i128)
            }
        }

        impl From<&$number> for Value<'_> {
            fn from(number: &$number) -> Self {
                Value::from(*number)
            }
        }
    )*};
}

from_numbers!(i8 i16 i32 i64 i128 isize u8 u16 u32 u64 usize);

impl From<bool> for Value<'_> {
    fn from(boolean: bool) -> Self {
        Value::Boolean(boolean)
    }
}

impl From<&bool> for Value<'_> {
    fn from(boolean: &bool) -> Self {
        Value::Boolean(*boolean)
    }
}

impl<'a> From<&'a [u8]> for Value<'a> {
    fn from(bytes: &'a [u8]) -> Self {
        Value::String(bytes)
    }
}

impl<'a> From<&&'a [u8]> for Value<'a> {
    fn from(bytes: &&'a [u8]) -> Self {
        Value::String(bytes)
    }
}

impl<'a, const N: usize> From<&'a [u8; N]> for Value<'a> {
    fn from(bytes: &'a [u8; N]) -> Self {
        Value::String(bytes)
    }
}

impl<'a> From<&'a Vec<u8>> for Value<'a> {
    fn from(bytes: &'a Vec<u8>) -> Self {
        Value::String(bytes)
    }
}

impl<'a> From<&'a str> for Value<'a> {
    fn from(text: &'a str) -> Self {
        Value::String(text.as_bytes())
    }
}

impl<'a> From<&&'a str> for Value<'a> {
    fn from(text: &&'a str) -> Self {
        Value::String(text.as_bytes())
    }
}

impl<'a> From<&'a String> for Value<'a> {
    fn from(text: &'a String) -> Self {
        Value::String(text.as_bytes())
    }
}

impl<'a> From<&'a Cow<'_, str>> for Value<'a> {
    fn from(text: &'a Cow<'_, str>) -> Self {
        Value::String(text.as_bytes())
    }
}

/// The literals of a question, in the stored form of one type.
///
/// They carry the type to [`ask`](crate::ask), [`ask_file`](crate::ask_file) and [`look_up`](crate::OpenedBody::look_up): literals read as
/// another type than they were written for could fit it by chance and choose wrong rows. A value that has no stored form of the type is
/// [`Refusal::Literal`] here already. Whether they fit the question, and keep document 01's limits, is for those calls to say.
///
/// ```
/// use poddurance::{Literals, Refusal, Type};
///
/// let states = Literals::of(Type::String, ["login", "purchase"])?;
/// assert_eq!(states.as_bytes(), b"\0\0\0\x05login\0\0\0\x08purchase");
///
/// assert_eq!(Literals::of(Type::TinyInt, [300]), Err(Refusal::Literal));
/// assert_eq!(Literals::of(Type::TinyInt, ["7"]), Err(Refusal::Literal));
/// # Ok::<(), Refusal>(())
/// ```
#[derive(Clone, Debug, PartialEq, Eq, Hash)]
pub struct Literals {
    ty: Type,
    bytes: Vec<u8>,
    number: usize,
}

impl Literals {
    /// No literal, for IS NULL and IS NOT NULL, or to push to.
    ///
    /// ```
    /// use poddurance::{Literals, Type};
    ///
    /// assert!(Literals::none(Type::Int).is_empty());
    /// ```
    #[must_use]
    pub fn none(ty: Type) -> Literals {
        Literals { ty, bytes: Vec::new(), number: 0 }
    }

    /// These values.
    ///
    /// ```
    /// use poddurance::{Literals, Type};
    ///
    /// assert_eq!(Literals::of(Type::SmallInt, [7, -3])?.as_bytes(), [0, 7, 0xFF, 0xFD]);
    /// # Ok::<(), poddurance::Refusal>(())
    /// ```
    pub fn of<'a, V: Into<Value<'a>>>(ty: Type, values: impl IntoIterator<Item = V>) -> Result<Literals, Refusal> {
        let mut literals = Literals::none(ty);
        for value in values {
            literals.push(value)?;
        }
        Ok(literals)
    }

    /// Puts one more value behind the others. A refusal changes nothing.
    ///
    /// ```
    /// use poddurance::{Literals, Refusal, Type};
    ///
    /// let mut alarms = Literals::none(Type::Boolean);
    /// alarms.push(true)?;
    /// assert_eq!(alarms.push(1), Err(Refusal::Literal));
    /// assert_eq!(alarms.as_bytes(), [1]);
    /// # Ok::<(), Refusal>(())
    /// ```
    pub fn push<'a>(&mut self, value: impl Into<Value<'a>>) -> Result<(), Refusal> {
        match (self.ty, value.into()) {
            (Type::Boolean, Value::Boolean(boolean)) => self.bytes.push(boolean.into()),
            (Type::Char | Type::VarChar | Type::String, Value::String(bytes)) => {
                // A length that has no four bytes is far over the limit.
                let length = u32::try_from(bytes.len()).map_err(|_| Refusal::Limit)?;
                self.bytes.extend(length.to_be_bytes());
                self.bytes.extend(bytes);
            }
            (Type::TinyInt, Value::Number(n)) => self.extend(i8::try_from(n).map(i8::to_be_bytes))?,
            (Type::SmallInt, Value::Number(n)) => self.extend(i16::try_from(n).map(i16::to_be_bytes))?,
            (Type::Int | Type::Date | Type::Time, Value::Number(n)) => self.extend(i32::try_from(n).map(i32::to_be_bytes))?,
            (Type::BigInt | Type::Timestamp | Type::LocalZonedTimestamp, Value::Number(n)) => {
                self.extend(i64::try_from(n).map(i64::to_be_bytes))?;
            }
            _ => return Err(Refusal::Literal),
        }
        self.number += 1;
        Ok(())
    }

    fn extend<const N: usize, E>(&mut self, bytes: Result<[u8; N], E>) -> Result<(), Refusal> {
        self.bytes.extend(bytes.map_err(|_| Refusal::Literal)?);
        Ok(())
    }

    /// The type they are stored as.
    ///
    /// ```
    /// use poddurance::{Literals, Type};
    ///
    /// assert_eq!(Literals::none(Type::Date).ty(), Type::Date);
    /// ```
    #[must_use]
    pub fn ty(&self) -> Type {
        self.ty
    }

    /// How many there are.
    ///
    /// ```
    /// use poddurance::{Literals, Type};
    ///
    /// assert_eq!(Literals::of(Type::String, ["login", "purchase"])?.len(), 2);
    /// # Ok::<(), poddurance::Refusal>(())
    /// ```
    #[must_use]
    pub fn len(&self) -> usize {
        self.number
    }

    /// Whether there is none.
    ///
    /// ```
    /// use poddurance::{Literals, Type};
    ///
    /// assert!(!Literals::of(Type::String, [""])?.is_empty()); // the empty string is a literal
    /// # Ok::<(), poddurance::Refusal>(())
    /// ```
    #[must_use]
    pub fn is_empty(&self) -> bool {
        self.number == 0
    }

    /// Their bytes, one literal after another, as [`raw::ask`](crate::raw::ask) takes them.
    ///
    /// ```
    /// use poddurance::{Literals, Type};
    ///
    /// assert_eq!(Literals::of(Type::Int, [-1])?.as_bytes(), [255, 255, 255, 255]);
    /// # Ok::<(), poddurance::Refusal>(())
    /// ```
    #[must_use]
    pub fn as_bytes(&self) -> &[u8] {
        &self.bytes
    }
}
