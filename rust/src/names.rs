use std::fmt;
use std::str::FromStr;

/// A column's type: document 01's twelve, by which stored values and literals are read.
///
/// Document 01 gives dates and times a width alone; what their numbers count is how Paimon stores them. Parsing takes document 01's
/// names in either case, with `_` or `-` for a space.
///
/// ```
/// use poddurance::Type;
///
/// assert_eq!("TINYINT".parse(), Ok(Type::TinyInt));
/// assert_eq!("local-zoned-timestamp".parse(), Ok(Type::LocalZonedTimestamp));
/// assert_eq!(Type::LocalZonedTimestamp.to_string(), "LOCAL ZONED TIMESTAMP");
/// assert!("DECIMAL".parse::<Type>().is_err());
/// ```
#[derive(Clone, Copy, Debug, PartialEq, Eq, Hash)]
#[repr(u8)]
pub enum Type {
    /// One signed byte.
    TinyInt = 0,
    /// One byte, 0 or 1.
    Boolean = 1,
    /// Two bytes, signed.
    SmallInt = 2,
    /// Four bytes, signed.
    Int = 3,
    /// Four bytes, signed: the days since 1970-01-01.
    Date = 4,
    /// Four bytes, signed: the milliseconds of the day, whatever the column's precision.
    Time = 5,
    /// Eight bytes, signed.
    BigInt = 6,
    /// Eight bytes, signed: since 1970-01-01, the milliseconds where the column's precision is up to 3, else the microseconds.
    Timestamp = 7,
    /// Eight bytes, signed: an instant, since 1970-01-01 in UTC, in the units of [`Timestamp`](Type::Timestamp).
    LocalZonedTimestamp = 8,
    /// A length of four bytes and the bytes.
    Char = 9,
    /// A length of four bytes and the bytes.
    VarChar = 10,
    /// A length of four bytes and the bytes.
    String = 11,
}

impl Type {
    /// All twelve, by number.
    ///
    /// ```
    /// use poddurance::Type;
    ///
    /// assert!(Type::ALL.iter().map(|ty| ty.number()).eq(0..12));
    /// ```
    pub const ALL: [Type; 12] = [
        Type::TinyInt,
        Type::Boolean,
        Type::SmallInt,
        Type::Int,
        Type::Date,
        Type::Time,
        Type::BigInt,
        Type::Timestamp,
        Type::LocalZonedTimestamp,
        Type::Char,
        Type::VarChar,
        Type::String,
    ];

    /// The number by which the [`raw`](crate::raw) calls know it.
    ///
    /// ```
    /// assert_eq!(poddurance::Type::Int.number(), 3);
    /// ```
    #[must_use]
    pub fn number(self) -> u32 {
        self as u32
    }

    /// How many bytes a stored value has; none for strings, which begin with their length.
    ///
    /// ```
    /// use poddurance::Type;
    ///
    /// assert_eq!(Type::SmallInt.width(), Some(2));
    /// assert_eq!(Type::String.width(), None);
    /// ```
    #[must_use]
    pub fn width(self) -> Option<usize> {
        match self {
            Type::TinyInt | Type::Boolean => Some(1),
            Type::SmallInt => Some(2),
            Type::Int | Type::Date | Type::Time => Some(4),
            Type::BigInt | Type::Timestamp | Type::LocalZonedTimestamp => Some(8),
            Type::Char | Type::VarChar | Type::String => None,
        }
    }

    /// Its name in document 01.
    ///
    /// ```
    /// assert_eq!(poddurance::Type::VarChar.name(), "VARCHAR");
    /// ```
    #[must_use]
    pub fn name(self) -> &'static str {
        match self {
            Type::TinyInt => "TINYINT",
            Type::Boolean => "BOOLEAN",
            Type::SmallInt => "SMALLINT",
            Type::Int => "INT",
            Type::Date => "DATE",
            Type::Time => "TIME",
            Type::BigInt => "BIGINT",
            Type::Timestamp => "TIMESTAMP",
            Type::LocalZonedTimestamp => "LOCAL ZONED TIMESTAMP",
            Type::Char => "CHAR",
            Type::VarChar => "VARCHAR",
            Type::String => "STRING",
        }
    }
}

/// The edition of a question: what becomes of null rows in NOT EQUAL and NOT IN. The other questions choose the same rows in both.
///
/// Parsing takes the edition's number, `1` or `2`.
///
/// ```
/// use poddurance::Edition;
///
/// assert_eq!("2".parse(), Ok(Edition::Second));
/// assert_eq!(Edition::First.to_string(), "1");
/// assert_eq!("3".parse::<Edition>().unwrap_err().to_string(), "\"3\" is none of 1, 2");
/// ```
///
/// There is no default: only the caller knows by which rule the answer is read, and the wrong one gives a wrong graph.
///
/// ```compile_fail
/// let edition = poddurance::Edition::default();
/// ```
#[derive(Clone, Copy, Debug, PartialEq, Eq, Hash)]
#[repr(u8)]
pub enum Edition {
    /// Document 01's rule, for stored dashboards: NOT EQUAL and NOT IN choose null rows too.
    First = 1,
    /// NOT EQUAL and NOT IN choose no null row, as in SQL; nor does NOT IN of no literals, where SQL would.
    Second = 2,
}

impl Edition {
    /// Both, by number.
    ///
    /// ```
    /// use poddurance::Edition;
    ///
    /// assert!(Edition::ALL.iter().map(|edition| edition.number()).eq(1..3));
    /// ```
    pub const ALL: [Edition; 2] = [Edition::First, Edition::Second];

    /// The edition with this number, as a stored dashboard has it; none for any other.
    ///
    /// ```
    /// use poddurance::Edition;
    ///
    /// assert_eq!(Edition::from_number(1), Some(Edition::First));
    /// assert_eq!(Edition::from_number(2), Some(Edition::Second));
    /// for unknown in [0, 3, 257, u32::MAX] {
    ///     assert_eq!(Edition::from_number(unknown), None);
    /// }
    /// ```
    #[must_use]
    pub fn from_number(number: u32) -> Option<Edition> {
        Edition::ALL.into_iter().find(|edition| edition.number() == number)
    }

    /// The number by which the [`raw`](crate::raw) calls know it.
    ///
    /// ```
    /// assert_eq!(poddurance::Edition::Second.number(), 2);
    /// ```
    #[must_use]
    pub fn number(self) -> u32 {
        self as u32
    }

    /// Its number, as a name.
    ///
    /// ```
    /// assert_eq!(poddurance::Edition::First.name(), "1");
    /// ```
    #[must_use]
    pub fn name(self) -> &'static str {
        match self {
            Edition::First => "1",
            Edition::Second => "2",
        }
    }
}

/// What is asked of a column. How many [`Literals`](crate::Literals) go with it: one with EQUAL and NOT EQUAL, any number with IN
/// and NOT IN, none with IS NULL and IS NOT NULL.
///
/// Whether NOT EQUAL and NOT IN choose null rows too is up to the [`Edition`]. Parsing takes document 01's names in either case, with
/// `_` or `-` for a space.
///
/// ```
/// use poddurance::Question;
///
/// assert_eq!("not-in".parse(), Ok(Question::NotIn));
/// assert_eq!(Question::IsNotNull.to_string(), "IS NOT NULL");
/// assert!("LIKE".parse::<Question>().is_err());
/// ```
#[derive(Clone, Copy, Debug, PartialEq, Eq, Hash)]
#[repr(u8)]
pub enum Question {
    /// The rows whose value is the literal.
    Equal = 0,
    /// Every other row; of the null rows all in edition 1, none in edition 2.
    NotEqual = 1,
    /// The rows whose value is listed.
    In = 2,
    /// Every other row; of the null rows all in edition 1, none in edition 2, whatever is listed.
    NotIn = 3,
    /// The null rows.
    IsNull = 4,
    /// The rows with a value.
    IsNotNull = 5,
}

impl Question {
    /// All six, by number.
    ///
    /// ```
    /// use poddurance::Question;
    ///
    /// assert!(Question::ALL.iter().map(|question| question.number()).eq(0..6));
    /// ```
    pub const ALL: [Question; 6] =
        [Question::Equal, Question::NotEqual, Question::In, Question::NotIn, Question::IsNull, Question::IsNotNull];

    /// The number by which the [`raw`](crate::raw) calls know it.
    ///
    /// ```
    /// assert_eq!(poddurance::Question::NotIn.number(), 3);
    /// ```
    #[must_use]
    pub fn number(self) -> u32 {
        self as u32
    }

    /// Its name in document 01.
    ///
    /// ```
    /// assert_eq!(poddurance::Question::NotEqual.name(), "NOT EQUAL");
    /// ```
    #[must_use]
    pub fn name(self) -> &'static str {
        match self {
            Question::Equal => "EQUAL",
            Question::NotEqual => "NOT EQUAL",
            Question::In => "IN",
            Question::NotIn => "NOT IN",
            Question::IsNull => "IS NULL",
            Question::IsNotNull => "IS NOT NULL",
        }
    }
}

// Each prints its name and is parsed from it.
macro_rules! named {
    ($($named:ty),*) => {$(
        impl fmt::Display for $named {
            fn fmt(&self, f: &mut fmt::Formatter<'_>) -> fmt::Result {
                f.pad(self.name())
            }
        }

        impl FromStr for $named {
            type Err = UnknownName;

            fn from_str(name: &str) -> Result<$named, UnknownName> {
                by_name(&<$named>::ALL, <$named>::name, name)
            }
        }
    )*};
}

named!(Type, Edition, Question);

/// The error of parsing a [`Type`], an [`Edition`] or a [`Question`] from a name that none has.
///
/// ```
/// use poddurance::Type;
///
/// let error = "DECIMAL".parse::<Type>().unwrap_err();
/// assert!(error.to_string().starts_with("\"DECIMAL\" is none of TINYINT, BOOLEAN, "));
/// ```
#[derive(Clone, Debug, PartialEq, Eq)]
pub struct UnknownName {
    name: String,
    known: Vec<&'static str>,
}

impl fmt::Display for UnknownName {
    fn fmt(&self, f: &mut fmt::Formatter<'_>) -> fmt::Result {
        write!(f, "{:?} is none of {}", self.name, self.known.join(", "))
    }
}

impl std::error::Error for UnknownName {}

fn by_name<T: Copy>(all: &[T], name_of: fn(T) -> &'static str, name: &str) -> Result<T, UnknownName> {
    let spaced = name.replace(['_', '-'], " ");
    all.iter()
        .copied()
        .find(|one| name_of(*one).eq_ignore_ascii_case(&spaced))
        .ok_or_else(|| UnknownName { name: name.to_string(), known: all.iter().map(|one| name_of(*one)).collect() })
}
