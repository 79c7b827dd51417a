use std::fmt;

use crate::raw::Fault;

/// Why the library doesn't vouch for what it was given: document 01's fourteen refusals. Four of them say where the cause is.
///
/// An entry is the place of one value, or of null, in an index: null's has the number 0, the values' are 1 and on in stored order, whether
/// there is a null or not and through all blocks. ([`raw::look_up`](crate::raw::look_up) alone, of a body that wasn't opened, counts them within
/// a block.) A deletion bin has no entries, and the entry named there is 0. A container holds the rows
/// of a bitmap that have the same upper half; containers are numbered from 0 in stored order.
///
/// ```
/// use poddurance::Refusal;
///
/// let refusal = Refusal::Bitmap { entry: 3, container: 1 };
/// assert_eq!(refusal.to_string(), "BITMAP (6), place, length or form of a bitmap is wrong: entry 3, container 1");
/// assert_eq!(Refusal::Missing { row: 16 }.to_string(), "MISSING (9), a row never placed: row 16");
/// let error: Box<dyn std::error::Error> = refusal.into();
/// assert_eq!(error.downcast_ref(), Some(&refusal));
/// ```
#[derive(Clone, Copy, Debug, PartialEq, Eq, Hash)]
#[non_exhaustive]
pub enum Refusal {
    /// The bytes end inside a field that is due, outside bitmaps.
    Short,
    /// The magic of an index file or a bin differs. For [`read_deletions`](crate::read_deletions) that of a 64-bit bin does too, which
    /// [`read_window`](crate::read_window) reads.
    Magic,
    /// The version of an index file, a body or a deletion file is unknown, or a body that was to be opened is not of version 2.
    Version,
    /// The head of an index file breaks a rule.
    Head,
    /// A dictionary breaks a rule.
    Dict,
    /// Place, length or form of a bitmap is wrong.
    Bitmap {
        /// Whose bitmap it is, 0 in a deletion bin.
        entry: u64,
        /// The lowest container whose key, cardinality, offset or bytes are wrong or cut off. It is 0 for a fault in the bitmap's place,
        /// cookie, count or flags and for a length below -1 or past the body; else a length other than -1 ends the bytes there, so that the
        /// container it cuts is named. It is the number of containers if only bytes left over behind them are wrong. In a 64-bit bin it is 0 for every
        /// fault.
        container: u64,
    },
    /// A row at or above the row count. Through a window, outside of which rows are no fault, it isn't given.
    Range {
        /// Whose row it is, 0 in a deletion bin.
        entry: u64,
    },
    /// A row already placed.
    Twice {
        /// The entry that places it again.
        entry: u64,
    },
    /// A row never placed.
    Missing {
        /// The lowest one.
        row: u64,
    },
    /// A lent field has fewer than ceil(n/8) bytes. A [`raw`](crate::raw) call also gives it for a table that has fewer words than the body has
    /// blocks.
    Room,
    /// Literals don't fit question and type, or a name can't be asked for: that of a column or kind takes more than 65,535 bytes in
    /// modified UTF-8, so that no file can store it ([`locate`](crate::locate)). A [`raw`](crate::raw) call also gives it for a name that
    /// is not standard UTF-8 and for an unknown type, edition or question.
    Literal,
    /// A limit is passed; for [`read_window`](crate::read_window) also where the window ends above 2^63.
    Limit,
    /// The checksum of a bin differs.
    Checksum,
    /// The bin number is not below the number of bins.
    NoBin,
}

impl Refusal {
    /// All fourteen, by number. What they carry is 0 here, so compare by [`number()`](Refusal::number) or by pattern.
    ///
    /// ```
    /// use poddurance::Refusal;
    ///
    /// assert!(Refusal::ALL.iter().map(|r| r.number()).eq(1..=14));
    /// ```
    pub const ALL: [Refusal; 14] = [
        Refusal::Short,
        Refusal::Magic,
        Refusal::Version,
        Refusal::Head,
        Refusal::Dict,
        Refusal::Bitmap { entry: 0, container: 0 },
        Refusal::Range { entry: 0 },
        Refusal::Twice { entry: 0 },
        Refusal::Missing { row: 0 },
        Refusal::Room,
        Refusal::Literal,
        Refusal::Limit,
        Refusal::Checksum,
        Refusal::NoBin,
    ];

    /// Its number in document 01, 1 to 14.
    ///
    /// ```
    /// assert_eq!(poddurance::Refusal::Twice { entry: 2 }.number(), 8);
    /// ```
    #[must_use]
    pub fn number(self) -> u8 {
        match self {
            Refusal::Short => 1,
            Refusal::Magic => 2,
            Refusal::Version => 3,
            Refusal::Head => 4,
            Refusal::Dict => 5,
            Refusal::Bitmap { .. } => 6,
            Refusal::Range { .. } => 7,
            Refusal::Twice { .. } => 8,
            Refusal::Missing { .. } => 9,
            Refusal::Room => 10,
            Refusal::Literal => 11,
            Refusal::Limit => 12,
            Refusal::Checksum => 13,
            Refusal::NoBin => 14,
        }
    }

    /// The entry that it names, of BITMAP, RANGE and TWICE.
    ///
    /// ```
    /// use poddurance::Refusal;
    ///
    /// assert_eq!(Refusal::Twice { entry: 2 }.entry(), Some(2));
    /// assert_eq!(Refusal::Missing { row: 16 }.entry(), None);
    /// ```
    #[must_use]
    pub fn entry(self) -> Option<u64> {
        match self {
            Refusal::Bitmap { entry, .. } | Refusal::Range { entry } | Refusal::Twice { entry } => Some(entry),
            _ => None,
        }
    }

    /// The container that it names, of BITMAP.
    ///
    /// ```
    /// use poddurance::Refusal;
    ///
    /// assert_eq!(Refusal::Bitmap { entry: 3, container: 1 }.container(), Some(1));
    /// assert_eq!(Refusal::Twice { entry: 2 }.container(), None);
    /// ```
    #[must_use]
    pub fn container(self) -> Option<u64> {
        match self {
            Refusal::Bitmap { container, .. } => Some(container),
            _ => None,
        }
    }

    /// The row that it names, of MISSING.
    ///
    /// ```
    /// use poddurance::Refusal;
    ///
    /// assert_eq!(Refusal::Missing { row: 16 }.row(), Some(16));
    /// assert_eq!(Refusal::Twice { entry: 2 }.row(), None);
    /// ```
    #[must_use]
    pub fn row(self) -> Option<u64> {
        match self {
            Refusal::Missing { row } => Some(row),
            _ => None,
        }
    }

    /// What it carries: each number with its name.
    ///
    /// ```
    /// use poddurance::Refusal;
    ///
    /// assert!(Refusal::Bitmap { entry: 3, container: 1 }.carried().eq([("entry", 3), ("container", 1)]));
    /// assert!(Refusal::Missing { row: 16 }.carried().eq([("row", 16)]));
    /// assert_eq!(Refusal::Limit.carried().count(), 0);
    /// ```
    pub fn carried(self) -> impl Iterator<Item = (&'static str, u64)> {
        let numbers = [("entry", self.entry()), ("container", self.container()), ("row", self.row())];
        numbers.into_iter().filter_map(|(name, number)| Some((name, number?)))
    }

    /// Where its cause is, as the [`raw`](crate::raw) calls say it: 0 in each number that it doesn't carry.
    ///
    /// ```
    /// use poddurance::{raw::Fault, Refusal};
    ///
    /// assert_eq!(Refusal::Bitmap { entry: 3, container: 1 }.fault(), Fault { entry: 3, container: 1, row: 0 });
    /// assert_eq!(Refusal::Limit.fault(), Fault::NONE);
    /// ```
    #[must_use]
    pub fn fault(self) -> Fault {
        Fault {
            entry: self.entry().unwrap_or_default(),
            container: self.container().unwrap_or_default(),
            row: self.row().unwrap_or_default(),
        }
    }

    /// The refusal with this number and the cause at this place, as the [`raw`](crate::raw) calls answer them; none if the number is no
    /// refusal's.
    ///
    /// ```
    /// use poddurance::{raw::Fault, Refusal};
    ///
    /// assert_eq!(Refusal::from_raw(8, Fault { entry: 2, ..Fault::NONE }), Some(Refusal::Twice { entry: 2 }));
    /// assert_eq!(Refusal::from_raw(12, Fault::NONE), Some(Refusal::Limit));
    /// assert_eq!(Refusal::from_raw(0, Fault::NONE), None);
    /// assert_eq!(Refusal::from_raw(255, Fault::NONE), None);
    /// ```
    #[must_use]
    pub fn from_raw(number: u8, fault: Fault) -> Option<Refusal> {
        let Fault { entry, container, row } = fault;
        let refusal = Refusal::ALL.into_iter().find(|refusal| refusal.number() == number)?;
        Some(match refusal {
            Refusal::Bitmap { .. } => Refusal::Bitmap { entry, container },
            Refusal::Range { .. } => Refusal::Range { entry },
            Refusal::Twice { .. } => Refusal::Twice { entry },
            Refusal::Missing { .. } => Refusal::Missing { row },
            _ => refusal,
        })
    }

    /// Its name in document 01.
    ///
    /// ```
    /// assert_eq!(poddurance::Refusal::Twice { entry: 2 }.name(), "TWICE");
    /// ```
    #[must_use]
    pub fn name(self) -> &'static str {
        match self {
            Refusal::Short => "SHORT",
            Refusal::Magic => "MAGIC",
            Refusal::Version => "VERSION",
            Refusal::Head => "HEAD",
            Refusal::Dict => "DICT",
            Refusal::Bitmap { .. } => "BITMAP",
            Refusal::Range { .. } => "RANGE",
            Refusal::Twice { .. } => "TWICE",
            Refusal::Missing { .. } => "MISSING",
            Refusal::Room => "ROOM",
            Refusal::Literal => "LITERAL",
            Refusal::Limit => "LIMIT",
            Refusal::Checksum => "CHECKSUM",
            Refusal::NoBin => "NOBIN",
        }
    }

    /// Name, number and meaning: what it prints before what it carries.
    ///
    /// ```
    /// let refusal = poddurance::Refusal::Twice { entry: 2 };
    /// assert_eq!(refusal.title(), "TWICE (8), a row already placed");
    /// assert_eq!(refusal.to_string(), "TWICE (8), a row already placed: entry 2");
    /// ```
    #[must_use]
    pub fn title(self) -> String {
        format!("{} ({}), {}", self.name(), self.number(), self.meaning())
    }

    /// When it is given, as document 01's table of refusals says it, and for what document 02 added: VERSION and ROOM also tell of opening a
    /// body, LITERAL of names.
    ///
    /// ```
    /// use poddurance::Refusal;
    ///
    /// assert_eq!(Refusal::Twice { entry: 2 }.meaning(), "a row already placed");
    /// assert_eq!(Refusal::Literal.meaning(), "literals don't fit question and type, or a name can't be asked for");
    /// ```
    #[must_use]
    pub fn meaning(self) -> &'static str {
        match self {
            Refusal::Short => "the bytes end inside a field that is due, outside bitmaps",
            Refusal::Magic => "index file or bin magic differs",
            Refusal::Version => "index file not 1; body not 1 or 2, or not 2 for open and lookup; deletion file not 1",
            Refusal::Head => "index file head breaks a rule",
            Refusal::Dict => "dictionary breaks a rule",
            Refusal::Bitmap { .. } => "place, length or form of a bitmap is wrong",
            Refusal::Range { .. } => "a row at or above the row count",
            Refusal::Twice { .. } => "a row already placed",
            Refusal::Missing { .. } => "a row never placed",
            Refusal::Room => "a lent field has fewer than ceil(n/8) bytes, or a lent table fewer words than blocks",
            Refusal::Literal => "literals don't fit question and type, or a name can't be asked for",
            Refusal::Limit => "a limit is passed",
            Refusal::Checksum => "bin checksum differs",
            Refusal::NoBin => "bin number not below the number of bins",
        }
    }
}

impl fmt::Display for Refusal {
    fn fmt(&self, f: &mut fmt::Formatter<'_>) -> fmt::Result {
        f.write_str(&self.title())?;
        let mut before = ": ";
        for (name, number) in self.carried() {
            write!(f, "{before}{name} {number}")?;
            before = ", ";
        }
        Ok(())
    }
}

impl std::error::Error for Refusal {}
