//! The refusals of document 01's table, and where document 02 says that their cause is.

/// Why a call refuses. MAGIC, HEAD, CHECKSUM and NOBIN are missing: no call of this reader gives them.
#[derive(Clone, Copy, Debug, PartialEq, Eq)]
pub enum Refusal {
    /// The bytes end inside a field that is due, outside bitmaps.
    Short,
    /// The body's version is not 1 or 2, or not 2 where it must be.
    Version,
    /// The dictionary breaks a rule.
    Dict,
    /// Place, length or form of a bitmap is wrong.
    Bitmap {
        /// 0 for null, then 1 onward in stored order; for a lookup within the block.
        entry: u32,
        /// The lowest container that is wrong or cut off.
        container: u32,
    },
    /// A row at or above the row count.
    Range {
        /// As for a bitmap.
        entry: u32,
    },
    /// A row already placed.
    Twice {
        /// As for a bitmap.
        entry: u32,
    },
    /// A row never placed.
    Missing {
        /// The lowest of them.
        row: u32,
    },
    /// The field has fewer bytes than the rows need, or the table fewer words than there are blocks.
    Room,
    /// The literals don't fit question and type, or the type is unknown.
    Literal,
    /// A limit is passed.
    Limit,
}

impl Refusal {
    /// The number in document 01's table.
    pub fn number(self) -> u8 {
        match self {
            Refusal::Short => 1,
            Refusal::Version => 3,
            Refusal::Dict => 5,
            Refusal::Bitmap { .. } => 6,
            Refusal::Range { .. } => 7,
            Refusal::Twice { .. } => 8,
            Refusal::Missing { .. } => 9,
            Refusal::Room => 10,
            Refusal::Literal => 11,
            Refusal::Limit => 12,
        }
    }

    /// Entry, container and row, 0 where the refusal carries none.
    pub fn fault(self) -> [u64; 3] {
        match self {
            Refusal::Bitmap { entry, container } => [entry.into(), container.into(), 0],
            Refusal::Range { entry } | Refusal::Twice { entry } => [entry.into(), 0, 0],
            Refusal::Missing { row } => [0, 0, row.into()],
            _ => [0; 3],
        }
    }
}
