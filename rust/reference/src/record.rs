//! What an answer says of the rows: four counts.

/// The row count, the null rows, the deleted rows and the matched rows.
#[derive(Clone, Copy, Debug, PartialEq, Eq)]
pub struct Record {
    pub rows: u64,
    /// The rows of null's bitmap, whatever was asked.
    pub nulls: u64,
    /// All rows of the subtracted deletions, matched or not; 0 until they are subtracted.
    pub deleted: u64,
    /// The rows that are left of the answer; 0 says skip.
    pub matched: u64,
}

impl Record {
    /// That of a refusal, and of ABSENT.
    pub const NONE: Record = Record { rows: 0, nulls: 0, deleted: 0, matched: 0 };
}
