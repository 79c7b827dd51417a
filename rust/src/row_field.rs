use std::fmt;
use std::iter::FusedIterator;
use std::ops::RangeInclusive;

use crate::{Refusal, LIMIT};

/// A set of the rows of one data file: row r is the bit of weight 2^(r mod 8) in byte r/8. Of a [window](crate::read_window) row r is the one
/// that is r behind its first.
///
/// A field knows its row count and has no byte and no bit beyond it, so that what it counts and iterates over are rows of that
/// file and nothing else. [`ask_file`](crate::ask_file), [`ask`](crate::ask), [`audit`](crate::audit), [`open`](crate::open),
/// [`look_up`](crate::OpenedBody::look_up), [`read_deletions`](crate::read_deletions) and [`read_window`](crate::read_window) take a field as
/// memory to work in and give it back with their answer. A refusal gives none back: there is no field left in which an earlier answer, or
/// nothing at all, could be taken for the answer.
///
/// ```
/// use poddurance::{read_deletions, RowField};
///
/// let file = [
///     1, 0, 0, 0, 26, 0x5E, 0x43, 0xF2, 0xD0, 0x3A, 0x30, 0, 0, 1, 0, 0, 0, 0, 0, 2, 0, 0x10, 0, 0, 0, 0, 0, 2, 0, 5, 0,
///     0x80, 0x72, 0x25, 0x2B,
/// ];
/// let deleted = read_deletions(&file, 0, RowField::for_rows(6)?)?.into_field();
/// assert_eq!(deleted.count(), 3);
/// assert!(deleted.iter().eq([0, 2, 5]));
/// # Ok::<(), poddurance::Refusal>(())
/// ```
#[derive(Clone, PartialEq, Eq, Hash)]
pub struct RowField {
    // Always ceil(rows/8) bytes, the spare bits of the last one 0; rows is at most LIMIT.
    bytes: Vec<u8>,
    rows: u64,
}

impl RowField {
    /// A field for this many rows, with none set. More than [`LIMIT`] rows is [`Refusal::Limit`].
    ///
    /// Give the data file's own row count where it is known: an index for another count is then an error, not an answer in which
    /// the data file's last rows are missing.
    ///
    /// ```
    /// use poddurance::{Refusal, RowField};
    ///
    /// assert_eq!(RowField::for_rows(6)?.count(), 0);
    /// assert_eq!(RowField::for_rows(1 << 31), Err(Refusal::Limit));
    /// # Ok::<(), Refusal>(())
    /// ```
    pub fn for_rows(rows: u64) -> Result<RowField, Refusal> {
        Ok(RowField { bytes: vec![0; bytes_for(rows)?], rows })
    }

    /// A field for as many rows as the body of an index claims to have, for callers that don't know the row count.
    ///
    /// The claim is not checked here: only the call that takes the field and accepts the body makes it true. It can ask for up to
    /// 256 MiB, the field of [`LIMIT`] rows. A body that claims no count, being too short or naming a negative one, gets a field
    /// for 0 rows; every call refuses such a body.
    ///
    /// ```
    /// use poddurance::RowField;
    ///
    /// let body = [1, 0, 0, 0, 3, 0, 0, 0, 2, 1, 255, 255, 255, 253, 7, 255, 255, 255, 255, 9, 255, 255, 255, 254];
    /// assert_eq!(RowField::for_body(&body).rows(), 3);
    /// assert_eq!(RowField::for_body(&body[..4]).rows(), 0);
    /// ```
    #[must_use]
    pub fn for_body(body: &[u8]) -> RowField {
        let rows = RowField::claim(body);
        RowField { bytes: vec![0; rows.div_ceil(8) as usize], rows }
    }

    /// The row count that stands in a body: four bytes, big-endian and signed, behind the version.
    fn claim(body: &[u8]) -> u64 {
        let claimed = body.get(1..5).and_then(|count| count.try_into().ok()).map_or(0, i32::from_be_bytes);
        u64::try_from(claimed).unwrap_or(0)
    }

    /// A field with each of this many rows set, as for a data file without an index, of which all rows are to be read.
    ///
    /// ```
    /// use poddurance::RowField;
    ///
    /// assert_eq!(RowField::all_of(6)?.as_bytes(), [0b111111]);
    /// # Ok::<(), poddurance::Refusal>(())
    /// ```
    pub fn all_of(rows: u64) -> Result<RowField, Refusal> {
        let mut bytes = vec![0xFF; bytes_for(rows)?];
        if let (Some(last), 1..) = (bytes.last_mut(), rows % 8) {
            *last = (1 << (rows % 8)) - 1;
        }
        Ok(RowField { bytes, rows })
    }

    /// Makes it a field for this many rows with none set, in the memory it has where that suffices. A refusal changes nothing.
    ///
    /// ```
    /// use poddurance::RowField;
    ///
    /// let mut field = RowField::all_of(1000)?;
    /// field.reset(6)?;
    /// assert_eq!(field, RowField::for_rows(6)?);
    /// # Ok::<(), poddurance::Refusal>(())
    /// ```
    pub fn reset(&mut self, rows: u64) -> Result<(), Refusal> {
        let bytes = bytes_for(rows)?;
        self.bytes.clear();
        self.bytes.resize(bytes, 0);
        self.rows = rows;
        Ok(())
    }

    /// How many rows it is for, set or not.
    ///
    /// ```
    /// assert_eq!(poddurance::RowField::for_rows(6)?.rows(), 6);
    /// # Ok::<(), poddurance::Refusal>(())
    /// ```
    #[must_use]
    pub fn rows(&self) -> u64 {
        self.rows
    }

    /// How many rows are set. They are counted here, in Rust; the record of an answer has the count that the library gave.
    ///
    /// ```
    /// assert_eq!(poddurance::RowField::all_of(6)?.count(), 6);
    /// # Ok::<(), poddurance::Refusal>(())
    /// ```
    #[must_use]
    pub fn count(&self) -> u64 {
        (0..self.words()).map(|at| u64::from(self.word(at).count_ones())).sum()
    }

    /// Whether a row is set. No row at or above [`rows`](RowField::rows) is.
    ///
    /// ```
    /// let field = poddurance::RowField::all_of(6)?;
    /// assert!(field.contains(5));
    /// assert!(!field.contains(6));
    /// # Ok::<(), poddurance::Refusal>(())
    /// ```
    #[must_use]
    pub fn contains(&self, row: u64) -> bool {
        row < self.rows && self.bytes[(row / 8) as usize] & (1 << (row % 8)) != 0
    }

    /// The rows that are set, rising.
    ///
    /// ```
    /// assert!(poddurance::RowField::all_of(3)?.iter().eq([0, 1, 2]));
    /// # Ok::<(), poddurance::Refusal>(())
    /// ```
    #[must_use]
    pub fn iter(&self) -> Rows<'_> {
        Rows { field: self, next: 0 }
    }

    /// The rows that are set, as ranges from a first to a last row; each is as long as it can be, and they rise.
    ///
    /// ```
    /// let field = poddurance::RowField::all_of(3)?;
    /// assert_eq!(field.ranges().collect::<Vec<_>>(), [0..=2]);
    /// # Ok::<(), poddurance::Refusal>(())
    /// ```
    #[must_use]
    pub fn ranges(&self) -> Ranges<'_> {
        Ranges { field: self, next: 0 }
    }

    /// Its ceil(rows/8) bytes.
    ///
    /// ```
    /// assert_eq!(poddurance::RowField::all_of(9)?.as_bytes(), [255, 1]);
    /// # Ok::<(), poddurance::Refusal>(())
    /// ```
    #[must_use]
    pub fn as_bytes(&self) -> &[u8] {
        &self.bytes
    }

    /// Its ceil(rows/8) bytes, taken out of it.
    ///
    /// ```
    /// assert_eq!(poddurance::RowField::all_of(9)?.into_bytes(), vec![255, 1]);
    /// # Ok::<(), poddurance::Refusal>(())
    /// ```
    #[must_use]
    pub fn into_bytes(self) -> Vec<u8> {
        self.bytes
    }

    /// Lent to a call that keeps its length and, accepted for its row count, leaves the spare bits 0.
    pub(crate) fn bytes_mut(&mut self) -> &mut [u8] {
        &mut self.bytes
    }

    fn words(&self) -> usize {
        self.bytes.len().div_ceil(8)
    }

    /// Rows 64 * at to 64 * at + 63, the lowest bit first; those beyond the field are 0.
    fn word(&self, at: usize) -> u64 {
        let rest = self.bytes.get(8 * at..).unwrap_or_default();
        let mut bytes = [0; 8];
        match rest.first_chunk() {
            Some(eight) => bytes = *eight,
            None => bytes[..rest.len()].copy_from_slice(rest),
        }
        u64::from_le_bytes(bytes)
    }

    /// The first row from `from` on that is set, or the first that isn't; none if the field ends before.
    fn first_from(&self, from: u64, set: bool) -> Option<u64> {
        let flip = if set { 0 } else { u64::MAX };
        let mut at = (from / 64) as usize;
        let mut left = (self.word(at) ^ flip) & (u64::MAX << (from % 64));
        while left == 0 {
            at += 1;
            if at >= self.words() {
                return None;
            }
            left = self.word(at) ^ flip;
        }
        Some(64 * at as u64 + u64::from(left.trailing_zeros())).filter(|row| *row < self.rows)
    }
}

impl fmt::Debug for RowField {
    fn fmt(&self, f: &mut fmt::Formatter<'_>) -> fmt::Result {
        write!(f, "RowField for {} rows ", self.rows)?;
        f.debug_set().entries(self.ranges()).finish()
    }
}

impl<'a> IntoIterator for &'a RowField {
    type Item = u64;
    type IntoIter = Rows<'a>;

    fn into_iter(self) -> Rows<'a> {
        self.iter()
    }
}

/// The bytes of a field for this many rows.
fn bytes_for(rows: u64) -> Result<usize, Refusal> {
    if rows > LIMIT {
        return Err(Refusal::Limit);
    }
    Ok(rows.div_ceil(8) as usize)
}

/// The rows that are set in a [`RowField`], rising.
///
/// ```
/// let field = poddurance::RowField::all_of(3)?;
/// for row in &field {
///     assert!(field.contains(row));
/// }
/// # Ok::<(), poddurance::Refusal>(())
/// ```
#[derive(Clone, Debug)]
pub struct Rows<'a> {
    field: &'a RowField,
    next: u64,
}

impl Iterator for Rows<'_> {
    type Item = u64;

    fn next(&mut self) -> Option<u64> {
        let row = self.field.first_from(self.next, true);
        self.next = row.map_or(self.field.rows, |row| row + 1);
        row
    }
}

impl FusedIterator for Rows<'_> {}

/// The rows that are set in a [`RowField`], as ranges from a first to a last row.
///
/// ```
/// let field = poddurance::RowField::all_of(1_000_000)?;
/// assert_eq!(field.ranges().next(), Some(0..=999_999));
/// # Ok::<(), poddurance::Refusal>(())
/// ```
#[derive(Clone, Debug)]
pub struct Ranges<'a> {
    field: &'a RowField,
    next: u64,
}

impl Iterator for Ranges<'_> {
    type Item = RangeInclusive<u64>;

    fn next(&mut self) -> Option<RangeInclusive<u64>> {
        let Some(first) = self.field.first_from(self.next, true) else {
            self.next = self.field.rows;
            return None;
        };
        let end = self.field.first_from(first, false).unwrap_or(self.field.rows);
        self.next = end;
        Some(first..=end - 1)
    }
}

impl FusedIterator for Ranges<'_> {}
