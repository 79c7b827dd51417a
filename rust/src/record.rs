use std::fmt;

use crate::commas::with_commas;
use crate::raw;

/// What a graph may claim of its rows: four counts of the library, and the sentence that it may print.
///
/// Only accepted calls make one: [`ask`](crate::ask), [`ask_file`](crate::ask_file) and [`look_up`](crate::OpenedBody::look_up) with their
/// [`Answer`](crate::Answer), and [`subtract_record`](crate::subtract_record), which takes one and hands it back. A refused call has none
/// that could be handed on.
///
/// It prints as its matched rows of all rows, with commas for thousands. Whether deletions were subtracted it doesn't know:
/// until they are, [`deleted`](Record::deleted) is 0.
///
/// ```
/// use poddurance::{ask, read_deletions, subtract_record, Edition, Literals, Question, RowField, Type};
///
/// // TINYINT of 1,000 rows: rows 0 to 9 are null, the others 7.
/// let body = [
///     1, 0, 0, 3, 232, 0, 0, 0, 1, 1, 0, 0, 0, 0, 7, 0, 0, 0, 15, // null's bitmap is at 0, that of 7 at 15
///     0x3B, 0x30, 0, 0, 1, 0, 0, 9, 0, 1, 0, 0, 0, 9, 0,
///     0x3B, 0x30, 0, 0, 1, 0, 0, 221, 3, 1, 0, 10, 0, 221, 3,
/// ];
/// // One bin that lists rows 0 to 29.
/// let deletion_file = [
///     1, 0, 0, 0, 19, 0x5E, 0x43, 0xF2, 0xD0, 0x3B, 0x30, 0, 0, 1, 0, 0, 29, 0, 1, 0, 0, 0, 29, 0, 0x75, 0x11, 0x12, 0x0D,
/// ];
/// let seven = Literals::of(Type::TinyInt, [7])?;
/// let answer = ask(&body, Edition::Second, Question::Equal, &seven, RowField::for_rows(1_000)?)?;
/// assert_eq!(answer.record().to_string(), "drawn from 990 of 1,000 rows");
///
/// let deleted = read_deletions(&deletion_file, 0, RowField::for_rows(1_000)?)?;
/// let (mut rows, record) = answer.into_parts();
/// let record = subtract_record(&mut rows, deleted.field(), record)?.record;
/// assert_eq!(record.to_string(), "drawn from 970 of 1,000 rows");
/// assert_eq!((record.rows(), record.nulls(), record.deleted(), record.matched()), (1_000, 10, 30, 970));
/// # Ok::<(), poddurance::Error>(())
/// ```
///
/// It can't be copied: the one that went into [`subtract_record`](crate::subtract_record) is gone, and can't be printed for what is left.
///
/// ```compile_fail,E0382
/// # use poddurance::{ask, subtract_record, Edition, Literals, Question, RowField, Type};
/// # // One row, null.
/// # let body = [1, 0, 0, 0, 1, 0, 0, 0, 0, 1, 255, 255, 255, 255];
/// # let deleted = RowField::all_of(1)?;
/// # let answer = ask(&body, Edition::Second, Question::IsNull, &Literals::none(Type::Int), RowField::for_body(&body))?;
/// let (mut rows, record) = answer.into_parts();
/// let left = subtract_record(&mut rows, &deleted, record)?.record;
/// println!("{record}"); // what may be printed is `left`
/// # Ok::<(), poddurance::Error>(())
/// ```
///
/// Nor can it be cloned; an [`Answer`](crate::Answer) can, rows and record together.
///
/// ```compile_fail,E0277
/// fn clones<T: Clone>() {}
/// clones::<poddurance::Record>();
/// ```
///
/// A program can't write one of its own:
///
/// ```compile_fail,E0451
/// let record = poddurance::Record { rows: 1_000, nulls: 10, deleted: 0, matched: 990 };
/// ```
#[derive(Debug, PartialEq, Eq, Hash)]
pub struct Record {
    // Private, and there is no other way in than `accepted`: who has a record has an accepted call's.
    rows: u64,
    nulls: u64,
    deleted: u64,
    matched: u64,
}

impl Record {
    /// That of a call which the library accepted.
    pub(crate) fn accepted(record: raw::Record) -> Record {
        let raw::Record { rows, nulls, deleted, matched } = record;
        Record { rows, nulls, deleted, matched }
    }

    /// For the clone of an answer alone, where the rows come along.
    pub(crate) fn copied(&self) -> Record {
        let Record { rows, nulls, deleted, matched } = *self;
        Record { rows, nulls, deleted, matched }
    }

    /// The numbers to hand to the library.
    pub(crate) fn raw(self) -> raw::Record {
        let Record { rows, nulls, deleted, matched } = self;
        raw::Record { rows, nulls, deleted, matched }
    }

    /// The row count of the index, and so of its data file.
    ///
    /// ```
    /// # use poddurance::{ask, Edition, Literals, Question, RowField, Type};
    /// // 7, 9, null
    /// let body = [1, 0, 0, 0, 3, 0, 0, 0, 2, 1, 255, 255, 255, 253, 7, 255, 255, 255, 255, 9, 255, 255, 255, 254];
    /// let seven = Literals::of(Type::TinyInt, [7])?;
    /// assert_eq!(ask(&body, Edition::Second, Question::Equal, &seven, RowField::for_body(&body))?.record().rows(), 3);
    /// # Ok::<(), poddurance::Error>(())
    /// ```
    #[must_use]
    pub fn rows(&self) -> u64 {
        self.rows
    }

    /// How many rows of the column are null, whatever the question and its edition.
    ///
    /// ```
    /// # use poddurance::{ask, Edition, Literals, Question, RowField, Type};
    /// // 7, 9, null
    /// let body = [1, 0, 0, 0, 3, 0, 0, 0, 2, 1, 255, 255, 255, 253, 7, 255, 255, 255, 255, 9, 255, 255, 255, 254];
    /// let seven = Literals::of(Type::TinyInt, [7])?;
    /// assert_eq!(ask(&body, Edition::Second, Question::Equal, &seven, RowField::for_body(&body))?.record().nulls(), 1);
    /// # Ok::<(), poddurance::Error>(())
    /// ```
    #[must_use]
    pub fn nulls(&self) -> u64 {
        self.nulls
    }

    /// How many rows the deletions list, chosen or not; 0 until [`subtract_record`](crate::subtract_record) takes them away.
    ///
    /// ```
    /// # use poddurance::{ask, subtract_record, Edition, Literals, Question, RowField, Type};
    /// // 7, 9, null
    /// let body = [1, 0, 0, 0, 3, 0, 0, 0, 2, 1, 255, 255, 255, 253, 7, 255, 255, 255, 255, 9, 255, 255, 255, 254];
    /// let seven = Literals::of(Type::TinyInt, [7])?;
    /// let (mut rows, record) = ask(&body, Edition::Second, Question::Equal, &seven, RowField::for_body(&body))?.into_parts();
    /// assert_eq!(record.deleted(), 0);
    /// let record = subtract_record(&mut rows, &RowField::all_of(3)?, record)?.record;
    /// assert_eq!(record.deleted(), 3);
    /// # Ok::<(), poddurance::Error>(())
    /// ```
    #[must_use]
    pub fn deleted(&self) -> u64 {
        self.deleted
    }

    /// How many rows are chosen, and after [`subtract_record`](crate::subtract_record) how many are left of them.
    ///
    /// ```
    /// # use poddurance::{ask, subtract_record, Edition, Literals, Question, RowField, Type};
    /// // 7, 9, null
    /// let body = [1, 0, 0, 0, 3, 0, 0, 0, 2, 1, 255, 255, 255, 253, 7, 255, 255, 255, 255, 9, 255, 255, 255, 254];
    /// let seven = Literals::of(Type::TinyInt, [7])?;
    /// let (mut rows, record) = ask(&body, Edition::First, Question::NotEqual, &seven, RowField::for_body(&body))?.into_parts();
    /// assert_eq!(record.matched(), 2); // 9 and null
    /// let record = subtract_record(&mut rows, &RowField::all_of(3)?, record)?.record;
    /// assert_eq!(record.matched(), 0);
    /// # Ok::<(), poddurance::Error>(())
    /// ```
    #[must_use]
    pub fn matched(&self) -> u64 {
        self.matched
    }

    /// Whether no row is chosen or left, so that the data file needn't be read: exactly where [`matched`](Record::matched) is 0.
    ///
    /// ```
    /// # use poddurance::{ask, subtract_record, Edition, Literals, Question, RowField, Type};
    /// // 7, 9, null
    /// let body = [1, 0, 0, 0, 3, 0, 0, 0, 2, 1, 255, 255, 255, 253, 7, 255, 255, 255, 255, 9, 255, 255, 255, 254];
    /// let seven = Literals::of(Type::TinyInt, [7])?;
    /// let (mut rows, record) = ask(&body, Edition::Second, Question::Equal, &seven, RowField::for_body(&body))?.into_parts();
    /// assert!(!record.is_skip());
    /// assert!(subtract_record(&mut rows, &RowField::all_of(3)?, record)?.record.is_skip());
    /// # Ok::<(), poddurance::Error>(())
    /// ```
    #[must_use]
    pub fn is_skip(&self) -> bool {
        self.matched == 0
    }
}

impl fmt::Display for Record {
    fn fmt(&self, f: &mut fmt::Formatter<'_>) -> fmt::Result {
        write!(f, "drawn from {} of {} rows", with_commas(self.matched), with_commas(self.rows))
    }
}

#[cfg(test)]
mod tests {
    use super::*;

    #[test]
    fn says_matched_of_all_rows() {
        for (matched, rows, text) in [
            (970, 1_000, "drawn from 970 of 1,000 rows"),
            (0, 0, "drawn from 0 of 0 rows"),
            (1, 1, "drawn from 1 of 1 rows"),
            (0, 24, "drawn from 0 of 24 rows"),
            (1_234_567, crate::LIMIT, "drawn from 1,234,567 of 2,147,483,647 rows"),
        ] {
            // Neither null rows nor deleted ones are said here.
            for (nulls, deleted) in [(0, 0), (5, 0), (0, 6), (7, 8)] {
                let record = Record::accepted(raw::Record { rows, nulls, deleted, matched });
                assert_eq!(record.to_string(), text);
                assert_eq!(record.is_skip(), matched == 0);
            }
        }
    }

    #[test]
    fn numbers_are_those_of_the_call() {
        let numbers = raw::Record { rows: 4, nulls: 3, deleted: 2, matched: 1 };
        let record = Record::accepted(numbers);
        assert_eq!((record.rows(), record.nulls(), record.deleted(), record.matched()), (4, 3, 2, 1));
        assert_eq!(record.copied(), record);
        assert_eq!(record.raw(), numbers);
    }
}
