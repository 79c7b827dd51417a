use std::fmt;

use crate::raw::{self, Fault};
use crate::{Edition, Literals, Question, Record, Refusal, RowField, Type};

/// Why a call gives no answer: a refusal, fields and indexes of different row counts, or a literal of another type than the body that it is
/// looked up in.
///
/// ```
/// use poddurance::{audit, Error, Refusal, RowField, Type};
///
/// let body = [1, 0, 0, 0, 3, 0, 0, 0, 2, 1, 255, 255, 255, 253, 7, 255, 255, 255, 255, 9, 255, 255, 255, 254];
/// // The data file has 5 rows and its index 3: of the last two the index knows nothing.
/// let error = audit(&body, Type::TinyInt, RowField::for_rows(5)?).unwrap_err();
/// assert_eq!(error, Error::RowsDiffer { expected: 5, found: 3 });
/// assert_eq!(error.to_string(), "5 rows expected, 3 found");
///
/// let error = Error::from(Refusal::Twice { entry: 2 });
/// assert_eq!(error.to_string(), "TWICE (8), a row already placed: entry 2");
/// let source = std::error::Error::source(&error).and_then(|source| source.downcast_ref());
/// assert_eq!(source, Some(&Refusal::Twice { entry: 2 }));
/// # Ok::<(), Error>(())
/// ```
#[derive(Clone, Copy, Debug, PartialEq, Eq, Hash)]
#[non_exhaustive]
pub enum Error {
    /// The library refused the bytes.
    Refused(Refusal),
    /// The row counts differ.
    RowsDiffer {
        /// The row count of the field that the call was given, the first one for [`subtract`] and [`subtract_record`].
        expected: u64,
        /// The row count of the index, of the second field or of the record.
        found: u64,
    },
    /// The types differ. Literals read as another type than they were written for could fit it by chance and choose wrong rows.
    TypesDiffer {
        /// The type that the body was opened as.
        expected: Type,
        /// The type of the literals.
        found: Type,
    },
}

impl Error {
    /// The library's refusal; none where row counts or types differ.
    ///
    /// ```
    /// use poddurance::{Error, Refusal};
    ///
    /// assert_eq!(Error::Refused(Refusal::Twice { entry: 2 }).refusal(), Some(Refusal::Twice { entry: 2 }));
    /// assert_eq!(Error::RowsDiffer { expected: 5, found: 3 }.refusal(), None);
    /// ```
    #[must_use]
    pub fn refusal(self) -> Option<Refusal> {
        match self {
            Error::Refused(refusal) => Some(refusal),
            Error::RowsDiffer { .. } | Error::TypesDiffer { .. } => None,
        }
    }
}

impl From<Refusal> for Error {
    fn from(refusal: Refusal) -> Error {
        Error::Refused(refusal)
    }
}

impl fmt::Display for Error {
    fn fmt(&self, f: &mut fmt::Formatter<'_>) -> fmt::Result {
        match self {
            Error::Refused(refusal) => refusal.fmt(f),
            Error::RowsDiffer { expected, found } => {
                write!(f, "{expected} rows expected, {found} found")
            }
            Error::TypesDiffer { expected, found } => {
                write!(f, "the body was opened as {expected}, the literals are of {found}")
            }
        }
    }
}

impl std::error::Error for Error {
    fn source(&self) -> Option<&(dyn std::error::Error + 'static)> {
        match self {
            Error::Refused(refusal) => Some(refusal),
            Error::RowsDiffer { .. } | Error::TypesDiffer { .. } => None,
        }
    }
}

/// Finds the body of the index of kind `kind` (`"bitmap"`) on column `column`: in `embedded`, the index bytes in the manifest, if
/// there are any, else in `file`, the bytes of the index file. The other buffer isn't looked at.
///
/// The body is a part of the buffer, not a copy. None says that there is no such index, so that all rows are to be read.
///
/// A file stores names in Java's modified UTF-8, in which the zero character is C0 80 and a character above U+FFFF two surrogates of three
/// bytes each. `column` and `kind` are compared in that form, byte for byte; a stored name that isn't in it matches nothing and is no fault.
/// A `column` or `kind` that takes more than 65,535 bytes in it, so that no file can store it, is [`Refusal::Literal`], before the file is
/// looked at.
///
/// ```
/// use poddurance::{locate, Refusal};
///
/// let file = [
///     0, 5, 0x4E, 0x4E, 0xD0, 0x1A, 0x35, 0xAE, 0, 0, 0, 1, 0, 0, 0, 47, 0, 0, 0, 1, // head up to the column number
///     0, 1, b's', 0, 0, 0, 1, 0, 6, b'b', b'i', b't', b'm', b'a', b'p', 0, 0, 0, 47, 0, 0, 0, 24, 0, 0, 0, 0,
///     1, 0, 0, 0, 3, 0, 0, 0, 2, 1, 255, 255, 255, 253, 7, 255, 255, 255, 255, 9, 255, 255, 255, 254, // body
/// ];
/// assert_eq!(locate(&[], &file, "s", "bitmap"), Ok(Some(&file[47..])));
/// assert_eq!(locate(&[], &file, "t", "bitmap"), Ok(None));
/// assert_eq!(locate(&[], &file[..70], "s", "bitmap"), Err(Refusal::Head));
///
/// // The column is named U+1F525, stored as the surrogates D83D and DD25; its body has one row, null.
/// let file = [
///     0, 5, 0x4E, 0x4E, 0xD0, 0x1A, 0x35, 0xAE, 0, 0, 0, 1, 0, 0, 0, 52, 0, 0, 0, 1, // head up to the column number
///     0, 6, 0xED, 0xA0, 0xBD, 0xED, 0xB4, 0xA5, 0, 0, 0, 1, 0, 6, b'b', b'i', b't', b'm', b'a', b'p',
///     0, 0, 0, 52, 0, 0, 0, 14, 0, 0, 0, 0, // the head ends here
///     1, 0, 0, 0, 1, 0, 0, 0, 0, 1, 255, 255, 255, 255,
/// ];
/// assert_eq!(locate(&[], &file, "\u{1F525}", "bitmap"), Ok(Some(&file[52..])));
/// // 65,535 bytes can be stored; the zero character takes two.
/// assert_eq!(locate(&[], &file, &"a".repeat(65_535), "bitmap"), Ok(None));
/// assert_eq!(locate(&[], &file, &"a".repeat(65_536), "bitmap"), Err(Refusal::Literal));
/// assert_eq!(locate(&[], &file, &"\0".repeat(32_768), "bitmap"), Err(Refusal::Literal));
/// ```
pub fn locate<'a>(embedded: &'a [u8], file: &'a [u8], column: &str, kind: &str) -> Result<Option<&'a [u8]>, Refusal> {
    let (answer, start, length) = raw::locate(embedded, file, column.as_bytes(), kind.as_bytes());
    if answer == raw::ABSENT {
        return Ok(None);
    }
    // What Locate refuses has no entry.
    accepted(answer, Fault::NONE)?;
    let looked_at = if embedded.is_empty() { file } else { embedded };
    Ok(Some(&looked_at[start as usize..(start + length) as usize]))
}

/// Checks the whole body of an index: that each of its rows has exactly one place.
///
/// Answers the row count of the body, now checked, and gives the field back cleared.
///
/// A body with another row count than the field's is [`Error::RowsDiffer`], or [`Refusal::Room`] where it needs more bytes than
/// the field has.
///
/// ```
/// use poddurance::{audit, Error, Refusal, RowField, Type};
///
/// let mut body = [1, 0, 0, 0, 3, 0, 0, 0, 2, 1, 255, 255, 255, 253, 7, 255, 255, 255, 255, 9, 255, 255, 255, 254];
/// assert_eq!(audit(&body, Type::TinyInt, RowField::for_body(&body))?.rows(), 3);
///
/// body[23] = 255; // 9 is now at row 0, where 7 is, and no longer at row 1
/// let audited = audit(&body, Type::TinyInt, RowField::for_body(&body));
/// assert_eq!(audited, Err(Error::Refused(Refusal::Twice { entry: 2 }))); // the second value's
/// # Ok::<(), Error>(())
/// ```
pub fn audit(body: &[u8], ty: Type, mut field: RowField) -> Result<Audited, Error> {
    let (answer, rows, fault) = raw::audit(body, ty.number(), field.bytes_mut());
    accepted(answer, fault)?;
    same_rows(&field, rows)?;
    Ok(Audited { field })
}

/// The answer of [`audit`] to a body that it accepts.
///
/// ```
/// use poddurance::{audit, RowField, Type};
///
/// let body = [1, 0, 0, 0, 3, 0, 0, 0, 2, 1, 255, 255, 255, 253, 7, 255, 255, 255, 255, 9, 255, 255, 255, 254];
/// let audited = audit(&body, Type::TinyInt, RowField::for_rows(3)?)?;
/// assert_eq!(audited.rows(), 3);
/// # Ok::<(), poddurance::Error>(())
/// ```
#[derive(Clone, Debug, PartialEq, Eq)]
pub struct Audited {
    // Of the body's row count, with no row set.
    field: RowField,
}

impl Audited {
    /// How many rows the body has, each in exactly one place.
    ///
    /// ```
    /// # use poddurance::{audit, RowField, Type};
    /// // One row, null.
    /// let body = [1, 0, 0, 0, 1, 0, 0, 0, 0, 1, 255, 255, 255, 255];
    /// assert_eq!(audit(&body, Type::Int, RowField::for_body(&body))?.rows(), 1);
    /// # Ok::<(), poddurance::Error>(())
    /// ```
    #[must_use]
    pub fn rows(&self) -> u64 {
        self.field.rows()
    }

    /// The field that was lent, with no row set, to lend to the next call.
    ///
    /// ```
    /// # use poddurance::{ask, audit, Edition, Literals, Question, RowField, Type};
    /// // One row, null.
    /// let body = [1, 0, 0, 0, 1, 0, 0, 0, 0, 1, 255, 255, 255, 255];
    /// let field = audit(&body, Type::Int, RowField::for_body(&body))?.into_field();
    /// assert_eq!(field.count(), 0);
    /// assert!(!ask(&body, Edition::Second, Question::IsNull, &Literals::none(Type::Int), field)?.is_skip());
    /// # Ok::<(), poddurance::Error>(())
    /// ```
    #[must_use]
    pub fn into_field(self) -> RowField {
        self.field
    }
}

/// Checks the whole body of an index as [`audit`] does, then answers a question: which rows does it choose, and how many of how many?
///
/// The edition says what becomes of null rows in NOT EQUAL and NOT IN; in the other questions it makes no difference. The type is
/// that of the literals. A body with another row count than the field's is [`Error::RowsDiffer`], or [`Refusal::Room`] where it
/// needs more bytes than the field has.
///
/// ```
/// use poddurance::{ask, Edition, Literals, Question, RowField, Type};
///
/// // 7, 9, null
/// let body = [1, 0, 0, 0, 3, 0, 0, 0, 2, 1, 255, 255, 255, 253, 7, 255, 255, 255, 255, 9, 255, 255, 255, 254];
/// let seven = Literals::of(Type::TinyInt, [7])?;
///
/// let answer = ask(&body, Edition::First, Question::NotEqual, &seven, RowField::for_body(&body))?;
/// assert!(answer.field().iter().eq([1, 2])); // 9 and null
/// assert_eq!(answer.record().to_string(), "drawn from 2 of 3 rows");
///
/// let answer = ask(&body, Edition::Second, Question::NotEqual, &seven, RowField::for_body(&body))?;
/// assert!(answer.field().iter().eq([1])); // 9
/// assert_eq!(answer.record().to_string(), "drawn from 1 of 3 rows");
/// assert_eq!(answer.record().nulls(), 1); // in each edition
///
/// let eight = Literals::of(Type::TinyInt, [8])?;
/// assert!(ask(&body, Edition::Second, Question::Equal, &eight, RowField::for_body(&body))?.is_skip());
/// # Ok::<(), poddurance::Error>(())
/// ```
pub fn ask(body: &[u8], edition: Edition, question: Question, literals: &Literals, mut field: RowField) -> Result<Answer, Error> {
    let (ty, bytes) = (literals.ty().number(), literals.as_bytes());
    let (answer, record, fault) = raw::ask(body, ty, edition.number(), question.number(), bytes, field.bytes_mut());
    accepted(answer, fault)?;
    Answer::accepted(field, record)
}

/// From the file to the answer in one call: finds the index as [`locate`] does, checks its whole body as [`audit`] does, then
/// answers the question as [`ask`] does.
///
/// **None says that there is no such index, so that all rows are to be read.** That is not [skip](Answer::is_skip), with which none
/// is. The field is lent by value: neither without an index nor with a refusal does it come back, and none of its rows can be taken
/// for an answer.
///
/// `column` and `kind` are compared in the form in which files store names, as [`locate`] says. One that no file can store is
/// [`Refusal::Literal`], as are literals that don't fit.
///
/// The edition says what becomes of null rows in NOT EQUAL and NOT IN; in the other questions it makes no difference. The type is
/// that of the literals. An index with another row count than the field's is [`Error::RowsDiffer`], or [`Refusal::Room`] where it
/// needs more bytes than the field has.
///
/// ```
/// use poddurance::{ask_file, Edition, Error, Literals, Question, Refusal, RowField, Type};
///
/// // The TINYINT column s with the rows 7, 9, null.
/// let mut file = [
///     0, 5, 0x4E, 0x4E, 0xD0, 0x1A, 0x35, 0xAE, 0, 0, 0, 1, 0, 0, 0, 47, 0, 0, 0, 1, // head up to the column number
///     0, 1, b's', 0, 0, 0, 1, 0, 6, b'b', b'i', b't', b'm', b'a', b'p', 0, 0, 0, 47, 0, 0, 0, 24, 0, 0, 0, 0,
///     1, 0, 0, 0, 3, 0, 0, 0, 2, 1, 255, 255, 255, 253, 7, 255, 255, 255, 255, 9, 255, 255, 255, 254, // body
/// ];
/// let row_count = 3; // as the table's metadata has it
/// let seven = Literals::of(Type::TinyInt, [7])?;
///
/// let field = RowField::for_rows(row_count)?;
/// let rows = match ask_file(&[], &file, "s", "bitmap", Edition::Second, Question::NotEqual, &seven, field)? {
///     Some(answer) => answer.into_field(),
///     None => RowField::all_of(row_count)?, // without an index all rows are to be read
/// };
/// assert!(rows.iter().eq([1])); // 9
///
/// let field = RowField::for_rows(row_count)?;
/// let asked = ask_file(&[], &file, "s", "bitmap", Edition::First, Question::NotEqual, &seven, field)?;
/// assert!(asked.is_some_and(|answer| answer.field().iter().eq([1, 2]))); // 9 and null
///
/// let field = RowField::for_rows(row_count)?;
/// let asked = ask_file(&[], &file, "t", "bitmap", Edition::Second, Question::NotEqual, &seven, field);
/// assert_eq!(asked, Ok(None));
///
/// let (field, too_long) = (RowField::for_rows(row_count)?, "t".repeat(65_536));
/// let asked = ask_file(&[], &file, &too_long, "bitmap", Edition::Second, Question::NotEqual, &seven, field);
/// assert_eq!(asked, Err(Error::Refused(Refusal::Literal)));
///
/// file[70] = 255; // 9 is now at row 0, where 7 is, and no longer at row 1
/// let field = RowField::for_rows(row_count)?;
/// let asked = ask_file(&[], &file, "s", "bitmap", Edition::Second, Question::NotEqual, &seven, field);
/// assert_eq!(asked, Err(Error::Refused(Refusal::Twice { entry: 2 })));
/// # Ok::<(), Error>(())
/// ```
// The file's two buffers, what is looked for in them, and what is asked: none of them can be left out.
#[allow(clippy::too_many_arguments)]
pub fn ask_file(
    embedded: &[u8],
    file: &[u8],
    column: &str,
    kind: &str,
    edition: Edition,
    question: Question,
    literals: &Literals,
    mut field: RowField,
) -> Result<Option<Answer>, Error> {
    let (answer, record, fault) = raw::ask_file(
        embedded,
        file,
        column.as_bytes(),
        kind.as_bytes(),
        literals.ty().number(),
        edition.number(),
        question.number(),
        literals.as_bytes(),
        field.bytes_mut(),
    );
    if answer == raw::ABSENT {
        return Ok(None);
    }
    accepted(answer, fault)?;
    Answer::accepted(field, record).map(Some)
}

/// The answer to a question: the rows it chooses, and the record of how many they are, of how many.
///
/// ```
/// use poddurance::{ask, Edition, Literals, Question, RowField, Type};
///
/// let body = [1, 0, 0, 0, 3, 0, 0, 0, 2, 1, 255, 255, 255, 253, 7, 255, 255, 255, 255, 9, 255, 255, 255, 254];
/// let answer = ask(&body, Edition::Second, Question::IsNull, &Literals::none(Type::TinyInt), RowField::for_body(&body))?;
/// if !answer.is_skip() {
///     assert_eq!(answer.record().to_string(), "drawn from 1 of 3 rows");
///     for row in answer.field() {
///         assert_eq!(row, 2);
///     }
/// }
/// # Ok::<(), poddurance::Error>(())
/// ```
#[derive(Debug, PartialEq, Eq)]
pub struct Answer {
    field: RowField,
    record: Record,
}

impl Clone for Answer {
    fn clone(&self) -> Answer {
        Answer { field: self.field.clone(), record: self.record.copied() }
    }
}

impl Answer {
    /// That of a call which the library accepted, with its rows set in the field. The index must be of the field's row count.
    pub(crate) fn accepted(field: RowField, record: raw::Record) -> Result<Answer, Error> {
        same_rows(&field, record.rows)?;
        Ok(Answer { field, record: Record::accepted(record) })
    }

    /// Whether no row is chosen, so that the data file needn't be read.
    ///
    /// ```
    /// # use poddurance::{ask, Edition, Literals, Question, RowField, Type};
    /// // No rows and no values.
    /// let body = [1, 0, 0, 0, 0, 0, 0, 0, 0, 0];
    /// let answer = ask(&body, Edition::Second, Question::IsNull, &Literals::none(Type::Int), RowField::for_body(&body))?;
    /// assert!(answer.is_skip());
    /// # Ok::<(), poddurance::Error>(())
    /// ```
    #[must_use]
    pub fn is_skip(&self) -> bool {
        self.record.is_skip()
    }

    /// How many rows are chosen, of how many, and how many are null. Its deleted rows are 0: none has been subtracted.
    ///
    /// ```
    /// # use poddurance::{ask, Edition, Literals, Question, RowField, Type};
    /// // One row, null.
    /// let body = [1, 0, 0, 0, 1, 0, 0, 0, 0, 1, 255, 255, 255, 255];
    /// let answer = ask(&body, Edition::Second, Question::IsNotNull, &Literals::none(Type::Int), RowField::for_body(&body))?;
    /// let record = answer.record();
    /// assert_eq!((record.rows(), record.nulls(), record.deleted(), record.matched()), (1, 1, 0, 0));
    /// # Ok::<(), poddurance::Error>(())
    /// ```
    #[must_use]
    pub fn record(&self) -> &Record {
        &self.record
    }

    /// The rows that are chosen, of all rows of the body.
    ///
    /// ```
    /// # use poddurance::{ask, Edition, Literals, Question, RowField, Type};
    /// // One row, null.
    /// let body = [1, 0, 0, 0, 1, 0, 0, 0, 0, 1, 255, 255, 255, 255];
    /// let answer = ask(&body, Edition::Second, Question::IsNull, &Literals::none(Type::Int), RowField::for_body(&body))?;
    /// assert!(answer.field().contains(0));
    /// # Ok::<(), poddurance::Error>(())
    /// ```
    #[must_use]
    pub fn field(&self) -> &RowField {
        &self.field
    }

    /// The rows that are chosen, or the field to lend to the next call.
    ///
    /// ```
    /// # use poddurance::{ask, Edition, Literals, Question, RowField, Type};
    /// // One row, null.
    /// let body = [1, 0, 0, 0, 1, 0, 0, 0, 0, 1, 255, 255, 255, 255];
    /// let none = Literals::none(Type::Int);
    /// let field = ask(&body, Edition::Second, Question::IsNull, &none, RowField::for_body(&body))?.into_field();
    /// assert!(ask(&body, Edition::Second, Question::IsNotNull, &none, field)?.is_skip());
    /// # Ok::<(), poddurance::Error>(())
    /// ```
    #[must_use]
    pub fn into_field(self) -> RowField {
        self.field
    }

    /// The rows that are chosen and the record, for [`subtract_record`].
    ///
    /// ```
    /// # use poddurance::{ask, subtract_record, Edition, Literals, Question, RowField, Type};
    /// // One row, null.
    /// let body = [1, 0, 0, 0, 1, 0, 0, 0, 0, 1, 255, 255, 255, 255];
    /// let answer = ask(&body, Edition::Second, Question::IsNull, &Literals::none(Type::Int), RowField::for_body(&body))?;
    /// let (mut rows, record) = answer.into_parts();
    /// assert_eq!(subtract_record(&mut rows, &RowField::all_of(1)?, record)?.removed, 1);
    /// # Ok::<(), poddurance::Error>(())
    /// ```
    #[must_use]
    pub fn into_parts(self) -> (RowField, Record) {
        (self.field, self.record)
    }
}

/// Reads the deleted rows that bin number `bin`, from 0, of a deletion file lists, and gives the field back with those rows set.
///
/// The data file's row count is the field's; a deleted row at or above it is [`Refusal::Range`]. A bin has no entries: [`Refusal::Range`]
/// and [`Refusal::Bitmap`] name the entry 0, and print it. The command line leaves it out. A 64-bit bin is [`Refusal::Magic`]:
/// [`read_window`] reads it.
///
/// ```
/// use poddurance::{read_deletions, Refusal, RowField};
///
/// let mut file = [
///     1, 0, 0, 0, 26, 0x5E, 0x43, 0xF2, 0xD0, 0x3A, 0x30, 0, 0, 1, 0, 0, 0, 0, 0, 2, 0, 0x10, 0, 0, 0, 0, 0, 2, 0, 5, 0,
///     0x80, 0x72, 0x25, 0x2B,
/// ];
/// let deleted = read_deletions(&file, 0, RowField::for_rows(6)?)?;
/// assert_eq!(deleted.count(), 3);
/// assert!(deleted.field().iter().eq([0, 2, 5]));
/// assert_eq!(read_deletions(&file, 0, RowField::for_rows(5)?), Err(Refusal::Range { entry: 0 }));
/// assert_eq!(read_deletions(&file, 1, RowField::for_rows(6)?), Err(Refusal::NoBin));
///
/// file[34] = 0;
/// assert_eq!(read_deletions(&file, 0, RowField::for_rows(6)?), Err(Refusal::Checksum));
///
/// // Rows 5 and 65,542 in two containers, the second of which lacks its last byte.
/// let cut = [
///     1, 0, 0, 0, 20, 0x5E, 0x43, 0xF2, 0xD0, 0x3B, 0x30, 1, 0, 0, 0, 0, 0, 0, 1, 0, 0, 0, 5, 0, 6, 0x0C, 0xB5, 0xDD, 0xE0,
/// ];
/// let refusal = read_deletions(&cut, 0, RowField::for_rows(65_543)?).unwrap_err();
/// assert_eq!(refusal, Refusal::Bitmap { entry: 0, container: 1 });
/// assert_eq!(refusal.to_string(), "BITMAP (6), place, length or form of a bitmap is wrong: entry 0, container 1");
/// # Ok::<(), Refusal>(())
/// ```
pub fn read_deletions(file: &[u8], bin: u64, mut field: RowField) -> Result<Deleted, Refusal> {
    let rows = field.rows();
    let (answer, count, fault) = raw::read_deletions(file, bin, rows, field.bytes_mut());
    accepted(answer, fault)?;
    Ok(Deleted { field, count })
}

/// Reads the deleted rows that bin number `bin`, from 0, of a deletion file lists in a window, as many rows as the field is for from row `first`
/// on, and gives the field back with those rows set: **its row r stands for row `first` + r of the data file**.
///
/// The bin is a 32-bit one, as [`read_deletions`] reads it, or a 64-bit one, as Paimon writes it where `deletion-vectors.bitmap64` is set. Where
/// the data file has at most [`LIMIT`](crate::LIMIT) rows, one window from 0 reads all of them; else they are read in parts. A listed row before
/// the window or behind it is no fault, so that there is no [`Refusal::Range`], and nothing tells that a bin is another data file's. The whole
/// bin is checked, whatever the window.
///
/// A window that ends above 2^63, where rows end, is [`Refusal::Limit`]. [`Refusal::Bitmap`] names the entry 0, and in a 64-bit bin the
/// container 0, whatever is wrong behind its magic.
///
/// ```
/// use poddurance::{read_deletions, read_window, Refusal, RowField};
///
/// // Rows 5, 4294967299 and 4294967306: in the bitmap with index 0, and in that with index 1 by their low parts 3 and 10.
/// let file = [
///     1, 0, 0, 0, 58, 0xD1, 0xD3, 0x39, 0x64, 2, 0, 0, 0, 0, 0, 0, 0, // version, size, magic, number of bitmaps
///     0, 0, 0, 0, 0x3A, 0x30, 0, 0, 1, 0, 0, 0, 0, 0, 0, 0, 0x10, 0, 0, 0, 5, 0,
///     1, 0, 0, 0, 0x3A, 0x30, 0, 0, 1, 0, 0, 0, 0, 0, 1, 0, 0x10, 0, 0, 0, 3, 0, 10, 0,
///     0x4A, 0x43, 0x81, 0xBA,
/// ];
/// let first = (1 << 32) + 1; // inside a byte of the bitmap's rows
/// let deleted = read_window(&file, 0, first, RowField::for_rows(12)?)?;
/// assert_eq!(deleted.count(), 2);
/// assert!(deleted.field().iter().eq([2, 9]));
/// assert!(deleted.field().iter().map(|row| first + row).eq([4_294_967_299, 4_294_967_306]));
///
/// // The rows behind the window are no fault.
/// assert!(read_window(&file, 0, 0, RowField::for_rows(6)?)?.field().iter().eq([5]));
/// assert_eq!(read_deletions(&file, 0, RowField::for_rows(6)?), Err(Refusal::Magic));
///
/// assert_eq!(read_window(&file, 0, (1 << 63) - 6, RowField::for_rows(6)?)?.count(), 0);
/// assert_eq!(read_window(&file, 0, (1 << 63) - 5, RowField::for_rows(6)?), Err(Refusal::Limit));
///
/// // A bitmap is said to follow, and none does.
/// let cut = [1, 0, 0, 0, 12, 0xD1, 0xD3, 0x39, 0x64, 1, 0, 0, 0, 0, 0, 0, 0, 0x73, 0xB2, 0x48, 0x92];
/// let refused = read_window(&cut, 0, 0, RowField::for_rows(6)?);
/// assert_eq!(refused, Err(Refusal::Bitmap { entry: 0, container: 0 }));
/// # Ok::<(), Refusal>(())
/// ```
///
/// A 32-bit bin, from a row inside a byte:
///
/// ```
/// use poddurance::{read_window, RowField};
///
/// // Rows 0, 2 and 5.
/// let file = [
///     1, 0, 0, 0, 26, 0x5E, 0x43, 0xF2, 0xD0, 0x3A, 0x30, 0, 0, 1, 0, 0, 0, 0, 0, 2, 0, 0x10, 0, 0, 0, 0, 0, 2, 0, 5, 0,
///     0x80, 0x72, 0x25, 0x2B,
/// ];
/// let deleted = read_window(&file, 0, 1, RowField::for_rows(3)?)?;
/// assert_eq!(deleted.field().as_bytes(), [0b010]); // row 2; neither 0 nor 5 is a fault
/// # Ok::<(), poddurance::Refusal>(())
/// ```
pub fn read_window(file: &[u8], bin: u64, first: u64, mut field: RowField) -> Result<Deleted, Refusal> {
    let rows = field.rows();
    let (answer, count, fault) = raw::read_window(file, bin, first, rows, field.bytes_mut());
    accepted(answer, fault)?;
    Ok(Deleted { field, count })
}

/// The answer of [`read_deletions`] or [`read_window`] to a file that it accepts: the rows that are deleted, of a window counted from its first.
///
/// ```
/// use poddurance::{read_deletions, subtract, RowField};
///
/// let file = [
///     1, 0, 0, 0, 26, 0x5E, 0x43, 0xF2, 0xD0, 0x3A, 0x30, 0, 0, 1, 0, 0, 0, 0, 0, 2, 0, 0x10, 0, 0, 0, 0, 0, 2, 0, 5, 0,
///     0x80, 0x72, 0x25, 0x2B,
/// ];
/// let deleted = read_deletions(&file, 0, RowField::for_rows(6)?)?;
/// let mut rows = RowField::all_of(6)?;
/// assert_eq!(subtract(&mut rows, deleted.field())?.removed, deleted.count());
/// # Ok::<(), poddurance::Error>(())
/// ```
#[derive(Clone, Debug, PartialEq, Eq)]
pub struct Deleted {
    field: RowField,
    count: u64,
}

impl Deleted {
    /// How many rows are deleted.
    ///
    /// ```
    /// # use poddurance::{read_deletions, RowField};
    /// // One bin without rows.
    /// let file = [1, 0, 0, 0, 12, 0x5E, 0x43, 0xF2, 0xD0, 0x3A, 0x30, 0, 0, 0, 0, 0, 0, 0x5D, 0xE5, 0xC7, 0xE9];
    /// assert_eq!(read_deletions(&file, 0, RowField::for_rows(6)?)?.count(), 0);
    /// # Ok::<(), poddurance::Refusal>(())
    /// ```
    #[must_use]
    pub fn count(&self) -> u64 {
        self.count
    }

    /// The rows that are deleted, for [`subtract_record`] or [`subtract`].
    ///
    /// ```
    /// # use poddurance::{read_deletions, RowField};
    /// // One bin without rows.
    /// let file = [1, 0, 0, 0, 12, 0x5E, 0x43, 0xF2, 0xD0, 0x3A, 0x30, 0, 0, 0, 0, 0, 0, 0x5D, 0xE5, 0xC7, 0xE9];
    /// assert!(!read_deletions(&file, 0, RowField::for_rows(6)?)?.field().contains(5));
    /// # Ok::<(), poddurance::Refusal>(())
    /// ```
    #[must_use]
    pub fn field(&self) -> &RowField {
        &self.field
    }

    /// The rows that are deleted, or the field to lend to the next call.
    ///
    /// ```
    /// # use poddurance::{read_deletions, RowField};
    /// // One bin without rows.
    /// let file = [1, 0, 0, 0, 12, 0x5E, 0x43, 0xF2, 0xD0, 0x3A, 0x30, 0, 0, 0, 0, 0, 0, 0x5D, 0xE5, 0xC7, 0xE9];
    /// let field = read_deletions(&file, 0, RowField::for_rows(6)?)?.into_field();
    /// assert_eq!(field, RowField::for_rows(6)?);
    /// # Ok::<(), poddurance::Refusal>(())
    /// ```
    #[must_use]
    pub fn into_field(self) -> RowField {
        self.field
    }
}

/// Clears in `first` each row that is set in `second`, for rows that no question chose, as where there is no index. For an answer's
/// rows there is [`subtract_record`].
///
/// Both must be for the same number of rows: a field of another data file is [`Error::RowsDiffer`] and changes nothing.
///
/// ```
/// use poddurance::{subtract, Error, RowField, Subtracted};
///
/// let mut rows = RowField::all_of(6)?;
/// let none = RowField::for_rows(6)?;
/// assert_eq!(subtract(&mut rows, &none)?, Subtracted { left: 6, removed: 0 });
///
/// let other = RowField::all_of(7)?;
/// assert_eq!(subtract(&mut rows, &other), Err(Error::RowsDiffer { expected: 6, found: 7 }));
/// assert_eq!(rows.count(), 6);
/// # Ok::<(), Error>(())
/// ```
pub fn subtract(first: &mut RowField, second: &RowField) -> Result<Subtracted, Error> {
    same_rows(first, second.rows())?;
    let rows = first.rows();
    let (answer, left, removed) = raw::subtract(first.bytes_mut(), second.as_bytes(), rows);
    accepted(answer, Fault::NONE)?;
    Ok(Subtracted { left, removed })
}

/// What [`subtract`] did.
///
/// ```
/// use poddurance::{subtract, RowField};
///
/// let mut rows = RowField::all_of(6)?;
/// let all = rows.clone();
/// let counts = subtract(&mut rows, &all)?;
/// assert_eq!((counts.left, counts.removed), (0, 6));
/// # Ok::<(), poddurance::Error>(())
/// ```
#[derive(Clone, Copy, Debug, PartialEq, Eq, Hash)]
pub struct Subtracted {
    /// How many rows are left.
    pub left: u64,
    /// How many rows were removed.
    pub removed: u64,
}

/// Clears in `first`, the rows of an answer, each row that is set in `second`, the deleted ones, and brings the answer's record up to date.
///
/// In the record that comes back [`deleted`](Record::deleted) counts all rows of `second`, those that weren't chosen too, and
/// [`matched`](Record::matched) is what is left in `first`; row count and null rows are as they were. Both counts are made afresh: a second call
/// doesn't add to the first one's.
///
/// The two fields and the record must be of the same number of rows: another is [`Error::RowsDiffer`] and changes nothing. The record
/// should be that of the answer that `first` came with; its null rows are handed on as they are.
///
/// The record goes in by value, so that the one from before can't be printed for what is left. With an error it is gone: rows whose
/// deleted ones couldn't be taken away are no answer.
///
/// ```
/// use poddurance::{ask, subtract_record, Edition, Error, Literals, Question, RowField, Type};
///
/// // 7, 9, null
/// let body = [1, 0, 0, 0, 3, 0, 0, 0, 2, 1, 255, 255, 255, 253, 7, 255, 255, 255, 255, 9, 255, 255, 255, 254];
/// let none = Literals::none(Type::TinyInt);
/// let (mut rows, record) = ask(&body, Edition::Second, Question::IsNotNull, &none, RowField::for_body(&body))?.into_parts();
/// assert_eq!(record.to_string(), "drawn from 2 of 3 rows");
///
/// // Rows 1 and 2 are deleted. Row 2, null, was not chosen, and so one is removed.
/// let seven = Literals::of(Type::TinyInt, [7])?;
/// let deleted = ask(&body, Edition::First, Question::NotEqual, &seven, RowField::for_body(&body))?.into_field();
/// let subtracted = subtract_record(&mut rows, &deleted, record)?;
/// assert_eq!(subtracted.record.to_string(), "drawn from 1 of 3 rows");
/// assert_eq!((subtracted.record.deleted(), subtracted.removed), (2, 1));
/// assert!(rows.iter().eq([0]));
///
/// let other = RowField::all_of(4)?;
/// assert_eq!(subtract_record(&mut rows, &other, subtracted.record), Err(Error::RowsDiffer { expected: 3, found: 4 }));
/// assert!(rows.iter().eq([0]));
/// # Ok::<(), Error>(())
/// ```
pub fn subtract_record(first: &mut RowField, second: &RowField, record: Record) -> Result<RecordSubtracted, Error> {
    same_rows(first, second.rows())?;
    same_rows(first, record.rows())?;
    let (answer, record, removed) = raw::subtract_record(first.bytes_mut(), second.as_bytes(), record.raw());
    accepted(answer, Fault::NONE)?;
    Ok(RecordSubtracted { record: Record::accepted(record), removed })
}

/// What [`subtract_record`] did: the record, brought up to date, and how many rows were removed.
///
/// ```
/// use poddurance::{ask, subtract_record, Edition, Literals, Question, RowField, Type};
///
/// // One row, null.
/// let body = [1, 0, 0, 0, 1, 0, 0, 0, 0, 1, 255, 255, 255, 255];
/// let answer = ask(&body, Edition::Second, Question::IsNull, &Literals::none(Type::Int), RowField::for_body(&body))?;
/// let (mut rows, record) = answer.into_parts();
/// let chosen = record.matched();
/// let subtracted = subtract_record(&mut rows, &RowField::all_of(1)?, record)?;
/// assert_eq!(subtracted.record.matched() + subtracted.removed, chosen);
/// assert!(subtracted.record.is_skip());
/// # Ok::<(), poddurance::Error>(())
/// ```
#[derive(Debug, PartialEq, Eq, Hash)]
#[must_use = "it has the record of the rows that are left; the one that was handed in is gone"]
pub struct RecordSubtracted {
    /// The record of what is left.
    pub record: Record,
    /// How many rows were removed: the deleted ones among the chosen.
    pub removed: u64,
}

pub(crate) fn accepted(answer: u8, fault: Fault) -> Result<(), Refusal> {
    if answer == raw::ACCEPTED {
        return Ok(());
    }
    // The header lists no other numbers. Were there one, then going on with the field would be worse than to stop.
    Err(Refusal::from_raw(answer, fault).unwrap_or_else(|| panic!("{answer} is no answer of the library")))
}

pub(crate) fn same_rows(field: &RowField, found: u64) -> Result<(), Error> {
    let expected = field.rows();
    if found != expected {
        return Err(Error::RowsDiffer { expected, found });
    }
    Ok(())
}
