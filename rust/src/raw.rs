//! The ten calls as the archive has them: numbers in, numbers out, over buffers that the caller keeps.
//!
//! Each call answers [`ACCEPTED`], [`ABSENT`] ([`locate`] and [`ask_file`] alone) or the number of a [`Refusal`](crate::Refusal),
//! and then its counts, of [`ask`], [`ask_file`], [`look_up`] and [`subtract_record`] the [`Record`] first, which are 0 unless the call
//! accepts; those that read bitmaps answer last the [`Fault`], where a refusal's cause is.
//! These functions are for callers that reuse their own buffers; the functions at the top of the crate keep a field and its row count
//! together, and an opened body, its type and its table, and are harder to use wrongly.
//!
//! A row field for n rows is the first ceil(n/8) bytes of the lent buffer. **Bytes behind it never change**, so that a buffer
//! longer than that may hold rows of an earlier call behind the field: read no more than ceil(n/8) bytes of it. ABSENT, LIMIT,
//! ROOM and the refusals before ROOM leave the whole buffer as it was, with the rows of an earlier call.
//!
//! ```
//! use poddurance::raw::{self, Fault, Record};
//!
//! // TINYINT (0) with the rows 7, 9, null; the buffer has room for more, and bits of an earlier call.
//! let mut body = [1, 0, 0, 0, 3, 0, 0, 0, 2, 1, 255, 255, 255, 253, 7, 255, 255, 255, 255, 9, 255, 255, 255, 254];
//! let mut buffer = [0xFF; 100];
//! let (answer, rows, fault) = raw::audit(&body, 0, &mut buffer);
//! assert_eq!((answer, rows, fault), (raw::ACCEPTED, 3, Fault::NONE));
//! let (answer, record, _) = raw::ask(&body, 0, 2, 5, &[], &mut buffer); // edition 2, IS NOT NULL (5)
//! assert_eq!((answer, record), (raw::ACCEPTED, Record { rows: 3, nulls: 1, deleted: 0, matched: 2 }));
//! let field = &buffer[..record.rows.div_ceil(8) as usize];
//! assert_eq!(field, [0b011]);
//!
//! body[23] = 255; // the second value, 9, is now at row 0, where 7 is: TWICE (8), entry 2
//! assert_eq!(raw::audit(&body, 0, &mut buffer), (8, 0, Fault { entry: 2, container: 0, row: 0 }));
//! ```

/// The answer of a call that accepts its bytes.
///
/// ```
/// assert_eq!(poddurance::raw::subtract(&mut [], &[], 0).0, poddurance::raw::ACCEPTED);
/// ```
pub const ACCEPTED: u8 = 0;

/// The answer of [`locate`] and [`ask_file`] when the column, or the kind in it, is not listed. It says that all rows are to be
/// read, where 0 matched rows say that none is.
///
/// ```
/// // A head without columns.
/// let file = [0, 5, 0x4E, 0x4E, 0xD0, 0x1A, 0x35, 0xAE, 0, 0, 0, 1, 0, 0, 0, 24, 0, 0, 0, 0, 0, 0, 0, 0];
/// assert_eq!(poddurance::raw::locate(&[], &file, b"s", b"bitmap"), (poddurance::raw::ABSENT, 0, 0));
/// ```
pub const ABSENT: u8 = 255;

/// The most blocks of a body, by document 01's limit: a table of so many words has room for every body that [`open`] accepts.
///
/// ```
/// // A body that claims one block more is LIMIT (12).
/// let body = [2, 0, 0, 0, 0, 0, 1, 0, 0, 0, 0, 1, 0, 1];
/// assert_eq!(poddurance::raw::open(&body, 0, &mut [], &mut [0; poddurance::raw::MOST_BLOCKS]).0, 12);
/// ```
pub const MOST_BLOCKS: usize = 65_536;

/// Where the cause of a refusal is. It is 0 in each number that the refusal doesn't carry, and [`Fault::NONE`] with [`ACCEPTED`] and
/// [`ABSENT`]. [`Refusal`](crate::Refusal) says which refusal carries what, and holds the same numbers.
///
/// ```
/// use poddurance::raw::{audit, Fault};
///
/// // 4 rows, and places for rows 0 to 2 alone: MISSING (9), row 3.
/// let body = [1, 0, 0, 0, 4, 0, 0, 0, 2, 1, 255, 255, 255, 253, 7, 255, 255, 255, 255, 9, 255, 255, 255, 254];
/// assert_eq!(audit(&body, 0, &mut [0]), (9, 0, Fault { entry: 0, container: 0, row: 3 }));
/// ```
#[derive(Clone, Copy, Debug, Default, PartialEq, Eq, Hash)]
#[repr(C)]
pub struct Fault {
    /// The number of the entry: 0 for null's and in a deletion bin, 1 and on for the values' in stored order, through all blocks; of
    /// [`look_up`], which knows one block alone, within the block.
    pub entry: u64,
    /// The number of the container in the entry's bitmap, from 0.
    pub container: u64,
    /// The lowest row without a place.
    pub row: u64,
}

impl Fault {
    /// That of an answer which carries nothing.
    ///
    /// ```
    /// use poddurance::raw::Fault;
    ///
    /// assert_eq!(Fault::NONE, Fault { entry: 0, container: 0, row: 0 });
    /// ```
    pub const NONE: Fault = Fault { entry: 0, container: 0, row: 0 };
}

/// What a graph may claim of its rows: four counts, [`Record::NONE`] with any answer but [`ACCEPTED`].
///
/// Its parts can be written by hand, and [`subtract_record`] takes any numbers; the [`Record`](crate::Record) at the top of the crate is
/// made by accepted calls alone.
///
/// ```
/// use poddurance::raw::{ask, Record};
///
/// // TINYINT (0) with the rows 7, 9, null; edition 2, NOT EQUAL (1) 7.
/// let body = [1, 0, 0, 0, 3, 0, 0, 0, 2, 1, 255, 255, 255, 253, 7, 255, 255, 255, 255, 9, 255, 255, 255, 254];
/// let (_, record, _) = ask(&body, 0, 2, 1, &[7], &mut [0]);
/// assert_eq!(record, Record { rows: 3, nulls: 1, deleted: 0, matched: 1 });
/// ```
#[derive(Clone, Copy, Debug, Default, PartialEq, Eq, Hash)]
#[repr(C)]
pub struct Record {
    /// The row count of the index.
    pub rows: u64,
    /// How many rows are null, for each question and edition.
    pub nulls: u64,
    /// How many rows the deletions list, chosen or not; 0 until they are subtracted.
    pub deleted: u64,
    /// How many rows are chosen, and after [`subtract_record`] how many are left of them. 0 in an accepted answer says skip.
    pub matched: u64,
}

impl Record {
    /// That of an answer which isn't accepted.
    ///
    /// ```
    /// use poddurance::raw::Record;
    ///
    /// assert_eq!(Record::NONE, Record { rows: 0, nulls: 0, deleted: 0, matched: 0 });
    /// ```
    pub const NONE: Record = Record { rows: 0, nulls: 0, deleted: 0, matched: 0 };
}

/// The functions of the archive, as include/poddurance.h declares them.
mod c {
    use super::{Fault, Record};

    extern "C" {
        pub fn poddurance_locate(
            embedded: *const u8,
            embedded_len: usize,
            file: *const u8,
            file_len: usize,
            column: *const u8,
            column_len: usize,
            kind: *const u8,
            kind_len: usize,
            start: *mut u64,
            length: *mut u64,
        ) -> u8;
        pub fn poddurance_audit(
            body: *const u8,
            body_len: usize,
            ty: u32,
            field: *mut u8,
            field_len: usize,
            rows: *mut u64,
            fault: *mut Fault,
        ) -> u8;
        pub fn poddurance_ask(
            body: *const u8,
            body_len: usize,
            ty: u32,
            edition: u32,
            question: u32,
            literals: *const u8,
            literals_len: usize,
            field: *mut u8,
            field_len: usize,
            record: *mut Record,
            fault: *mut Fault,
        ) -> u8;
        pub fn poddurance_ask_file(
            embedded: *const u8,
            embedded_len: usize,
            file: *const u8,
            file_len: usize,
            column: *const u8,
            column_len: usize,
            kind: *const u8,
            kind_len: usize,
            ty: u32,
            edition: u32,
            question: u32,
            literals: *const u8,
            literals_len: usize,
            field: *mut u8,
            field_len: usize,
            record: *mut Record,
            fault: *mut Fault,
        ) -> u8;
        pub fn poddurance_open(
            body: *const u8,
            body_len: usize,
            ty: u32,
            field: *mut u8,
            field_len: usize,
            table: *mut u32,
            table_words: usize,
            rows: *mut u64,
            blocks: *mut u64,
            fault: *mut Fault,
        ) -> u8;
        pub fn poddurance_look_up(
            body: *const u8,
            body_len: usize,
            ty: u32,
            edition: u32,
            literals: *const u8,
            literals_len: usize,
            table: *const u32,
            table_words: usize,
            field: *mut u8,
            field_len: usize,
            record: *mut Record,
            compared: *mut u64,
            fault: *mut Fault,
        ) -> u8;
        pub fn poddurance_read_deletions(
            file: *const u8,
            file_len: usize,
            bin: u64,
            rows: u64,
            field: *mut u8,
            field_len: usize,
            deleted: *mut u64,
            fault: *mut Fault,
        ) -> u8;
        pub fn poddurance_read_window(
            file: *const u8,
            file_len: usize,
            bin: u64,
            first: u64,
            rows: u64,
            field: *mut u8,
            field_len: usize,
            deleted: *mut u64,
            fault: *mut Fault,
        ) -> u8;
        pub fn poddurance_subtract(
            first: *mut u8,
            first_len: usize,
            second: *const u8,
            second_len: usize,
            rows: u64,
            left: *mut u64,
            removed: *mut u64,
        ) -> u8;
        pub fn poddurance_subtract_record(
            first: *mut u8,
            first_len: usize,
            second: *const u8,
            second_len: usize,
            record: *mut Record,
            removed: *mut u64,
        ) -> u8;
    }
}

/// Locate: the answer, and where the body of the index of kind `kind` on column `column` starts and how long it is, in `embedded`
/// if that isn't empty, else in `file`. The other buffer isn't looked at.
///
/// `column` and `kind` are bytes, read as standard UTF-8 and compared in the form in which files store names, Java's modified UTF-8. One
/// that isn't standard UTF-8 (an overlong form, a surrogate, a character above U+10FFFF, cut off, a byte that continues nothing) or takes
/// more than 65,535 bytes in modified form is LITERAL (11). That is said of either name behind the length limits and before anything of
/// the file, where both buffers are empty too.
///
/// ```
/// let file = [
///     0, 5, 0x4E, 0x4E, 0xD0, 0x1A, 0x35, 0xAE, 0, 0, 0, 1, 0, 0, 0, 47, 0, 0, 0, 1, // head up to the column number
///     0, 1, b's', 0, 0, 0, 1, 0, 6, b'b', b'i', b't', b'm', b'a', b'p', 0, 0, 0, 47, 0, 0, 0, 24, 0, 0, 0, 0,
///     1, 0, 0, 0, 3, 0, 0, 0, 2, 1, 255, 255, 255, 253, 7, 255, 255, 255, 255, 9, 255, 255, 255, 254, // body
/// ];
/// assert_eq!(poddurance::raw::locate(&[], &file, b"s", b"bitmap"), (0, 47, 24));
/// assert_eq!(poddurance::raw::locate(&[], &file, b"t", b"bitmap"), (255, 0, 0));
/// assert_eq!(poddurance::raw::locate(&[], &file[..70], b"s", b"bitmap"), (4, 0, 0));
/// // Zero as modified UTF-8 has it: to be asked for as one byte 00.
/// assert_eq!(poddurance::raw::locate(&[], &file, b"\xC0\x80", b"bitmap"), (11, 0, 0));
/// assert_eq!(poddurance::raw::locate(&[], &[], b"s", b"\xC0\x80"), (11, 0, 0));
/// ```
#[must_use]
pub fn locate(embedded: &[u8], file: &[u8], column: &[u8], kind: &[u8]) -> (u8, u64, u64) {
    let (mut start, mut length) = (0, 0);
    // SAFETY: a slice's pointer is never null and is good for reading its length, the two results are locals good for writing,
    // all live through the call, and the call keeps none of them. Only the results are written to, and they overlap nothing;
    // slices that share bytes are read alone.
    let answer = unsafe {
        c::poddurance_locate(
            embedded.as_ptr(),
            embedded.len(),
            file.as_ptr(),
            file.len(),
            column.as_ptr(),
            column.len(),
            kind.as_ptr(),
            kind.len(),
            &mut start,
            &mut length,
        )
    };
    (answer, start, length)
}

/// Audit: the answer, the row count of the body, and where a refusal's cause is. Accepted, the field's bytes are zero.
///
/// ```
/// use poddurance::raw::{audit, Fault};
///
/// let body = [1, 0, 0, 0, 3, 0, 0, 0, 2, 1, 255, 255, 255, 253, 7, 255, 255, 255, 255, 9, 255, 255, 255, 254];
/// let mut field = [0xAA; 2];
/// assert_eq!(audit(&body, 0, &mut field), (0, 3, Fault::NONE));
/// assert_eq!(field, [0, 0xAA]); // the byte behind the field is as it was
/// ```
#[must_use]
pub fn audit(body: &[u8], ty: u32, field: &mut [u8]) -> (u8, u64, Fault) {
    let (mut rows, mut fault) = (0, Fault::NONE);
    // SAFETY: a slice's pointer is never null and is good for its length, `field`'s for writing too; the results are two locals good
    // for writing. All live through the call, which keeps none of them. `field` is borrowed mutably, so that it overlaps no other
    // buffer.
    let answer =
        unsafe { c::poddurance_audit(body.as_ptr(), body.len(), ty, field.as_mut_ptr(), field.len(), &mut rows, &mut fault) };
    (answer, rows, fault)
}

/// Ask: the answer, the record, and where a refusal's cause is. Accepted, the rows that the question chooses by the edition's rule of null
/// rows ([`Edition`](crate::Edition)) are set in the field and counted as the record's `matched`, of which 0 says skip.
///
/// Edition and question are both numbers, and swapped they may be another well-formed question.
///
/// ```
/// use poddurance::raw::{ask, Fault, Record};
/// use poddurance::{Edition, Question};
///
/// let body = [1, 0, 0, 0, 3, 0, 0, 0, 2, 1, 255, 255, 255, 253, 7, 255, 255, 255, 255, 9, 255, 255, 255, 254];
/// let mut field = [0];
/// let not_equal = Question::NotEqual.number();
/// // TINYINT (0), NOT EQUAL 7
/// let record = Record { rows: 3, nulls: 1, deleted: 0, matched: 2 };
/// assert_eq!(ask(&body, 0, Edition::First.number(), not_equal, &[7], &mut field), (0, record, Fault::NONE));
/// assert_eq!(field, [0b110]); // 9 and null
/// let record = Record { matched: 1, ..record };
/// assert_eq!(ask(&body, 0, Edition::Second.number(), not_equal, &[7], &mut field), (0, record, Fault::NONE));
/// assert_eq!(field, [0b010]); // 9
/// // There is no edition 3: LITERAL (11).
/// assert_eq!(ask(&body, 0, 3, not_equal, &[7], &mut field), (11, Record::NONE, Fault::NONE));
/// ```
#[must_use]
pub fn ask(body: &[u8], ty: u32, edition: u32, question: u32, literals: &[u8], field: &mut [u8]) -> (u8, Record, Fault) {
    let (mut record, mut fault) = (Record::NONE, Fault::NONE);
    // SAFETY: a slice's pointer is never null and is good for its length, `field`'s for writing too; the results are two locals good
    // for writing. All live through the call, which keeps none of them. `field` is borrowed mutably, so that it overlaps no other
    // buffer; `body` and `literals` are read alone.
    let answer = unsafe {
        c::poddurance_ask(
            body.as_ptr(),
            body.len(),
            ty,
            edition,
            question,
            literals.as_ptr(),
            literals.len(),
            field.as_mut_ptr(),
            field.len(),
            &mut record,
            &mut fault,
        )
    };
    (answer, record, fault)
}

/// From the file to the answer: [`locate`], then [`ask`] on the part that it hands back. The answer, the record, and where a refusal's
/// cause is. Accepted, the rows that the question chooses by the edition's rule of null rows are set in the field and counted as the
/// record's `matched`, of which 0 says skip. With [`ABSENT`] and with a refusal of Locate, LITERAL (11) for a name among them, the field's
/// buffer is as it was.
///
/// ```
/// use poddurance::raw::{ask_file, Fault, Record, ABSENT};
///
/// let file = [
///     0, 5, 0x4E, 0x4E, 0xD0, 0x1A, 0x35, 0xAE, 0, 0, 0, 1, 0, 0, 0, 47, 0, 0, 0, 1, // head up to the column number
///     0, 1, b's', 0, 0, 0, 1, 0, 6, b'b', b'i', b't', b'm', b'a', b'p', 0, 0, 0, 47, 0, 0, 0, 24, 0, 0, 0, 0,
///     1, 0, 0, 0, 3, 0, 0, 0, 2, 1, 255, 255, 255, 253, 7, 255, 255, 255, 255, 9, 255, 255, 255, 254, // body
/// ];
/// let mut field = [0xAA];
/// // TINYINT (0), edition 2, NOT EQUAL (1) 7
/// assert_eq!(ask_file(&[], &file, b"t", b"bitmap", 0, 2, 1, &[7], &mut field), (ABSENT, Record::NONE, Fault::NONE));
/// assert_eq!(field, [0xAA]);
/// let record = Record { rows: 3, nulls: 1, deleted: 0, matched: 1 };
/// assert_eq!(ask_file(&[], &file, b"s", b"bitmap", 0, 2, 1, &[7], &mut field), (0, record, Fault::NONE));
/// assert_eq!(field, [0b010]); // 9
/// let record = Record { matched: 2, ..record };
/// assert_eq!(ask_file(&[], &file, b"s", b"bitmap", 0, 1, 1, &[7], &mut field), (0, record, Fault::NONE)); // edition 1
/// assert_eq!(field, [0b110]); // 9 and null
/// let refused = (11, Record::NONE, Fault::NONE);
/// assert_eq!(ask_file(&[], &file, b"\xFF", b"bitmap", 0, 2, 1, &[7], &mut field), refused); // no UTF-8
/// assert_eq!(field, [0b110]);
/// ```
// The archive's call has these parameters; what belongs together is put together at the top of the crate.
#[allow(clippy::too_many_arguments)]
#[must_use]
pub fn ask_file(
    embedded: &[u8],
    file: &[u8],
    column: &[u8],
    kind: &[u8],
    ty: u32,
    edition: u32,
    question: u32,
    literals: &[u8],
    field: &mut [u8],
) -> (u8, Record, Fault) {
    let (mut record, mut fault) = (Record::NONE, Fault::NONE);
    // SAFETY: a slice's pointer is never null and is good for its length, `field`'s for writing too; the results are two locals good
    // for writing. All live through the call, which keeps none of them. `field` is borrowed mutably, so that it overlaps no other
    // buffer; the others are read alone and may share bytes.
    let answer = unsafe {
        c::poddurance_ask_file(
            embedded.as_ptr(),
            embedded.len(),
            file.as_ptr(),
            file.len(),
            column.as_ptr(),
            column.len(),
            kind.as_ptr(),
            kind.len(),
            ty,
            edition,
            question,
            literals.as_ptr(),
            literals.len(),
            field.as_mut_ptr(),
            field.len(),
            &mut record,
            &mut fault,
        )
    };
    (answer, record, fault)
}

/// Open, for version 2: the answer, the row count of the body, its number of blocks, and where a refusal's cause is. It audits as
/// [`audit`] does; a body of another version is VERSION (3). Accepted, the field's bytes are zero, and the table's first words, one for each
/// block, are where the block's entry in the directory starts in the body; words behind them are as they were.
///
/// The table is lent to [`look_up`], with this body and type, to find values without an audit. One with fewer words than the body has blocks
/// is ROOM (10), as is a field that is too short; [`MOST_BLOCKS`] words always do, and the table may be longer. A refusal leaves the table
/// as it was.
///
/// ```
/// use poddurance::raw::{open, Fault};
///
/// // TINYINT (0) with the rows 7, 9, null, in two blocks of one value each.
/// let body = [
///     2, 0, 0, 0, 3, 0, 0, 0, 2, 1, 255, 255, 255, 253, 255, 255, 255, 255, 0, 0, 0, 2, // version, counts, null
///     7, 0, 0, 0, 0, 9, 0, 0, 0, 13, 0, 0, 0, 26, // the directory starts at 22, its second entry at 27
///     0, 0, 0, 1, 7, 255, 255, 255, 255, 255, 255, 255, 255, 0, 0, 0, 1, 9, 255, 255, 255, 254, 255, 255, 255, 255,
/// ];
/// let (mut field, mut table) = ([0xAA; 2], [7; 3]);
/// assert_eq!(open(&body, 0, &mut field, &mut table), (0, 3, 2, Fault::NONE));
/// assert_eq!((field, table), ([0, 0xAA], [22, 27, 7])); // what lies behind is as it was
/// assert_eq!(open(&body, 0, &mut field, &mut table[..1]), (10, 0, 0, Fault::NONE)); // two blocks, one word
/// ```
#[must_use]
pub fn open(body: &[u8], ty: u32, field: &mut [u8], table: &mut [u32]) -> (u8, u64, u64, Fault) {
    let (mut rows, mut blocks, mut fault) = (0, 0, Fault::NONE);
    // SAFETY: a slice's pointer is never null, is aligned and is good for its length, `field`'s and `table`'s for writing too; the results
    // are three locals good for writing. All live through the call, which keeps none of them. `field` and `table` are borrowed mutably, so
    // that they overlap neither each other nor `body`.
    let answer = unsafe {
        c::poddurance_open(
            body.as_ptr(),
            body.len(),
            ty,
            field.as_mut_ptr(),
            field.len(),
            table.as_mut_ptr(),
            table.len(),
            &mut rows,
            &mut blocks,
            &mut fault,
        )
    };
    (answer, rows, blocks, fault)
}

/// EQUAL of a body that [`open`] accepted, without an audit: the answer, the record, with how many values the literal was compared, and where
/// a refusal's cause is. Accepted, the rows of the literal's value are set in the field and counted as the record's `matched`, of which 0 says
/// skip.
///
/// **`body`, `ty` and `table` are to be those of one accepted open**, neither changed since: then answer, record and field are those of [`ask`].
/// With others this call reads no byte outside its buffers, and refuses what it can't read; but it does not audit, and what it accepts may
/// lack rows. BITMAP (6) and RANGE (7) then count the entry within its block. [`OpenedBody`](crate::OpenedBody) keeps the three together.
///
/// ```
/// use poddurance::raw::{look_up, open, Fault, Record};
///
/// // TINYINT (0) with the rows 7, 9, null, in two blocks of one value each.
/// let body = [
///     2, 0, 0, 0, 3, 0, 0, 0, 2, 1, 255, 255, 255, 253, 255, 255, 255, 255, 0, 0, 0, 2, // version, counts, null
///     7, 0, 0, 0, 0, 9, 0, 0, 0, 13, 0, 0, 0, 26,
///     0, 0, 0, 1, 7, 255, 255, 255, 255, 255, 255, 255, 255, 0, 0, 0, 1, 9, 255, 255, 255, 254, 255, 255, 255, 255,
/// ];
/// let (mut field, mut table) = ([0], [0; 2]);
/// assert_eq!(open(&body, 0, &mut field, &mut table).0, 0);
///
/// // Edition 2. 9 is compared with the second block's first value in the directory, and with that block's one value.
/// let record = Record { rows: 3, nulls: 1, deleted: 0, matched: 1 };
/// assert_eq!(look_up(&body, 0, 2, &[9], &table, &mut field), (0, record, 2, Fault::NONE));
/// assert_eq!(field, [0b010]);
/// // 6 comes before both blocks, and none is read.
/// assert_eq!(look_up(&body, 0, 2, &[6], &table, &mut field), (0, Record { matched: 0, ..record }, 2, Fault::NONE));
/// // Two literals are not EQUAL's: LITERAL (11).
/// assert_eq!(look_up(&body, 0, 2, &[7, 9], &table, &mut field), (11, Record::NONE, 0, Fault::NONE));
/// ```
#[must_use]
pub fn look_up(body: &[u8], ty: u32, edition: u32, literals: &[u8], table: &[u32], field: &mut [u8]) -> (u8, Record, u64, Fault) {
    let (mut record, mut compared, mut fault) = (Record::NONE, 0, Fault::NONE);
    // SAFETY: a slice's pointer is never null, is aligned and is good for its length, `field`'s for writing too; the results are three
    // locals good for writing. All live through the call, which keeps none of them. `field` is borrowed mutably, so that it overlaps no
    // other buffer; the others are read alone.
    let answer = unsafe {
        c::poddurance_look_up(
            body.as_ptr(),
            body.len(),
            ty,
            edition,
            literals.as_ptr(),
            literals.len(),
            table.as_ptr(),
            table.len(),
            field.as_mut_ptr(),
            field.len(),
            &mut record,
            &mut compared,
            &mut fault,
        )
    };
    (answer, record, compared, fault)
}

/// Read deletions: the answer, how many rows bin number `bin` of the deletion file lists, and where a refusal's cause is, its entry
/// being 0. Accepted, those rows are set in the field for `rows` rows. A 64-bit bin is MAGIC (2), and read with [`read_window`].
///
/// ```
/// use poddurance::raw::{read_deletions, Fault};
///
/// let file = [
///     1, 0, 0, 0, 26, 0x5E, 0x43, 0xF2, 0xD0, 0x3A, 0x30, 0, 0, 1, 0, 0, 0, 0, 0, 2, 0, 0x10, 0, 0, 0, 0, 0, 2, 0, 5, 0,
///     0x80, 0x72, 0x25, 0x2B,
/// ];
/// let mut field = [0];
/// assert_eq!(read_deletions(&file, 0, 6, &mut field), (0, 3, Fault::NONE));
/// assert_eq!(field, [0b100101]);
/// assert_eq!(read_deletions(&file, 1, 6, &mut field), (14, 0, Fault::NONE)); // there is one bin
/// ```
#[must_use]
pub fn read_deletions(file: &[u8], bin: u64, rows: u64, field: &mut [u8]) -> (u8, u64, Fault) {
    let (mut deleted, mut fault) = (0, Fault::NONE);
    // SAFETY: a slice's pointer is never null and is good for its length, `field`'s for writing too; the results are two locals good
    // for writing. All live through the call, which keeps none of them. `field` is borrowed mutably, so that it overlaps no other
    // buffer.
    let answer = unsafe {
        c::poddurance_read_deletions(
            file.as_ptr(),
            file.len(),
            bin,
            rows,
            field.as_mut_ptr(),
            field.len(),
            &mut deleted,
            &mut fault,
        )
    };
    (answer, deleted, fault)
}

/// Read window: the answer, how many rows bin number `bin` of the deletion file lists among the `rows` rows from row `first` on, and where a
/// refusal's cause is. Accepted, row r is set in the field for `rows` rows exactly if the bin lists row `first` + r.
///
/// The bin is a 32-bit one, as [`read_deletions`] reads it, or a 64-bit one, whose rows are below 2^63. A row before the window or behind it is
/// no fault, so that there is no RANGE. A window that ends above 2^63 is LIMIT (12). BITMAP (6) names the entry 0, and in a 64-bit bin the
/// container 0, whatever is wrong behind its magic.
///
/// ```
/// use poddurance::raw::{read_deletions, read_window, Fault};
///
/// // Rows 5, 4294967299 and 4294967306: in the bitmap with index 0, and in that with index 1 by their low parts 3 and 10.
/// let file = [
///     1, 0, 0, 0, 58, 0xD1, 0xD3, 0x39, 0x64, 2, 0, 0, 0, 0, 0, 0, 0, // version, size, magic, number of bitmaps
///     0, 0, 0, 0, 0x3A, 0x30, 0, 0, 1, 0, 0, 0, 0, 0, 0, 0, 0x10, 0, 0, 0, 5, 0,
///     1, 0, 0, 0, 0x3A, 0x30, 0, 0, 1, 0, 0, 0, 0, 0, 1, 0, 0x10, 0, 0, 0, 3, 0, 10, 0,
///     0x4A, 0x43, 0x81, 0xBA,
/// ];
/// let mut field = [0xAA; 3];
/// assert_eq!(read_window(&file, 0, (1 << 32) + 1, 12, &mut field), (0, 2, Fault::NONE));
/// assert_eq!(field, [0b00000100, 0b00000010, 0xAA]); // rows 2 and 9 of the window; what lies behind is as it was
/// assert_eq!(read_window(&file, 0, 0, 6, &mut field), (0, 1, Fault::NONE));
/// assert_eq!(field[0], 0b100000);
/// assert_eq!(read_deletions(&file, 0, 6, &mut field), (2, 0, Fault::NONE)); // MAGIC
/// assert_eq!(read_window(&file, 0, (1 << 63) - 6, 6, &mut field), (0, 0, Fault::NONE));
/// assert_eq!(read_window(&file, 0, (1 << 63) - 5, 6, &mut field), (12, 0, Fault::NONE)); // LIMIT
/// ```
#[must_use]
pub fn read_window(file: &[u8], bin: u64, first: u64, rows: u64, field: &mut [u8]) -> (u8, u64, Fault) {
    let (mut deleted, mut fault) = (0, Fault::NONE);
    // SAFETY: a slice's pointer is never null and is good for its length, `field`'s for writing too; the results are two locals good
    // for writing. All live through the call, which keeps none of them. `field` is borrowed mutably, so that it overlaps no other
    // buffer.
    let answer = unsafe {
        c::poddurance_read_window(
            file.as_ptr(),
            file.len(),
            bin,
            first,
            rows,
            field.as_mut_ptr(),
            field.len(),
            &mut deleted,
            &mut fault,
        )
    };
    (answer, deleted, fault)
}

/// Subtract: the answer, how many rows below `rows` are left in `first`, and how many were removed from it.
///
/// ```
/// let mut first = [0b111111];
/// assert_eq!(poddurance::raw::subtract(&mut first, &[0b100101], 6), (0, 3, 3));
/// assert_eq!(first, [0b011010]);
/// ```
#[must_use]
pub fn subtract(first: &mut [u8], second: &[u8], rows: u64) -> (u8, u64, u64) {
    let (mut left, mut removed) = (0, 0);
    // SAFETY: a slice's pointer is never null and is good for its length, `first`'s for writing too; the results are two locals
    // good for writing. All live through the call, which keeps none of them. `first` is borrowed mutably, so that it overlaps no
    // other buffer.
    let answer = unsafe {
        c::poddurance_subtract(first.as_mut_ptr(), first.len(), second.as_ptr(), second.len(), rows, &mut left, &mut removed)
    };
    (answer, left, removed)
}

/// Subtract for an answer's record: the answer, the record handed back, and how many rows were removed from `first`.
///
/// Clears in `first` each row below the record's row count that is set in `second`. In the record that comes back, `deleted` is how many rows
/// below the row count are set in `second`, and `matched` how many are left in `first`, whatever numbers went in; `rows` and `nulls` are
/// as they were. Only the row count is tested. With a refusal the record is [`Record::NONE`] and `first` is as it was.
///
/// **Hand on an accepted answer's record alone.** A refusal's is that of a data file without rows: this call accepts it and clears nothing.
///
/// ```
/// use poddurance::raw::{subtract_record, Record};
///
/// // Of 6 rows the answer has 4; 3 rows are deleted, of which it has 2.
/// let mut first = [0b110110];
/// let record = Record { rows: 6, nulls: 1, deleted: 0, matched: 4 };
/// let left = Record { deleted: 3, matched: 2, ..record };
/// assert_eq!(subtract_record(&mut first, &[0b100101], record), (0, left, 2));
/// assert_eq!(first, [0b010010]);
/// assert_eq!(subtract_record(&mut first, &[], record), (10, Record::NONE, 0)); // the second has no room for 6 rows: ROOM (10)
/// assert_eq!(first, [0b010010]);
/// ```
#[must_use]
pub fn subtract_record(first: &mut [u8], second: &[u8], mut record: Record) -> (u8, Record, u64) {
    let mut removed = 0;
    // SAFETY: a slice's pointer is never null and is good for its length, `first`'s for writing too; the record is a local good for
    // reading and writing, the other result one good for writing. All live through the call, which keeps none of them. `first` is
    // borrowed mutably, so that it overlaps no other buffer.
    let answer = unsafe {
        c::poddurance_subtract_record(first.as_mut_ptr(), first.len(), second.as_ptr(), second.len(), &mut record, &mut removed)
    };
    (answer, record, removed)
}
