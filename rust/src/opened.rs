use std::fmt;

use crate::calls::{accepted, same_rows};
use crate::raw::{self, MOST_BLOCKS};
use crate::{Answer, Edition, Error, Literals, RowField, Type};

/// Checks the whole body of an index as [`audit`](crate::audit) does, once, so that values can be looked up in it without a check each time:
/// for a server that draws many graphs from one index. The body, opened, comes with the field, cleared, to lend to the first lookup.
///
/// Version 2 alone can be opened, since its values stand in blocks with a directory; any other is [`Refusal::Version`](crate::Refusal::Version).
/// [`ask`](crate::ask) answers version 1 too. All other refusals are those of [`audit`](crate::audit). A body with another row count than the
/// field's is [`Error::RowsDiffer`], or [`Refusal::Room`](crate::Refusal::Room) where it needs more bytes than the field has.
///
/// ```
/// use poddurance::{open, Edition, Error, Literals, Refusal, RowField, Type};
///
/// // TINYINT with the rows 7, 9, null, in two blocks of one value each.
/// let mut body = [
///     2, 0, 0, 0, 3, 0, 0, 0, 2, 1, 255, 255, 255, 253, 255, 255, 255, 255, 0, 0, 0, 2, // version, counts, null
///     7, 0, 0, 0, 0, 9, 0, 0, 0, 13, 0, 0, 0, 26, // the directory: each block's first value and its place
///     0, 0, 0, 1, 7, 255, 255, 255, 255, 255, 255, 255, 255, 0, 0, 0, 1, 9, 255, 255, 255, 254, 255, 255, 255, 255,
/// ];
/// let (opened, mut field) = open(&body, Type::TinyInt, RowField::for_rows(3)?)?;
/// for (value, rows) in [(7, &[0][..]), (8, &[]), (9, &[1])] {
///     let literal = Literals::of(Type::TinyInt, [value])?;
///     let answer = opened.look_up(Edition::Second, &literal, field)?.answer;
///     assert!(answer.field().iter().eq(rows.iter().copied()));
///     field = answer.into_field();
/// }
///
/// body[57] = 255; // 9 is now at row 0, where 7 is
/// let refused = open(&body, Type::TinyInt, field).unwrap_err();
/// assert_eq!(refused, Error::Refused(Refusal::Twice { entry: 2 }));
/// # Ok::<(), Error>(())
/// ```
pub fn open(body: &[u8], ty: Type, mut field: RowField) -> Result<(OpenedBody<'_>, RowField), Error> {
    let mut table = vec![0; claimed_blocks(body)];
    let (answer, rows, blocks, fault) = raw::open(body, ty.number(), field.bytes_mut(), &mut table);
    accepted(answer, fault)?;
    same_rows(&field, rows)?;
    // The claim of an accepted body is true; what is kept goes by the library's own number.
    table.truncate(blocks as usize);
    Ok((OpenedBody { body, ty, rows, table: table.into() }, field))
}

/// How many blocks a body claims to have, as far as a table for them can be needed: so many words and no more are lent to the library, which
/// reads the number at the same place. A claim that it refuses is refused before it looks at the table's length.
fn claimed_blocks(body: &[u8]) -> usize {
    // Behind version, row count and value number: has-null, null's offset and length if it is 1, then the block number.
    const HAS_NULL: usize = 9;
    const NULL_SIZE: usize = 8;
    let at = HAS_NULL + 1 + if body.get(HAS_NULL) == Some(&1) { NULL_SIZE } else { 0 };
    let claimed = body.get(at..at + 4).and_then(|number| number.try_into().ok()).map_or(0, i32::from_be_bytes);
    usize::try_from(claimed).unwrap_or(0).min(MOST_BLOCKS)
}

/// A body of version 2 that [`open`] accepted, in which values are looked up without an audit.
///
/// It owns the table of the directory, borrows the body, and knows the type. Only [`open`] makes one, and nothing changes it: a lookup can't
/// be given another body, type or table. While it is there the body can't be changed:
///
/// ```compile_fail,E0506
/// # use poddurance::{open, RowField, Type};
/// # // No rows and no values.
/// let mut body = [2, 0, 0, 0, 0, 0, 0, 0, 0, 0, 0, 0, 0, 0, 0, 0, 0, 0];
/// let (opened, field) = open(&body, Type::Int, RowField::for_body(&body))?;
/// body[4] = 1; // borrowed by `opened`
/// println!("{opened:?}");
/// # Ok::<(), poddurance::Error>(())
/// ```
///
/// A program can't write one of its own:
///
/// ```compile_fail,E0451
/// # use poddurance::{OpenedBody, Type};
/// # let body = [2, 0, 0, 0, 0, 0, 0, 0, 0, 0, 0, 0, 0, 0, 0, 0, 0, 0];
/// let opened = OpenedBody { body: &body, ty: Type::Int, rows: 0, table: Box::new([]) };
/// ```
///
/// Threads can share it, each with a field of its own:
///
/// ```
/// use poddurance::{open, Edition, Literals, RowField, Type};
///
/// // One row, INT 7.
/// let body = [
///     2, 0, 0, 0, 1, 0, 0, 0, 1, 0, 0, 0, 0, 1, 0, 0, 0, 7, 0, 0, 0, 0, 0, 0, 0, 16, // the directory's one block, at 0
///     0, 0, 0, 1, 0, 0, 0, 7, 255, 255, 255, 255, 255, 255, 255, 255,
/// ];
/// let (opened, _) = open(&body, Type::Int, RowField::for_body(&body))?;
/// std::thread::scope(|scope| {
///     let look_up = |value: i32| {
///         let (literal, field) = (Literals::of(Type::Int, [value])?, RowField::for_rows(opened.rows())?);
///         Ok::<_, poddurance::Error>(opened.look_up(Edition::Second, &literal, field)?.answer.is_skip())
///     };
///     let threads = [7, 8].map(|value| scope.spawn(move || look_up(value)));
///     assert_eq!(threads.map(|thread| thread.join().unwrap()), [Ok(false), Ok(true)]);
/// });
/// # Ok::<(), poddurance::Error>(())
/// ```
#[derive(Clone, PartialEq, Eq)]
pub struct OpenedBody<'b> {
    // Private, and there is no other way in than `open`: who has one has a body that was accepted as that type, and the table of it.
    body: &'b [u8],
    ty: Type,
    rows: u64,
    table: Box<[u32]>,
}

impl OpenedBody<'_> {
    /// EQUAL without an audit: which rows have the value of the literal, and with how many values it was compared to find them.
    ///
    /// The answer is that of [`ask`](crate::ask) with [`Question::Equal`](crate::Question::Equal) on the same body, rows, record and refusals:
    /// other than one literal is [`Refusal::Literal`](crate::Refusal::Literal), a string over 65,535 bytes
    /// [`Refusal::Limit`](crate::Refusal::Limit). The edition, which each question names, makes no difference in EQUAL.
    ///
    /// Literals of another type than the body was opened as are [`Error::TypesDiffer`]: the INT literal 7, read as TINYINT, would be four. A
    /// field for another row count is [`Error::RowsDiffer`], or [`Refusal::Room`](crate::Refusal::Room) where it has too few bytes.
    ///
    /// ```
    /// use poddurance::{ask, open, Edition, Error, Literals, Question, RowField, Type};
    ///
    /// // TINYINT with the rows 7, 9, null, in two blocks of one value each.
    /// let body = [
    ///     2, 0, 0, 0, 3, 0, 0, 0, 2, 1, 255, 255, 255, 253, 255, 255, 255, 255, 0, 0, 0, 2, // version, counts, null
    ///     7, 0, 0, 0, 0, 9, 0, 0, 0, 13, 0, 0, 0, 26, // the directory: each block's first value and its place
    ///     0, 0, 0, 1, 7, 255, 255, 255, 255, 255, 255, 255, 255, 0, 0, 0, 1, 9, 255, 255, 255, 254, 255, 255, 255, 255,
    /// ];
    /// let (opened, field) = open(&body, Type::TinyInt, RowField::for_body(&body))?;
    /// let nine = Literals::of(Type::TinyInt, [9])?;
    /// let found = opened.look_up(Edition::Second, &nine, field)?;
    /// assert!(found.answer.field().iter().eq([1]));
    /// assert_eq!(found.answer.record().to_string(), "drawn from 1 of 3 rows");
    /// assert_eq!(found.compared, 2); // with the second block's first value in the directory, and with that block's one value
    /// assert_eq!(found.answer, ask(&body, Edition::Second, Question::Equal, &nine, RowField::for_body(&body))?);
    ///
    /// let field = found.answer.into_field();
    /// let of_another = opened.look_up(Edition::Second, &Literals::of(Type::Int, [9])?, field).unwrap_err();
    /// assert_eq!(of_another, Error::TypesDiffer { expected: Type::TinyInt, found: Type::Int });
    /// assert_eq!(of_another.to_string(), "the body was opened as TINYINT, the literals are of INT");
    /// # Ok::<(), Error>(())
    /// ```
    pub fn look_up(&self, edition: Edition, literal: &Literals, mut field: RowField) -> Result<LookedUp, Error> {
        if literal.ty() != self.ty {
            return Err(Error::TypesDiffer { expected: self.ty, found: literal.ty() });
        }
        let (ty, bytes) = (self.ty.number(), literal.as_bytes());
        let (answer, record, compared, fault) =
            raw::look_up(self.body, ty, edition.number(), bytes, &self.table, field.bytes_mut());
        accepted(answer, fault)?;
        Ok(LookedUp { answer: Answer::accepted(field, record)?, compared })
    }

    /// The type it was opened as, to make literals of.
    ///
    /// ```
    /// # use poddurance::{open, RowField, Type};
    /// // No rows and no values.
    /// let body = [2, 0, 0, 0, 0, 0, 0, 0, 0, 0, 0, 0, 0, 0, 0, 0, 0, 0];
    /// assert_eq!(open(&body, Type::Date, RowField::for_body(&body))?.0.ty(), Type::Date);
    /// # Ok::<(), poddurance::Error>(())
    /// ```
    #[must_use]
    pub fn ty(&self) -> Type {
        self.ty
    }

    /// How many rows the body has, each in exactly one place, and a field for a lookup must be for.
    ///
    /// ```
    /// # use poddurance::{open, RowField, Type};
    /// // One row, null, and no values.
    /// let body = [2, 0, 0, 0, 1, 0, 0, 0, 0, 1, 255, 255, 255, 255, 255, 255, 255, 255, 0, 0, 0, 0, 0, 0, 0, 0];
    /// assert_eq!(open(&body, Type::Int, RowField::for_body(&body))?.0.rows(), 1);
    /// # Ok::<(), poddurance::Error>(())
    /// ```
    #[must_use]
    pub fn rows(&self) -> u64 {
        self.rows
    }

    /// How many blocks of values the body has. Of B blocks, a lookup compares with at most floor(log2 B) + 1 first values to find the right one,
    /// and with none where there is no block.
    ///
    /// ```
    /// # use poddurance::{open, RowField, Type};
    /// // No rows and no values.
    /// let body = [2, 0, 0, 0, 0, 0, 0, 0, 0, 0, 0, 0, 0, 0, 0, 0, 0, 0];
    /// assert_eq!(open(&body, Type::Int, RowField::for_body(&body))?.0.blocks(), 0);
    /// # Ok::<(), poddurance::Error>(())
    /// ```
    #[must_use]
    pub fn blocks(&self) -> u64 {
        self.table.len() as u64
    }

    /// The table, as [`raw::open`](crate::raw::open) fills it: for each block where its entry in the directory starts, counted from the body's
    /// first byte. It is all the memory that an opened body takes, four bytes for each block.
    ///
    /// ```
    /// # use poddurance::{open, RowField, Type};
    /// // TINYINT with the rows 7, 9, null, in two blocks of one value each.
    /// let body = [
    ///     2, 0, 0, 0, 3, 0, 0, 0, 2, 1, 255, 255, 255, 253, 255, 255, 255, 255, 0, 0, 0, 2, // version, counts, null
    ///     7, 0, 0, 0, 0, 9, 0, 0, 0, 13, 0, 0, 0, 26, // the directory starts at 22, its second entry at 27
    ///     0, 0, 0, 1, 7, 255, 255, 255, 255, 255, 255, 255, 255, 0, 0, 0, 1, 9, 255, 255, 255, 254, 255, 255, 255, 255,
    /// ];
    /// assert_eq!(open(&body, Type::TinyInt, RowField::for_body(&body))?.0.table(), [22, 27]);
    /// # Ok::<(), poddurance::Error>(())
    /// ```
    #[must_use]
    pub fn table(&self) -> &[u32] {
        &self.table
    }
}

/// What it was opened as, and not its bytes, which may be many.
impl fmt::Debug for OpenedBody<'_> {
    fn fmt(&self, f: &mut fmt::Formatter<'_>) -> fmt::Result {
        let mut shown = f.debug_struct("OpenedBody");
        shown.field("ty", &self.ty).field("rows", &self.rows).field("blocks", &self.blocks()).finish_non_exhaustive()
    }
}

/// What [`OpenedBody::look_up`] found: the answer, and how many values were compared for it.
///
/// ```
/// use poddurance::{open, subtract_record, Edition, Literals, RowField, Type};
///
/// // One row, INT 7.
/// let body = [
///     2, 0, 0, 0, 1, 0, 0, 0, 1, 0, 0, 0, 0, 1, 0, 0, 0, 7, 0, 0, 0, 0, 0, 0, 0, 16, // the directory's one block, at 0
///     0, 0, 0, 1, 0, 0, 0, 7, 255, 255, 255, 255, 255, 255, 255, 255,
/// ];
/// let (opened, field) = open(&body, Type::Int, RowField::for_body(&body))?;
/// let found = opened.look_up(Edition::Second, &Literals::of(Type::Int, [7])?, field)?;
/// assert_eq!((found.answer.record().matched(), found.compared), (1, 2));
///
/// // Deletions are subtracted from it as from every answer.
/// let (mut rows, record) = found.answer.into_parts();
/// assert!(subtract_record(&mut rows, &RowField::all_of(1)?, record)?.record.is_skip());
/// # Ok::<(), poddurance::Error>(())
/// ```
#[derive(Clone, Debug, PartialEq, Eq)]
pub struct LookedUp {
    /// The rows and the record, those of [`ask`](crate::ask)'s answer.
    pub answer: Answer,
    /// With how many values the literal was compared: first values of blocks in the directory, at most floor(log2 B) + 1 of B blocks, then
    /// values of one block, at most all of it.
    pub compared: u64,
}
