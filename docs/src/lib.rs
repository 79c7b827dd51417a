//! A plain reader of Apache Paimon's bitmap index bodies, written to be fast with the standard library alone.
//!
//! It has [`audit`], and [`ask`] with EQUAL and IN, for bodies of both versions, and [`open`] and [`look_up`] for bodies of version 2.
//! Answers, refusals and what happens to the lent field are those of the project's documents 01 and 02.
//!
//! A body is walked twice: first the dictionary, which must be sound before the field may be written, then the bitmaps, each of which
//! is tested and set in the field at once. Nothing is allocated but for IN, and for a body of version 1 whose values don't rise.

#![forbid(unsafe_code)]
#![warn(missing_docs)]

mod audit;
mod dictionary;
mod field;
mod literals;
mod lookup;
mod refusal;
mod roaring;
mod value;

pub use refusal::Refusal;

use audit::{ask_values, audit_values};
use lookup::{look_up_values, open_values};

/// The most bytes of a body or of literals.
const MAX_INPUT: usize = 2_147_483_647;

/// What an answer says of the rows.
#[derive(Clone, Copy, Debug, PartialEq, Eq)]
pub struct Record {
    /// The row count of the body.
    pub rows: u64,
    /// The rows of null's bitmap.
    pub nulls: u64,
    /// The deleted rows: 0, since none are subtracted here.
    pub deleted: u64,
    /// The chosen rows; 0 says skip.
    pub matched: u64,
}

/// The questions that [`ask`] takes. Both editions of document 02 choose the same rows for these, so that none is named.
#[derive(Clone, Copy, Debug, PartialEq, Eq)]
pub enum Question {
    /// Rows that have the value of the one literal.
    Equal,
    /// Rows whose value is listed.
    In,
}

/// Calls a function with the values of a type, or answers LITERAL for an unknown one. Types are numbered in the order of document 01's
/// table of widths, from TINYINT and BOOLEAN to STRING.
macro_rules! with_type {
    ($ty:expr, $function:ident($($argument:expr),*)) => {
        match $ty {
            0 => $function::<i8>($($argument),*),
            1 => $function::<bool>($($argument),*),
            2 => $function::<i16>($($argument),*),
            3..=5 => $function::<i32>($($argument),*),
            6..=8 => $function::<i64>($($argument),*),
            9..=11 => $function::<&[u8]>($($argument),*),
            _ => Err(Refusal::Literal),
        }
    };
}

/// Reads a whole body and answers its row count. The field is left zero.
pub fn audit(body: &[u8], ty: u32, field: &mut [u8]) -> Result<u64, Refusal> {
    within_limit(body)?;
    with_type!(ty, audit_values(body, field))
}

/// Audits a body, then sets the rows that the question chooses in the field.
///
/// Literals lie one after another in the type's stored form.
pub fn ask(body: &[u8], ty: u32, question: Question, literals: &[u8], field: &mut [u8]) -> Result<Record, Refusal> {
    within_limit(body)?;
    within_limit(literals)?;
    with_type!(ty, ask_values(body, question, literals, field))
}

/// Audits a body of version 2, then fills the table with where each entry of its directory starts.
///
/// Answers the row count and the number of blocks, which is how many words of the table are filled.
pub fn open(body: &[u8], ty: u32, field: &mut [u8], table: &mut [u32]) -> Result<(u64, u64), Refusal> {
    within_limit(body)?;
    with_type!(ty, open_values(body, field, table))
}

/// Sets the rows that have the one literal's value in the field, without an audit: the directory is halved through the table, and
/// one block, null's bitmap and one other are read.
///
/// On a body that [`open`] accepted, with its type and table, the answer is that of [`ask`] with [`Question::Equal`]. The second
/// number is how many values the literal was compared with.
pub fn look_up(body: &[u8], ty: u32, literals: &[u8], table: &[u32], field: &mut [u8]) -> Result<(Record, u64), Refusal> {
    within_limit(body)?;
    within_limit(literals)?;
    with_type!(ty, look_up_values(body, literals, table, field))
}

fn within_limit(input: &[u8]) -> Result<(), Refusal> {
    if input.len() > MAX_INPUT {
        return Err(Refusal::Limit);
    }
    Ok(())
}
