//! Reads Apache Paimon's bitmap file indexes and deletion files so that **a lost row is a refusal, never a silently wrong
//! graph**.
//!
//! A thin layer over an archive that is written and proved in Rattle. Document 01, the rules and scope of the library, decides
//! what each call answers and which [`Refusal`] it gives. [`ask_file`] goes from an index file to the answer; [`locate`],
//! [`audit`] and [`ask`] are its steps. [`open`] audits a body of version 2 once, and [`OpenedBody::look_up`] then answers EQUAL without an
//! audit. [`read_deletions`] and [`subtract_record`] take the deleted rows away, [`subtract`] where there is
//! no index, and so no record; [`read_window`] reads 64-bit bins too, and a part of a data file's rows. The [`Record`] that comes with an
//! answer is what a graph may claim of its rows.
//!
//! Which rows of a data file hold another value than 7, without the deleted ones?
//!
//! ```
//! use poddurance::{ask_file, read_deletions, subtract, subtract_record};
//! use poddurance::{Edition, Literals, Question, RowField, Type};
//!
//! // The TINYINT column s with the rows 7, 9, null, 11.
//! let index_file = [
//!     0, 5, 0x4E, 0x4E, 0xD0, 0x1A, 0x35, 0xAE, 0, 0, 0, 1, 0, 0, 0, 47, 0, 0, 0, 1, 0, 1, b's', 0, 0, 0, 1, 0, 6,
//!     b'b', b'i', b't', b'm', b'a', b'p', 0, 0, 0, 47, 0, 0, 0, 29, 0, 0, 0, 0, // the head ends here
//!     1, 0, 0, 0, 4, 0, 0, 0, 3, 1, 255, 255, 255, 253, 7, 255, 255, 255, 255, 9, 255, 255, 255, 254,
//!     11, 255, 255, 255, 252,
//! ];
//! // One bin that lists row 1.
//! let deletion_file = [
//!     1, 0, 0, 0, 22, 0x5E, 0x43, 0xF2, 0xD0, 0x3A, 0x30, 0, 0, 1, 0, 0, 0, 0, 0, 0, 0, 0x10, 0, 0, 0, 1, 0,
//!     0xFA, 0x2B, 0x51, 0x92,
//! ];
//! let row_count = 4; // as the table's metadata has it
//!
//! let deleted = read_deletions(&deletion_file, 0, RowField::for_rows(row_count)?)?;
//! let seven = Literals::of(Type::TinyInt, [7])?;
//! let field = RowField::for_rows(row_count)?;
//! let rows = match ask_file(&[], &index_file, "s", "bitmap", Edition::Second, Question::NotEqual, &seven, field)? {
//!     Some(answer) => {
//!         assert!(answer.field().iter().eq([1, 3])); // in Edition::First row 2, which is null, too
//!         let (mut rows, record) = answer.into_parts();
//!         let record = subtract_record(&mut rows, deleted.field(), record)?.record;
//!         assert_eq!(record.to_string(), "drawn from 1 of 4 rows");
//!         rows
//!     }
//!     None => {
//!         // Without an index all rows but the deleted ones are to be read.
//!         let mut rows = RowField::all_of(row_count)?;
//!         subtract(&mut rows, deleted.field())?;
//!         rows
//!     }
//! };
//! assert!(rows.iter().eq([3]));
//! # Ok::<(), poddurance::Error>(())
//! ```
//!
//! # The archive
//!
//! The build step makes it with `tools/archive poddurance` where it is missing or older than its sources. That proves every crate that it
//! is made of, takes minutes and needs the Rattle kit. Where the archive was made elsewhere, PODDURANCE_LIB_DIR names the folder, by an absolute path, of
//! the `libpoddurance.a` to link as it is; neither `rt` nor the sources are looked at.
//!
//! The crate is of the standard library alone. The [`raw`] calls, over buffers that the caller keeps, hold its only `unsafe`
//! blocks.

#![deny(missing_docs)]
#![deny(unsafe_code)]

mod calls;
mod commas;
mod literals;
mod names;
mod opened;
#[allow(unsafe_code)]
pub mod raw;
mod record;
mod refusal;
mod row_field;

pub use calls::{ask, ask_file, audit, locate, read_deletions, read_window, subtract, subtract_record};
pub use calls::{Answer, Audited, Deleted, Error, RecordSubtracted, Subtracted};
pub use literals::{Literals, Value};
pub use names::{Edition, Question, Type, UnknownName};
pub use opened::{open, LookedUp, OpenedBody};
pub use record::Record;
pub use refusal::Refusal;
pub use row_field::{Ranges, RowField, Rows};

/// The most bytes that an input buffer may have, and the most rows of a field; more is [`Refusal::Limit`]. Document 01 sets it.
///
/// ```
/// use poddurance::{Refusal, RowField, LIMIT};
///
/// assert_eq!(RowField::for_rows(LIMIT + 1), Err(Refusal::Limit));
/// ```
pub const LIMIT: u64 = 2_147_483_647;
