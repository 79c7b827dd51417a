//! A reference reader and writer of Apache Paimon's bitmap file indexes and deletion files.
//!
//! It is written from the rules of the formats alone and shares no code with the proved library, so that the two can
//! be compared: `reader` has the library's calls, `writer` makes files in every permitted layout, `scan` answers
//! questions from the column itself, and `random` draws columns, questions, layouts, windows and damage. Reader and
//! scan say what they found as a `record`. `names` has the form of names in files.
//!
//! ```
//! use reference::reader;
//! use reference::record::Record;
//! use reference::scan::{scan, scan_without};
//! use reference::types::{literals, FIRST_EDITION, NOT_EQUAL, SECOND_EDITION, STRING};
//! use reference::writer::{bin_64, bitmap, body_of, deletion_file, file_of_bins, index_file, BitmapForm, Column, Layout};
//!
//! let column = Column::strings(&[Some("on"), None, Some("off"), Some("on")]);
//! let body = body_of(&column, &Layout::version(2));
//! let file = index_file(&[("state", "bitmap", &body)]);
//!
//! let mut field = [0];
//! let asked = literals(STRING, &["off"]);
//! for (edition, matched) in [(FIRST_EDITION, 3), (SECOND_EDITION, 2)] {
//!     let found = reader::ask_file(&[], &file, b"state", b"bitmap", STRING, edition, NOT_EQUAL, &asked, &mut field);
//!     let record = Record { rows: 4, nulls: 1, deleted: 0, matched };
//!     assert_eq!(found, (0, record, reader::NO_FAULT));
//!     assert_eq!((field.to_vec(), record), scan(&column, edition, NOT_EQUAL, &["off"]));
//! }
//!
//! // Opened once, EQUAL is looked up without an audit: one block, whose first value is compared, and then its two.
//! let mut table = [0];
//! assert_eq!(reader::open(&body, STRING, &mut field, &mut table), (0, 4, 1, reader::NO_FAULT));
//! let on = literals(STRING, &["on"]);
//! let found = reader::look_up(&body, STRING, FIRST_EDITION, &on, &table, &mut field);
//! assert_eq!(found, (0, Record { rows: 4, nulls: 1, deleted: 0, matched: 2 }, 3, reader::NO_FAULT));
//! assert_eq!(field, [0b1001]);
//!
//! let deletions = deletion_file(&[bitmap(&[2, 3], &BitmapForm::Smallest)]);
//! let mut deleted = [0];
//! assert_eq!(reader::read_deletions(&deletions, 0, 4, &mut deleted), (0, 2, reader::NO_FAULT));
//! let given = Record { rows: 4, nulls: 1, deleted: 0, matched: 2 };
//! let record = Record { deleted: 2, matched: 1, ..given };
//! assert_eq!(reader::subtract_record(&mut field, &deleted, given), (0, record, 1));
//! assert_eq!(field, [0b0001]);
//! assert_eq!((field.to_vec(), record), scan_without(&[2, 3], &column, SECOND_EDITION, NOT_EQUAL, &["off"]));
//!
//! // Rows of 64 bits are read through a window, here of 6 rows from 2^32 - 2 on.
//! let deletions = file_of_bins(&[bin_64(&[7, (1 << 32) - 1, 1 << 32, 1 << 40], &BitmapForm::Smallest)]);
//! assert_eq!(reader::read_window(&deletions, 0, (1 << 32) - 2, 6, &mut deleted), (0, 2, reader::NO_FAULT));
//! assert_eq!(deleted, [0b00_0110]);
//! ```

#![forbid(unsafe_code)]

pub mod crc32;
pub mod names;
pub mod random;
pub mod reader;
pub mod record;
pub mod roaring;
pub mod scan;
pub mod types;
pub mod writer;
