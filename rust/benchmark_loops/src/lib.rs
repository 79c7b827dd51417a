//! Two loops that mark a run of rows in a row field, for the benchmark `runs` of this package: the library's run marker, which stores
//! whole bytes, and one that tests and sets bit by bit.
//!
//! Both are written in Rattle (`crates/benchmark_loops`) and proved to keep the same promise, so that they differ in their time alone.
//! Row r is the bit of weight 2^(r mod 8) of byte r/8 of the field. A row past the field's end has no bit, and marking it changes
//! nothing.
//!
//! ```
//! use benchmark_loops::{mark_bits, mark_run};
//!
//! for mark in [mark_run, mark_bits] {
//!     let mut field = [0; 3];
//!     assert!(!mark(&mut field, 3..18));
//!     assert_eq!(field, [0b1111_1000, 0xFF, 0b11]);
//!     assert!(mark(&mut field, 17..100)); // row 17 was set already
//!     assert_eq!(field, [0b1111_1000, 0xFF, 0xFF]);
//! }
//! ```

#![deny(missing_docs)]

use std::ops::Range;

/// The functions of the archive.
mod c {
    extern "C" {
        pub fn benchmark_mark_run(field: *mut u8, field_len: usize, first: u64, end: u64) -> bool;
        pub fn benchmark_mark_bits(field: *mut u8, field_len: usize, first: u64, end: u64) -> bool;
    }
}

/// The library's run marker: sets these rows, whole bytes at a time, and answers whether one of them was set already. A range whose end
/// isn't behind its start has none.
///
/// ```
/// let mut field = [0b1000_0000, 0, 0];
/// assert!(benchmark_loops::mark_run(&mut field, 7..16));
/// assert_eq!(field, [0b1000_0000, 0xFF, 0]);
/// ```
#[inline]
pub fn mark_run(field: &mut [u8], rows: Range<u64>) -> bool {
    // SAFETY: a slice's pointer is never null and is good for reading and writing its length. It is borrowed mutably through the
    // call, which doesn't keep it. The answer is C's bool, which is Rust's.
    unsafe { c::benchmark_mark_run(field.as_mut_ptr(), field.len(), rows.start, rows.end) }
}

/// The same, bit by bit: each row is tested and set in its turn.
///
/// ```
/// let mut field = [0b1000_0000, 0, 0];
/// assert!(benchmark_loops::mark_bits(&mut field, 7..16));
/// assert_eq!(field, [0b1000_0000, 0xFF, 0]);
/// ```
#[inline]
pub fn mark_bits(field: &mut [u8], rows: Range<u64>) -> bool {
    // SAFETY: as in `mark_run`.
    unsafe { c::benchmark_mark_bits(field.as_mut_ptr(), field.len(), rows.start, rows.end) }
}
