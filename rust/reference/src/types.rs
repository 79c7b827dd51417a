//! The numbers of column types, editions and questions, and the stored form of values.

use std::cmp::Ordering;

pub const TINYINT: u32 = 0;
pub const BOOLEAN: u32 = 1;
pub const SMALLINT: u32 = 2;
pub const INT: u32 = 3;
pub const DATE: u32 = 4;
pub const TIME: u32 = 5;
pub const BIGINT: u32 = 6;
pub const TIMESTAMP: u32 = 7;
pub const LOCAL_ZONED_TIMESTAMP: u32 = 8;
pub const CHAR: u32 = 9;
pub const VARCHAR: u32 = 10;
pub const STRING: u32 = 11;

/// Document 01's rule of nulls: NOT EQUAL and NOT IN choose null rows.
pub const FIRST_EDITION: u32 = 1;
/// Document 02's rule of nulls: NOT EQUAL and NOT IN choose no null row.
pub const SECOND_EDITION: u32 = 2;
/// The editions that a question can name.
pub const EDITIONS: [u32; 2] = [FIRST_EDITION, SECOND_EDITION];

pub const EQUAL: u32 = 0;
pub const NOT_EQUAL: u32 = 1;
pub const IN: u32 = 2;
pub const NOT_IN: u32 = 3;
pub const IS_NULL: u32 = 4;
pub const IS_NOT_NULL: u32 = 5;

/// How the values of a type are stored.
#[derive(Clone, Copy, Debug, PartialEq, Eq)]
pub enum Width {
    /// That many bytes, a signed big-endian number.
    Fixed(usize),
    /// A 4-byte length and that many bytes.
    Counted,
}

/// The stored form by type number.
pub const WIDTHS: [Width; 12] = [
    Width::Fixed(1),
    Width::Fixed(1),
    Width::Fixed(2),
    Width::Fixed(4),
    Width::Fixed(4),
    Width::Fixed(4),
    Width::Fixed(8),
    Width::Fixed(8),
    Width::Fixed(8),
    Width::Counted,
    Width::Counted,
    Width::Counted,
];

/// The width of a type, or nothing for an unknown type.
pub fn width(ty: u32) -> Option<Width> {
    WIDTHS.get(usize::try_from(ty).ok()?).copied()
}

/// Whether the type is one of the three string types.
pub fn is_string(ty: u32) -> bool {
    width(ty) == Some(Width::Counted)
}

/// Appends a value in the type's stored form. The value of a string is its bytes without a length.
pub fn store(ty: u32, value: &[u8], out: &mut Vec<u8>) {
    if is_string(ty) {
        out.extend_from_slice(&(value.len() as u32).to_be_bytes());
    }
    out.extend_from_slice(value);
}

/// The literals of a question: values in stored form, one after another.
pub fn literals<V: AsRef<[u8]>>(ty: u32, values: &[V]) -> Vec<u8> {
    let mut out = Vec::new();
    for value in values {
        store(ty, value.as_ref(), &mut out);
    }
    out
}

/// The order of values: numbers signed, strings by unsigned bytes, a prefix first.
pub fn compare(ty: u32, a: &[u8], b: &[u8]) -> Ordering {
    if is_string(ty) {
        a.cmp(b)
    } else {
        signed(a).cmp(&signed(b))
    }
}

/// A big-endian signed number of 1 to 8 bytes.
fn signed(bytes: &[u8]) -> i64 {
    let start = match bytes.first() {
        Some(first) if *first >= 0x80 => -1,
        _ => 0,
    };
    bytes.iter().fold(start, |number, byte| (number << 8) | i64::from(*byte))
}
