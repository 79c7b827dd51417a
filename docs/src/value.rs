//! Stored values, and big-endian fields, each taken from the front of the bytes that are left.
//!
//! Walks over entries spend their time here. `let else` stands where `ok_or` and `?` would be shorter: with these the compiler moves what
//! is left through memory in parts, and a walk takes several times as long.

use std::hash::Hash;

use crate::Refusal;

/// The most bytes of a stored string.
const MAX_STRING: u32 = 65_535;
/// The bytes that are compared at once.
const WORD: usize = size_of::<u64>();

/// A value in the stored form of its type. Numbers are ordered signed, strings by unsigned bytes, a prefix first.
pub trait Value<'a>: Copy + Ord + Hash + 'a {
    /// Takes the value that stands first.
    fn take(bytes: &mut &'a [u8]) -> Result<Self, Refusal>;

    /// Whether the other is above this one.
    fn rises_to(self, other: Self) -> bool {
        self < other
    }

    /// Whether the two are the same.
    fn is(self, other: Self) -> bool {
        self == other
    }
}

macro_rules! value_of_number {
    ($($number:ty),*) => {$(
        impl<'a> Value<'a> for $number {
            #[inline(always)]
            fn take(bytes: &mut &'a [u8]) -> Result<$number, Refusal> {
                take_bytes(bytes).map(<$number>::from_be_bytes)
            }
        }
    )*};
}

value_of_number!(i8, i16, i32, i64);

impl<'a> Value<'a> for bool {
    #[inline(always)]
    fn take(bytes: &mut &'a [u8]) -> Result<bool, Refusal> {
        match take_bytes(bytes)? {
            [0] => Ok(false),
            [1] => Ok(true),
            _ => Err(Refusal::Dict),
        }
    }
}

impl<'a> Value<'a> for &'a [u8] {
    #[inline(always)]
    fn take(bytes: &mut &'a [u8]) -> Result<&'a [u8], Refusal> {
        let length = take_u32(bytes)?;
        if length > MAX_STRING {
            let is_negative = (length as i32) < 0;
            return Err(if is_negative { Refusal::Dict } else { Refusal::Limit });
        }
        let Some((string, rest)) = bytes.split_at_checked(length as usize) else {
            return Err(Refusal::Short);
        };
        *bytes = rest;
        Ok(string)
    }

    #[inline(always)]
    fn rises_to(self, other: &'a [u8]) -> bool {
        // Of one length and up to two words: the first word, then the last, which may have bytes of the first again.
        if self.len() == other.len() && self.len() <= 2 * WORD {
            if let (Some(ends), Some(other_ends)) = (ends(self), ends(other)) {
                return ends < other_ends;
            }
        }
        self < other
    }

    #[inline(always)]
    fn is(self, other: &'a [u8]) -> bool {
        // Names often differ in their last bytes alone: most are told apart without a call.
        self.len() == other.len() && self.last_chunk::<WORD>() == other.last_chunk() && self == other
    }
}

/// The first and the last word of a string, if it has a word, as numbers that are ordered as their bytes are.
#[inline(always)]
fn ends(string: &[u8]) -> Option<(u64, u64)> {
    let (first, last) = (string.first_chunk()?, string.last_chunk()?);
    Some((u64::from_be_bytes(*first), u64::from_be_bytes(*last)))
}

/// Takes a number of bytes.
#[inline(always)]
pub fn take_bytes<const N: usize>(bytes: &mut &[u8]) -> Result<[u8; N], Refusal> {
    let Some((first, rest)) = bytes.split_first_chunk() else {
        return Err(Refusal::Short);
    };
    *bytes = rest;
    Ok(*first)
}

/// Takes a number of 4 bytes.
#[inline(always)]
pub fn take_u32(bytes: &mut &[u8]) -> Result<u32, Refusal> {
    take_bytes(bytes).map(u32::from_be_bytes)
}

/// Takes a signed number of 4 bytes.
#[inline(always)]
pub fn take_i32(bytes: &mut &[u8]) -> Result<i32, Refusal> {
    take_bytes(bytes).map(i32::from_be_bytes)
}

/// Takes a count of at most so many.
#[inline(always)]
pub fn take_count(bytes: &mut &[u8], most: i32) -> Result<u32, Refusal> {
    let count = take_i32(bytes)?;
    if count > most {
        return Err(Refusal::Limit);
    }
    u32::try_from(count).map_err(|_| Refusal::Dict)
}
