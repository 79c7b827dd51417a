//! The row field: a bit for each row, and none set past the row count.

use crate::Refusal;

/// The bytes of a field that the rows of one container take.
pub const CONTAINER_BYTES: usize = 8_192;
/// The rows that a container can have.
pub const CONTAINER_ROWS: usize = 8 * CONTAINER_BYTES;

const WORD: usize = size_of::<u64>();

/// The field of a number of rows: as many bytes as they need.
pub struct RowField<'f> {
    bytes: &'f mut [u8],
    rows: u32,
}

impl<'f> RowField<'f> {
    /// The front of a lent buffer, which is not yet changed.
    pub fn new(buffer: &'f mut [u8], rows: u32) -> Result<RowField<'f>, Refusal> {
        let bytes = buffer.get_mut(..rows.div_ceil(8) as usize).ok_or(Refusal::Room)?;
        Ok(RowField { bytes, rows })
    }

    /// The row count.
    pub fn rows(&self) -> u32 {
        self.rows
    }

    /// Clears all rows.
    pub fn clear(&mut self) {
        self.bytes.fill(0);
    }

    /// How many rows are set.
    pub fn count(&self) -> u64 {
        count_ones(self.bytes)
    }

    /// The lowest row that isn't set. There must be one.
    pub fn lowest_clear(&self) -> u32 {
        let full = self.bytes.iter().take_while(|byte| **byte == u8::MAX).count();
        let behind = self.bytes.get(full).map_or(0, |byte| byte.trailing_ones());
        8 * full as u32 + behind
    }

    /// The bytes of a container's rows, and how many rows these are: none for a container behind the row count.
    #[inline]
    pub fn container(&mut self, key: u16) -> (&mut [u8], usize) {
        let start = CONTAINER_BYTES * usize::from(key);
        let part = self.bytes.get_mut(start..).unwrap_or_default();
        let rows = (self.rows as usize).saturating_sub(8 * start);
        if part.len() < CONTAINER_BYTES {
            return (part, rows);
        }
        (&mut part[..CONTAINER_BYTES], rows.min(CONTAINER_ROWS))
    }

    /// Whether every row is set. By itself, since it is called once and its loop would crowd others out of the registers.
    #[inline(never)]
    pub fn is_full(&self) -> bool {
        let Some((last, before)) = self.bytes.split_last() else {
            return true;
        };
        let (words, rest) = words(before);
        let all = words.fold(u64::MAX, |all, word| all & word);
        all == u64::MAX && rest.iter().all(|byte| *byte == u8::MAX) && last.count_ones() == (self.rows - 1) % 8 + 1
    }

    /// Sets one row, which is below the row count. Answers whether it was set already.
    #[inline]
    pub fn set(&mut self, row: u32) -> bool {
        set_bits(&mut self.bytes[row as usize / 8], 1 << (row % 8))
    }
}

/// Sets bits. Answers whether one of them was set already.
#[inline]
fn set_bits(byte: &mut u8, bits: u8) -> bool {
    let was_set = *byte & bits != 0;
    *byte |= bits;
    was_set
}

/// Sets the rows from `first` to `last`. Answers whether one of them was set already, if that is to be told.
#[inline]
pub fn set_run<const TELL_TWICE: bool>(part: &mut [u8], first: usize, last: usize) -> bool {
    let from_first = u8::MAX << (first % 8);
    let to_last = u8::MAX >> (7 - last % 8);
    match &mut part[first / 8..=last / 8] {
        [] => false,
        [byte] => set_bits(byte, from_first & to_last),
        [head, between @ .., tail] => {
            let twice = set_bits(head, from_first) | set_bits(tail, to_last) | (TELL_TWICE && !is_zero(between));
            between.fill(u8::MAX);
            twice
        }
    }
}

/// Whether no bit is set, without an early exit, so that vectors are tested.
fn is_zero(bytes: &[u8]) -> bool {
    let (words, rest) = words(bytes);
    words.fold(0, |any, word| any | word) == 0 && rest.iter().all(|byte| *byte == 0)
}

/// Sets the bits of another field. Answers how many it has, and whether one of them was set already, if that is to be told.
#[inline]
pub fn set_all<const TELL_TWICE: bool>(part: &mut [u8], bits: &[u8]) -> (u64, bool) {
    let mut ones = 0;
    let mut seen = 0;
    let (bit_words, bit_rest) = words(bits);
    let mut chunks = part.chunks_exact_mut(WORD);
    for (chunk, word) in chunks.by_ref().zip(bit_words) {
        let before = word_of(chunk);
        ones += u64::from(word.count_ones());
        seen |= before & word;
        chunk.copy_from_slice(&(before | word).to_le_bytes());
    }
    for (byte, bits) in chunks.into_remainder().iter_mut().zip(bit_rest) {
        ones += u64::from(bits.count_ones());
        seen |= u64::from(*byte & bits);
        *byte |= bits;
    }
    (ones, TELL_TWICE && seen != 0)
}

/// The number of bits that are set.
#[inline]
pub fn count_ones(bytes: &[u8]) -> u64 {
    let (words, rest) = words(bytes);
    let ones: u64 = words.map(|word| u64::from(word.count_ones())).sum();
    ones + rest.iter().map(|byte| u64::from(byte.count_ones())).sum::<u64>()
}

/// The bytes as words, and those behind the last word.
#[inline]
fn words(bytes: &[u8]) -> (impl Iterator<Item = u64> + '_, &[u8]) {
    let chunks = bytes.chunks_exact(WORD);
    let rest = chunks.remainder();
    (chunks.map(word_of), rest)
}

/// Eight bytes as a word.
#[inline]
fn word_of(chunk: &[u8]) -> u64 {
    u64::from_le_bytes(chunk.try_into().expect("chunks are words"))
}
