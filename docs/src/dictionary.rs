//! The dictionary of a body: the fields in front, and the entries, alone in version 1 and in blocks in version 2.

use std::collections::HashSet;

use crate::value::{take_bytes, take_count, take_i32, take_u32, Value};
use crate::Refusal;

/// The most values, by version.
const MAX_VALUES: [i32; 2] = [4_096, 65_536];
const MAX_BLOCKS: i32 = 65_536;

/// The length that means as long as the bitmap is.
const AS_LONG_AS_IT_IS: i32 = -1;

/// The versions of a body.
#[derive(Clone, Copy, Debug, PartialEq, Eq)]
pub enum Version {
    One,
    Two,
}

/// Where the rows of an entry stand.
#[derive(Clone, Copy, Debug)]
pub struct Place {
    pub offset: i32,
    pub length: i32,
}

impl Place {
    #[inline(always)]
    fn take(bytes: &mut &[u8], version: Version) -> Result<Place, Refusal> {
        match version {
            Version::One => Ok(Place { offset: take_i32(bytes)?, length: AS_LONG_AS_IT_IS }),
            Version::Two => {
                let [a, b, c, d, e, f, g, h] = take_bytes(bytes)?;
                Ok(Place { offset: i32::from_be_bytes([a, b, c, d]), length: i32::from_be_bytes([e, f, g, h]) })
            }
        }
    }

    /// The part of the body of bitmaps that begins with this one, and whether it must end with it; nothing if there is no such part.
    #[inline(always)]
    pub fn part(self, bitmaps: &[u8]) -> Option<(&[u8], bool)> {
        let behind = bitmaps.get(self.offset as usize..)?;
        match self.length {
            AS_LONG_AS_IT_IS => Some((behind, false)),
            length => Some((behind.get(..usize::try_from(length).ok()?)?, true)),
        }
    }

    /// The one row that a negative offset means.
    #[inline(always)]
    pub fn single_row(self) -> Option<u32> {
        (self.offset < 0).then(|| (-1 - self.offset) as u32)
    }
}

/// The fields in front of the values.
#[derive(Clone, Copy, Debug)]
pub struct Front {
    pub version: Version,
    pub rows: u32,
    pub values: u32,
    pub null: Option<Place>,
}

impl Front {
    /// Takes the fields. `versions` are the versions that are not refused.
    pub fn take(bytes: &mut &[u8], versions: &[Version]) -> Result<Front, Refusal> {
        let version = match take_bytes(bytes)? {
            [1] => Version::One,
            [2] => Version::Two,
            _ => return Err(Refusal::Version),
        };
        if !versions.contains(&version) {
            return Err(Refusal::Version);
        }
        let rows = take_count(bytes, i32::MAX)?;
        let values = take_count(bytes, MAX_VALUES[version as usize])?;
        let null = match take_bytes(bytes)? {
            [0] => None,
            [1] => Some(Place::take(bytes, version)?),
            _ => return Err(Refusal::Dict),
        };
        Ok(Front { version, rows, values, null })
    }

    /// Takes the number of blocks that stands behind the fields in version 2.
    pub fn take_blocks(&self, bytes: &mut &[u8]) -> Result<u32, Refusal> {
        let blocks = take_count(bytes, MAX_BLOCKS)?;
        if (blocks == 0) != (self.values == 0) {
            return Err(Refusal::Dict);
        }
        Ok(blocks)
    }
}

/// Takes the number of entries of a block.
pub fn take_entries(bytes: &mut &[u8]) -> Result<u32, Refusal> {
    match take_count(bytes, i32::MAX)? {
        0 => Err(Refusal::Dict),
        entries => Ok(entries),
    }
}

/// Takes a value and where its rows stand, in version 2.
#[inline(always)]
pub fn take_entry<'a, V: Value<'a>>(bytes: &mut &'a [u8]) -> Result<(V, Place), Refusal> {
    Ok((V::take(bytes)?, Place::take(bytes, Version::Two)?))
}

/// Takes an entry of the directory: the first value of a block and the block's offset.
#[inline(always)]
pub fn take_listing<'a, V: Value<'a>>(bytes: &mut &'a [u8]) -> Result<(V, u32), Refusal> {
    Ok((V::take(bytes)?, take_u32(bytes)?))
}

/// A dictionary that keeps all rules.
#[derive(Clone, Copy, Debug)]
pub struct Dictionary<'a> {
    pub front: Front,
    /// The number of blocks, 0 in version 1.
    pub blocks: u32,
    /// The bytes from the directory's first entry on.
    pub directory: &'a [u8],
    /// The bytes from the first entry on, or from the first block.
    entries: &'a [u8],
    /// The body of bitmaps.
    pub bitmaps: &'a [u8],
}

impl<'a> Dictionary<'a> {
    /// Reads the dictionary of a body. `meet` is told each value and where its rows stand.
    #[inline(always)]
    pub fn read<V: Value<'a>>(
        body: &'a [u8],
        versions: &[Version],
        meet: impl FnMut(V, Place),
    ) -> Result<Dictionary<'a>, Refusal> {
        let mut bytes = body;
        let front = Front::take(&mut bytes, versions)?;
        match front.version {
            Version::One => Dictionary::read_values(front, bytes, meet),
            Version::Two => Dictionary::read_blocks(front, bytes, meet),
        }
    }

    fn read_values<V: Value<'a>>(
        front: Front,
        entries: &'a [u8],
        mut meet: impl FnMut(V, Place),
    ) -> Result<Dictionary<'a>, Refusal> {
        let mut bytes = entries;
        let mut distinct = Distinct::Rising(None);
        for _ in 0..front.values {
            let value = V::take(&mut bytes)?;
            if !distinct.insert(value, entries, front.values) {
                return Err(Refusal::Dict);
            }
            meet(value, Place::take(&mut bytes, Version::One)?);
        }
        Ok(Dictionary { front, blocks: 0, directory: &[], entries, bitmaps: bytes })
    }

    fn read_blocks<V: Value<'a>>(
        front: Front,
        mut bytes: &'a [u8],
        mut meet: impl FnMut(V, Place),
    ) -> Result<Dictionary<'a>, Refusal> {
        let blocks = front.take_blocks(&mut bytes)?;
        let directory = bytes;
        for _ in 0..blocks {
            take_listing::<V>(&mut bytes)?;
        }
        let body_offset = take_u32(&mut bytes)?;

        let entries = bytes;
        let mut listings = directory;
        let mut last = None;
        let mut number = 0;
        for _ in 0..blocks {
            let (listed, offset) = take_listing::<V>(&mut listings)?;
            if offset as usize != entries.len() - bytes.len() {
                return Err(Refusal::Dict);
            }
            let in_block = take_entries(&mut bytes)?;
            number += u64::from(in_block);
            let first = V::take(&mut bytes)?;
            if !first.is(listed) || last.is_some_and(|last: V| !last.rises_to(first)) {
                return Err(Refusal::Dict);
            }
            meet(first, Place::take(&mut bytes, Version::Two)?);
            let mut before = first;
            for _ in 1..in_block {
                let value = V::take(&mut bytes)?;
                if !before.rises_to(value) {
                    return Err(Refusal::Dict);
                }
                meet(value, Place::take(&mut bytes, Version::Two)?);
                before = value;
            }
            last = Some(before);
        }
        if body_offset as usize != entries.len() - bytes.len() || number != u64::from(front.values) {
            return Err(Refusal::Dict);
        }
        Ok(Dictionary { front, blocks, directory, entries, bitmaps: bytes })
    }

    /// Tells `meet` the number of each value's entry, from 1, and where its rows stand, in stored order.
    #[inline(always)]
    pub fn places<V: Value<'a>>(&self, mut meet: impl FnMut(u32, Place) -> Result<(), Refusal>) -> Result<(), Refusal> {
        let mut bytes = self.entries;
        if self.front.version == Version::One {
            for entry in 1..=self.front.values {
                V::take(&mut bytes)?;
                meet(entry, Place::take(&mut bytes, Version::One)?)?;
            }
            return Ok(());
        }
        let mut entry = 0;
        for _ in 0..self.blocks {
            for _ in 0..take_entries(&mut bytes)? {
                let (_, place) = take_entry::<V>(&mut bytes)?;
                entry += 1;
                meet(entry, place)?;
            }
        }
        Ok(())
    }
}

/// The values of version 1, which are distinct and in any order. A set of them is made only once one doesn't rise.
enum Distinct<V> {
    Rising(Option<V>),
    Unordered(HashSet<V>),
}

impl<'a, V: Value<'a>> Distinct<V> {
    /// Adds a value, the next one of the entries, of which there are `number`. Answers false if it was there already.
    fn insert(&mut self, value: V, entries: &'a [u8], number: u32) -> bool {
        match self {
            Distinct::Rising(None) => *self = Distinct::Rising(Some(value)),
            Distinct::Rising(Some(last)) if last.rises_to(value) => *last = value,
            Distinct::Rising(Some(last)) => {
                let mut set = HashSet::with_capacity(number as usize);
                let mut bytes = entries;
                while let Ok(earlier) = V::take(&mut bytes) {
                    set.insert(earlier);
                    if earlier == *last || take_i32(&mut bytes).is_err() {
                        break;
                    }
                }
                let is_new = set.insert(value);
                *self = Distinct::Unordered(set);
                return is_new;
            }
            Distinct::Unordered(set) => return set.insert(value),
        }
        true
    }
}
