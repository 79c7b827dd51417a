//! Open and Look up.

use crate::audit::{place_all, place_rows};
use crate::dictionary::{take_entries, take_entry, take_listing, Dictionary, Front, Place, Version};
use crate::field::RowField;
use crate::literals::only;
use crate::value::{take_count, Value};
use crate::{Record, Refusal};

/// Open of a body whose values are of one kind.
pub fn open_values<'a, V: Value<'a>>(body: &'a [u8], field: &mut [u8], table: &mut [u32]) -> Result<(u64, u64), Refusal> {
    let dictionary = Dictionary::read(body, &[Version::Two], |_: V, _| {})?;
    let mut field = RowField::new(field, dictionary.front.rows)?;
    let table = table.get_mut(..dictionary.blocks as usize).ok_or(Refusal::Room)?;
    let placed = place_all::<V>(&dictionary, &mut field, |_| {});
    field.clear();
    placed?;
    let mut listings = dictionary.directory;
    for start in table {
        *start = (body.len() - listings.len()) as u32;
        take_listing::<V>(&mut listings)?;
    }
    Ok((dictionary.front.rows.into(), dictionary.blocks.into()))
}

/// Look up in a body whose values are of one kind.
pub fn look_up_values<'a, V: Value<'a>>(
    body: &'a [u8],
    literals: &'a [u8],
    table: &[u32],
    field: &mut [u8],
) -> Result<(Record, u64), Refusal> {
    let literal = only::<V>(literals)?;
    let mut bytes = body;
    let front = Front::take(&mut bytes, &[Version::Two])?;
    let blocks = front.take_blocks(&mut bytes)?;
    let table = table.get(..blocks as usize).ok_or(Refusal::Room)?;

    // The body offset stands behind the directory's last entry.
    if let Some(last) = table.last() {
        bytes = from(body, *last)?;
        take_listing::<V>(&mut bytes)?;
    }
    let body_offset = take_count(&mut bytes, i32::MAX)?;
    let bitmaps = bytes.get(body_offset as usize..).ok_or(Refusal::Dict)?;

    let (block, halvings) = halve(body, table, literal)?;
    let found = match block {
        Some(offset) => search(from(bytes, offset)?, literal)?,
        None => Found { entry: 0, place: None },
    };
    let mut field = RowField::new(field, front.rows)?;
    field.clear();
    let counted = count_rows(front.null, found, bitmaps, &mut field);
    if counted.is_err() {
        field.clear();
    }
    let (nulls, matched) = counted?;
    Ok((Record { rows: front.rows.into(), nulls, deleted: 0, matched }, halvings + u64::from(found.entry)))
}

/// The bytes from a position on, if it isn't behind them.
fn from(bytes: &[u8], position: u32) -> Result<&[u8], Refusal> {
    bytes.get(position as usize..).ok_or(Refusal::Short)
}

/// The offset of the last block whose first value isn't above the literal, and how many values it was compared with.
fn halve<'a, V: Value<'a>>(body: &'a [u8], table: &[u32], literal: V) -> Result<(Option<u32>, u64), Refusal> {
    let mut left = table;
    let mut block = None;
    let mut compared = 0;
    while !left.is_empty() {
        let (below, middle_on) = left.split_at(left.len() / 2);
        let (value, offset) = take_listing::<V>(&mut from(body, middle_on[0])?)?;
        compared += 1;
        left = if literal < value {
            below
        } else {
            block = Some(offset);
            &middle_on[1..]
        };
    }
    Ok((block, compared))
}

/// What a search of a block comes to: the number of the last entry that was read, from 1, and the place of the literal's rows.
#[derive(Clone, Copy)]
struct Found {
    entry: u32,
    place: Option<Place>,
}

/// Searches a block for the literal.
fn search<'a, V: Value<'a>>(mut block: &'a [u8], literal: V) -> Result<Found, Refusal> {
    let entries = take_entries(&mut block)?;
    for entry in 1..=entries {
        let (value, place) = take_entry::<V>(&mut block)?;
        if value.is(literal) {
            return Ok(Found { entry, place: Some(place) });
        }
    }
    Ok(Found { entry: entries, place: None })
}

/// The null rows and the literal's, which the field has in the end.
fn count_rows(null: Option<Place>, found: Found, bitmaps: &[u8], field: &mut RowField) -> Result<(u64, u64), Refusal> {
    let mut nulls = 0;
    if let Some(null) = null {
        place_rows::<false>(0, null, bitmaps, field)?;
        nulls = field.count();
        field.clear();
    }
    let Some(place) = found.place else {
        return Ok((nulls, 0));
    };
    place_rows::<false>(found.entry, place, bitmaps, field)?;
    Ok((nulls, field.count()))
}
