//! Audit and Ask: the dictionary, then every bitmap.

use crate::dictionary::{Dictionary, Place, Version};
use crate::field::RowField;
use crate::literals::{only, Listed};
use crate::value::Value;
use crate::{roaring, Question, Record, Refusal};

/// The versions that can be audited.
const BOTH: [Version; 2] = [Version::One, Version::Two];

/// Audit of a body whose values are of one kind.
pub fn audit_values<'a, V: Value<'a>>(body: &'a [u8], field: &mut [u8]) -> Result<u64, Refusal> {
    let dictionary = Dictionary::read(body, &BOTH, |_: V, _| {})?;
    let mut field = RowField::new(field, dictionary.front.rows)?;
    let placed = place_all::<V>(&dictionary, &mut field, |_| {});
    field.clear();
    placed.map(|()| dictionary.front.rows.into())
}

/// Ask of a body whose values are of one kind.
pub fn ask_values<'a, V: Value<'a>>(
    body: &'a [u8],
    question: Question,
    literals: &'a [u8],
    field: &mut [u8],
) -> Result<Record, Refusal> {
    match question {
        Question::Equal => {
            let literal = only::<V>(literals)?;
            let mut found = None;
            let dictionary = Dictionary::read(body, &BOTH, |value: V, place| {
                if value.is(literal) {
                    found = Some(place);
                }
            })?;
            answer::<V>(&dictionary, found.as_slice(), field)
        }
        Question::In => {
            let mut listed = Listed::<V>::new(literals)?;
            let mut found = Vec::new();
            let dictionary = Dictionary::read(body, &BOTH, |value: V, place| {
                if listed.has(value) {
                    found.push(place);
                }
            })?;
            answer::<V>(&dictionary, &found, field)
        }
    }
}

/// Audits the bitmaps, then sets the rows of the entries that were found.
fn answer<'a, V: Value<'a>>(dictionary: &Dictionary<'a>, found: &[Place], field: &mut [u8]) -> Result<Record, Refusal> {
    let rows = dictionary.front.rows;
    let mut field = RowField::new(field, rows)?;
    let mut nulls = 0;
    let placed = place_all::<V>(dictionary, &mut field, |field| nulls = field.count());
    // All rows are set, or it is a refusal, which leaves the field zero.
    field.clear();
    placed?;
    for place in found {
        mark(*place, dictionary.bitmaps, &mut field);
    }
    Ok(Record { rows: rows.into(), nulls, deleted: 0, matched: field.count() })
}

/// Places null's rows and those of each entry in the field, whatever it had before. `with_nulls` is told when it has null's rows alone.
///
/// After a refusal the field can have any rows.
pub fn place_all<'a, V: Value<'a>>(
    dictionary: &Dictionary<'a>,
    field: &mut RowField,
    with_nulls: impl FnOnce(&RowField),
) -> Result<(), Refusal> {
    // As many rows as there are, and all of them set: none was placed twice. That is faster than a test of each.
    if place_each::<V, false>(dictionary, field, with_nulls) == Ok(dictionary.front.rows.into()) && field.is_full() {
        return Ok(());
    }
    // Something is wrong: once more to find what.
    place_each::<V, true>(dictionary, field, |_| {})?;
    Err(Refusal::Missing { row: field.lowest_clear() })
}

/// As [`place_all`]. Answers how many rows were placed, in which some are counted twice unless `TELL_TWICE`.
fn place_each<'a, V: Value<'a>, const TELL_TWICE: bool>(
    dictionary: &Dictionary<'a>,
    field: &mut RowField,
    with_nulls: impl FnOnce(&RowField),
) -> Result<u64, Refusal> {
    field.clear();
    let bitmaps = dictionary.bitmaps;
    let mut rows = 0;
    if let Some(null) = dictionary.front.null {
        rows += place_rows::<TELL_TWICE>(0, null, bitmaps, field)?;
        with_nulls(field);
    }
    dictionary.places::<V>(|entry, place| {
        rows += place_rows::<TELL_TWICE>(entry, place, bitmaps, field)?;
        Ok(())
    })?;
    Ok(rows)
}

/// Places the rows of an entry, and answers how many they are. If `TELL_TWICE`, none may be set already.
#[inline]
pub fn place_rows<const TELL_TWICE: bool>(
    entry: u32,
    place: Place,
    bitmaps: &[u8],
    field: &mut RowField,
) -> Result<u64, Refusal> {
    let placed = if let Some(row) = place.single_row() {
        if row >= field.rows() {
            return Err(Refusal::Range { entry });
        }
        roaring::Placed { rows: 1, past: false, twice: field.set(row) }
    } else {
        let Some((bytes, whole)) = place.part(bitmaps) else {
            return Err(Refusal::Bitmap { entry, container: 0 });
        };
        match roaring::place::<TELL_TWICE>(bytes, whole, field) {
            Ok(placed) => placed,
            Err(container) => return Err(Refusal::Bitmap { entry, container }),
        }
    };
    if placed.past {
        return Err(Refusal::Range { entry });
    }
    if TELL_TWICE && placed.twice {
        return Err(Refusal::Twice { entry });
    }
    Ok(placed.rows)
}

/// Sets the rows of an entry that was placed.
fn mark(place: Place, bitmaps: &[u8], field: &mut RowField) {
    if let Some(row) = place.single_row() {
        field.set(row);
    } else if let Some((bytes, _)) = place.part(bitmaps) {
        roaring::mark(bytes, field);
    }
}
