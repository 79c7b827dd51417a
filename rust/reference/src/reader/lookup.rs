//! Look up: EQUAL on a body of version 2 without an audit. The directory is halved through the table that Open fills, and then one block,
//! null's bitmap and one other are read. Whatever is lent, body and table are read where they are due and nowhere else.

use super::*;

/// Sets the rows of the entry that has the one literal's value, as far as what is read on the way keeps its rules: answer, record, how
/// many values the literal was compared with, and fault, whose entry is the number within the block. The field is left alone up to ROOM.
pub fn look_up(body: &[u8], ty: u32, edition: u32, literals: &[u8], table: &[u32], field: &mut [u8]) -> (u8, Record, u64, Fault) {
    let looked_up = match ty {
        types::BOOLEAN => try_look_up::<bool>,
        types::TINYINT => try_look_up::<i8>,
        types::SMALLINT => try_look_up::<i16>,
        types::INT | types::DATE | types::TIME => try_look_up::<i32>,
        types::BIGINT | types::TIMESTAMP | types::LOCAL_ZONED_TIMESTAMP => try_look_up::<i64>,
        // The strings. An unknown type is refused before a value is read.
        _ => try_look_up::<&[u8]>,
    };
    let (answer, (record, compared), fault) = said(looked_up(body, ty, edition, literals, table, field), (Record::NONE, 0));
    (answer, record, compared, fault)
}

/// A value as it is compared: numbers signed, strings by unsigned bytes, a prefix first.
trait Value<'a>: Ord + Copy {
    fn read(input: &mut Input<'a>) -> Result<Self, Refusal>;
}

macro_rules! number_is_value {
    ($($number:ty),+) => {$(
        impl Value<'_> for $number {
            fn read(input: &mut Input) -> Result<$number, Refusal> {
                Ok(<$number>::from_be_bytes(input.array()?))
            }
        }
    )+};
}

number_is_value!(i8, i16, i32, i64);

impl Value<'_> for bool {
    fn read(input: &mut Input) -> Result<bool, Refusal> {
        match input.u8()? {
            0 => Ok(false),
            1 => Ok(true),
            _ => Err(Refusal::Dict),
        }
    }
}

impl<'a> Value<'a> for &'a [u8] {
    fn read(input: &mut Input<'a>) -> Result<&'a [u8], Refusal> {
        let length = input.count_up_to(MAX_STRING)?;
        input.take(length)
    }
}

fn try_look_up<'a, V: Value<'a>>(
    body: &'a [u8],
    ty: u32,
    edition: u32,
    literals: &'a [u8],
    table: &[u32],
    buffer: &mut [u8],
) -> Result<(Record, u64), Refusal> {
    within_limit(body)?;
    within_limit(literals)?;
    let width = types::width(ty).ok_or(Refusal::Literal)?;
    if !types::EDITIONS.contains(&edition) || read_literals(literals, ty, width)?.len() != 1 {
        return Err(Refusal::Literal);
    }
    let literal = V::read(&mut Input::new(literals))?;

    demand_version_2(body)?;
    let mut input = Input::new(body);
    let Front { rows, values, null, .. } = Front::read(&mut input)?;
    let blocks = read_block_number(&mut input, values)?;
    let table = table.get(..blocks).ok_or(Refusal::Room)?;
    if let Some(last) = table.last() {
        input = Input::from(body, *last)?;
        read_first::<V>(&mut input)?;
    }
    let bitmaps_offset = input.u32()?;
    let base = input.rest();
    let bitmaps = base.get(bitmaps_offset as usize..).ok_or(Refusal::Dict)?;

    let mut compared = 0;
    let mut found = None;
    if let Some(offset) = block_offset(body, table, literal, &mut compared)? {
        found = entry_in_block(base, offset, literal, &mut compared)?;
    }

    // Both counts are counts of ones in the field, as Ask's of the rows that match.
    let field = field_for(rows, buffer)?;
    field.fill(0);
    let mut nulls = 0;
    if let Some(null) = null {
        rows_below(rows, 0, null, bitmaps)?.place(field);
        nulls = count_ones(field);
        field.fill(0);
    }
    if let Some((number, at)) = found {
        rows_below(rows, number, at, bitmaps)?.place(field);
    }
    let matched = count_ones(field);
    Ok((Record { rows, nulls, deleted: 0, matched }, compared))
}

/// A directory's entry: a block's first value and its offset, which counts unsigned.
fn read_first<'a, V: Value<'a>>(input: &mut Input<'a>) -> Result<(V, u32), Refusal> {
    Ok((V::read(input)?, input.u32()?))
}

/// Halves the directory: the offset of the last block whose first value isn't above the literal, if it has one.
fn block_offset<'a, V: Value<'a>>(
    body: &'a [u8],
    mut table: &[u32],
    literal: V,
    compared: &mut u64,
) -> Result<Option<u32>, Refusal> {
    let mut found = None;
    while !table.is_empty() {
        let half = table.len() / 2;
        let (first, offset) = read_first::<V>(&mut Input::from(body, table[half])?)?;
        *compared += 1;
        if literal < first {
            table = &table[..half];
        } else {
            table = &table[half + 1..];
            found = Some(offset);
        }
    }
    Ok(found)
}

/// The number within a block, from 1, of the first entry that has the literal's value, and where its rows are.
fn entry_in_block<'a, V: Value<'a>>(
    base: &'a [u8],
    offset: u32,
    literal: V,
    compared: &mut u64,
) -> Result<Option<(u64, RowsAt)>, Refusal> {
    let mut input = Input::from(base, offset)?;
    let count = input.count()?;
    if count == 0 {
        return Err(Refusal::Dict);
    }
    for number in 1..=count as u64 {
        let value = V::read(&mut input)?;
        let rows = RowsAt { offset: input.i32()?, length: input.i32()? };
        *compared += 1;
        if value == literal {
            return Ok(Some((number, rows)));
        }
    }
    Ok(None)
}

impl<'a> Input<'a> {
    /// The bytes from a position on; one behind their end is SHORT.
    fn from(bytes: &'a [u8], position: u32) -> Result<Input<'a>, Refusal> {
        Ok(Input::new(bytes.get(position as usize..).ok_or(Refusal::Short)?))
    }
}
