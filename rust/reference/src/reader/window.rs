//! Deletion bins of both kinds read through a window: the rows from a first one on.

use super::*;

/// A row is below this number.
const ROWS_END: u64 = 1 << 63;
/// The rows of one bitmap of a 64-bit bin; its index counts them.
const BITMAP_ROWS: u64 = 1 << 32;
/// The indexes of bitmaps are below this number.
const INDEX_END: u32 = 1 << 31;

/// Sets the rows of one bin that lie in the window of `rows` rows from row `first` on, which is the field's row 0: answer, their count, and
/// fault.
pub fn read_window(file: &[u8], bin: u64, first: u64, rows: u64, field: &mut [u8]) -> (u8, u64, Fault) {
    said(try_read_window(file, bin, first, rows, field), 0)
}

fn try_read_window(file: &[u8], bin: u64, first: u64, rows: u64, buffer: &mut [u8]) -> Result<u64, Refusal> {
    within_limit(file)?;
    let end = first.checked_add(rows).filter(|end| *end <= ROWS_END);
    if rows > MAX || end.is_none() {
        return Err(Refusal::Limit);
    }
    let field = field_for(rows, buffer)?;
    field.fill(0);
    let bin = Bin::find(file, bin)?;
    let bitmaps = match bin.kind()? {
        Kind::Bitmap32 => vec![(0, bin.bitmap_32()?)],
        Kind::Bitmap64 => {
            // Whatever is wrong in it is said of the first container.
            indexed_bitmaps(bin.checked()?).ok_or_else(|| bitmap_refusal(BIN_ENTRY, Broken::IN_FRONT))?
        }
    };
    for (index, bitmap) in &bitmaps {
        bitmap.place_window(u64::from(*index) * BITMAP_ROWS, first, field);
    }
    clear_spare_bits(field, rows);
    Ok(count_ones(field))
}

/// The bitmaps of a 64-bit bin and their indexes. Nothing where a rule is broken.
fn indexed_bitmaps(content: &[u8]) -> Option<Vec<(u32, Bitmap<'_>)>> {
    let (number, mut rest) = content.split_first_chunk()?;
    let mut bitmaps: Vec<(u32, Bitmap)> = Vec::new();
    for _ in 0..u64::from_le_bytes(*number) {
        let (index, stored) = rest.split_first_chunk()?;
        let index = u32::from_le_bytes(*index);
        if index >= INDEX_END || bitmaps.last().is_some_and(|(before, _)| index <= *before) {
            return None;
        }
        let bitmap = Bitmap::parse(stored).ok()?;
        rest = &stored[bitmap.size()..];
        bitmaps.push((index, bitmap));
    }
    rest.is_empty().then_some(bitmaps)
}
