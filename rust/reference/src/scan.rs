//! The plain scan of a column for a question: the answer that an index must give, from the column alone.

use crate::record::Record;
use crate::types;
use crate::writer::Column;

/// The row field that the question chooses by its edition's rule, and the record of the column; 0 matched rows say skip.
/// Literals are values as in a column's cells.
pub fn scan<V: AsRef<[u8]>>(column: &Column, edition: u32, question: u32, literals: &[V]) -> (Vec<u8>, Record) {
    scan_without(&[], column, edition, question, literals)
}

/// The same of a column some of whose rows are deleted: they are not chosen.
pub fn scan_without<V: AsRef<[u8]>>(
    deleted: &[u32],
    column: &Column,
    edition: u32,
    question: u32,
    literals: &[V],
) -> (Vec<u8>, Record) {
    assert!(types::EDITIONS.contains(&edition), "a question of an unknown edition has no answer");
    let mut is_deleted = vec![false; column.cells.len()];
    for row in deleted {
        is_deleted[*row as usize] = true;
    }
    let mut field = vec![0; column.cells.len().div_ceil(8)];
    let mut record = Record::NONE;
    for (row, cell) in column.cells.iter().enumerate() {
        let listed = match cell {
            None => false,
            Some(value) => literals.iter().any(|literal| literal.as_ref() == value),
        };
        let chosen = match question {
            types::EQUAL | types::IN => listed,
            // A null row is never listed; the first edition alone chooses it for that.
            types::NOT_EQUAL | types::NOT_IN => match cell {
                None => edition == types::FIRST_EDITION,
                Some(_) => !listed,
            },
            types::IS_NULL => cell.is_none(),
            types::IS_NOT_NULL => cell.is_some(),
            _ => panic!("an unknown question has no answer"),
        };
        record.rows += 1;
        // A null row counts as one whether it is deleted or not.
        if cell.is_none() {
            record.nulls += 1;
        }
        if is_deleted[row] {
            record.deleted += 1;
        } else if chosen {
            field[row / 8] |= 1 << (row % 8);
            record.matched += 1;
        }
    }
    (field, record)
}
