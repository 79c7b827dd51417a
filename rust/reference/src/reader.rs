//! The calls: Locate, Audit, Ask, Ask of a file, Open, Look up, Read deletions, Read a window, Subtract and Subtract of a record.
//!
//! Each answers a number first: 0 accepted, 255 ABSENT (Locate and Ask of a file alone), otherwise a refusal's number.
//! Counts, records, start and length are 0 with any answer but 0. The calls that read bitmaps end with where a refusal's cause is.

use std::cmp::Ordering;
use std::collections::HashSet;

use crate::crc32::crc32;
use crate::names;
use crate::record::Record;
use crate::roaring::{count_ones, Bitmap, Broken};
use crate::types::{self, Width};

mod lookup;
mod window;

pub use lookup::look_up;
pub use window::read_window;

pub const ACCEPTED: u8 = 0;
pub const ABSENT: u8 = 255;

/// Where the cause of a refusal is: entry, container and row, 0 in each that the refusal doesn't carry.
pub type Fault = [u64; 3];

pub const NO_FAULT: Fault = [0; 3];

/// Why a call refused. Entries are numbered in stored order, null's as 0 and the values' from 1; containers and rows from 0.
#[derive(Clone, Copy, Debug, PartialEq, Eq)]
enum Refusal {
    Short,
    Magic,
    Version,
    Head,
    Dict,
    Bitmap { entry: u64, container: u64 },
    Range { entry: u64 },
    Twice { entry: u64 },
    Missing { row: u64 },
    Room,
    Literal,
    Limit,
    Checksum,
    NoBin,
}

impl Refusal {
    /// Its number and its fault.
    fn said(self) -> (u8, Fault) {
        match self {
            Refusal::Short => (1, NO_FAULT),
            Refusal::Magic => (2, NO_FAULT),
            Refusal::Version => (3, NO_FAULT),
            Refusal::Head => (4, NO_FAULT),
            Refusal::Dict => (5, NO_FAULT),
            Refusal::Bitmap { entry, container } => (6, [entry, container, 0]),
            Refusal::Range { entry } => (7, [entry, 0, 0]),
            Refusal::Twice { entry } => (8, [entry, 0, 0]),
            Refusal::Missing { row } => (9, [0, 0, row]),
            Refusal::Room => (10, NO_FAULT),
            Refusal::Literal => (11, NO_FAULT),
            Refusal::Limit => (12, NO_FAULT),
            Refusal::Checksum => (13, NO_FAULT),
            Refusal::NoBin => (14, NO_FAULT),
        }
    }
}

/// The most bytes of an input buffer, and the most rows.
const MAX: u64 = 2_147_483_647;
const MAX_VALUES_V1: i32 = 4_096;
const MAX_VALUES_V2: i32 = 65_536;
const MAX_BLOCKS: i32 = 65_536;
const MAX_STRING: i32 = 65_535;
const MAX_LITERALS: usize = 1_024;
/// The most bytes of a name in modified form, whose length is stored in 2 bytes.
const MAX_NAME: usize = 65_535;

const INDEX_MAGIC: u64 = 1_493_475_289_347_502;
const INDEX_VERSION: u32 = 1;
/// Magic, version, head length, column number and redundant length.
const SHORTEST_HEAD: usize = 24;

const DELETION_VERSION: u8 = 1;
/// Of a 32-bit bin, stored big-endian.
const BIN_MAGIC: u32 = 1_581_511_376;
/// Of a 64-bit bin, stored little-endian.
const BIN_MAGIC_64: u32 = 1_681_511_377;
/// The entry that a fault in a bin names: it has none.
const BIN_ENTRY: u64 = 0;

/// Finds the index of kind `kind` on column `column`, names in standard UTF-8: answer, start and length in the buffer that was
/// looked at.
pub fn locate(embedded: &[u8], file: &[u8], column: &[u8], kind: &[u8]) -> (u8, u64, u64) {
    let file = if embedded.is_empty() { file } else { embedded };
    match locate_in(file, column, kind) {
        Ok(Some((start, length))) => (ACCEPTED, start as u64, length as u64),
        Ok(None) => (ABSENT, 0, 0),
        Err(refusal) => (refusal.said().0, 0, 0),
    }
}

/// Whether the body gives every row exactly one place: answer, row count and fault. The field is left zero from ROOM on.
pub fn audit(body: &[u8], ty: u32, field: &mut [u8]) -> (u8, u64, Fault) {
    said(try_audit(body, ty, field), 0)
}

/// Audits the body and sets the rows that the question chooses by its edition's rule: answer, record and fault.
pub fn ask(body: &[u8], ty: u32, edition: u32, question: u32, literals: &[u8], field: &mut [u8]) -> (u8, Record, Fault) {
    said(try_ask(body, ty, edition, question, literals, field), Record::NONE)
}

/// Locates the index, then asks its body: answer, record and fault. Without a body the field is left alone.
#[allow(clippy::too_many_arguments)]
pub fn ask_file(
    embedded: &[u8],
    file: &[u8],
    column: &[u8],
    kind: &[u8],
    ty: u32,
    edition: u32,
    question: u32,
    literals: &[u8],
    field: &mut [u8],
) -> (u8, Record, Fault) {
    match locate(embedded, file, column, kind) {
        (ACCEPTED, start, length) => {
            let looked_at = if embedded.is_empty() { file } else { embedded };
            ask(&looked_at[start as usize..][..length as usize], ty, edition, question, literals, field)
        }
        (answer, ..) => (answer, Record::NONE, NO_FAULT),
    }
}

/// Audits a body of version 2 and writes down where its directory's entries start: answer, row count, number of blocks and fault. The
/// field is left zero from ROOM on; the table changes only where the answer is 0, and there as many words as there are blocks.
pub fn open(body: &[u8], ty: u32, field: &mut [u8], table: &mut [u32]) -> (u8, u64, u64, Fault) {
    let (answer, (rows, blocks), fault) = said(try_open(body, ty, field, table), (0, 0));
    (answer, rows, blocks, fault)
}

/// Sets the rows of one bin of a deletion file: answer, their count, and fault.
pub fn read_deletions(file: &[u8], bin: u64, rows: u64, field: &mut [u8]) -> (u8, u64, Fault) {
    said(try_read_deletions(file, bin, rows, field), 0)
}

/// Clears in `first` each row below `rows` set in `second`: answer, rows left and rows removed.
pub fn subtract(first: &mut [u8], second: &[u8], rows: u64) -> (u8, u64, u64) {
    match try_subtract(first, second, rows) {
        Ok((left, removed)) => (ACCEPTED, left, removed),
        Err(refusal) => (refusal.said().0, 0, 0),
    }
}

/// Clears in `first` each row below the record's row count set in `second`: answer, the record with the deleted rows and the
/// rows left, and rows removed. What the record said of deleted and matched rows before isn't looked at.
pub fn subtract_record(first: &mut [u8], second: &[u8], record: Record) -> (u8, Record, u64) {
    match try_subtract_record(first, second, record) {
        Ok((record, removed)) => (ACCEPTED, record, removed),
        Err(refusal) => (refusal.said().0, Record::NONE, 0),
    }
}

/// The answer, what it counts, and the fault; `none` is what a refusal counts.
fn said<C>(result: Result<C, Refusal>, none: C) -> (u8, C, Fault) {
    match result {
        Ok(counted) => (ACCEPTED, counted, NO_FAULT),
        Err(refusal) => {
            let (number, fault) = refusal.said();
            (number, none, fault)
        }
    }
}

fn within_limit(buffer: &[u8]) -> Result<(), Refusal> {
    if buffer.len() as u64 > MAX {
        return Err(Refusal::Limit);
    }
    Ok(())
}

/// The field for that many rows, cut from a lent buffer.
fn field_for(rows: u64, buffer: &mut [u8]) -> Result<&mut [u8], Refusal> {
    buffer.get_mut(..rows.div_ceil(8) as usize).ok_or(Refusal::Room)
}

// Locate

fn locate_in(file: &[u8], column: &[u8], kind: &[u8]) -> Result<Option<(usize, usize)>, Refusal> {
    for buffer in [file, column, kind] {
        within_limit(buffer)?;
    }
    let (column, kind) = (stored_name(column)?, stored_name(kind)?);
    if file.len() < 16 {
        return Err(Refusal::Short);
    }
    let mut input = Input::new(file);
    if input.u64()? != INDEX_MAGIC {
        return Err(Refusal::Magic);
    }
    if input.u32()? != INDEX_VERSION {
        return Err(Refusal::Version);
    }
    let head_length = input.i32()?;
    let head = usize::try_from(head_length)
        .ok()
        .filter(|length| *length >= SHORTEST_HEAD)
        .and_then(|length| file.get(..length))
        .ok_or(Refusal::Head)?;
    let asked = asked_entry(head, &column, &kind).ok_or(Refusal::Head)?;

    // The whole head is right; only now the asked entry's place counts.
    let Some((start, length)) = asked else {
        return Ok(None);
    };
    let (Ok(start), Ok(length)) = (usize::try_from(start), usize::try_from(length)) else {
        return Err(Refusal::Head);
    };
    if start < head.len() || start + length > file.len() {
        return Err(Refusal::Head);
    }
    Ok(Some((start, length)))
}

/// An asked name as files store it.
fn stored_name(asked: &[u8]) -> Result<Vec<u8>, Refusal> {
    let name = std::str::from_utf8(asked).map_err(|_| Refusal::Literal)?;
    let stored = names::modified(name);
    if stored.len() > MAX_NAME {
        return Err(Refusal::Literal);
    }
    Ok(stored)
}

type Place = (i32, i32);

/// Walks the whole head and gives the asked entry's start and length if it is listed. Nothing where a rule is broken. Names in the
/// head aren't decoded: one that no name has in modified form differs from each that is asked.
fn asked_entry(head: &[u8], column: &[u8], kind: &[u8]) -> Option<Option<Place>> {
    let mut input = Input { bytes: head, at: 16 };
    let mut column_seen = false;
    let mut place = None;
    let columns = input.count().ok()?;
    for _ in 0..columns {
        let is_column = input.name().ok()? == column;
        if is_column && column_seen {
            return None;
        }
        column_seen |= is_column;
        let indexes = input.count().ok()?;
        for _ in 0..indexes {
            let is_kind = input.name().ok()? == kind;
            let start = input.i32().ok()?;
            let length = input.i32().ok()?;
            if is_column && is_kind {
                if place.is_some() {
                    return None;
                }
                place = Some((start, length));
            }
        }
    }
    let redundant = input.count().ok()?;
    input.take(redundant).ok()?;
    (input.at == head.len()).then_some(place)
}

// Audit and Ask

fn try_audit(body: &[u8], ty: u32, buffer: &mut [u8]) -> Result<u64, Refusal> {
    within_limit(body)?;
    let width = types::width(ty).ok_or(Refusal::Literal)?;
    let dictionary = Dictionary::read(body, ty, width)?;
    let field = field_for(dictionary.rows, buffer)?;
    let result = dictionary.place_all(field, |_| false);
    field.fill(0);
    result.map(|_| dictionary.rows)
}

fn try_open(body: &[u8], ty: u32, buffer: &mut [u8], table: &mut [u32]) -> Result<(u64, u64), Refusal> {
    within_limit(body)?;
    let width = types::width(ty).ok_or(Refusal::Literal)?;
    demand_version_2(body)?;
    let dictionary = Dictionary::read(body, ty, width)?;
    let field = field_for(dictionary.rows, buffer)?;
    let words = table.get_mut(..dictionary.directory.len()).ok_or(Refusal::Room)?;
    let result = dictionary.place_all(field, |_| false);
    field.fill(0);
    result?;
    for (word, first) in words.iter_mut().zip(&dictionary.directory) {
        *word = first.at as u32;
    }
    Ok((dictionary.rows, words.len() as u64))
}

fn try_ask(body: &[u8], ty: u32, edition: u32, question: u32, literals: &[u8], buffer: &mut [u8]) -> Result<Record, Refusal> {
    within_limit(body)?;
    within_limit(literals)?;
    let width = types::width(ty).ok_or(Refusal::Literal)?;
    if !types::EDITIONS.contains(&edition) || question > types::IS_NOT_NULL {
        return Err(Refusal::Literal);
    }
    let literals = read_literals(literals, ty, width)?;
    let fits = match question {
        types::EQUAL | types::NOT_EQUAL => literals.len() == 1,
        types::IN | types::NOT_IN => true,
        _ => literals.is_empty(),
    };
    if !fits {
        return Err(Refusal::Literal);
    }

    let dictionary = Dictionary::read(body, ty, width)?;
    let rows = dictionary.rows;
    let field = field_for(rows, buffer)?;
    // With NOT a question chooses the rows of all entries but those that it is about.
    let about_null = match question {
        types::EQUAL | types::IN => false,
        types::NOT_EQUAL | types::NOT_IN => edition == types::SECOND_EDITION,
        _ => true,
    };
    let literals: HashSet<&[u8]> = literals.into_iter().collect();
    let placed = dictionary.place_all(field, |entry| match entry.value {
        None => about_null,
        Some(value) => literals.contains(value),
    });
    field.fill(0);
    let Placed { nulls, wanted } = placed?;
    for rows in wanted {
        rows.place(field);
    }
    if matches!(question, types::NOT_EQUAL | types::NOT_IN | types::IS_NOT_NULL) {
        flip(field, rows);
    }
    Ok(Record { rows, nulls, deleted: 0, matched: count_ones(field) })
}

/// Flips every row and leaves the spare bits of the last byte 0.
fn flip(field: &mut [u8], rows: u64) {
    for byte in field.iter_mut() {
        *byte = !*byte;
    }
    clear_spare_bits(field, rows);
}

/// Clears the bits of the last byte that stand for no row.
fn clear_spare_bits(field: &mut [u8], rows: u64) {
    let used = rows % 8;
    if let (1.., Some(last)) = (used, field.last_mut()) {
        *last &= 0xFF >> (8 - used);
    }
}

fn read_literals(bytes: &[u8], ty: u32, width: Width) -> Result<Vec<&[u8]>, Refusal> {
    let mut input = Input::new(bytes);
    let mut literals = Vec::new();
    while !input.is_empty() {
        if literals.len() == MAX_LITERALS {
            return Err(Refusal::Limit);
        }
        let literal = input.value(ty, width).map_err(|refusal| match refusal {
            Refusal::Limit => Refusal::Limit,
            _ => Refusal::Literal,
        })?;
        literals.push(literal);
    }
    Ok(literals)
}

/// The first fields of a body.
struct Front {
    version: u8,
    rows: u64,
    /// How many values have entries.
    values: usize,
    null: Option<RowsAt>,
}

/// What a body says before its bitmaps.
struct Dictionary<'a> {
    rows: u64,
    null: Option<Entry<'a>>,
    /// Of version 2.
    directory: Vec<First<'a>>,
    /// In stored order.
    values: Vec<Entry<'a>>,
    bitmaps: &'a [u8],
}

/// A directory's entry: a block's first value and its offset.
struct First<'a> {
    /// Where it starts in the body.
    at: usize,
    value: &'a [u8],
    offset: i32,
}

struct Entry<'a> {
    /// Nothing for null.
    value: Option<&'a [u8]>,
    rows: RowsAt,
}

/// Where the rows of an entry are, as stored: a negative offset is the single row.
#[derive(Clone, Copy)]
struct RowsAt {
    offset: i32,
    length: i32,
}

/// A stored length that says: as long as the bitmap is.
const OPEN_LENGTH: i32 = -1;

impl Front {
    fn read(input: &mut Input) -> Result<Front, Refusal> {
        let version = input.u8()?;
        let max_values = match version {
            1 => MAX_VALUES_V1,
            2 => MAX_VALUES_V2,
            _ => return Err(Refusal::Version),
        };
        let rows = input.count()? as u64;
        let values = input.count_up_to(max_values)?;
        let has_null = match input.u8()? {
            0 => false,
            1 => true,
            _ => return Err(Refusal::Dict),
        };
        let mut null = None;
        if has_null {
            let offset = input.i32()?;
            let length = if version == 2 { input.i32()? } else { OPEN_LENGTH };
            null = Some(RowsAt { offset, length });
        }
        Ok(Front { version, rows, values, null })
    }
}

impl<'a> Dictionary<'a> {
    fn read(body: &'a [u8], ty: u32, width: Width) -> Result<Dictionary<'a>, Refusal> {
        let mut input = Input::new(body);
        let Front { version, rows, values, null } = Front::read(&mut input)?;
        let (directory, values) = match version {
            1 => (Vec::new(), read_entries_v1(&mut input, ty, width, values)?),
            _ => read_entries_v2(&mut input, ty, width, values)?,
        };
        let null = null.map(|rows| Entry { value: None, rows });
        Ok(Dictionary { rows, null, directory, values, bitmaps: input.rest() })
    }

    /// Each entry with its number: null's, if there is one, is 0; the values' are 1 and on, whether there is a null or not.
    fn numbered(&self) -> impl Iterator<Item = (u64, &Entry<'a>)> {
        self.null.iter().map(|null| (0, null)).chain((1..).zip(&self.values))
    }

    /// Gives every row its place in the field.
    fn place_all(&self, field: &mut [u8], is_wanted: impl Fn(&Entry) -> bool) -> Result<Placed<'a>, Refusal> {
        field.fill(0);
        let mut wanted = Vec::new();
        let mut nulls = 0;
        let mut placed = 0;
        for (number, entry) in self.numbered() {
            let rows = rows_below(self.rows, number, entry.rows, self.bitmaps)?;
            if !rows.place(field) {
                return Err(Refusal::Twice { entry: number });
            }
            placed += rows.count();
            if entry.value.is_none() {
                nulls = rows.count();
            }
            if is_wanted(entry) {
                wanted.push(rows);
            }
        }
        // No row is outside the field and none is there twice, so the number tells whether one is missing.
        if placed != self.rows {
            return Err(Refusal::Missing { row: first_clear(field) });
        }
        Ok(Placed { nulls, wanted })
    }
}

/// The rows of entry number `number`, all of which must be below `end`.
// Always inlined, as are those below with more than one caller: as calls of their own they make Audit of many values a third slower.
#[inline(always)]
fn rows_below(end: u64, number: u64, at: RowsAt, bitmaps: &[u8]) -> Result<EntryRows<'_>, Refusal> {
    let rows = entry_rows(at, bitmaps).map_err(|broken| bitmap_refusal(number, broken))?;
    if rows.last().is_some_and(|last| u64::from(last) >= end) {
        return Err(Refusal::Range { entry: number });
    }
    Ok(rows)
}

/// The rows of an entry, or the container that is broken in its bitmap.
#[inline(always)]
fn entry_rows(at: RowsAt, bitmaps: &[u8]) -> Result<EntryRows<'_>, Broken> {
    let Ok(offset) = usize::try_from(at.offset) else {
        return Ok(EntryRows::One((-1 - at.offset) as u32));
    };
    let bytes = bitmaps.get(offset..).ok_or(Broken::IN_FRONT)?;
    let bitmap = if at.length == OPEN_LENGTH {
        Bitmap::parse(bytes)?
    } else {
        let length = usize::try_from(at.length).map_err(|_| Broken::IN_FRONT)?;
        Bitmap::parse_whole(bytes.get(..length).ok_or(Broken::IN_FRONT)?)?
    };
    Ok(EntryRows::Many(bitmap))
}

/// What is known once every row has its place.
struct Placed<'a> {
    /// How many rows are null's.
    nulls: u64,
    /// The rows of the entries that were asked for.
    wanted: Vec<EntryRows<'a>>,
}

fn bitmap_refusal(entry: u64, Broken(container): Broken) -> Refusal {
    Refusal::Bitmap { entry, container: container as u64 }
}

/// The lowest row that isn't set, of a field in which one isn't.
fn first_clear(field: &[u8]) -> u64 {
    let byte = field.iter().take_while(|byte| **byte == 0xFF).count();
    8 * byte as u64 + u64::from(field[byte].trailing_ones())
}

/// The rows of one entry.
enum EntryRows<'a> {
    One(u32),
    Many(Bitmap<'a>),
}

impl EntryRows<'_> {
    fn last(&self) -> Option<u32> {
        match self {
            EntryRows::One(row) => Some(*row),
            EntryRows::Many(bitmap) => bitmap.last_row(),
        }
    }

    fn count(&self) -> u64 {
        match self {
            EntryRows::One(_) => 1,
            EntryRows::Many(bitmap) => bitmap.cardinality(),
        }
    }

    /// Sets the rows in the field and answers whether none of them was set before.
    fn place(&self, field: &mut [u8]) -> bool {
        match self {
            EntryRows::One(row) => {
                let byte = &mut field[*row as usize / 8];
                let bit = 1 << (row % 8);
                let free = *byte & bit == 0;
                *byte |= bit;
                free
            }
            EntryRows::Many(bitmap) => bitmap.place(field),
        }
    }
}

fn read_entries_v1<'a>(input: &mut Input<'a>, ty: u32, width: Width, values: usize) -> Result<Vec<Entry<'a>>, Refusal> {
    let mut seen = HashSet::with_capacity(values);
    let mut entries = Vec::with_capacity(values);
    for _ in 0..values {
        let value = input.value(ty, width)?;
        if !seen.insert(value) {
            return Err(Refusal::Dict);
        }
        entries.push(Entry { value: Some(value), rows: RowsAt { offset: input.i32()?, length: OPEN_LENGTH } });
    }
    Ok(entries)
}

/// The version of the bodies that have a directory of blocks.
const VERSION_2: u8 = 2;

fn demand_version_2(body: &[u8]) -> Result<(), Refusal> {
    match body.first() {
        None => Err(Refusal::Short),
        Some(&VERSION_2) => Ok(()),
        Some(_) => Err(Refusal::Version),
    }
}

fn read_block_number(input: &mut Input, values: usize) -> Result<usize, Refusal> {
    let blocks = input.count_up_to(MAX_BLOCKS)?;
    if (blocks == 0) != (values == 0) {
        return Err(Refusal::Dict);
    }
    Ok(blocks)
}

type DirectoryAndEntries<'a> = (Vec<First<'a>>, Vec<Entry<'a>>);

fn read_entries_v2<'a>(input: &mut Input<'a>, ty: u32, width: Width, values: usize) -> Result<DirectoryAndEntries<'a>, Refusal> {
    let blocks = read_block_number(input, values)?;
    let mut directory = Vec::with_capacity(blocks);
    for _ in 0..blocks {
        directory.push(First { at: input.at, value: input.value(ty, width)?, offset: input.i32()? });
    }
    let bitmaps_offset = input.i32()?;

    let blocks_start = input.at;
    let is_here = |offset: i32, input: &Input| usize::try_from(offset) == Ok(input.at - blocks_start);
    let mut total = 0;
    let mut previous: Option<&[u8]> = None;
    let mut entries = Vec::with_capacity(values);
    for first in &directory {
        if !is_here(first.offset, input) {
            return Err(Refusal::Dict);
        }
        let count = input.count()?;
        if count == 0 {
            return Err(Refusal::Dict);
        }
        total += count;
        for i in 0..count {
            let value = input.value(ty, width)?;
            if i == 0 && value != first.value {
                return Err(Refusal::Dict);
            }
            if previous.is_some_and(|previous| types::compare(ty, previous, value) != Ordering::Less) {
                return Err(Refusal::Dict);
            }
            previous = Some(value);
            entries.push(Entry { value: Some(value), rows: RowsAt { offset: input.i32()?, length: input.i32()? } });
        }
    }
    if !is_here(bitmaps_offset, input) || total != values {
        return Err(Refusal::Dict);
    }
    Ok((directory, entries))
}

// Read deletions

fn try_read_deletions(file: &[u8], bin: u64, rows: u64, buffer: &mut [u8]) -> Result<u64, Refusal> {
    within_limit(file)?;
    if rows > MAX {
        return Err(Refusal::Limit);
    }
    let field = field_for(rows, buffer)?;
    field.fill(0);
    let bin = Bin::find(file, bin)?;
    if bin.kind()? != Kind::Bitmap32 {
        return Err(Refusal::Magic);
    }
    let bitmap = bin.bitmap_32()?;
    if bitmap.last_row().is_some_and(|last| u64::from(last) >= rows) {
        return Err(Refusal::Range { entry: BIN_ENTRY });
    }
    bitmap.place(field);
    Ok(bitmap.cardinality())
}

/// One bin of a deletion file.
struct Bin<'a> {
    magic: [u8; 4],
    /// What stands behind the magic.
    content: &'a [u8],
    /// Whether the stored checksum is that of magic and content.
    checksum_holds: bool,
}

/// What a bin holds, as its magic says.
#[derive(Clone, Copy, Debug, PartialEq, Eq)]
enum Kind {
    Bitmap32,
    Bitmap64,
}

impl<'a> Bin<'a> {
    /// The asked bin, after every size to the end of the file has been walked.
    fn find(file: &'a [u8], asked: u64) -> Result<Bin<'a>, Refusal> {
        let mut input = Input::new(file);
        if input.u8()? != DELETION_VERSION {
            return Err(Refusal::Version);
        }
        let mut found = None;
        let mut number = 0;
        while !input.is_empty() {
            let size = input.count().map_err(|_| Refusal::Short)?;
            if size < 4 {
                return Err(Refusal::Short);
            }
            let bin = input.take(size)?;
            let checksum = input.u32()?;
            if number == asked {
                found = Some((bin, checksum));
            }
            number += 1;
        }
        let (bin, checksum) = found.ok_or(Refusal::NoBin)?;
        let (magic, content) = bin.split_at(4);
        let magic = magic.try_into().expect("4 bytes");
        Ok(Bin { magic, content, checksum_holds: crc32(bin) == checksum })
    }

    fn kind(&self) -> Result<Kind, Refusal> {
        if self.magic == BIN_MAGIC.to_be_bytes() {
            Ok(Kind::Bitmap32)
        } else if self.magic == BIN_MAGIC_64.to_le_bytes() {
            Ok(Kind::Bitmap64)
        } else {
            Err(Refusal::Magic)
        }
    }

    /// What stands behind the magic, if the checksum holds.
    fn checked(&self) -> Result<&'a [u8], Refusal> {
        if !self.checksum_holds {
            return Err(Refusal::Checksum);
        }
        Ok(self.content)
    }

    /// The one bitmap of a 32-bit bin.
    fn bitmap_32(&self) -> Result<Bitmap<'a>, Refusal> {
        Bitmap::parse_whole(self.checked()?).map_err(|broken| bitmap_refusal(BIN_ENTRY, broken))
    }
}

// Subtract

fn try_subtract(first: &mut [u8], second: &[u8], rows: u64) -> Result<(u64, u64), Refusal> {
    if rows > MAX {
        return Err(Refusal::Limit);
    }
    let first = field_for(rows, first)?;
    let second = second.get(..first.len()).ok_or(Refusal::Room)?;

    // Bits of the last byte that stand for no row stay as they are and aren't counted.
    let whole = (rows / 8) as usize;
    let (first, first_end) = first.split_at_mut(whole);
    let (second, second_end) = second.split_at(whole);
    let mut left = 0;
    let mut removed = 0;
    let mut first_words = first.chunks_exact_mut(8);
    let mut second_words = second.chunks_exact(8);
    for (first, second) in first_words.by_ref().zip(second_words.by_ref()) {
        let a = u64::from_le_bytes((&*first).try_into().expect("chunks of 8 bytes"));
        let b = u64::from_le_bytes(second.try_into().expect("chunks of 8 bytes"));
        left += u64::from((a & !b).count_ones());
        removed += u64::from((a & b).count_ones());
        first.copy_from_slice(&(a & !b).to_le_bytes());
    }
    let mut clear = |first: &mut u8, second: u8, of: u8| {
        removed += u64::from((*first & second & of).count_ones());
        *first &= !(second & of);
        left += u64::from((*first & of).count_ones());
    };
    for (first, second) in first_words.into_remainder().iter_mut().zip(second_words.remainder()) {
        clear(first, *second, 0xFF);
    }
    if let ([first], [second]) = (first_end, second_end) {
        clear(first, *second, 0xFF >> (8 - rows % 8));
    }
    Ok((left, removed))
}

fn try_subtract_record(first: &mut [u8], second: &[u8], record: Record) -> Result<(Record, u64), Refusal> {
    let (matched, removed) = try_subtract(first, second, record.rows)?;
    let deleted = (0..record.rows).filter(|row| second[(row / 8) as usize] >> (row % 8) & 1 == 1).count() as u64;
    Ok((Record { deleted, matched, ..record }, removed))
}

/// Bytes read from the front; every read past the end is SHORT.
struct Input<'a> {
    bytes: &'a [u8],
    at: usize,
}

impl<'a> Input<'a> {
    fn new(bytes: &'a [u8]) -> Input<'a> {
        Input { bytes, at: 0 }
    }

    fn is_empty(&self) -> bool {
        self.at == self.bytes.len()
    }

    fn rest(&self) -> &'a [u8] {
        &self.bytes[self.at..]
    }

    #[inline(always)]
    fn take(&mut self, count: usize) -> Result<&'a [u8], Refusal> {
        let taken = self.rest().get(..count).ok_or(Refusal::Short)?;
        self.at += count;
        Ok(taken)
    }

    fn array<const N: usize>(&mut self) -> Result<[u8; N], Refusal> {
        Ok(self.take(N)?.try_into().expect("N bytes were taken"))
    }

    fn u8(&mut self) -> Result<u8, Refusal> {
        Ok(u8::from_be_bytes(self.array()?))
    }

    fn u32(&mut self) -> Result<u32, Refusal> {
        Ok(u32::from_be_bytes(self.array()?))
    }

    fn u64(&mut self) -> Result<u64, Refusal> {
        Ok(u64::from_be_bytes(self.array()?))
    }

    fn i32(&mut self) -> Result<i32, Refusal> {
        Ok(i32::from_be_bytes(self.array()?))
    }

    /// A number that may not be negative.
    fn count(&mut self) -> Result<usize, Refusal> {
        usize::try_from(self.i32()?).map_err(|_| Refusal::Dict)
    }

    /// A number that may neither pass its limit nor be negative.
    #[inline(always)]
    fn count_up_to(&mut self, limit: i32) -> Result<usize, Refusal> {
        let number = self.i32()?;
        if number > limit {
            return Err(Refusal::Limit);
        }
        usize::try_from(number).map_err(|_| Refusal::Dict)
    }

    /// A name of an index file's head: 2 bytes of length and its bytes.
    fn name(&mut self) -> Result<&'a [u8], Refusal> {
        let length = u16::from_be_bytes(self.array()?);
        self.take(usize::from(length))
    }

    /// A value in stored form. A string is handed back without its length.
    #[inline(always)]
    fn value(&mut self, ty: u32, width: Width) -> Result<&'a [u8], Refusal> {
        match width {
            Width::Counted => {
                let length = self.count_up_to(MAX_STRING)?;
                self.take(length)
            }
            Width::Fixed(bytes) => {
                let value = self.take(bytes)?;
                if ty == types::BOOLEAN && value[0] > 1 {
                    return Err(Refusal::Dict);
                }
                Ok(value)
            }
        }
    }
}
