//! Random columns, layouts, names, questions of both editions, windows and damage, repeated by a seed.

use std::collections::HashSet;

use crate::names::{modified, IMPROPER};
use crate::record::Record;
use crate::types::{self, Width};
use crate::writer::{
    bitmap_traced, deletion_file_traced, BitmapForm, ByteOrder, Column, ContainerForm, Content, Field, FileLayout, Groups, Index,
    IndexedColumn, Layout, Length, Place, Traced,
};

mod windows;

pub use windows::{bitmaps_of, file_of_bins, rows_64, window, window_past_a_limit, ListedRows};

/// Random numbers from a seed (splitmix64).
#[derive(Clone, Debug)]
pub struct Random {
    state: u64,
}

impl Random {
    pub fn new(seed: u64) -> Random {
        Random { state: seed }
    }

    pub fn number(&mut self) -> u64 {
        self.state = self.state.wrapping_add(0x9E37_79B9_7F4A_7C15);
        let mut z = self.state;
        z = (z ^ (z >> 30)).wrapping_mul(0xBF58_476D_1CE4_E5B9);
        z = (z ^ (z >> 27)).wrapping_mul(0x94D0_49BB_1331_11EB);
        z ^ (z >> 31)
    }

    /// A number below `end`, which isn't 0.
    pub fn below(&mut self, end: usize) -> usize {
        (self.number() % end as u64) as usize
    }

    /// A number from `first` to `last`.
    pub fn between(&mut self, first: usize, last: usize) -> usize {
        first + self.below(last - first + 1)
    }

    pub fn percent(&mut self, percent: usize) -> bool {
        self.below(100) < percent
    }

    pub fn pick<'a, T>(&mut self, from: &'a [T]) -> &'a T {
        &from[self.below(from.len())]
    }

    pub fn bytes(&mut self, count: usize) -> Vec<u8> {
        (0..count).map(|_| self.number() as u8).collect()
    }

    pub fn shuffle<T>(&mut self, items: &mut [T]) {
        for i in (1..items.len()).rev() {
            items.swap(i, self.below(i + 1));
        }
    }
}

// Columns

/// A number of rows: mostly few, at times about 4,096, and rarely several containers of 65,536.
pub fn row_count(random: &mut Random) -> usize {
    match random.below(1000) {
        0..=29 => 0,
        30..=79 => 1,
        80..=499 => random.between(2, 16),
        500..=809 => random.between(17, 100),
        810..=939 => random.between(101, 1000),
        940..=974 => random.between(1001, 5000),
        975..=987 => *random.pick(&[4095, 4096, 4097, 8191, 8192, 8193, 8194]),
        988..=994 => random.between(5001, 20000),
        995..=997 => random.between(65530, 65545),
        _ => random.between(65546, 4 * 65536 + 9),
    }
}

/// A value of the type, strings of at most `longest` bytes.
pub fn value(random: &mut Random, ty: u32, longest: usize) -> Vec<u8> {
    match types::WIDTHS[ty as usize] {
        _ if ty == types::BOOLEAN => vec![random.below(2) as u8],
        Width::Fixed(width) => {
            let number = match random.below(4) {
                0 => random.between(0, 6) as i64 - 3,
                1 => *random.pick(&[i64::MIN, i64::MIN + 1, i64::MAX, i64::MAX - 1, -1, 0]),
                2 => random.between(0, 600) as i64 - 300,
                _ => random.number() as i64,
            };
            // An extreme of 8 bytes keeps its sign and becomes the extreme of the width.
            let shift = if matches!(number, i64::MIN | i64::MAX) { 64 - 8 * width } else { 0 };
            (number >> shift).to_be_bytes()[8 - width..].to_vec()
        }
        Width::Counted => {
            let length = match random.below(40) {
                0..=2 => 0,
                3..=9 => 1,
                10..=29 => random.between(2, 8),
                30..=37 => random.between(9, 40),
                38 => random.between(250, 300),
                _ => *random.pick(&[65535, 65534, 32768, 1000]),
            };
            let length = length.min(longest);
            match random.below(4) {
                0 => (0..length).map(|_| *random.pick(b"ab")).collect(),
                1 => (0..length).map(|_| *random.pick(&[0x00, 0x7F, 0x80, 0xFF])).collect(),
                2 => {
                    let text = "grüße, 泵, насос, 🛢 and more ".repeat(length / 30 + 1);
                    text.as_bytes()[..length].to_vec()
                }
                _ => random.bytes(length),
            }
        }
    }
}

/// Up to that many distinct values.
fn distinct_values(random: &mut Random, ty: u32, number: usize, longest: usize) -> Vec<Vec<u8>> {
    let mut seen = HashSet::new();
    let mut values = Vec::new();
    for _ in 0..2 * number + 4 {
        let value = value(random, ty, longest);
        if values.len() < number && seen.insert(value.clone()) {
            values.push(value);
        }
    }
    values
}

/// A column of a random type.
pub fn column(random: &mut Random) -> Column {
    let ty = random.below(types::WIDTHS.len()) as u32;
    let rows = row_count(random);
    column_of(random, ty, rows)
}

/// A column of many values, most of them in few rows.
pub fn column_of_many(random: &mut Random) -> Column {
    let ty = random.below(types::WIDTHS.len()) as u32;
    let number = match random.below(20) {
        0..=15 => random.between(30, 120),
        16..=18 => random.between(121, 800),
        _ => random.between(801, 4096),
    };
    let rows = random.between(number, 2 * number);
    column_with(random, ty, rows, number)
}

/// A column of that type and number of rows.
pub fn column_of(random: &mut Random, ty: u32, rows: usize) -> Column {
    let number = match random.below(10) {
        0..=1 => 1,
        2..=6 => random.between(2, 10),
        7..=8 => random.between(2, 60),
        _ => random.between(1, rows.clamp(1, 1500)),
    };
    column_with(random, ty, rows, number)
}

/// A column of at most that many values: scattered, in runs, in pieces, in turn, or one prevailing.
fn column_with(random: &mut Random, ty: u32, rows: usize, number: usize) -> Column {
    let longest = if rows <= 20 { 65535 } else { 40 };
    let values = distinct_values(random, ty, number, longest);
    let null_percent = *random.pick(&[0, 0, 0, 0, 1, 10, 50, 95, 100]);
    let pieces = random.between(1, 12);
    let longest_run = random.between(1, rows / 3 + 2);
    let shape = random.below(6);
    let prevailing_rows = *random.pick(&[4095, 4096, 4097]);

    let mut cells = Vec::with_capacity(rows);
    while cells.len() < rows {
        let row = cells.len();
        let (which, run) = match shape {
            0 => (random.below(values.len()), 1),
            1 => (random.below(values.len()), random.between(1, longest_run)),
            2 => (row * pieces / rows % values.len(), 1),
            3 => (row % values.len(), 1),
            4 => (random.below(values.len()) * usize::from(random.percent(5)), 1),
            _ => {
                let others = random.below(values.len());
                (if row < prevailing_rows { 0 } else { others }, 1)
            }
        };
        let cell = (!random.percent(null_percent)).then(|| values[which].clone());
        for _ in 0..run.min(rows - row) {
            cells.push(cell.clone());
        }
    }
    if shape == 5 && null_percent < 50 {
        // The prevailing value's rows lie anywhere, so that arrays and bits at the boundary aren't runs.
        random.shuffle(&mut cells);
    }
    Column::new(ty, cells)
}

// Layouts

/// Rising rows below `end`, in one of many shapes.
pub fn row_set(random: &mut Random, end: u32) -> Vec<u32> {
    if end == 0 {
        return Vec::new();
    }
    let count = match random.below(8) {
        0 => 0,
        1 => 1,
        2 => random.between(1, 10),
        3 => return (0..end).filter(|_| random.percent(50)).collect(),
        4 => return (0..end).collect(),
        5 => {
            let percent = random.between(1, 20);
            let mut within = false;
            let mut rows = Vec::new();
            for row in 0..end {
                within ^= random.percent(percent);
                if within {
                    rows.push(row);
                }
            }
            return rows;
        }
        6 => *random.pick(&[4095, 4096, 4097]),
        _ => random.between(1, 300),
    };
    let mut rows: Vec<u32> = (0..count).map(|_| random.below(end as usize) as u32).collect();
    if count > 4000 && end as usize > 2 * count {
        // Exactly that many in the first container.
        let step = (end as usize).min(65536) / count;
        rows = (0..count).map(|i| (i * step) as u32).collect();
    }
    rows.sort_unstable();
    rows.dedup();
    rows
}

/// Rows of several containers, and few values that have them in stretches, long and short, or scattered.
pub fn wide_groups(random: &mut Random) -> Groups {
    let rows = random.between(65537, 4 * 65536 + 9) as u32;
    let number = random.between(1, 4);
    let mut of: Vec<Vec<u32>> = vec![Vec::new(); number + 1];
    let mut row = 0;
    while row < rows {
        let longest = *random.pick(&[3, 100, 5_000, 70_000]);
        let end = rows.min(row + random.between(1, longest) as u32);
        let (owner, scattered) = (random.below(number + 1), random.percent(30));
        for row in row..end {
            let owner = if scattered && random.percent(10) { random.below(number + 1) } else { owner };
            of[owner].push(row);
        }
        row = end;
    }
    let nulls = of.pop().expect("an owner more than values");
    let values = of.into_iter().enumerate().map(|(i, rows)| (vec![i as u8], rows)).collect();
    Groups { ty: types::TINYINT, rows, nulls, values }
}

/// A form for a bitmap of these rows.
pub fn bitmap_form(random: &mut Random, rows: &[u32]) -> BitmapForm {
    match random.below(4) {
        0 => BitmapForm::WithoutRuns,
        1 => BitmapForm::Smallest,
        _ => {
            let runs_percent = *random.pick(&[0, 50, 100]);
            let cut_percent = *random.pick(&[0, 0, 2, 30, 100]);
            let forms = rows
                .chunk_by(|a, b| a >> 16 == b >> 16)
                .map(|rows| {
                    if !random.percent(runs_percent) {
                        return ContainerForm::Values;
                    }
                    let cuts = if cut_percent == 0 {
                        Vec::new()
                    } else {
                        rows.iter().filter(|_| random.percent(cut_percent)).map(|row| *row as u16).collect()
                    };
                    ContainerForm::Runs { cuts }
                })
                .collect();
            BitmapForm::WithRuns(forms)
        }
    }
}

fn gap(random: &mut Random) -> Vec<u8> {
    match random.below(6) {
        0 => {
            let count = random.between(1, 20);
            random.bytes(count)
        }
        // A bitmap of no rows: an entry of none that uses bytes again may lie here.
        1 => bitmap_traced(&[], &BitmapForm::WithoutRuns).bytes,
        _ => Vec::new(),
    }
}

/// A layout permitted for these groups.
pub fn layout(random: &mut Random, groups: &Groups) -> Layout {
    let number = groups.values.len();
    let version = if number > 4096 { 2 } else { random.between(1, 2) as u8 };
    let mut order: Vec<usize> = (0..number).collect();
    if random.percent(60) {
        random.shuffle(&mut order);
    }
    let mut bitmap_order: Vec<usize> = (0..=number).collect();
    if random.percent(60) {
        random.shuffle(&mut bitmap_order);
    }
    let blocks = match random.below(3) {
        0 => Vec::new(),
        1 => vec![random.between(1, 9)],
        _ => {
            let longest = random.between(1, number.max(1));
            (0..number).map(|_| random.between(1, longest)).collect()
        }
    };
    let single_percent = *random.pick(&[0, 50, 100, 100]);
    let reuse_percent = if groups.rows <= 300 { *random.pick(&[0, 50, 100]) } else { 0 };
    let places = (0..=number)
        .map(|i| {
            let rows = match i {
                0 => &groups.nulls,
                _ => &groups.values[i - 1].1,
            };
            let single = random.percent(single_percent);
            let length = match random.below(3) {
                0 => Length::Open,
                1 => Length::Exact,
                _ if rows.len() == 1 && single => Length::Stored(random.number() as i32),
                _ => Length::Exact,
            };
            Place { form: bitmap_form(random, rows), single, length, reuse: random.percent(reuse_percent) }
        })
        .collect();
    let gaps = match random.below(3) {
        0 => (0..=number).map(|_| gap(random)).collect(),
        _ => Vec::new(),
    };
    let tail = gap(random);
    Layout { always_null: random.percent(20), order, blocks, places, bitmap_order, gaps, tail, ..Layout::version(version) }
}

/// Adds values that no row has, as far as the number of values allows.
pub fn add_unused_values(random: &mut Random, groups: &mut Groups) {
    for _ in 0..*random.pick(&[0, 0, 0, 1, 2, 7]) {
        if groups.values.len() < 4096 {
            let value = value(random, groups.ty, 40);
            groups.add_unused(value);
        }
    }
}

// Index files

/// The first and last characters of each length: one to four bytes in standard UTF-8, but zero two and those above U+FFFF six in
/// modified form. And what is next to the surrogates, or where the first of two changes.
pub const EDGES: [char; 14] = [
    '\u{0}',
    '\u{1}',
    '\u{7F}',
    '\u{80}',
    '\u{7FF}',
    '\u{800}',
    '\u{D7FF}',
    '\u{E000}',
    '\u{FFFF}',
    '\u{10000}',
    '\u{103FF}',
    '\u{10400}',
    '\u{1F525}',
    '\u{10FFFF}',
];

/// A character: mostly one of the edges, else a letter or any.
fn character(random: &mut Random) -> char {
    match random.below(10) {
        0..=6 => *random.pick(&EDGES),
        7 => *random.pick(&['a', 'b']),
        // A surrogate is no character.
        _ => char::from_u32(random.below(char::MAX as usize + 1) as u32).unwrap_or('\u{FFFD}'),
    }
}

/// A name of a column or kind: often one that others have too.
pub fn name(random: &mut Random) -> String {
    match random.below(12) {
        0 => "state".to_string(),
        1 => "bitmap".to_string(),
        2 => "bsi".to_string(),
        3 => "Füllstand 水位".to_string(),
        4 => String::new(),
        5 => "s".to_string(),
        6 => (0..random.between(1, 3)).map(|_| *random.pick(&['a', 'b'])).collect(),
        7 => random.pick(&EDGES).to_string(),
        8..=10 => (0..random.between(1, 5)).map(|_| character(random)).collect(),
        _ => {
            let length = random.between(0, 300);
            (0..length).map(|_| *random.pick(&['a', 'b', 'c', 'd', 'e', 'f', 'g', 'h'])).collect()
        }
    }
}

/// The most bytes of a name in modified form.
const LONGEST_NAME: usize = 65_535;

/// A name of the most bytes in modified form, or a few less: one character again and again, and letters.
pub fn long_name(random: &mut Random) -> String {
    let repeated = character(random).to_string();
    let width = modified(&repeated).len();
    let length = LONGEST_NAME - random.below(4);
    let mut name = repeated.repeat(length / width);
    let at = if random.percent(50) { 0 } else { name.len() };
    name.insert_str(at, &"n".repeat(length % width));
    name
}

/// The names of a column and a kind. One name in 200 is a long one, which takes long to read.
pub fn names(random: &mut Random) -> [String; 2] {
    [(); 2].map(|()| if random.below(200) == 0 { long_name(random) } else { name(random) })
}

/// Bytes that standard UTF-8 doesn't have, each wrong for one reason.
pub const NOT_UTF8: [&[u8]; 29] = [
    // Overlong: the least and the greatest character in each length that is one too many.
    &[0xC0, 0x80],
    &[0xC1, 0xBF],
    &[0xE0, 0x80, 0x80],
    &[0xE0, 0x9F, 0xBF],
    &[0xF0, 0x80, 0x80, 0x80],
    &[0xF0, 0x8F, 0xBF, 0xBF],
    // Surrogates, alone and as a pair.
    &[0xED, 0xA0, 0x80],
    &[0xED, 0xAF, 0xBF],
    &[0xED, 0xB0, 0x80],
    &[0xED, 0xBF, 0xBF],
    &[0xED, 0xA0, 0xBD, 0xED, 0xB4, 0xA5],
    // What is left of characters of two, three and four bytes.
    &[0xC2],
    &[0xDF],
    &[0xE0],
    &[0xE0, 0xA0],
    &[0xEF, 0xBF],
    &[0xED],
    &[0xF0],
    &[0xF0, 0x90],
    &[0xF4, 0x8F, 0xBF],
    // Above 10FFFF, and bytes that begin no character.
    &[0xF4, 0x90, 0x80, 0x80],
    &[0xF5, 0x80, 0x80, 0x80],
    &[0xF7, 0xBF, 0xBF, 0xBF],
    &[0xF8, 0x88, 0x80, 0x80, 0x80],
    &[0xFE],
    &[0xFF],
    // A stray continuation byte.
    &[0x80],
    &[0xBF],
    &[0xC2, 0x80, 0x80],
];

/// Bytes that aren't standard UTF-8: the name's with others between two characters, or those of its modified form.
pub fn not_utf8(random: &mut Random, name: &str) -> Vec<u8> {
    let stored = modified(name);
    if std::str::from_utf8(&stored).is_err() && random.percent(30) {
        return stored;
    }
    let mut bytes = name.as_bytes().to_vec();
    let mut at = random.below(name.len() + 1);
    while !name.is_char_boundary(at) {
        at -= 1;
    }
    bytes.splice(at..at, random.pick(&NOT_UTF8).iter().copied());
    bytes
}

/// The name and so many letters that its modified form is too long by one to three bytes.
pub fn too_long(random: &mut Random, name: &str) -> String {
    let missing = LONGEST_NAME + random.between(1, 3) - modified(name).len();
    name.to_string() + &"n".repeat(missing)
}

/// What a caller asks for: mostly the name, also another, one that begins as it does, too long a one, and bytes that aren't standard UTF-8.
pub fn asked_name(random: &mut Random, name: &str) -> Vec<u8> {
    match random.below(200) {
        0..=15 => self::name(random).into_bytes(),
        16..=19 => (name.to_string() + &character(random).to_string()).into_bytes(),
        20..=23 => {
            let mut shorter = name.to_string();
            shorter.pop();
            shorter.into_bytes()
        }
        24 => too_long(random, name).into_bytes(),
        25..=37 => not_utf8(random, name),
        _ => name.as_bytes().to_vec(),
    }
}

/// Stored bytes that aren't the name: one of the improper forms if it has such, or a byte changed, lost or added.
pub fn improper(random: &mut Random, name: &str) -> Vec<u8> {
    let form = random.pick(&IMPROPER).of(name).filter(|_| random.percent(85));
    form.unwrap_or_else(|| {
        let mut bytes = modified(name);
        if bytes.is_empty() {
            return vec![0; random.between(1, 2)];
        }
        let at = random.below(bytes.len());
        match random.below(6) {
            0 => drop(bytes.remove(at)),
            1 if bytes.len() < LONGEST_NAME => bytes.push(*random.pick(&[0x00, 0x80, b'a'])),
            _ => bytes[at] ^= 1 << random.below(8),
        }
        bytes
    })
}

/// An index file in which the asked column and kind stand once with this body, in modified form, among other columns and kinds
/// whose starts and lengths may be anything.
pub fn index_file(random: &mut Random, column: &str, kind: &str, body: &[u8]) -> (Vec<IndexedColumn>, FileLayout) {
    let (column, kind) = (modified(column), modified(kind));
    let mut columns: Vec<IndexedColumn> = (0..*random.pick(&[0, 0, 1, 2, 5]))
        .map(|_| {
            let name = modified(&name(random));
            other_column(random, name)
        })
        .filter(|other| other.name != column)
        .collect();
    let mut asked = other_column(random, column);
    asked.indexes.retain(|index| index.kind != kind);
    let index = Index { kind, content: Content::Body(body.to_vec()) };
    let at = random.between(0, asked.indexes.len());
    asked.indexes.insert(at, index);
    let at = random.between(0, columns.len());
    columns.insert(at, asked);

    let bodies =
        columns.iter().flat_map(|column| &column.indexes).filter(|index| matches!(index.content, Content::Body(_))).count();
    let mut body_order: Vec<usize> = (0..bodies).collect();
    random.shuffle(&mut body_order);
    let redundant = gap(random);
    let gaps = (0..bodies).map(|_| gap(random)).collect();
    let tail = gap(random);
    (columns, FileLayout { redundant, body_order, gaps, tail })
}

fn other_column(random: &mut Random, name_of: Vec<u8>) -> IndexedColumn {
    let indexes = (0..random.below(4))
        .map(|_| {
            let kind = modified(&name(random));
            other_index(random, kind)
        })
        .collect();
    IndexedColumn { name: name_of, indexes }
}

fn other_index(random: &mut Random, kind: Vec<u8>) -> Index {
    let content = if random.percent(50) {
        let count = random.below(30);
        Content::Body(random.bytes(count))
    } else {
        Content::At { start: random.number() as i32, length: random.number() as i32 }
    };
    Index { kind, content }
}

/// Lists columns, and kinds in the asked column, under names that are nearly the asked ones: they are no second listing of these.
pub fn add_improper(random: &mut Random, columns: &mut Vec<IndexedColumn>, column: &str, kind: &str) {
    let (stored_column, stored_kind) = (modified(column), modified(kind));
    for _ in 0..*random.pick(&[0, 0, 1, 3]) {
        let name = improper(random, column);
        let mut other = other_column(random, name);
        if random.percent(50) {
            other.indexes.push(other_index(random, stored_kind.clone()));
        }
        let at = random.between(0, columns.len());
        columns.insert(at, other);
    }
    for asked in columns.iter_mut().filter(|other| other.name == stored_column) {
        for _ in 0..*random.pick(&[0, 0, 1, 3]) {
            let name = improper(random, kind);
            let other = other_index(random, name);
            let at = random.between(0, asked.indexes.len());
            asked.indexes.insert(at, other);
        }
    }
}

/// Stores the asked column's name, or the asked kind's in it, in another form, so that it is listed no more.
pub fn store_improperly(random: &mut Random, columns: &mut [IndexedColumn], column: &str, kind: &str) {
    let (stored_column, stored_kind) = (modified(column), modified(kind));
    for asked in columns.iter_mut().filter(|other| other.name == stored_column) {
        if random.percent(50) {
            asked.name = improper(random, column);
            continue;
        }
        for index in asked.indexes.iter_mut().filter(|index| index.kind == stored_kind) {
            index.kind = improper(random, kind);
        }
    }
}

/// Lists the asked column twice, or the asked kind twice in it.
pub fn list_twice(random: &mut Random, columns: &mut Vec<IndexedColumn>, column: &str) {
    let column = modified(column);
    let Some(at) = columns.iter().position(|other| other.name == column) else {
        return;
    };
    let copy = columns[at].clone();
    match random.below(3) {
        0 => columns.push(copy),
        1 => columns.push(IndexedColumn { name: column, indexes: Vec::new() }),
        _ => {
            let again = random.pick(&copy.indexes).clone();
            columns[at].indexes.push(again);
        }
    }
}

// Bitmaps in which at most a little is wrong

/// A bitmap whose counts and offsets fit its containers, as a rule. Keys may be equal, rows out of order, runs overlapping
/// or too long, cardinalities, offsets and flags wrong, each now and then.
pub fn near_bitmap(random: &mut Random) -> Vec<u8> {
    /// Containers whose flags fill two bytes and a part of a third.
    const MANY: usize = 20;
    let with_runs = random.percent(60);
    let count = if random.percent(5) { MANY } else { random.between(1, 6) };
    let fault = *random.pick(&[0, 1, 4]);
    let mut key = random.below(3) as u16;
    let mut flags = vec![0u8; count.div_ceil(8)];
    let mut headers: Vec<u8> = Vec::new();
    let mut containers: Vec<Vec<u8>> = Vec::new();
    for i in 0..count {
        let (mut cardinality, bytes) = match random.below(5) {
            0..=1 if with_runs => {
                flags[i / 8] |= 1 << (i % 8);
                near_runs(random, fault)
            }
            2 => near_bits(random, fault),
            _ => near_array(random, fault),
        };
        if random.percent(fault) {
            cardinality = *random.pick(&[cardinality.wrapping_add(1), cardinality.wrapping_sub(1), 4096, 4097, 0]);
        }
        headers.extend(key.to_le_bytes());
        headers.extend((cardinality.wrapping_sub(1) as u16).to_le_bytes());
        containers.push(bytes);
        key = if random.percent(fault) { key.saturating_sub(random.below(2) as u16) } else { key + random.between(1, 2) as u16 };
    }
    if random.percent(fault) {
        let flag = random.below(8 * flags.len());
        flags[flag / 8] |= 1 << (flag % 8);
    }

    let mut out: Vec<u8> = Vec::new();
    if with_runs {
        out.extend((12347 | (count as u32 - 1) << 16).to_le_bytes());
        out.extend(&flags);
    } else {
        out.extend(12346u32.to_le_bytes());
        out.extend((count as u32).to_le_bytes());
    }
    out.extend(&headers);
    if !with_runs || count >= 4 {
        let mut at = out.len() + 4 * count;
        for container in &containers {
            let wrong = if random.percent(fault) { random.between(1, 2) } else { 0 };
            out.extend(((at + wrong) as u32).to_le_bytes());
            at += container.len();
        }
    }
    out.extend(containers.concat());
    if random.percent(fault) {
        out.pop();
    }
    if random.percent(fault) {
        out.push(0);
    }
    out
}

/// The cardinality of some runs and the container's bytes.
fn near_runs(random: &mut Random, fault: usize) -> (u32, Vec<u8>) {
    let number = if random.percent(fault) { 0 } else { random.between(1, 5) };
    let mut bytes = (number as u16).to_le_bytes().to_vec();
    let mut cardinality = 0;
    let mut next = random.below(3);
    for i in 0..number {
        let start = if random.percent(fault) { next.saturating_sub(1) } else { next + *random.pick(&[0, 0, 1, 9000]) };
        let left = 65536usize.saturating_sub(start).max(1);
        // The last run may reach the container's end, and with a fault pass it by one row.
        let length = if i == number - 1 && random.percent(40) {
            left + usize::from(random.percent(4 * fault))
        } else {
            random.between(1, left.min(50))
        };
        bytes.extend((start as u16).to_le_bytes());
        bytes.extend(((length - 1) as u16).to_le_bytes());
        cardinality += length as u32;
        next = start + length;
    }
    (cardinality, bytes)
}

fn near_array(random: &mut Random, fault: usize) -> (u32, Vec<u8>) {
    let number = *random.pick(&[1, 2, 3, 10, 4095, 4096, 4097]);
    let step = 65535 / number as u32;
    let mut values: Vec<u16> = (0..number as u32).map(|i| (i * step) as u16 + random.below(step as usize) as u16).collect();
    if number > 1 && random.percent(4 * fault) {
        let at = random.below(number - 1);
        values[at + 1] = values[at];
    }
    // An array of more than 4,096 rows is promised as bits by its cardinality, and so is a fault of its own.
    if number > 4096 && !random.percent(fault) {
        values.truncate(4096);
    }
    (values.len() as u32, values.iter().flat_map(|value| value.to_le_bytes()).collect())
}

fn near_bits(random: &mut Random, fault: usize) -> (u32, Vec<u8>) {
    let mut bits = vec![0u8; 8192];
    let rows = if random.percent(fault) { 4096 } else { random.between(4097, 6000) };
    let mut cardinality = 0;
    while cardinality < rows as u32 {
        let row = random.below(65536);
        let bit = 1 << (row % 8);
        cardinality += u32::from(bits[row / 8] & bit == 0);
        bits[row / 8] |= bit;
    }
    (cardinality, bits)
}

// Deletion files

/// A deletion file, and the rows of each of its bins, all below `rows`.
pub fn deletion_file(random: &mut Random, rows: u32) -> (Traced, Vec<Vec<u32>>) {
    let bins: Vec<Vec<u32>> = (0..*random.pick(&[0, 1, 1, 2, 3, 6])).map(|_| row_set(random, rows)).collect();
    let bitmaps: Vec<Traced> = bins.iter().map(|rows| bitmap_traced(rows, &bitmap_form(random, rows))).collect();
    (deletion_file_traced(&bitmaps), bins)
}

// Questions

/// A well-formed question on a column of these groups, in either edition: its number and literals.
pub fn question(random: &mut Random, groups: &Groups) -> (u32, Vec<Vec<u8>>) {
    let question = random.below(6) as u32;
    let number = match question {
        types::EQUAL | types::NOT_EQUAL => 1,
        types::IN | types::NOT_IN => match random.below(20) {
            0..=1 => 0,
            2..=5 => 1,
            6..=15 => random.between(2, 6),
            16..=17 => random.between(7, 50),
            18 => random.between(51, 300),
            _ if groups.rows <= 2000 => *random.pick(&[1023, 1024]),
            _ => 70,
        },
        _ => 0,
    };
    // Many literals are to be many values, and not few of them many times.
    let mut values: Vec<&Vec<u8>> = groups.values.iter().map(|(value, _)| value).collect();
    random.shuffle(&mut values);
    let mut unused = values.into_iter().filter(|value| number > 6 && value.len() <= 1000);
    let literals = (0..number).map(|_| match unused.next() {
        Some(value) if random.percent(80) => value.clone(),
        _ => literal(random, groups),
    });
    (question, literals.collect())
}

/// A literal: mostly a value of the groups, also its neighbours and any other.
pub fn literal(random: &mut Random, groups: &Groups) -> Vec<u8> {
    if groups.values.is_empty() || random.percent(25) {
        return value(random, groups.ty, 40);
    }
    let mut literal = random.pick(&groups.values).0.clone();
    if literal.len() > 1000 && random.percent(95) {
        literal.truncate(1000);
    }
    if random.percent(20) && groups.ty != types::BOOLEAN {
        match literal.last_mut() {
            Some(last) => *last = last.wrapping_add(1),
            None if types::is_string(groups.ty) => literal.push(0),
            None => {}
        }
    }
    literal
}

/// One of the two editions.
pub fn edition(random: &mut Random) -> u32 {
    *random.pick(&types::EDITIONS)
}

/// A number that is no edition's: next to theirs, theirs in the low bits with others set, or any.
pub fn unknown_edition(random: &mut Random) -> u32 {
    const UNKNOWN: [u32; 15] = [
        0,
        3,
        4,
        255,
        256,
        257,
        258,
        65_537,
        65_538,
        (1 << 31) - 1,
        1 << 31,
        (1 << 31) + 1,
        (1 << 31) + 2,
        u32::MAX - 1,
        u32::MAX,
    ];
    let any = random.number() as u32;
    if random.percent(20) && !types::EDITIONS.contains(&any) {
        return any;
    }
    *random.pick(&UNKNOWN)
}

/// As [`edition`], but at times an unknown one.
pub fn edition_or_unknown(random: &mut Random) -> u32 {
    if random.percent(8) {
        unknown_edition(random)
    } else {
        edition(random)
    }
}

/// A type, an edition, a question and literals of which at least one is likely not to fit the others.
pub fn misfit_question(random: &mut Random, groups: &Groups) -> (u32, u32, u32, Vec<u8>) {
    let mut ty = groups.ty;
    // An unknown edition alone, and together with each of the other faults. It goes before LIMIT of literals, which are then more often
    // too many.
    let known = random.percent(75);
    let edition = if known { edition(random) } else { unknown_edition(random) };
    let (mut question, mut values) = question(random, groups);
    let many = random.percent(if known { 20 } else { 50 });
    if many {
        let literal = match types::WIDTHS[ty as usize] {
            Width::Fixed(_) => value(random, ty, 40),
            Width::Counted => value(random, ty, 3),
        };
        values = vec![literal; random.between(1023, 1025)];
    }
    let mut literals = types::literals(ty, &values);
    for _ in 0..random.between(usize::from(known), 2) {
        match random.below(9) {
            0 => ty = *random.pick(&[12, 13, 255, 256, 259, 65543, 1 << 31, u32::MAX]),
            1 => question = *random.pick(&[6, 7, 255, 256, 258, 65538, 1 << 31, u32::MAX]),
            2 => question = random.below(6) as u32,
            3 => ty = random.below(types::WIDTHS.len()) as u32,
            4 => literals.truncate(literals.len().saturating_sub(random.between(1, 9))),
            5 => {
                let count = random.between(1, 9);
                literals.extend(random.bytes(count));
            }
            6 => {
                let length = *random.pick(&[65535, 65536, 65537, u32::MAX, 1 << 31, 0x7FFF_FFFF]);
                let at = if random.percent(50) { 0 } else { literals.len() };
                let mut string = length.to_be_bytes().to_vec();
                if length <= 65537 && random.percent(40) {
                    string.resize(4 + length as usize - usize::from(random.percent(30)), b'x');
                }
                literals.splice(at..at, string);
            }
            7 if !literals.is_empty() => {
                let at = random.below(literals.len());
                literals[at] = random.number() as u8;
            }
            _ => literals.push(*random.pick(&[0, 1, 2, 255])),
        }
    }
    (ty, edition, question, literals)
}

// Damage

/// Breaks what a body says: a row lost, doubled, moved or too high, values doubled or in the wrong order.
pub fn break_groups(random: &mut Random, groups: &mut Groups) {
    let number = groups.values.len();
    let extra = match random.below(3) {
        0 => groups.rows,
        1 => random.below(groups.rows as usize + 1) as u32,
        _ => *random.pick(&[65535, 65536, 1 << 24, i32::MAX as u32, 1 << 31, u32::MAX]),
    };
    match random.below(8) {
        0 => {
            let rows = some_rows(random, groups);
            if !rows.is_empty() {
                rows.remove(random.below(rows.len()));
            }
        }
        1 | 2 => {
            let rows = some_rows(random, groups);
            if let Err(at) = rows.binary_search(&extra) {
                rows.insert(at, extra);
            }
        }
        3 => groups.rows += 1,
        4 => groups.rows = groups.rows.saturating_sub(1),
        5 if number > 0 => {
            let value = random.pick(&groups.values).0.clone();
            groups.values[random.below(number)].0 = value;
        }
        6 if number > 1 => {
            let at = random.below(number - 1);
            groups.values.swap(at, at + 1);
        }
        _ => {
            let copy = some_rows(random, groups).clone();
            *some_rows(random, groups) = copy;
        }
    }
}

fn some_rows<'a>(random: &mut Random, groups: &'a mut Groups) -> &'a mut Vec<u32> {
    groups.rows_of(random.below(groups.values.len() + 1))
}

/// The bytes with one or two changes at fields of their structure.
pub fn damage(random: &mut Random, traced: &Traced) -> Vec<u8> {
    let mut bytes = traced.bytes.clone();
    for _ in 0..*random.pick(&[1, 1, 1, 2]) {
        damage_once(random, &mut bytes, &traced.fields);
    }
    bytes
}

fn damage_once(random: &mut Random, bytes: &mut Vec<u8>, fields: &[Field]) {
    let Some(field) = some_field(random, bytes, fields) else {
        return;
    };
    let at = field.at;
    match random.below(20) {
        0 => {
            let inside = random.between(0, field.width);
            bytes.truncate(at + inside);
        }
        1 => {
            let count = random.between(1, 8);
            let new = random.bytes(count);
            bytes.splice(at..at, new);
        }
        2 => {
            bytes.drain(at..at + field.width);
        }
        3 => {
            let flipped = random.below(bytes.len());
            bytes[flipped] ^= 1 << random.below(8);
        }
        4 => {
            // A field's rule goes before the next field's being there.
            change_field(random, &mut bytes[at..at + field.width], &field);
            bytes.truncate(at + field.width);
        }
        5..=7 => {
            // The same of another place, or the two exchanged.
            let like: Vec<&Field> = fields
                .iter()
                .filter(|other| other.name == field.name && other.width == field.width && other.at + other.width <= bytes.len())
                .collect();
            let other = random.pick(&like).at;
            let here = bytes[at..at + field.width].to_vec();
            let there = bytes[other..other + field.width].to_vec();
            bytes[at..at + field.width].copy_from_slice(&there);
            if random.percent(50) {
                bytes[other..other + field.width].copy_from_slice(&here);
            }
        }
        _ => change_field(random, &mut bytes[at..at + field.width], &field),
    }
}

/// A field that still lies within the bytes, each name of fields with the same chance.
fn some_field(random: &mut Random, bytes: &[u8], fields: &[Field]) -> Option<Field> {
    let mut names: Vec<&str> = Vec::new();
    for field in fields {
        if !names.contains(&field.name) {
            names.push(field.name);
        }
    }
    if names.is_empty() {
        return None;
    }
    let name = *random.pick(&names);
    let named: Vec<&Field> = fields.iter().filter(|field| field.name == name && field.at + field.width <= bytes.len()).collect();
    if named.is_empty() {
        return None;
    }
    Some(**random.pick(&named))
}

fn change_field(random: &mut Random, bytes: &mut [u8], field: &Field) {
    if field.order == ByteOrder::None {
        return change_list(random, bytes);
    }
    let width = bytes.len();
    let mut wide = [0; 8];
    match field.order {
        ByteOrder::Little => wide[..width].copy_from_slice(bytes),
        _ => {
            wide[8 - width..].copy_from_slice(bytes);
            wide.reverse();
        }
    }
    let number = u64::from_le_bytes(wide);
    let number = match random.below(10) {
        0..=2 => number.wrapping_add(1),
        3..=4 => number.wrapping_sub(1),
        5 => number.wrapping_add(random.between(2, 40) as u64),
        6 => number.wrapping_sub(random.between(2, 40) as u64),
        7 => number ^ 1 << random.below(8 * width),
        8 => random.number(),
        // Around the limits, and the least and greatest numbers of a signed field.
        _ => *random.pick(&[
            0,
            1,
            2,
            3,
            4,
            12346,
            12347,
            4096,
            4097,
            65535,
            65536,
            65537,
            (1 << (8 * width - 1)) - 1,
            1 << (8 * width - 1),
            u64::MAX,
            u64::MAX - 1,
        ]),
    };
    let wide = number.to_le_bytes();
    bytes.copy_from_slice(&wide[..width]);
    if field.order == ByteOrder::Big {
        bytes.reverse();
    }
}

/// Changes one 2-byte number of an array, a run, a string or bits.
fn change_list(random: &mut Random, bytes: &mut [u8]) {
    let pairs = bytes.len() / 2;
    if pairs == 0 {
        bytes[0] ^= 1 << random.below(8);
        return;
    }
    let at = 2 * random.below(pairs);
    let number = u16::from_le_bytes([bytes[at], bytes[at + 1]]);
    let number = match random.below(6) {
        0 => number.wrapping_add(1),
        1 => number.wrapping_sub(1),
        2 => number ^ 1 << random.below(16),
        3 => random.number() as u16,
        4 if at >= 2 => u16::from_le_bytes([bytes[at - 2], bytes[at - 1]]),
        _ => *random.pick(&[0, 65535]),
    };
    bytes[at..at + 2].copy_from_slice(&number.to_le_bytes());
}

// Fields

/// A lent buffer for that many rows, full of anything, now and then longer than needed.
pub fn field(random: &mut Random, rows: usize) -> Vec<u8> {
    let extra = match random.below(4) {
        0..=1 => 0,
        2 => 1,
        _ => random.between(2, 20),
    };
    random.bytes(rows.div_ceil(8) + extra)
}

/// As [`field`], but at times too short.
pub fn field_or_short(random: &mut Random, rows: usize) -> Vec<u8> {
    let mut field = field(random, rows);
    if random.percent(8) {
        let needed = rows.div_ceil(8);
        let length = match random.below(3) {
            0 => 0,
            1 => needed.saturating_sub(1),
            _ => random.below(needed + 1),
        };
        field.truncate(length);
    }
    field
}

/// As [`field_or_short`], its rows mostly in one of many shapes.
pub fn shaped_field_or_short(random: &mut Random, rows: usize) -> Vec<u8> {
    let mut field = field_or_short(random, rows);
    if random.percent(60) {
        let mut shape = vec![false; rows];
        for row in row_set(random, rows as u32) {
            shape[row as usize] = true;
        }
        for (row, is_set) in shape.into_iter().enumerate().take(8 * field.len()) {
            let bit = 1 << (row % 8);
            field[row / 8] = if is_set { field[row / 8] | bit } else { field[row / 8] & !bit };
        }
    }
    field
}

// Records

/// A record of that many rows, which needs to be no answer's: its other numbers are 0, the highest, the row count, or any.
pub fn record(random: &mut Random, rows: u64) -> Record {
    let mut number = || match random.below(8) {
        0..=1 => 0,
        2 => u64::MAX,
        3 => rows,
        4..=6 => random.number() >> random.below(64),
        _ => random.number(),
    };
    let [nulls, deleted, matched] = [(); 3].map(|()| number());
    match random.below(10) {
        0 => Record { rows, nulls, deleted: nulls, matched: nulls },
        _ => Record { rows, nulls, deleted, matched },
    }
}
