//! What the benchmarks of whole calls share: columns of 65,536 rows, bodies of version 2 that were opened, and what is asked of them.
//! With the same seeds both benchmarks are given the same bytes.

use poddurance::raw;
use reference::random::Random;
use reference::types;
use reference::writer::{body, BitmapForm, ContainerForm, Groups, Layout};

use super::timing::grouped;

/// The rows of one Roaring container.
pub const CONTAINER: u32 = 65_536;
/// The most literals of a question.
pub const LITERALS: usize = 1_024;
/// The bytes of a block's entries where blocks are cut by bytes.
const BLOCK_BYTES: usize = 16 * 1_024;
/// How many literals are looked up in turn: an odd number, so that each comes first with each reader.
const LOOKED_UP: usize = 101;
/// The edition of every question. EQUAL and IN, which are measured, choose the same rows in both.
pub const EDITION: u32 = types::SECOND_EDITION;

/// The seed of the columns: [`bits`] first, then [`scattered`].
pub const COLUMNS_SEED: u64 = 1;
/// The seed of the strings that are looked up.
pub const LOOK_UP_SEED: u64 = 3;

pub fn field_size(rows: u32) -> usize {
    rows.div_ceil(8) as usize
}

// Columns

/// A body, what it is to be read with, and the literal of EQUAL.
pub struct Column {
    pub body: Vec<u8>,
    pub ty: u32,
    pub rows: u32,
    pub one: Vec<u8>,
}

impl Column {
    /// The body of these groups, in which value number `asked` is looked for.
    pub fn new(groups: &Groups, layout: &Layout, asked: usize) -> Column {
        let one = types::literals(groups.ty, &[&groups.values[asked].0]);
        Column { body: body(groups, layout), ty: groups.ty, rows: groups.rows, one }
    }
}

/// All rows have one value, in a run.
pub fn one_run() -> Column {
    let values = vec![(b"running".to_vec(), (0..CONTAINER).collect())];
    let groups = Groups { ty: types::STRING, rows: CONTAINER, nulls: Vec::new(), values };
    let as_runs = BitmapForm::WithRuns(vec![ContainerForm::Runs { cuts: Vec::new() }]);
    Column::new(&groups, &Layout::version(1).with_form(as_runs), 0)
}

/// Each row has one of two values at random.
pub fn bits(random: &mut Random) -> Column {
    let (running, idle) = (0..CONTAINER).partition(|_| random.percent(50));
    let values = vec![(b"idle".to_vec(), idle), (b"running".to_vec(), running)];
    let groups = Groups { ty: types::STRING, rows: CONTAINER, nulls: Vec::new(), values };
    Column::new(&groups, &Layout::version(1), 1)
}

/// 4,000 rows at random have a value, in an array, and the others are null, in bits.
pub fn scattered(random: &mut Random) -> Column {
    let mut rows = shuffled_rows(random);
    let mut nulls = rows.split_off(4_000);
    rows.sort_unstable();
    nulls.sort_unstable();
    let groups = Groups { ty: types::STRING, rows: CONTAINER, nulls, values: vec![(b"fault".to_vec(), rows)] };
    Column::new(&groups, &Layout::version(1), 0)
}

pub fn shuffled_rows(random: &mut Random) -> Vec<u32> {
    let mut rows: Vec<u32> = (0..CONTAINER).collect();
    random.shuffle(&mut rows);
    rows
}

/// Names of pumps, rising.
pub fn pumps(number: usize) -> Vec<Vec<u8>> {
    (0..number).map(|i| format!("pump-{i:05}").into_bytes()).collect()
}

/// The rows of each value if each row has one of them at random.
pub fn at_random(random: &mut Random, values: Vec<Vec<u8>>, rows: u32) -> Vec<(Vec<u8>, Vec<u32>)> {
    let mut values: Vec<(Vec<u8>, Vec<u32>)> = values.into_iter().map(|value| (value, Vec::new())).collect();
    for row in 0..rows {
        let which = random.below(values.len());
        values[which].1.push(row);
    }
    values
}

// Lookups

/// A body of version 2 that was opened, and what is looked up in it.
pub struct Opened {
    pub name: String,
    /// How its entries are cut into blocks.
    pub blocks: &'static str,
    pub body: Vec<u8>,
    pub ty: u32,
    pub rows: u32,
    pub table: Vec<u32>,
    /// Literals that are values, evenly spread over all, and literals that are not, each between two of them.
    pub literals: [(&'static str, Vec<Vec<u8>>); 2],
}

/// So many names of pumps, each row with one at random, in bodies of one block, of blocks cut by bytes, and of a block for each entry.
pub fn open_strings(random: &mut Random, number: usize) -> [Opened; 3] {
    let strings = at_random(random, pumps(number), CONTAINER);
    open_in_blocks(&format!("{} strings", grouped(number)), types::STRING, strings, |value| [value, b"!"].concat())
}

/// The values in bodies of one block, of blocks cut by bytes, and of a block for each entry. `behind` gives what stands between a value and
/// the next.
pub fn open_in_blocks(name: &str, ty: u32, values: Vec<(Vec<u8>, Vec<u32>)>, behind: fn(&[u8]) -> Vec<u8>) -> [Opened; 3] {
    let groups = Groups { ty, rows: CONTAINER, nulls: Vec::new(), values };
    let layouts = [
        ("one", Layout::version(2)),
        ("16 KiB", Layout::version(2).with_blocks_within(BLOCK_BYTES, &groups)),
        ("one entry", Layout::version(2).with_blocks_of(1)),
    ];
    let number = groups.values.len();
    let spread: Vec<&[u8]> = (0..LOOKED_UP).map(|i| &groups.values[i * number / LOOKED_UP].0[..]).collect();
    layouts.map(|(blocks, layout)| {
        let present = spread.iter().map(|value| types::literals(ty, &[value])).collect();
        let absent = spread.iter().map(|value| types::literals(ty, &[behind(value)])).collect();
        let (body, mut table) = (body(&groups, &layout), vec![0; number]);
        let (answer, _, words, _) = raw::open(&body, ty, &mut vec![0; field_size(CONTAINER)], &mut table);
        assert_eq!(answer, raw::ACCEPTED, "Open: refused");
        table.truncate(words as usize);
        let literals = [("present", present), ("absent", absent)];
        Opened { name: name.to_string(), blocks, body, ty, rows: CONTAINER, table, literals }
    })
}
