//! Open, and Look up through the table that it fills. On what an open accepted, a lookup answers as Ask does in every part, and compares as many
//! values as the column says. On anything else library and reference reader agree, and keep what is promised of any input: rounds at random,
//! and fixed cases.

use super::*;
use comparison::lookups::{stated_blocks, Stands, Unopened};
use comparison::Opened;
use reference::types::Width;
use reference::writer::Traced;

const SHORT: u8 = 1;
const VERSION: u8 = 3;
const DICT: u8 = 5;
const BITMAP: u8 = 6;
const RANGE: u8 = 7;
const TWICE: u8 = 8;
const MISSING: u8 = 9;

/// What fields and tables hold before a call of a fixed case.
const BYTE: u8 = 0xA5;
const WORD: u32 = 0xA5A5_A5A5;

/// A body of version 2, and what its writer says of its directory.
struct Written {
    groups: Groups,
    traced: Traced,
    /// Where the entries of the directory start.
    table: Vec<u32>,
    /// The number of entries of each block.
    sizes: Vec<usize>,
}

impl Written {
    fn new(groups: &Groups, layout: &Layout) -> Written {
        let traced = body_traced(groups, &Layout { version: 2, ..layout.clone() });
        let mut written = Written { groups: groups.clone(), table: Vec::new(), sizes: Vec::new(), traced };
        let mut value = 0;
        for field in &written.traced.fields {
            match field.name {
                "value" | "string length" => value = field.at as u32,
                "block offset" => written.table.push(value),
                "entry number" => {
                    let number = &written.traced.bytes[field.at..][..field.width];
                    written.sizes.push(u32::from_be_bytes(number.try_into().expect("4 bytes")) as usize);
                }
                _ => {}
            }
        }
        assert_eq!(written.table.len(), written.sizes.len());
        assert_eq!(written.sizes.iter().sum::<usize>(), groups.values.len());
        written
    }

    fn body(&self) -> &[u8] {
        &self.traced.bytes
    }

    fn ty(&self) -> u32 {
        self.groups.ty
    }

    fn rows(&self) -> usize {
        self.groups.rows as usize
    }

    /// The bytes of a field for its rows.
    fn needed(&self) -> usize {
        self.rows().div_ceil(8)
    }

    /// The values of each block.
    fn blocks(&self) -> Vec<Vec<&[u8]>> {
        let mut values = self.groups.values.iter().map(|(value, _)| &value[..]);
        self.sizes.iter().map(|size| values.by_ref().take(*size).collect()).collect()
    }

    /// Answer, record, field and fault of EQUAL, from the groups alone.
    fn expected(&self, literal: &[u8], before: &[u8]) -> Answered {
        let rows = self.groups.values.iter().find(|(value, _)| value == literal).map(|(_, rows)| &rows[..]).unwrap_or_default();
        let (rows_of_all, nulls) = (self.groups.rows.into(), self.groups.nulls.len() as u64);
        let record = Record { rows: rows_of_all, nulls, deleted: 0, matched: rows.len() as u64 };
        let field = [&field_of(rows, self.needed())[..], &before[self.needed()..]].concat();
        (0, record, field, NO_FAULT)
    }

    /// Which entries of the directory a literal is compared with, in turn.
    fn halvings(&self, literal: &[u8]) -> Vec<usize> {
        let blocks = self.blocks();
        let mut halvings = Vec::new();
        let mut left = 0..blocks.len();
        while !left.is_empty() {
            let middle = left.start + left.len() / 2;
            halvings.push(middle);
            match types::compare(self.ty(), literal, blocks[middle][0]).is_lt() {
                true => left.end = middle,
                false => left.start = middle + 1,
            }
        }
        halvings
    }

    /// The one block that can have a literal: the last that doesn't begin above it.
    fn block_of(&self, literal: &[u8]) -> Option<usize> {
        self.blocks().iter().rposition(|block| types::compare(self.ty(), literal, block[0]).is_ge())
    }

    /// How many values a literal is compared with: those of the directory, and those of one block up to its own.
    fn comparisons(&self, literal: &[u8]) -> u64 {
        let within = self.block_of(literal).map_or(0, |block| {
            let block = &self.blocks()[block];
            block.iter().position(|value| *value == literal).map_or(block.len(), |i| i + 1)
        });
        (self.halvings(literal).len() + within) as u64
    }

    /// The body with any bytes in the entries of the directory that a literal isn't compared with, but the last, and in the blocks that can't
    /// have it.
    fn garbled(&self, random: &mut Random, literal: &[u8]) -> Vec<u8> {
        let named = |name: &str| self.traced.fields.iter().filter(|field| field.name == name).map(|field| field.at).collect();
        let (block_offsets, blocks): (Vec<usize>, Vec<usize>) = (named("block offset"), named("entry number"));
        let (halvings, block, bitmaps) = (self.halvings(literal), self.block_of(literal), self.bitmaps());
        let mut body = self.body().to_vec();
        for i in 0..blocks.len() {
            if i + 1 < blocks.len() && !halvings.contains(&i) {
                let entry = self.table[i] as usize..block_offsets[i] + 4;
                body[entry.clone()].copy_from_slice(&random.bytes(entry.len()));
            }
            if block != Some(i) {
                let end = blocks.get(i + 1).copied().unwrap_or(bitmaps);
                body[blocks[i]..end].copy_from_slice(&random.bytes(end - blocks[i]));
            }
        }
        body
    }

    /// Where the body of bitmaps begins.
    fn bitmaps(&self) -> usize {
        let field = self.traced.fields.iter().find(|field| field.name == "body offset").expect("a body offset");
        let behind = field.at + field.width;
        let offset = self.body()[field.at..behind].try_into().expect("4 bytes");
        behind + u32::from_be_bytes(offset) as usize
    }

    /// Where a literal stands among the values, if there are any.
    fn stands(&self, literal: &[u8]) -> Option<Stands> {
        let number = self.groups.values.len();
        let mut starts = vec![0];
        starts.extend(self.sizes.iter().scan(0, |end, size| {
            *end += size;
            Some(*end)
        }));
        let found = self.groups.values.binary_search_by(|(value, _)| types::compare(self.ty(), value, literal));
        Some(match found {
            _ if number == 0 => return None,
            Ok(i) if starts.contains(&i) => Stands::FirstOfBlock,
            Ok(i) if starts.contains(&(i + 1)) => Stands::LastOfBlock,
            Ok(_) => Stands::WithinBlock,
            Err(0) => Stands::BelowAll,
            Err(i) if i == number => Stands::AboveAll,
            Err(i) if starts.contains(&i) => Stands::BetweenBlocks,
            Err(_) => Stands::AbsentWithinBlock,
        })
    }
}

/// A value right above another of the type, or right below; at the end of its numbers that of the other end.
fn neighbour(ty: u32, value: &[u8], above: bool) -> Vec<u8> {
    let mut value = value.to_vec();
    match types::WIDTHS[ty as usize] {
        _ if ty == BOOLEAN => value[0] ^= 1,
        // The next string, and one that is below.
        Width::Counted if above => value.push(0),
        Width::Counted => {
            value.pop();
        }
        Width::Fixed(_) => {
            for byte in value.iter_mut().rev() {
                let carries = *byte == if above { 0xFF } else { 0 };
                *byte = if above { byte.wrapping_add(1) } else { byte.wrapping_sub(1) };
                if !carries {
                    break;
                }
            }
        }
    }
    value
}

// Opened bodies

/// Opens the body, also with too little room, and hands back the table as the open leaves it.
fn open(both: &mut Comparison, written: &Written, before: &[u8], table: &[u32]) -> Vec<u32> {
    let (body, ty, needed, blocks) = (written.body(), written.ty(), written.needed(), written.table.len());
    let found = both.open(body, ty, before, table);
    let expected = Opened {
        answer: 0,
        rows: written.rows() as u64,
        blocks: blocks as u64,
        fault: NO_FAULT,
        field: [&vec![0; needed][..], &before[needed..]].concat(),
        table: [&written.table, &table[blocks..]].concat(),
    };
    both.demand(found == expected, "Open of a sound body", &[("body", body)]);
    // Nothing but room is missing: one word, or one byte.
    for (fewer_words, fewer_bytes) in [(1, 0), (0, 1), (1, 1)] {
        if fewer_words <= blocks && fewer_bytes <= needed {
            let (table, field) = (&table[..blocks - fewer_words], &before[..needed - fewer_bytes]);
            let found = both.open(body, ty, field, table);
            let refused = Opened { field: field.to_vec(), table: table.to_vec(), ..refused(ROOM) };
            both.demand(found == refused, "Open without room", &[("body", body)]);
        }
    }
    expected.table
}

/// What an open says with a refusal that carries nothing, lent nothing.
fn refused(answer: u8) -> Opened {
    Opened { answer, rows: 0, blocks: 0, fault: NO_FAULT, field: Vec::new(), table: Vec::new() }
}

/// Looks the literal up in an opened body: as Ask in every part, and as the groups say.
fn look_up(both: &mut Comparison, written: &Written, edition: u32, literal: &[u8], table: &[u32], before: &[u8]) {
    let literals = types::literals(written.ty(), &[literal]);
    let (found, compared) = as_asked(both, written, edition, &literals, table, before);
    let inputs = [("body", written.body()), ("literals", &literals[..])];
    both.demand(found == written.expected(literal, before), "Look up in an opened body", &inputs);
    both.demand(compared == written.comparisons(literal), "the number of values compared", &inputs);
    // Any bytes, in a fixed case the same each time.
    let garbled = written.garbled(&mut Random::new(literals.len() as u64), literal);
    let again = both.look_up(&garbled, written.ty(), edition, &literals, table, before);
    both.demand(
        again == (found, compared),
        "what a lookup has nothing to read in",
        &[("body", &garbled), ("literals", &literals)],
    );
    if let Some(stands) = written.stands(literal) {
        both.kinds.add_literal(written.ty(), stands);
    }
}

/// Looks literals up, whether they fit or not, in an opened body: as Ask in every part. The answer, and how many values were compared.
fn as_asked(
    both: &mut Comparison,
    written: &Written,
    edition: u32,
    literals: &[u8],
    table: &[u32],
    before: &[u8],
) -> (Answered, u64) {
    let (body, ty) = (written.body(), written.ty());
    let asked = both.ask(body, ty, edition, EQUAL, literals, before);
    let (found, compared) = both.look_up(body, ty, edition, literals, table, before);
    both.demand(found == asked, "Look up and Ask of an opened body", &[("body", body), ("literals", literals)]);
    (found, compared)
}

/// Words of anything, as many as there are blocks or more.
fn table_for(random: &mut Random, blocks: usize) -> Vec<u32> {
    let more = *random.pick(&[0, 0, 1, 5]);
    (0..blocks + more).map(|_| random.number() as u32).collect()
}

/// A literal for a body: mostly the first or last value of a block, or what is next to it.
fn literal_for(random: &mut Random, written: &Written) -> Vec<u8> {
    let blocks = written.blocks();
    if blocks.is_empty() || random.percent(30) {
        return random::literal(random, &written.groups);
    }
    let block = random.pick(&blocks);
    let value = if random.percent(50) { block[0] } else { block[block.len() - 1] };
    match random.below(3) {
        0 => value.to_vec(),
        which if value.len() < MAX_STRING => neighbour(written.ty(), value, which == 1),
        _ => value.to_vec(),
    }
}

/// The most bytes of a string.
const MAX_STRING: usize = 65_535;

/// A column's body of version 2 is opened and looked up in; of version 1 it isn't opened.
pub fn opened_column(both: &mut Comparison, random: &mut Random) {
    let column = if random.percent(70) { random::column(random) } else { random::column_of_many(random) };
    let rows = column.cells.len();
    let mut groups = column.groups();
    random::add_unused_values(random, &mut groups);
    let layout = random::layout(random, &groups);
    if layout.version == 1 {
        let body = body(&groups, &layout);
        let (field, table) = (random::field_or_short(random, rows), table_for(random, 1));
        let found = both.open(&body, column.ty, &field, &table);
        both.demand(found == Opened { field, table, ..refused(VERSION) }, "Open of version 1", &[("body", &body)]);
    }
    let written = Written::new(&groups, &layout);
    let table = table_for(random, written.table.len());
    let table = open(both, &written, &random::field(random, rows), &table);
    for _ in 0..6 {
        let (literal, edition) = (literal_for(random, &written), random::edition(random));
        let before = random::field(random, rows);
        look_up(both, &written, edition, &literal, &table, &before);
    }
    // With too little room, unknown editions, and literals that don't fit.
    for _ in 0..3 {
        let literals = types::literals(column.ty, &[literal_for(random, &written)]);
        let (edition, before) = (random::edition_or_unknown(random), random::field_or_short(random, rows));
        as_asked(both, &written, edition, &literals, &table, &before);
        let (ty, edition, _, literals) = random::misfit_question(random, &groups);
        if ty == column.ty {
            as_asked(both, &written, edition, &literals, &table, &before);
        }
    }
}

// Bodies and tables that no open accepted

/// What Open says is what Audit says, but for the version and a table too short for the blocks that the body states.
pub fn open_as_audited(both: &mut Comparison, random: &mut Random, body: &[u8], ty: u32, before: &[u8]) {
    /// The most words of a table here: damage can state any number of blocks.
    const MOST_WORDS: usize = 100;
    let blocks = stated_blocks(body).unwrap_or(0) as usize;
    let words = match random.below(10) {
        0..=5 => blocks.min(MOST_WORDS),
        6 => blocks.min(MOST_WORDS).saturating_sub(1),
        _ => random.below(12),
    };
    let table: Vec<u32> = (0..words).map(|_| random.number() as u32).collect();
    let (answer, rows, field, fault) = both.audit(body, ty, before);
    let dictionary_is_right = [0, BITMAP, RANGE, TWICE, MISSING, ROOM].contains(&answer);
    let found = both.open(body, ty, before, &table);
    let untouched = Opened { field: before.to_vec(), table: table.clone(), ..refused(answer) };
    let expected = match body.first() {
        Some(1) if answer != LITERAL => Opened { answer: VERSION, ..untouched },
        _ if dictionary_is_right && table.len() < blocks => Opened { answer: ROOM, ..untouched },
        _ if answer == 0 => Opened { answer, rows, blocks: blocks as u64, fault, field, table: found.table.clone() },
        _ => Opened { field, fault, ..untouched },
    };
    both.demand(found == expected, "Open and Audit", &[("body", body)]);
}

/// Lookups where type, body or table are not those of one open.
pub fn unopened(both: &mut Comparison, random: &mut Random) {
    let [written, other] = [(); 2].map(|()| {
        let column = small_column(random);
        let mut groups = column.groups();
        random::add_unused_values(random, &mut groups);
        let layout = random::layout(random, &groups);
        Written::new(&groups, &layout)
    });
    for _ in 0..8 {
        let spoiled = spoil(random, &written, &other);
        for _ in 0..3 {
            let literals = match random.below(20) {
                0 => random::misfit_question(random, &written.groups).3,
                1 => types::literals(written.ty(), &[literal_for(random, &written)]),
                _ => types::literals(spoiled.ty, &[spoiled.literal(random, &written)]),
            };
            let near = written.rows() + random.below(9);
            let (edition, before) = (random::edition_or_unknown(random), random::field_or_short(random, near));
            let Spoiled { why, ty, body, table } = &spoiled;
            let (found, _) = both.look_up(body, *ty, edition, &literals, table, &before);
            both.kinds.add_unopened(*why, found.0);
        }
    }
}

/// A body, a type to read it as, and a table, not all of one open.
struct Spoiled {
    why: Unopened,
    ty: u32,
    body: Vec<u8>,
    table: Vec<u32>,
}

impl Spoiled {
    /// A literal of the type: a value of the body as it was written, or what stands there at a position of the table, or any.
    fn literal(&self, random: &mut Random, written: &Written) -> Vec<u8> {
        if self.ty == written.ty() && random.percent(70) {
            return literal_for(random, written);
        }
        let at = self.table.get(random.below(self.table.len() + 1)).map_or(0, |position| *position as usize);
        let behind = self.body.get(at..).unwrap_or_default();
        match types::WIDTHS[self.ty as usize] {
            Width::Fixed(width) if behind.len() >= width && self.ty != BOOLEAN => behind[..width].to_vec(),
            Width::Counted if behind.len() > 4 => behind[4..behind.len().min(12)].to_vec(),
            _ => random::value(random, self.ty, 40),
        }
    }
}

fn spoil(random: &mut Random, written: &Written, other: &Written) -> Spoiled {
    let (mut ty, mut body, mut table) = (written.ty(), written.body().to_vec(), written.table.clone());
    let number = table.len();
    let why = match random.below(14) {
        0 => {
            for word in &mut table {
                if random.percent(70) {
                    *word = (random.number() >> random.between(32, 60)) as u32;
                }
            }
            Unopened::AnyWords
        }
        1 => {
            let by = *random.pick(&[1, u32::MAX]);
            change_one(random, &mut table, |_, word| *word = word.wrapping_add(by));
            Unopened::OffByOne
        }
        2 => {
            let end = body.len() as u32;
            change_one(random, &mut table, |random, word| {
                *word = *random.pick(&[end, end + 1, end + 4, end - 1, end - 3, end - 5, end - 9, 1 << 31, u32::MAX]);
            });
            Unopened::BehindTheBody
        }
        3 => {
            if number > 1 {
                table.swap(random.below(number), random.below(number));
            }
            Unopened::Swapped
        }
        4 => {
            let word = table.get(random.below(number + 1)).or(table.first()).copied().unwrap_or_default();
            table.fill(word);
            Unopened::AllAlike
        }
        5..=6 => {
            let fields = &written.traced.fields;
            for _ in 0..random.between(1, 2) {
                change_one(random, &mut table, |random, word| *word = random.pick(fields).at as u32);
            }
            Unopened::ElsewhereInTheBody
        }
        7 => {
            ty = random.below(types::WIDTHS.len()) as u32;
            Unopened::AnotherType
        }
        8 => {
            if random.percent(50) {
                table = other.table.clone();
            } else {
                body = other.body().to_vec();
            }
            Unopened::AnotherBodysTable
        }
        9..=10 => {
            body = random::damage(random, &written.traced);
            Unopened::Damaged
        }
        11 => {
            body = random::damage(random, &large::of_bitmaps(&written.traced));
            Unopened::Damaged
        }
        12 => {
            let mut said = written.groups.clone();
            random::break_groups(random, &mut said);
            let broken = Written::new(&said, &random::layout(random, &said));
            if random.percent(80) {
                table = broken.table.clone();
            }
            body = broken.traced.bytes;
            Unopened::BrokenGroups
        }
        _ => {
            body.truncate(body.len() - random.below(body.len().min(30)));
            Unopened::Cut
        }
    };
    match random.below(20) {
        0 => {
            table.pop();
        }
        1..=4 => table.push(random.number() as u32),
        _ => {}
    }
    Spoiled { why, ty, body, table }
}

fn change_one(random: &mut Random, table: &mut [u32], change: impl FnOnce(&mut Random, &mut u32)) {
    if !table.is_empty() {
        let which = random.below(table.len());
        change(random, &mut table[which]);
    }
}

// Fixed cases

/// Values of the type that rise in steps of ten, so that others fit between them; of a boolean both. At most 25, as TINYINT has.
fn spaced_values(ty: u32, number: usize) -> Vec<Vec<u8>> {
    let spaced = |i: usize| 10 * i as i64 - 120;
    match types::WIDTHS[ty as usize] {
        _ if ty == BOOLEAN => [vec![0], vec![1]].into_iter().take(number).collect(),
        Width::Fixed(width) => (0..number).map(|i| spaced(i).to_be_bytes()[8 - width..].to_vec()).collect(),
        // Each is a prefix of the next.
        Width::Counted => (0..number).map(|i| vec![b'x'; 2 * i + 1]).collect(),
    }
}

/// Groups of these values, row r of value number r modulo their number and every fifth null if there are to be nulls.
fn groups_in_turn(ty: u32, values: Vec<Vec<u8>>, rows: u32, with_nulls: bool) -> Groups {
    let number = values.len() as u32;
    let mut groups =
        Groups { ty, rows, nulls: Vec::new(), values: values.into_iter().map(|value| (value, Vec::new())).collect() };
    for row in 0..rows {
        let is_null = number == 0 || with_nulls && row % 5 == 2;
        let entry = if is_null { 0 } else { 1 + (row % number) as usize };
        groups.rows_of(entry).push(row);
    }
    groups
}

/// Each type with and without null, of no value and more, in blocks of each size: each value and what is next to it.
pub fn each_type(both: &mut Comparison) {
    for ty in 0..types::WIDTHS.len() as u32 {
        for number in [0, 1, 2, 3, 5, 9, 25] {
            let values = spaced_values(ty, number);
            // Where there is no value there are literals still.
            let mut literals = spaced_values(ty, number.max(1));
            let neighbours: Vec<Vec<u8>> =
                literals.iter().flat_map(|value| [true, false].map(|above| neighbour(ty, value, above))).collect();
            literals.extend(neighbours);
            for with_nulls in [false, true] {
                // Without a value every row is null.
                let rows = if number == 0 && !with_nulls { 0 } else { 3 * number as u32 + 4 };
                let groups = groups_in_turn(ty, values.clone(), rows, with_nulls);
                for size in [1, 2, 3, 8, 25] {
                    let mut layout = Layout::version(2).with_blocks_of(size);
                    layout.always_null = with_nulls;
                    let written = Written::new(&groups, &layout);
                    let table = vec![WORD; written.table.len() + size % 2];
                    let before = vec![BYTE; written.needed() + 1];
                    let table = open(both, &written, &before, &table);
                    for (i, literal) in literals.iter().enumerate() {
                        look_up(both, &written, EDITIONS[i % EDITIONS.len()], literal, &table, &before);
                    }
                }
            }
        }
    }
}

/// Directories of up to 70 blocks, and of about a power of two: no literal is compared with more values of it than floor(log2 B) + 1, and
/// one with as many.
pub fn halving(both: &mut Comparison) {
    for blocks in (1..=70).chain([127, 128, 129, 255, 256, 257, 1_023, 1_024, 1_025]) {
        // Even numbers, each in a block of its own; odd ones stand between blocks.
        let values: Vec<Vec<u8>> = (0..blocks).map(|i| int(2 * i)).collect();
        let written = Written::new(&groups_in_turn(INT, values, blocks as u32, false), &Layout::version(2).with_blocks_of(1));
        let before = vec![BYTE; written.needed()];
        let table = open(both, &written, &before, &vec![WORD; blocks as usize]);
        let step = if blocks > 70 { 7 } else { 1 };
        let mut most = 0;
        for literal in (-1..=2 * blocks).step_by(step) {
            let (found, compared) = both.look_up(written.body(), INT, FIRST_EDITION, &int(literal), &table, &before);
            let inputs = [("body", written.body())];
            both.demand(found == written.expected(&int(literal), &before), "Look up among blocks", &inputs);
            // A block is read for each literal but the one below all.
            let of_directory = compared - u64::from(literal >= 0);
            assert_eq!(of_directory, written.halvings(&int(literal)).len() as u64, "{literal} among {blocks} blocks");
            most = most.max(of_directory);
        }
        assert_eq!(most, u64::from(blocks.ilog2()) + 1, "{blocks} blocks");
    }
}

/// Small bodies of three types, with bitmaps and without.
fn small_bodies() -> Vec<(Written, Vec<Vec<u8>>)> {
    let bytes = |values: &[&[u8]]| values.iter().map(|value| value.to_vec()).collect::<Vec<_>>();
    let runs = BitmapForm::WithRuns(vec![ContainerForm::Runs { cuts: vec![4] }]);
    let numbers = Column::new(TINYINT, vec![Some(vec![7]), Some(vec![9]), None, Some(vec![7]), Some(vec![7])]);
    let texts = Column::strings(&[Some("on"), None, Some("off"), Some("on"), Some("")]);
    let flags = Column::new(BOOLEAN, vec![Some(vec![0]), Some(vec![1]), Some(vec![1])]);
    let of = |column: &Column, layout: Layout| Written::new(&column.groups(), &layout);
    let (tinies, strings, booleans) =
        (bytes(&[&[6], &[7], &[8], &[9]]), bytes(&[b"", b"off", b"on", b"o"]), bytes(&[&[0], &[1]]));
    vec![
        (of(&numbers, Layout::version(2).with_blocks_of(1)), tinies.clone()),
        (of(&numbers, Layout::version(2).with_form(runs)), tinies),
        (of(&texts, Layout::version(2).with_blocks_of(2)), strings),
        (of(&flags, Layout::version(2).with_blocks_of(1)), booleans),
    ]
}

/// Every cut and every flipped bit of small bodies since they were opened. Where a cut body is accepted, nothing that was read is cut off: the
/// answer is that of the whole.
pub fn every_cut_and_flip(both: &mut Comparison) {
    for (written, literals) in small_bodies() {
        let before = vec![BYTE; written.needed() + 1];
        let table = open(both, &written, &before, &vec![WORD; written.table.len() + 1]);
        let whole = written.body();
        let mut changed: Vec<(Unopened, Vec<u8>)> = (0..whole.len()).map(|end| (Unopened::Cut, whole[..end].to_vec())).collect();
        for bit in 0..8 * whole.len() {
            let mut flipped = whole.to_vec();
            flipped[bit / 8] ^= 1 << (bit % 8);
            changed.push((Unopened::Damaged, flipped));
        }
        for (why, body) in changed {
            let opened = both.open(&body, written.ty(), &before, &vec![WORD; table.len()]);
            let audited = both.audit(&body, written.ty(), &before);
            // A flipped bit of the version can say version 1.
            if body.first() != Some(&1) && opened.answer != ROOM {
                assert_eq!((opened.answer, opened.rows, opened.field, opened.fault), audited, "{}", hex(&body));
            }
            for literal in &literals {
                let literals = types::literals(written.ty(), &[literal]);
                let (found, _) = both.look_up(&body, written.ty(), SECOND_EDITION, &literals, &table, &before);
                both.kinds.add_unopened(why, found.0);
                if found.0 == 0 && why == Unopened::Cut {
                    both.demand(found == written.expected(literal, &before), "Look up in a cut body", &[("body", &body)]);
                }
            }
        }
    }
}

/// Each table of two words that point into the starred body of document 01, or up to two bytes behind it.
pub fn each_table(both: &mut Comparison) {
    let column = Column::new(TINYINT, vec![Some(vec![7]), Some(vec![9]), None]);
    let written = Written::new(&column.groups(), &Layout::version(2).with_blocks_of(1));
    let end = written.body().len() as u32 + 2;
    for first in 0..=end {
        for second in 0..=end {
            for literal in [7, 8, 9] {
                both.look_up(written.body(), TINYINT, FIRST_EDITION, &[literal], &[first, second], &[BYTE; 2]);
            }
        }
    }
}

/// Which refusal goes first, and where each is given: bodies of three rows and one or two blocks, put together by hand.
pub fn orders(both: &mut Comparison) {
    let (none, one, three) = (int(0), int(1), int(3));
    let long = int(65_536);
    // Literals before the body.
    let many = vec![7; 1_025];
    let cases: [(u32, u32, &[u8], u8); 12] = [
        (TINYINT, FIRST_EDITION, &[7], SHORT),
        (STRING + 1, FIRST_EDITION, &[7], LITERAL),
        (TINYINT, 0, &[7], LITERAL),
        (TINYINT, 3, &many, LITERAL),
        (TINYINT, SECOND_EDITION, &many, LIMIT),
        (TINYINT, SECOND_EDITION, &many[1..], LITERAL),
        (TINYINT, SECOND_EDITION, &[], LITERAL),
        (TINYINT, SECOND_EDITION, &[7, 9], LITERAL),
        (INT, SECOND_EDITION, &[7], LITERAL),
        (BOOLEAN, SECOND_EDITION, &[2], LITERAL),
        (STRING, SECOND_EDITION, &long, LIMIT),
        (STRING, SECOND_EDITION, &[0xFF; 4], LITERAL),
    ];
    for (ty, edition, literals, answer) in cases {
        let (found, _) = both.look_up(&[], ty, edition, literals, &[], &[BYTE]);
        assert_eq!((found.0, found.2), (answer, vec![BYTE]), "type {ty}, edition {edition}");
    }

    // The first fields, each and then the end; the table is too short for any block.
    let fields: [(&[&[u8]], u8); 24] = [
        (&[&[0]], VERSION),
        (&[&[1]], VERSION),
        (&[&[3], &int(-1)], VERSION),
        (&[&[2]], SHORT),
        (&[&[2], &[0; 3]], SHORT),
        (&[&[2], &int(-1)], DICT),
        (&[&[2], &three], SHORT),
        (&[&[2], &three, &int(-1)], DICT),
        (&[&[2], &three, &int(i32::MIN)], DICT),
        (&[&[2], &three, &int(65_537)], LIMIT),
        (&[&[2], &three, &long], SHORT),
        (&[&[2], &three, &one, &[2]], DICT),
        (&[&[2], &three, &one, &[0]], SHORT),
        (&[&[2], &three, &one, &[1], &[0; 7]], SHORT),
        (&[&[2], &three, &one, &[1], &[0; 8]], SHORT),
        (&[&[2], &three, &one, &[0], &[0; 3]], SHORT),
        (&[&[2], &three, &one, &[0], &int(-1)], DICT),
        (&[&[2], &three, &one, &[0], &none], DICT),
        (&[&[2], &three, &none, &[0], &one], DICT),
        (&[&[2], &three, &none, &[0], &int(65_537)], LIMIT),
        (&[&[2], &three, &one, &[0], &one], ROOM),
        // No blocks: the body offset stands right there, and may be anything within what is left.
        (&[&[2], &three, &none, &[0], &none], SHORT),
        (&[&[2], &three, &none, &[0], &none, &one], DICT),
        (&[&[2], &three, &none, &[0], &none, &int(-1)], DICT),
    ];
    for (fields, answer) in fields {
        let body = fields.concat();
        let (found, _) = both.look_up(&body, TINYINT, FIRST_EDITION, &[7], &[], &[BYTE]);
        assert_eq!((found.0, found.2), (answer, vec![BYTE]), "{}", hex(&body));
    }
    let empty = [&[2][..], &three, &none, &[0], &none, &one, &[9]].concat();
    let (found, compared) = both.look_up(&empty, TINYINT, FIRST_EDITION, &[7], &[], &[BYTE]);
    let record = Record { rows: 3, nulls: 0, deleted: 0, matched: 0 };
    assert_eq!((found, compared), ((0, record, vec![0], NO_FAULT), 0));

    open_orders(both);
    directory_orders(both);
    block_orders(both);
}

/// Which refusal of an open goes first, and that field and table stay up to ROOM, and the table behind it too.
fn open_orders(both: &mut Comparison) {
    let column = Column::new(TINYINT, vec![Some(vec![7]), Some(vec![9]), None]);
    let [old, sound] = [1, 2].map(|version| body_of(&column, &Layout::version(version).with_blocks_of(1)));
    // The last byte of 9's offset, which says row 1, stands before its length.
    let with_row = |row: u8| {
        let mut body = sound.clone();
        let at = body.len() - 5;
        body[at] = 0xFF - row;
        body
    };
    let (cut, with_version_1) = (&sound[..sound.len() - 1], [&[1][..], &sound[1..]].concat());
    // Body, type, bytes of the field, words of the table, and the answer.
    type Case<'a> = (&'a [u8], u32, usize, usize, u8);
    let untouched: [Case; 12] = [
        (&[], STRING + 1, 1, 2, LITERAL),
        (&old, STRING + 1, 1, 2, LITERAL),
        (&[], TINYINT, 1, 2, SHORT),
        (&[1], TINYINT, 1, 2, VERSION),
        (&[3], TINYINT, 1, 2, VERSION),
        (&old, TINYINT, 1, 2, VERSION),
        (&old, TINYINT, 0, 0, VERSION),
        (&with_version_1, TINYINT, 1, 2, VERSION),
        // The dictionary goes before room, and room before the rows.
        (cut, TINYINT, 0, 0, SHORT),
        (&sound, TINYINT, 1, 1, ROOM),
        (&with_row(0), TINYINT, 1, 1, ROOM),
        (&with_row(9), TINYINT, 0, 2, ROOM),
    ];
    for (body, ty, bytes, words, answer) in untouched {
        let (field, table) = (vec![BYTE; bytes], vec![WORD; words]);
        let found = both.open(body, ty, &field, &table);
        assert_eq!(found, Opened { field, table, ..refused(answer) }, "type {ty}: {}", hex(body));
    }
    // 9 at row 0, where 7 is; at row 3 of three; and at row 2, which is null's.
    for (row, answer, fault) in [(0, TWICE, [2, 0, 0]), (3, RANGE, [2, 0, 0]), (2, TWICE, [2, 0, 0])] {
        let found = both.open(&with_row(row), TINYINT, &[BYTE; 2], &[WORD; 3]);
        let expected = Opened { fault, field: vec![0, BYTE], table: vec![WORD; 3], ..refused(answer) };
        assert_eq!(found, expected, "9 at row {row}");
    }
    let accepted = Opened { rows: 3, blocks: 2, field: vec![0, BYTE], table: vec![22, 27, WORD], ..refused(0) };
    assert_eq!(both.open(&sound, TINYINT, &[BYTE; 2], &[WORD; 3]), accepted);
}

/// The first fields of a body of three rows and no null, up to the block number, which is that of the values too.
fn front(blocks: i32) -> Vec<u8> {
    [&[2][..], &int(3), &int(blocks), &[0], &int(blocks)].concat()
}

/// Faults of the directory's entries and of the body offset.
fn directory_orders(both: &mut Comparison) {
    let at = front(1).len() as u32;
    let string = |length: i32, text: &[u8]| [&int(length)[..], text].concat();
    let whole = |value: &[u8]| [value, &int(0), &int(0)].concat();
    // One block: its entry in the directory and what follows, the position, and the answer to a literal above all.
    type Case = (u32, Vec<u8>, u32, u8);
    let cases: [Case; 16] = [
        (TINYINT, vec![], at, SHORT),
        (TINYINT, vec![], at + 1, SHORT),
        (TINYINT, vec![], u32::MAX, SHORT),
        (TINYINT, vec![9], at, SHORT),
        (TINYINT, vec![9, 0, 0, 0], at, SHORT),
        (TINYINT, vec![9, 0, 0, 0, 0, 0, 0, 0], at, SHORT),
        (BOOLEAN, vec![2], at, DICT),
        (STRING, string(-1, b""), at, DICT),
        (STRING, string(i32::MIN, b""), at, DICT),
        (STRING, string(65_536, b""), at, LIMIT),
        (STRING, string(i32::MAX, b""), at, LIMIT),
        (STRING, string(65_535, b""), at, SHORT),
        (STRING, string(2, b"a"), at, SHORT),
        // The body offset is past what stands behind it, and just not; then the block is due.
        (TINYINT, [&[9][..], &int(0), &int(1)].concat(), at, DICT),
        (TINYINT, [&[9][..], &int(0), &int(-1)].concat(), at, DICT),
        (TINYINT, whole(&[9]), at, SHORT),
    ];
    for (ty, behind, position, answer) in cases {
        let body = [front(1), behind].concat();
        let literal = match ty {
            STRING => types::literals(STRING, &[b"zz"]),
            BOOLEAN => vec![1],
            _ => vec![99],
        };
        // A field without room too: it comes later.
        for field in [vec![BYTE], vec![]] {
            let (found, _) = both.look_up(&body, ty, FIRST_EDITION, &literal, &[position], &field);
            assert_eq!((found.0, &found.2), (answer, &field), "type {ty}: {}", hex(&body));
        }
    }

    // Two blocks of booleans. The second entry is compared first, and the first only for what is below it.
    let entry = |value: u8, offset: i32| [&[value][..], &int(offset)].concat();
    let block = |value: u8, row: i32| [&int(1)[..], &[value], &int(-1 - row), &int(-1)].concat();
    let sound = [&front(2)[..], &entry(0, 0), &entry(1, 13), &int(26), &block(0, 0), &block(1, 1)].concat();
    let table = [at, at + 5];
    let mut look_up = |body: &[u8], literal: u8| both.look_up(body, BOOLEAN, FIRST_EDITION, &[literal], &table, &[BYTE]).0;
    let mut broken_first = sound.clone();
    broken_first[at as usize] = 2;
    let mut broken_second = sound.clone();
    broken_second[at as usize + 5] = 2;
    assert_eq!([0, 1].map(|literal| look_up(&sound, literal).0), [0, 0]);
    assert_eq!([0, 1].map(|literal| look_up(&broken_first, literal).0), [DICT, 0]);
    assert_eq!([0, 1].map(|literal| look_up(&broken_second, literal).0), [DICT, DICT]);
}

/// Faults of the one block that is read, of the field's room, and of the two bitmaps.
fn block_orders(both: &mut Comparison) {
    // Three rows, null at an offset, two blocks that begin with 10 and 20; the second has the entries 20 and 30.
    let entry = |value: u8, offset: i32, length: i32| [&[value][..], &int(offset), &int(length)].concat();
    let body_of = |null: (i32, i32), offset: i32, second: &[u8], bitmaps: &[u8]| {
        let first = [int(1), entry(10, -1, -1)].concat();
        let directory = [&[10][..], &int(0), &[20], &int(offset)].concat();
        let front = [&[2][..], &int(3), &int(3), &[1], &int(null.0), &int(null.1), &int(2)].concat();
        let body_offset = int((first.len() + second.len()) as i32);
        [&front[..], &directory, &body_offset, &first, second, bitmaps].concat()
    };
    // Behind 18 bytes and the block number, and a value and an offset later.
    let table = [22, 27];
    let sound_offset = 13;
    let entries = |number: i32, entries: &[Vec<u8>]| [int(number), entries.concat()].concat();
    let sound = entries(2, &[entry(20, -2, -1), entry(30, -3, -1)]);
    let null = (-3, -1);
    let three = bitmap(&[0, 1, 2], &BitmapForm::WithoutRuns);
    let too_high = bitmap(&[0, 1, 3], &BitmapForm::WithoutRuns);
    let size = three.len() as i32;
    let of = |rows: (u64, u64)| Record { rows: 3, nulls: rows.0, deleted: 0, matched: rows.1 };

    /// A body, a literal, the answer, the field's first byte where it has room, and the fault.
    type Case = (Vec<u8>, u8, u8, u8, Fault);
    let late = |body, literal, answer, fault| -> Case { (body, literal, answer, 0, fault) };
    let early = |body, literal, answer| -> Case { (body, literal, answer, BYTE, NO_FAULT) };
    let with_block = |block: &[u8]| body_of(null, sound_offset, block, &[]);
    let cases: Vec<Case> = vec![
        (with_block(&sound), 20, 0, 0b010, NO_FAULT),
        // Row 2 is null's too, which is no fault here.
        (with_block(&sound), 30, 0, 0b100, NO_FAULT),
        late(with_block(&sound), 25, 0, NO_FAULT),
        (with_block(&sound), 10, 0, 0b001, NO_FAULT),
        late(with_block(&sound), 5, 0, NO_FAULT),
        // The block's offset counts unsigned and leads behind all bytes, or to the end of them.
        early(body_of(null, -1, &sound, &[]), 20, SHORT),
        early(body_of(null, 35, &sound, &[]), 20, SHORT),
        early(body_of(null, 36, &sound, &[]), 20, SHORT),
        // To another place: the first block, which has no 20 but 10.
        late(body_of(null, 0, &sound, &[]), 20, 0, NO_FAULT),
        // The entry number.
        early(with_block(&entries(0, &[entry(20, -2, -1)])), 20, DICT),
        early(with_block(&entries(-1, &[entry(20, -2, -1)])), 20, DICT),
        early(with_block(&entries(i32::MIN, &[entry(20, -2, -1)])), 20, DICT),
        (with_block(&entries(i32::MAX, &[entry(20, -2, -1)])), 20, 0, 0b010, NO_FAULT),
        early(with_block(&entries(i32::MAX, &[entry(20, -2, -1)])), 30, SHORT),
        early(with_block(&entries(3, &[entry(20, -2, -1), entry(30, -3, -1)])), 40, SHORT),
        // Of an entry that is cut off nothing is compared.
        early(with_block(&entries(1, &[vec![20]])), 20, SHORT),
        early(with_block(&entries(1, &[[&[20][..], &int(-2)].concat()])), 20, SHORT),
        early(with_block(&entries(1, &[[&[20][..], &int(-2), &[0xFF; 3]].concat()])), 20, SHORT),
        // The first of two that are equal, and values that don't rise.
        (with_block(&entries(2, &[entry(20, -2, -1), entry(20, -1, -1)])), 20, 0, 0b010, NO_FAULT),
        (with_block(&entries(2, &[entry(40, -2, -1), entry(20, -1, -1)])), 20, 0, 0b001, NO_FAULT),
        // A single row: its length isn't looked at.
        (with_block(&entries(1, &[entry(20, -2, i32::MIN)])), 20, 0, 0b010, NO_FAULT),
        late(with_block(&entries(1, &[entry(20, -4, -1)])), 20, RANGE, [1, 0, 0]),
        late(with_block(&entries(2, &[entry(20, -2, -1), entry(30, i32::MIN, -1)])), 30, RANGE, [2, 0, 0]),
        // Another entry's rows aren't looked at.
        (with_block(&entries(2, &[entry(20, -2, -1), entry(30, i32::MIN, -1)])), 20, 0, 0b010, NO_FAULT),
        // Bitmaps: place, length and form.
        (body_of(null, 13, &entries(1, &[entry(20, 0, size)]), &three), 20, 0, 0b111, NO_FAULT),
        (body_of(null, 13, &entries(1, &[entry(20, 0, -1)]), &three), 20, 0, 0b111, NO_FAULT),
        late(body_of(null, 13, &entries(1, &[entry(20, 0, size)]), &too_high), 20, RANGE, [1, 0, 0]),
        late(body_of(null, 13, &entries(1, &[entry(20, 0, size - 1)]), &three), 20, BITMAP, [1, 0, 0]),
        late(body_of(null, 13, &entries(1, &[entry(20, 0, size + 1)]), &three), 20, BITMAP, [1, 0, 0]),
        late(body_of(null, 13, &entries(1, &[entry(20, 0, size + 1)]), &[&three[..], &[0]].concat()), 20, BITMAP, [1, 1, 0]),
        late(body_of(null, 13, &entries(1, &[entry(20, 0, -2)]), &three), 20, BITMAP, [1, 0, 0]),
        late(body_of(null, 13, &entries(1, &[entry(20, size, -1)]), &three), 20, BITMAP, [1, 0, 0]),
        late(with_block(&entries(1, &[entry(20, 0, -1)])), 20, BITMAP, [1, 0, 0]),
        // Null's goes before the value's, and is looked at for each literal.
        late(body_of((-4, -1), 13, &entries(1, &[entry(20, 0, -1)]), &[]), 20, RANGE, [0, 0, 0]),
        late(body_of((0, -1), 13, &entries(1, &[entry(20, -4, -1)]), &[]), 20, BITMAP, [0, 0, 0]),
        late(body_of((0, size + 1), 13, &sound, &[&three[..], &[0]].concat()), 5, BITMAP, [0, 1, 0]),
    ];
    for (body, literal, answer, first, fault) in cases {
        let (found, compared) = both.look_up(&body, TINYINT, SECOND_EDITION, &[literal], &table, &[BYTE; 2]);
        let what = format!("{literal} in {}", hex(&body));
        assert_eq!((found.0, found.2, found.3), (answer, vec![first, BYTE], fault), "{what}");
        if answer == 0 {
            assert_eq!(found.1, of((1, first.count_ones().into())), "{what}");
        } else {
            assert_eq!((found.1, compared), (Record::NONE, 0), "{what}");
        }
        // Room is tested behind the block, and before the bitmaps.
        let (found, _) = both.look_up(&body, TINYINT, SECOND_EDITION, &[literal], &table, &[]);
        let expected = if first == BYTE { answer } else { ROOM };
        assert_eq!((found.0, found.3), (expected, NO_FAULT), "{what}");
        // Another edition changes nothing, and a word more neither.
        let more = [22, 27, WORD];
        let again = both.look_up(&body, TINYINT, FIRST_EDITION, &[literal], &more, &[BYTE; 2]);
        assert_eq!((again.0 .0, again.1), (answer, compared), "{what}");
    }
}

/// The most blocks, each of one entry: numbers and strings.
pub fn most_blocks(both: &mut Comparison) {
    const BLOCKS: u32 = 65_536;
    type ValueOf = fn(u32) -> Vec<u8>;
    let kinds: [(u32, ValueOf); 2] =
        [(BIGINT, |i| (2 * i64::from(i) - 9).to_be_bytes().to_vec()), (STRING, |i| format!("{:07}", 2 * i).into_bytes())];
    for (ty, value) in kinds {
        let groups = groups_in_turn(ty, (0..BLOCKS).map(value).collect(), BLOCKS, false);
        let written = Written::new(&groups, &Layout::version(2).with_blocks_of(1));
        let before = vec![BYTE; written.needed() + 1];
        let table = open(both, &written, &before, &vec![WORD; BLOCKS as usize + 1]);
        for i in (0..BLOCKS).step_by(1_021).chain([1, BLOCKS / 2 - 1, BLOCKS / 2, BLOCKS / 2 + 1, BLOCKS - 1]) {
            let value = value(i);
            for (literal, matched) in [(value.clone(), 1), (neighbour(ty, &value, true), 0)] {
                let literals = types::literals(ty, &[&literal]);
                let (found, compared) = both.look_up(written.body(), ty, SECOND_EDITION, &literals, &table, &before);
                let rows = if matched == 1 { vec![i] } else { Vec::new() };
                let field = [field_of(&rows, written.needed()), vec![BYTE]].concat();
                let record = Record { rows: BLOCKS.into(), nulls: 0, deleted: 0, matched };
                both.demand(found == (0, record, field, NO_FAULT), "Look up among the most blocks", &[("literals", &literals)]);
                // 16 or 17 of the directory, and one of the block.
                assert!(compared == 17 || compared == 18, "{compared} values compared");
            }
        }
        for literal in [value(0), value(BLOCKS - 1), neighbour(ty, &value(0), false), neighbour(ty, &value(77), true)] {
            look_up(both, &written, FIRST_EDITION, &literal, &table, &before);
        }
    }
    // 65,537 are too many, also where the table has them all.
    let values = (0..=BLOCKS as i32).map(int).collect();
    let body = body(&groups_in_turn(INT, values, BLOCKS + 1, false), &Layout::version(2).with_blocks_of(1));
    let (field, table) = (vec![BYTE; BLOCKS as usize / 8 + 1], vec![14; BLOCKS as usize + 1]);
    assert_eq!(both.open(&body, INT, &field, &table).answer, LIMIT);
    assert_eq!(both.look_up(&body, INT, FIRST_EDITION, &int(5), &table, &field).0 .0, LIMIT);
}
