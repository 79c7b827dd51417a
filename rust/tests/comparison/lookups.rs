//! What Look up promises of every body and table, opened or not, told from the library's answer and its inputs alone, without the
//! reference reader; and the kinds of its answers and literals, counted.

use reference::reader::{Fault, ACCEPTED, NO_FAULT};
use reference::record::Record;
use reference::types::{self, Width};

use super::kinds::add;

const SHORT: u8 = 1;
const VERSION: u8 = 3;
const DICT: u8 = 5;
const BITMAP: u8 = 6;
const RANGE: u8 = 7;
const ROOM: u8 = 10;
const LITERAL: u8 = 11;
const LIMIT: u8 = 12;

/// The refusals that leave the field as it was.
const BEFORE_THE_FIELD: [u8; 6] = [SHORT, VERSION, DICT, ROOM, LITERAL, LIMIT];

/// What Look up was given, and what it said and left.
pub struct LookedUp<'a> {
    pub body: &'a [u8],
    pub ty: u32,
    pub table: &'a [u32],
    /// The field before and after.
    pub before: &'a [u8],
    pub after: &'a [u8],
    pub answer: u8,
    pub record: Record,
    pub compared: u64,
    pub fault: Fault,
}

/// Where the row count stands in a body, and has-null.
const ROW_COUNT: usize = 1;
const HAS_NULL: usize = 9;
/// Null's offset and length.
const OF_NULL: usize = 8;

const MANY_BLOCKS: u64 = 200;
/// A value of one byte, offset and length.
const SHORTEST_ENTRY: usize = 9;

fn number_at(bytes: &[u8], at: usize) -> Option<u32> {
    let number = bytes.get(at..)?.get(..4)?;
    Some(u32::from_be_bytes(number.try_into().expect("4 bytes")))
}

/// The number of blocks that a body of version 2 states.
pub fn stated_blocks(body: &[u8]) -> Option<u64> {
    let null = match body.get(HAS_NULL)? {
        1 => OF_NULL,
        _ => 0,
    };
    number_at(body, HAS_NULL + 1 + null).map(u64::from)
}

impl LookedUp<'_> {
    /// The row count that the body states.
    fn stated_rows(&self) -> Option<u64> {
        number_at(self.body, ROW_COUNT).map(u64::from)
    }

    fn stated_blocks(&self) -> Option<u64> {
        stated_blocks(self.body)
    }

    /// What the answer breaks of what is promised for any input, if it breaks anything.
    pub fn broken_promise(&self) -> Option<&'static str> {
        match self.answer {
            ACCEPTED => self.broken_by_accepted(),
            BITMAP | RANGE => self.broken_by_late_refusal(),
            answer if BEFORE_THE_FIELD.contains(&answer) => {
                let nothing_said = self.refusal_says_nothing() && self.fault == NO_FAULT;
                self.demand(
                    nothing_said && self.after == self.before,
                    "a refusal up to ROOM changes the field or carries numbers",
                )
            }
            _ => Some("a refusal that Look up can't give"),
        }
    }

    fn demand(&self, holds: bool, what: &'static str) -> Option<&'static str> {
        (!holds).then_some(what)
    }

    fn refusal_says_nothing(&self) -> bool {
        self.record == Record::NONE && self.compared == 0
    }

    /// The field for the stated rows, and the bytes behind it, before and after; nothing if it has no room.
    fn parts(&self) -> Option<[(&[u8], &[u8]); 2]> {
        let size = self.stated_rows()?.div_ceil(8) as usize;
        let parts = |bytes| (size <= self.before.len()).then(|| <[u8]>::split_at(bytes, size));
        Some([parts(self.before)?, parts(self.after)?])
    }

    fn broken_by_late_refusal(&self) -> Option<&'static str> {
        let Some([(_, behind_before), (field, behind)]) = self.parts() else {
            return Some("BITMAP or RANGE without room");
        };
        if field.iter().any(|byte| *byte != 0) || behind != behind_before {
            return Some("BITMAP or RANGE leaves the field other than zero, or changes bytes behind it");
        }
        let [_, container, row] = self.fault;
        let carried = row == 0 && (self.answer == BITMAP || container == 0);
        self.demand(self.refusal_says_nothing() && carried, "BITMAP or RANGE carries what it doesn't")
    }

    fn broken_by_accepted(&self) -> Option<&'static str> {
        let Some([(_, behind_before), (field, behind)]) = self.parts() else {
            return Some("accepted without room");
        };
        let Record { rows, nulls, deleted, matched } = self.record;
        let ones: u64 = field.iter().map(|byte| u64::from(byte.count_ones())).sum();
        let spare = match (rows % 8, field.last()) {
            (1.., Some(last)) => *last >> (rows % 8),
            _ => 0,
        };
        if Some(rows) != self.stated_rows() || deleted != 0 || nulls > rows || self.fault != NO_FAULT {
            return Some("an accepted answer whose record or fault is wrong");
        }
        if matched != ones || spare != 0 || behind != behind_before {
            return Some("an accepted answer whose field is wrong");
        }
        let within_steps = self.most_compared().is_some_and(|most| self.compared <= most);
        self.demand(within_steps, "more values compared than there are steps, or blocks that can't be read")
    }

    /// The most values that a literal can be compared with: those of the directory by halving, and those of its longest block.
    fn most_compared(&self) -> Option<u64> {
        let blocks = self.stated_blocks()?;
        if blocks == 0 {
            return Some(0);
        }
        let directory = u64::from(blocks.ilog2()) + 1;
        let table = self.table.get(..blocks as usize)?;
        // Behind the last entry of the directory stands the body offset, and behind that the first block.
        let base = self.behind_value(*table.last()?)? + 4 + 4;
        let entries = |position: &u32| number_at(self.body, base + number_at(self.body, self.behind_value(*position)?)? as usize);
        let longest = match blocks {
            ..MANY_BLOCKS => table.iter().filter_map(entries).max().unwrap_or(0).into(),
            // Finding the longest would take long.
            _ => (self.body.len() / SHORTEST_ENTRY) as u64,
        };
        Some(directory + longest)
    }

    /// Where the value ends that starts at a position.
    fn behind_value(&self, position: u32) -> Option<usize> {
        let position = position as usize;
        Some(match types::width(self.ty)? {
            Width::Fixed(width) => position + width,
            Width::Counted => position + 4 + number_at(self.body, position)? as usize,
        })
    }

    fn accepts(&self) -> bool {
        self.answer == ACCEPTED
    }
}

/// A name and what it stands for.
type OfLookUp = (&'static str, fn(&LookedUp) -> bool);

const OF_LOOK_UP: [OfLookUp; 15] = [
    ("no rows", |it| it.accepts() && it.record.rows == 0),
    ("skip", |it| it.accepts() && it.record.rows > 0 && it.record.matched == 0),
    ("keep", |it| it.accepts() && it.record.matched > 0),
    ("all rows", |it| it.accepts() && it.record.rows > 0 && it.record.matched == it.record.rows),
    ("has-null 0", |it| it.accepts() && it.body[HAS_NULL] == 0),
    ("has-null 1 and no null row", |it| it.accepts() && it.body[HAS_NULL] == 1 && it.record.nulls == 0),
    ("null rows", |it| it.accepts() && it.record.nulls > 0),
    ("null rows alone", |it| it.accepts() && it.record.rows > 0 && it.record.nulls == it.record.rows),
    ("no blocks", |it| it.accepts() && it.stated_blocks() == Some(0)),
    ("one block", |it| it.accepts() && it.stated_blocks() == Some(1)),
    ("a hundred blocks or more", |it| it.accepts() && it.stated_blocks() >= Some(100)),
    ("bytes behind the field", |it| it.accepts() && it.before.len() as u64 > it.record.rows.div_ceil(8)),
    ("words behind the table", |it| it.accepts() && it.stated_blocks().is_some_and(|blocks| it.table.len() as u64 > blocks)),
    // One row for null and for the value, which an audit refuses.
    ("more rows than there are", |it| it.accepts() && it.record.nulls + it.record.matched > it.record.rows),
    ("a container above 0 broken", |it| it.answer == BITMAP && it.fault[1] > 0),
];

/// Where a literal stands among the values of a body's blocks.
#[derive(Clone, Copy, Debug, PartialEq, Eq)]
pub enum Stands {
    BelowAll,
    FirstOfBlock,
    WithinBlock,
    LastOfBlock,
    AbsentWithinBlock,
    BetweenBlocks,
    AboveAll,
}

const STANDS: [(Stands, &str); 7] = [
    (Stands::BelowAll, "below all"),
    (Stands::FirstOfBlock, "first of a block"),
    (Stands::WithinBlock, "within a block"),
    (Stands::LastOfBlock, "last of a block"),
    (Stands::AbsentWithinBlock, "absent within a block"),
    (Stands::BetweenBlocks, "between blocks"),
    (Stands::AboveAll, "above all"),
];

/// Of two values nothing stands between, and no third.
const NOT_OF_BOOLEAN: [Stands; 3] = [Stands::WithinBlock, Stands::AbsentWithinBlock, Stands::BetweenBlocks];

/// Why body and table are not those that one open accepted and left.
#[derive(Clone, Copy, Debug, PartialEq, Eq)]
pub enum Unopened {
    AnyWords,
    OffByOne,
    BehindTheBody,
    Swapped,
    AllAlike,
    ElsewhereInTheBody,
    AnotherType,
    AnotherBodysTable,
    Damaged,
    BrokenGroups,
    Cut,
}

const UNOPENED: [(Unopened, &str); 11] = [
    (Unopened::AnyWords, "any words"),
    (Unopened::OffByOne, "a position off by one"),
    (Unopened::BehindTheBody, "a position behind the body"),
    (Unopened::Swapped, "positions swapped"),
    (Unopened::AllAlike, "positions all alike"),
    (Unopened::ElsewhereInTheBody, "a position elsewhere in the body"),
    (Unopened::AnotherType, "another type"),
    (Unopened::AnotherBodysTable, "another body's table"),
    (Unopened::Damaged, "a body damaged since"),
    (Unopened::BrokenGroups, "a body that says other rows or values"),
    (Unopened::Cut, "a body cut since"),
];

/// How often each kind of lookup occurred.
pub struct LookUpKinds {
    of_answers: [u64; OF_LOOK_UP.len()],
    of_literals: [[u64; STANDS.len()]; types::WIDTHS.len()],
    /// Accepted and refused.
    of_unopened: [[u64; UNOPENED.len()]; 2],
}

impl LookUpKinds {
    pub fn new() -> LookUpKinds {
        LookUpKinds {
            of_answers: [0; OF_LOOK_UP.len()],
            of_literals: [[0; STANDS.len()]; types::WIDTHS.len()],
            of_unopened: [[0; UNOPENED.len()]; 2],
        }
    }

    pub fn add(&mut self, looked_up: &LookedUp) {
        add(&mut self.of_answers, OF_LOOK_UP.map(|(_, is)| is(looked_up)));
    }

    pub fn add_literal(&mut self, ty: u32, stands: Stands) {
        add(&mut self.of_literals[ty as usize], STANDS.map(|(other, _)| other == stands));
    }

    pub fn add_unopened(&mut self, unopened: Unopened, answer: u8) {
        let of_answer = &mut self.of_unopened[usize::from(answer != ACCEPTED)];
        add(of_answer, UNOPENED.map(|(other, _)| other == unopened));
    }

    /// Each kind and how often it occurred.
    pub fn all(&self) -> Vec<(String, u64)> {
        let mut all: Vec<(String, u64)> =
            OF_LOOK_UP.iter().zip(self.of_answers).map(|((name, _), count)| (name.to_string(), count)).collect();
        for (ty, counts) in self.of_literals.iter().enumerate() {
            let of_type = STANDS
                .iter()
                .zip(counts)
                .filter(|((stands, _), _)| ty != types::BOOLEAN as usize || !NOT_OF_BOOLEAN.contains(stands));
            all.extend(of_type.map(|((_, name), count)| (format!("literal {name}, type {ty}"), *count)));
        }
        for (counts, outcome) in self.of_unopened.iter().zip(["accepted", "refused"]) {
            all.extend(UNOPENED.iter().zip(counts).map(|((_, name), count)| (format!("{name}, {outcome}"), *count)));
        }
        all
    }
}
