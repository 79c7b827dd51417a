//! The kinds of answers with a record, of names and of windows, counted, so that a test can demand that each of them occurred.

use reference::reader::ACCEPTED;
use reference::record::Record;
use reference::types;

use super::lookups::{LookUpKinds, LookedUp, Stands, Unopened};
use super::names::{NameKinds, Named};
use super::windows::{WindowKinds, Windowed};
use super::{ASK_FILE, LOCATE};
use crate::support::CALLS;

const ROOM: u8 = 10;
const LIMIT: u8 = 12;

/// The most rows.
const MAX: u64 = 2_147_483_647;

/// An accepted answer to a question.
pub struct Asked {
    pub edition: u32,
    pub question: u32,
    pub record: Record,
}

/// What Subtract of a record was given, and what it said.
pub struct Subtracted<'a> {
    pub first: &'a [u8],
    pub second: &'a [u8],
    pub given: Record,
    pub answer: u8,
    pub record: Record,
    pub removed: u64,
}

impl Subtracted<'_> {
    fn accepted(&self) -> bool {
        self.answer == ACCEPTED && self.given.rows > 0
    }

    /// Whether the first field, and the second, is too short.
    fn short(&self) -> [bool; 2] {
        [self.first, self.second].map(|field| self.answer == ROOM && (field.len() as u64) < self.given.rows.div_ceil(8))
    }

    /// Whether bits of the last byte that stand for no row are set.
    fn has_spare_bits(&self, field: &[u8]) -> bool {
        let rows = self.given.rows;
        self.accepted() && rows % 8 != 0 && field[(rows / 8) as usize] >> (rows % 8) != 0
    }

    fn has_bytes_behind(&self, field: &[u8]) -> bool {
        self.accepted() && field.len() as u64 > self.given.rows.div_ceil(8)
    }
}

/// A name and what it stands for.
type OfAsk = (&'static str, fn(&Asked) -> bool);
type OfSubtract = (&'static str, fn(&Subtracted) -> bool);

const OF_ASK: [OfAsk; 8] = [
    ("no rows", |it| it.record.rows == 0),
    ("skip", |it| it.record.rows > 0 && it.record.matched == 0),
    ("keep", |it| it.record.matched > 0),
    ("all rows", |it| it.record.rows > 0 && it.record.matched == it.record.rows),
    ("no null row", |it| it.record.rows > 0 && it.record.nulls == 0),
    ("null rows alone", |it| it.record.rows > 0 && it.record.nulls == it.record.rows),
    ("skip with null rows", |it| it.record.nulls > 0 && it.record.matched == 0),
    ("more null rows than matched", |it| it.record.matched > 0 && it.record.nulls > it.record.matched),
];

const OF_SUBTRACT: [OfSubtract; 26] = [
    ("LIMIT", |it| it.answer == LIMIT),
    ("LIMIT, one row too many", |it| it.answer == LIMIT && it.given.rows == MAX + 1),
    ("ROOM, both fields", |it| it.short() == [true, true]),
    ("ROOM, first field", |it| it.short() == [true, false]),
    ("ROOM, second field", |it| it.short() == [false, true]),
    ("ROOM, most rows", |it| it.answer == ROOM && it.given.rows == MAX),
    ("ROOM, one byte", |it| it.answer == ROOM && it.first.len().min(it.second.len()) as u64 + 1 == it.given.rows.div_ceil(8)),
    ("refused with numbers", |it| it.answer != ACCEPTED && it.given.nulls > 0 && it.given.deleted > 0 && it.given.matched > 0),
    ("no rows", |it| it.answer == ACCEPTED && it.given.rows == 0),
    ("skip", |it| it.accepted() && it.record.matched == 0),
    ("skip by removing", |it| it.accepted() && it.record.matched == 0 && it.removed > 0),
    ("keep", |it| it.accepted() && it.record.matched > 0),
    ("keep of what is left", |it| it.accepted() && it.record.matched > 0 && it.removed > 0),
    ("deleted 0", |it| it.accepted() && it.record.deleted == 0),
    ("deleted and none removed", |it| it.accepted() && it.record.deleted > 0 && it.removed == 0),
    ("deleted and all removed", |it| it.accepted() && it.record.deleted > 0 && it.removed == it.record.deleted),
    ("deleted and some removed", |it| it.accepted() && it.removed > 0 && it.record.deleted > it.removed),
    ("all rows deleted", |it| it.accepted() && it.record.deleted == it.record.rows),
    // Deleted added up would be another number, and so would matched less removed.
    ("deleted replaced", |it| it.accepted() && it.given.deleted > 0 && it.record.deleted > 0),
    ("matched replaced", |it| it.accepted() && it.given.matched.wrapping_sub(it.removed) != it.record.matched),
    ("more null rows than rows", |it| it.accepted() && it.given.nulls > it.given.rows),
    ("numbers of all ones", |it| it.accepted() && [it.given.nulls, it.given.deleted, it.given.matched] == [u64::MAX; 3]),
    ("spare bits, first field", |it| it.has_spare_bits(it.first)),
    ("spare bits, second field", |it| it.has_spare_bits(it.second)),
    ("bytes behind, first field", |it| it.has_bytes_behind(it.first)),
    ("bytes behind, second field", |it| it.has_bytes_behind(it.second)),
];

/// The questions of both editions.
const QUESTIONS: usize = types::EDITIONS.len() * (types::IS_NOT_NULL as usize + 1);

/// The calls that take names.
const WITH_NAMES: [usize; 2] = [LOCATE, ASK_FILE];

/// How often each kind occurred.
pub struct Kinds {
    of_names: [NameKinds; WITH_NAMES.len()],
    of_ask: [u64; OF_ASK.len()],
    /// Answers of a column with null rows, by edition and question.
    with_nulls: [u64; QUESTIONS],
    of_look_up: LookUpKinds,
    of_window: WindowKinds,
    of_subtract: [u64; OF_SUBTRACT.len()],
}

impl Kinds {
    pub fn new() -> Kinds {
        Kinds {
            of_names: Default::default(),
            of_ask: [0; OF_ASK.len()],
            with_nulls: [0; QUESTIONS],
            of_look_up: LookUpKinds::new(),
            of_window: WindowKinds::new(),
            of_subtract: [0; OF_SUBTRACT.len()],
        }
    }

    pub fn add_named(&mut self, call: usize, named: &Named) {
        let call = WITH_NAMES.iter().position(|other| *other == call).expect("a call with names");
        self.of_names[call].add(named);
    }

    pub fn add_asked(&mut self, asked: &Asked) {
        add(&mut self.of_ask, OF_ASK.map(|(_, is)| is(asked)));
        if asked.record.nulls > 0 {
            let edition = types::EDITIONS.iter().position(|edition| *edition == asked.edition).expect("a known edition");
            self.with_nulls[types::EDITIONS.len() * asked.question as usize + edition] += 1;
        }
    }

    pub fn add_looked_up(&mut self, looked_up: &LookedUp) {
        self.of_look_up.add(looked_up);
    }

    /// A literal looked up in an opened body of that type.
    pub fn add_literal(&mut self, ty: u32, stands: Stands) {
        self.of_look_up.add_literal(ty, stands);
    }

    /// What a lookup answered where the open didn't accept what it was given.
    pub fn add_unopened(&mut self, unopened: Unopened, answer: u8) {
        self.of_look_up.add_unopened(unopened, answer);
    }

    pub fn add_windowed(&mut self, windowed: &Windowed) {
        self.of_window.add(windowed);
    }

    pub fn add_subtracted(&mut self, subtracted: &Subtracted) {
        add(&mut self.of_subtract, OF_SUBTRACT.map(|(_, is)| is(subtracted)));
    }

    /// Each kind and how often it occurred.
    pub fn all(&self) -> Vec<(String, u64)> {
        let mut all = Vec::new();
        for (call, kinds) in WITH_NAMES.into_iter().zip(&self.of_names) {
            all.extend(kinds.all().into_iter().map(|(kind, count)| (format!("{}: {kind}", CALLS[call]), count)));
        }
        all.extend(OF_ASK.iter().zip(self.of_ask).map(|((name, _), count)| (format!("Ask: {name}"), count)));
        for (i, count) in self.with_nulls.into_iter().enumerate() {
            let (question, edition) = (i / types::EDITIONS.len(), types::EDITIONS[i % types::EDITIONS.len()]);
            all.push((format!("Ask: null rows, question {question} in edition {edition}"), count));
        }
        all.extend(self.of_look_up.all().into_iter().map(|(kind, count)| (format!("Look up: {kind}"), count)));
        all.extend(self.of_window.all().into_iter().map(|(kind, count)| (format!("Read window: {kind}"), count)));
        all.extend(
            OF_SUBTRACT.iter().zip(self.of_subtract).map(|((name, _), count)| (format!("Subtract record: {name}"), count)),
        );
        all
    }
}

pub fn add<const N: usize>(counts: &mut [u64; N], occurred: [bool; N]) {
    for (count, occurred) in counts.iter_mut().zip(occurred) {
        *count += u64::from(occurred);
    }
}
