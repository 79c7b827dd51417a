//! Each call made of the library and of the reference reader, the answers compared: number, counts or record, fault, and what is left in
//! lent memory. The plain reader's are held against them too, where it has the call.

// Each test file takes what it needs.
#![allow(dead_code)]

pub mod kinds;
pub mod lookups;
pub mod names;
mod plain;
pub mod windows;

use kinds::{Kinds, Subtracted};
use lookups::LookedUp;
use names::Named;
use poddurance::raw;
use reference::reader::{self, Fault, ACCEPTED};
use reference::record::Record;
use windows::Windowed;

use crate::support::{hex, say, Lender, Tally};

pub const LOCATE: usize = 0;
pub const AUDIT: usize = 1;
pub const ASK: usize = 2;
pub const ASK_FILE: usize = 3;
pub const OPEN: usize = 4;
pub const LOOK_UP: usize = 5;
pub const READ_DELETIONS: usize = 6;
pub const READ_WINDOW: usize = 7;
pub const SUBTRACT: usize = 8;
pub const SUBTRACT_RECORD: usize = 9;

/// What both say of a call: answer, count, the field as they leave it, and where a refusal's cause is.
pub type Found = (u8, u64, Vec<u8>, Fault);

/// What both say of a question: the same with a record for the count.
pub type Answered = (u8, Record, Vec<u8>, Fault);

/// What both say of an open: answer, row count, number of blocks, where a refusal's cause is, and field and table as they leave them.
#[derive(Clone, Debug, PartialEq, Eq)]
pub struct Opened {
    pub answer: u8,
    pub rows: u64,
    pub blocks: u64,
    pub fault: Fault,
    pub field: Vec<u8>,
    pub table: Vec<u32>,
}

/// The library's answer, its fault in the reference reader's form: entry, container, row.
pub fn said((answer, count, fault): (u8, u64, raw::Fault)) -> (u8, u64, Fault) {
    (answer, count, [fault.entry, fault.container, fault.row])
}

/// The library's answer to a question, record and fault in the reference reader's form.
pub fn answered((answer, record, fault): (u8, raw::Record, raw::Fault)) -> (u8, Record, Fault) {
    (answer, record_of(record), [fault.entry, fault.container, fault.row])
}

pub fn record_of(raw::Record { rows, nulls, deleted, matched }: raw::Record) -> Record {
    Record { rows, nulls, deleted, matched }
}

pub fn raw_record(Record { rows, nulls, deleted, matched }: Record) -> raw::Record {
    raw::Record { rows, nulls, deleted, matched }
}

/// The library's answer to an open, its fault in the reference reader's form.
pub fn opened((answer, rows, blocks, fault): (u8, u64, u64, raw::Fault)) -> (u8, u64, u64, Fault) {
    (answer, rows, blocks, [fault.entry, fault.container, fault.row])
}

/// The library's answer to a lookup, record and fault in the reference reader's form.
pub fn looked_up((answer, record, compared, fault): (u8, raw::Record, u64, raw::Fault)) -> (u8, Record, u64, Fault) {
    (answer, record_of(record), compared, [fault.entry, fault.container, fault.row])
}

/// The bytes of words, as a failure shows them: big-endian.
fn bytes_of(words: &[u32]) -> Vec<u8> {
    words.iter().flat_map(|word| word.to_be_bytes()).collect()
}

/// Makes each call of both, compares, and counts the answers.
pub struct Comparison {
    /// The seed of the round, or nothing for a fixed case.
    pub seed: Option<u64>,
    pub tally: Tally,
    pub kinds: Kinds,
    pub first: Lender,
    pub second: Lender,
    pub third: Lender,
    pub fourth: Lender,
    pub fifth: Lender,
    pub sixth: Lender,
}

/// What Locate is asked: two buffers, of which it looks at one, and two names.
#[derive(Clone, Copy)]
pub struct Where<'a> {
    pub embedded: &'a [u8],
    pub file: &'a [u8],
    pub column: &'a [u8],
    pub kind: &'a [u8],
}

impl<'a> Where<'a> {
    pub fn in_file(file: &'a [u8], column: &'a [u8], kind: &'a [u8]) -> Where<'a> {
        Where { embedded: &[], file, column, kind }
    }

    /// The bitmap index on a column `s`.
    pub fn small(file: &'a [u8]) -> Where<'a> {
        Where::in_file(file, b"s", b"bitmap")
    }
}

/// What is asked of a body: type, edition, question and literals.
#[derive(Clone, Copy)]
pub struct Asked<'a> {
    pub ty: u32,
    pub edition: u32,
    pub question: u32,
    pub literals: &'a [u8],
}

impl Comparison {
    pub fn new() -> Comparison {
        let [first, second, third, fourth, fifth, sixth] = [(); 6].map(|()| Lender::new());
        Comparison { seed: None, tally: Tally::new(), kinds: Kinds::new(), first, second, third, fourth, fifth, sixth }
    }

    pub fn locate(&mut self, embedded: &[u8], file: &[u8], column: &[u8], kind: &[u8]) -> (u8, u64, u64) {
        let expected = reader::locate(embedded, file, column, kind);
        let lent = (self.first.lend(embedded), self.second.lend(file), self.third.lend(column), self.fourth.lend(kind));
        let found = raw::locate(lent.0, lent.1, lent.2, lent.3);
        let same = found == expected && lent.0 == embedded && lent.1 == file && lent.2 == column && lent.3 == kind;
        if !same {
            let inputs = [("embedded", embedded), ("file", file), ("column", column), ("kind", kind)];
            self.fail("Locate", &inputs, &format!("library {found:?}, reference reader {expected:?}"));
        }
        self.tally.add(LOCATE, found.0);
        let used = if embedded.is_empty() { file } else { embedded };
        self.kinds.add_named(LOCATE, &Named { used, column, kind, answer: found.0 });
        found
    }

    pub fn audit(&mut self, body: &[u8], ty: u32, field: &[u8]) -> Found {
        let mut expected_field = field.to_vec();
        let expected = reader::audit(body, ty, &mut expected_field);
        let (lent_body, lent_field) = (self.first.lend(body), self.second.lend(field));
        let found = said(raw::audit(lent_body, ty, lent_field));
        let same = found == expected && lent_field == expected_field && lent_body == body;
        if !same {
            let found_field = lent_field.to_vec();
            let inputs = [
                ("body", body),
                ("field before", field),
                ("field after, library", &found_field),
                ("field after, reference reader", &expected_field),
            ];
            self.fail("Audit", &inputs, &format!("type {ty}: library {found:?}, reference reader {expected:?}"));
        }
        self.plain_audits(body, ty, field, expected, &expected_field);
        self.tally.add(AUDIT, found.0);
        (found.0, found.1, expected_field, found.2)
    }

    pub fn ask(&mut self, body: &[u8], ty: u32, edition: u32, question: u32, literals: &[u8], field: &[u8]) -> Answered {
        let mut expected_field = field.to_vec();
        let expected = reader::ask(body, ty, edition, question, literals, &mut expected_field);
        let (lent_body, lent_literals, lent_field) = (self.first.lend(body), self.second.lend(literals), self.third.lend(field));
        let found = answered(raw::ask(lent_body, ty, edition, question, lent_literals, lent_field));
        let same = found == expected && lent_field == expected_field && lent_body == body && lent_literals == literals;
        if !same {
            let found_field = lent_field.to_vec();
            let inputs = [
                ("body", body),
                ("literals", literals),
                ("field before", field),
                ("field after, library", &found_field),
                ("field after, reference reader", &expected_field),
            ];
            let asked = format!("type {ty}, edition {edition}, question {question}");
            let answers = format!("{asked}: library {found:?}, reference reader {expected:?}");
            self.fail("Ask", &inputs, &answers);
        }
        self.plain_asks(body, ty, edition, question, literals, field, expected, &expected_field);
        self.tally.add(ASK, found.0);
        if found.0 == ACCEPTED {
            self.kinds.add_asked(&kinds::Asked { edition, question, record: found.1 });
        }
        (found.0, found.1, expected_field, found.2)
    }

    pub fn ask_file(&mut self, at: Where, asked: Asked, field: &[u8]) -> Answered {
        let Where { embedded, file, column, kind } = at;
        let Asked { ty, edition, question, literals } = asked;
        let mut expected_field = field.to_vec();
        let expected = reader::ask_file(embedded, file, column, kind, ty, edition, question, literals, &mut expected_field);
        let lent = (self.first.lend(embedded), self.second.lend(file), self.third.lend(column), self.fourth.lend(kind));
        let (lent_literals, lent_field) = (self.fifth.lend(literals), self.sixth.lend(field));
        let found = answered(raw::ask_file(lent.0, lent.1, lent.2, lent.3, ty, edition, question, lent_literals, lent_field));
        let kept = lent.0 == embedded && lent.1 == file && lent.2 == column && lent.3 == kind && lent_literals == literals;
        if !(found == expected && lent_field == expected_field && kept) {
            let found_field = lent_field.to_vec();
            let inputs = [
                ("embedded", embedded),
                ("file", file),
                ("column", column),
                ("kind", kind),
                ("literals", literals),
                ("field before", field),
                ("field after, library", &found_field),
                ("field after, reference reader", &expected_field),
            ];
            let asked = format!("type {ty}, edition {edition}, question {question}");
            let answers = format!("{asked}: library {found:?}, reference reader {expected:?}");
            self.fail("Ask file", &inputs, &answers);
        }
        self.tally.add(ASK_FILE, found.0);
        let used = if embedded.is_empty() { file } else { embedded };
        // What Locate says of the names, with which the answer agrees.
        let (answer, ..) = reader::locate(&[], used, column, kind);
        self.kinds.add_named(ASK_FILE, &Named { used, column, kind, answer });
        if found.0 == ACCEPTED {
            self.kinds.add_asked(&kinds::Asked { edition, question, record: found.1 });
        }
        (found.0, found.1, expected_field, found.2)
    }

    pub fn open(&mut self, body: &[u8], ty: u32, field: &[u8], table: &[u32]) -> Opened {
        let (mut expected_field, mut expected_table) = (field.to_vec(), table.to_vec());
        let expected = reader::open(body, ty, &mut expected_field, &mut expected_table);
        let (lent_body, lent_field) = (self.first.lend(body), self.second.lend(field));
        let lent_table = self.third.lend_words(table);
        let found = opened(raw::open(lent_body, ty, lent_field, lent_table));
        let same = found == expected && lent_field == expected_field && lent_table == expected_table && lent_body == body;
        if !same {
            let (found_field, found_table) = (lent_field.to_vec(), bytes_of(lent_table));
            let inputs = [
                ("body", body),
                ("field before", field),
                ("field after, library", &found_field),
                ("field after, reference reader", &expected_field),
                ("table before", &bytes_of(table)),
                ("table after, library", &found_table),
                ("table after, reference reader", &bytes_of(&expected_table)),
            ];
            self.fail("Open", &inputs, &format!("type {ty}: library {found:?}, reference reader {expected:?}"));
        }
        self.plain_opens(body, ty, (field, table), expected, (&expected_field, &expected_table));
        let (answer, rows, blocks, fault) = found;
        self.tally.add(OPEN, answer);
        Opened { answer, rows, blocks, fault, field: expected_field, table: expected_table }
    }

    /// Answer, record, field and fault, and how many values were compared. What is promised of any body and table is held against the
    /// library's answer by itself too.
    pub fn look_up(
        &mut self,
        body: &[u8],
        ty: u32,
        edition: u32,
        literals: &[u8],
        table: &[u32],
        field: &[u8],
    ) -> (Answered, u64) {
        let mut expected_field = field.to_vec();
        let expected = reader::look_up(body, ty, edition, literals, table, &mut expected_field);
        let (lent_body, lent_literals, lent_field) = (self.first.lend(body), self.second.lend(literals), self.third.lend(field));
        let lent_table = self.fourth.lend_words(table);
        let found = looked_up(raw::look_up(lent_body, ty, edition, lent_literals, lent_table, lent_field));
        let kept = lent_body == body && lent_literals == literals && lent_table == table;
        let after = lent_field.to_vec();
        let (answer, record, compared, fault) = found;
        let looked_up = LookedUp { body, ty, table, before: field, after: &after, answer, record, compared, fault };
        let broken = looked_up.broken_promise();
        if !(found == expected && after == expected_field && kept && broken.is_none()) {
            let inputs = [
                ("body", body),
                ("literals", literals),
                ("table", &bytes_of(table)),
                ("field before", field),
                ("field after, library", &after),
                ("field after, reference reader", &expected_field),
            ];
            let asked = format!("type {ty}, edition {edition}");
            let broken = broken.map(|promise| format!("; {promise}")).unwrap_or_default();
            let answers = format!("{asked}: library {found:?}, reference reader {expected:?}{broken}");
            self.fail("Look up", &inputs, &answers);
        }
        self.plain_looks_up(body, ty, edition, literals, table, field, expected, &expected_field);
        self.tally.add(LOOK_UP, answer);
        self.kinds.add_looked_up(&looked_up);
        ((answer, record, expected_field, fault), compared)
    }

    pub fn read_deletions(&mut self, file: &[u8], bin: u64, rows: u64, field: &[u8]) -> Found {
        let mut expected_field = field.to_vec();
        let expected = reader::read_deletions(file, bin, rows, &mut expected_field);
        let (lent_file, lent_field) = (self.first.lend(file), self.second.lend(field));
        let found = said(raw::read_deletions(lent_file, bin, rows, lent_field));
        let same = found == expected && lent_field == expected_field && lent_file == file;
        if !same {
            let found_field = lent_field.to_vec();
            let inputs = [
                ("file", file),
                ("field before", field),
                ("field after, library", &found_field),
                ("field after, reference reader", &expected_field),
            ];
            let answers = format!("bin {bin}, rows {rows}: library {found:?}, reference reader {expected:?}");
            self.fail("Read deletions", &inputs, &answers);
        }
        self.tally.add(READ_DELETIONS, found.0);
        (found.0, found.1, expected_field, found.2)
    }

    /// What is promised of any file is held against the library's answer by itself too.
    pub fn read_window(&mut self, file: &[u8], bin: u64, first: u64, rows: u64, field: &[u8]) -> Found {
        let mut expected_field = field.to_vec();
        let expected = reader::read_window(file, bin, first, rows, &mut expected_field);
        let (lent_file, lent_field) = (self.first.lend(file), self.second.lend(field));
        let found = said(raw::read_window(lent_file, bin, first, rows, lent_field));
        let same = found == expected && lent_field == expected_field && lent_file == file;
        let after = lent_field.to_vec();
        let (answer, deleted, fault) = found;
        let windowed = Windowed { file, bin, first, rows, before: field, after: &after, answer, deleted, fault };
        let broken = windowed.broken_promise();
        if !same || broken.is_some() {
            let inputs = [
                ("file", file),
                ("field before", field),
                ("field after, library", &after),
                ("field after, reference reader", &expected_field),
            ];
            let broken = broken.map(|promise| format!("; {promise}")).unwrap_or_default();
            let asked = format!("bin {bin}, {rows} rows from {first} on");
            self.fail("Read window", &inputs, &format!("{asked}: library {found:?}, reference reader {expected:?}{broken}"));
        }
        self.tally.add(READ_WINDOW, answer);
        self.kinds.add_windowed(&windowed);
        (answer, deleted, expected_field, fault)
    }

    pub fn subtract(&mut self, first: &[u8], second: &[u8], rows: u64) -> (u8, u64, u64, Vec<u8>) {
        let mut expected_first = first.to_vec();
        let expected = reader::subtract(&mut expected_first, second, rows);
        let (lent_first, lent_second) = (self.first.lend(first), self.second.lend(second));
        let found = raw::subtract(lent_first, lent_second, rows);
        let same = found == expected && lent_first == expected_first && lent_second == second;
        if !same {
            let found_first = lent_first.to_vec();
            let inputs = [
                ("first before", first),
                ("second", second),
                ("first after, library", &found_first),
                ("first after, reference reader", &expected_first),
            ];
            self.fail("Subtract", &inputs, &format!("rows {rows}: library {found:?}, reference reader {expected:?}"));
        }
        self.tally.add(SUBTRACT, found.0);
        (found.0, found.1, found.2, expected_first)
    }

    /// Answer, record, rows removed, and the first field.
    pub fn subtract_record(&mut self, first: &[u8], second: &[u8], given: Record) -> (u8, Record, u64, Vec<u8>) {
        let mut expected_first = first.to_vec();
        let expected = reader::subtract_record(&mut expected_first, second, given);
        let (lent_first, lent_second) = (self.first.lend(first), self.second.lend(second));
        let (answer, record, removed) = raw::subtract_record(lent_first, lent_second, raw_record(given));
        let found = (answer, record_of(record), removed);
        let same = found == expected && lent_first == expected_first && lent_second == second;
        if !same {
            let found_first = lent_first.to_vec();
            let inputs = [
                ("first before", first),
                ("second", second),
                ("first after, library", &found_first),
                ("first after, reference reader", &expected_first),
            ];
            self.fail("Subtract record", &inputs, &format!("{given:?}: library {found:?}, reference reader {expected:?}"));
        }
        self.tally.add(SUBTRACT_RECORD, answer);
        let (_, record, _) = found;
        self.kinds.add_subtracted(&Subtracted { first, second, given, answer, record, removed });
        (answer, record, removed, expected_first)
    }

    /// Prints the inputs and how to repeat them, and ends the test.
    pub fn fail(&self, call: &str, inputs: &[(&str, &[u8])], answers: &str) -> ! {
        say(&format!("{call} differs: {answers}"));
        for (name, bytes) in inputs {
            say(&format!("{name} ({} bytes): {}", bytes.len(), hex(bytes)));
        }
        match self.seed {
            Some(seed) => panic!(
                "{call} differs; alone again with PODDURANCE_SEED={seed} PODDURANCE_CASES=1 cargo test --test differential"
            ),
            None => panic!("{call} differs in a fixed case"),
        }
    }

    /// A demand on sound input: where it doesn't hold, both readers may be wrong alike.
    pub fn demand(&self, holds: bool, what: &str, inputs: &[(&str, &[u8])]) {
        if !holds {
            self.fail(what, inputs, "the answer isn't the one that the column gives");
        }
    }
}
