//! The plain Rust reader of docs/src, of which the same calls are made where it has them: Audit, Open, and Ask and Look up with a known
//! edition, of which it has EQUAL and IN. Nothing else is lent to it than to the library.

use plain_reader::{Question, Refusal};
use reference::reader::{Fault, ACCEPTED, NO_FAULT};
use reference::record::Record;
use reference::types;

use super::{bytes_of, Comparison};

/// The answer, what it counts, and the fault, in the reference reader's form; `none` is what a refusal counts.
fn said<C>(result: Result<C, Refusal>, none: C) -> (u8, C, Fault) {
    match result {
        Ok(counted) => (ACCEPTED, counted, NO_FAULT),
        Err(refusal) => (refusal.number(), none, refusal.fault()),
    }
}

fn record_of(plain_reader::Record { rows, nulls, deleted, matched }: plain_reader::Record) -> Record {
    Record { rows, nulls, deleted, matched }
}

impl Comparison {
    /// Its Audit answers as expected, and leaves the field so.
    pub(super) fn plain_audits(&self, body: &[u8], ty: u32, field: &[u8], expected: (u8, u64, Fault), left: &[u8]) {
        let mut found_field = field.to_vec();
        let found = said(plain_reader::audit(body, ty, &mut found_field), 0);
        if found != expected || found_field != left {
            let inputs = [("body", body), ("field before", field), ("field after", &found_field), ("expected", left)];
            self.fail("Audit of the plain reader", &inputs, &format!("type {ty}: {found:?}, expected {expected:?}"));
        }
    }

    /// Its Ask does, if it has the question.
    #[allow(clippy::too_many_arguments)]
    pub(super) fn plain_asks(
        &self,
        body: &[u8],
        ty: u32,
        edition: u32,
        question: u32,
        literals: &[u8],
        field: &[u8],
        expected: (u8, Record, Fault),
        left: &[u8],
    ) {
        let asked = match question {
            types::EQUAL => Question::Equal,
            types::IN => Question::In,
            _ => return,
        };
        if !types::EDITIONS.contains(&edition) {
            return;
        }
        let mut found_field = field.to_vec();
        let answered = plain_reader::ask(body, ty, asked, literals, &mut found_field);
        let found = said(answered.map(record_of), Record::NONE);
        if found != expected || found_field != left {
            let inputs = [
                ("body", body),
                ("literals", literals),
                ("field before", field),
                ("field after", &found_field),
                ("expected", left),
            ];
            self.fail("Ask of the plain reader", &inputs, &format!("type {ty}, {asked:?}: {found:?}, expected {expected:?}"));
        }
    }

    /// Its Open does, and leaves the table so.
    pub(super) fn plain_opens(
        &self,
        body: &[u8],
        ty: u32,
        (field, table): (&[u8], &[u32]),
        expected: (u8, u64, u64, Fault),
        left: (&[u8], &[u32]),
    ) {
        let (mut found_field, mut found_table) = (field.to_vec(), table.to_vec());
        let (answer, (rows, blocks), fault) = said(plain_reader::open(body, ty, &mut found_field, &mut found_table), (0, 0));
        let found = (answer, rows, blocks, fault);
        if found != expected || (&found_field[..], &found_table[..]) != left {
            let inputs = [
                ("body", body),
                ("field before", field),
                ("field after", &found_field),
                ("field expected", left.0),
                ("table before", &bytes_of(table)),
                ("table after", &bytes_of(&found_table)),
                ("table expected", &bytes_of(left.1)),
            ];
            self.fail("Open of the plain reader", &inputs, &format!("type {ty}: {found:?}, expected {expected:?}"));
        }
    }

    /// Its Look up does.
    #[allow(clippy::too_many_arguments)]
    pub(super) fn plain_looks_up(
        &self,
        body: &[u8],
        ty: u32,
        edition: u32,
        literals: &[u8],
        table: &[u32],
        field: &[u8],
        expected: (u8, Record, u64, Fault),
        left: &[u8],
    ) {
        if !types::EDITIONS.contains(&edition) {
            return;
        }
        let mut found_field = field.to_vec();
        let answered = plain_reader::look_up(body, ty, literals, table, &mut found_field);
        let answered = answered.map(|(record, compared)| (record_of(record), compared));
        let (answer, (record, compared), fault) = said(answered, (Record::NONE, 0));
        let found = (answer, record, compared, fault);
        if found != expected || found_field != left {
            let inputs = [
                ("body", body),
                ("literals", literals),
                ("table", &bytes_of(table)),
                ("field before", field),
                ("field after", &found_field),
                ("expected", left),
            ];
            self.fail("Look up of the plain reader", &inputs, &format!("type {ty}: {found:?}, expected {expected:?}"));
        }
    }
}
