//! The kinds of asked and stored names, counted for each call that takes names.

use reference::names::{modified, IMPROPER};
use reference::reader::{self, ABSENT, ACCEPTED};

use super::kinds::add;

const LITERAL: u8 = 11;

/// The most bytes of a name in modified form.
const MOST_BYTES: usize = 65_535;

/// Longer names take too long to be compared in each improper form.
const SHORT_NAME: usize = 100;

/// Magic, version and head length.
const FIRST_FIELDS: usize = 16;

/// What was asked of the buffer that is used, and what Locate says of it.
pub struct Named<'a> {
    pub used: &'a [u8],
    pub column: &'a [u8],
    pub kind: &'a [u8],
    pub answer: u8,
}

/// What can be wrong with an asked name.
#[derive(Clone, Copy, PartialEq, Eq)]
enum Fault {
    Overlong,
    Surrogate,
    Cut,
    Above,
    Stray,
    TooLong,
}

const FAULTS: [(&str, Fault); 6] = [
    ("an overlong form", Fault::Overlong),
    ("a surrogate", Fault::Surrogate),
    ("a character cut off", Fault::Cut),
    ("a character above 10FFFF", Fault::Above),
    ("a stray continuation byte", Fault::Stray),
    ("over 65,535 modified bytes", Fault::TooLong),
];

/// What is wrong first.
fn fault_of(name: &[u8]) -> Option<Fault> {
    let text = match std::str::from_utf8(name) {
        Ok(text) => text,
        Err(error) => {
            let wrong = &name[error.valid_up_to()..];
            return Some(match (wrong[0], wrong.get(1)) {
                (0xC0 | 0xC1, _) | (0xE0, Some(0x80..=0x9F)) | (0xF0, Some(0x80..=0x8F)) => Fault::Overlong,
                (0xED, Some(0xA0..=0xBF)) => Fault::Surrogate,
                (0xF4, Some(0x90..=0xBF)) | (0xF5.., _) => Fault::Above,
                (0x80..=0xBF, _) => Fault::Stray,
                _ => Fault::Cut,
            });
        }
    };
    (modified(text).len() > MOST_BYTES).then_some(Fault::TooLong)
}

/// What another name is answered where a wrong one is LITERAL.
const ANSWERED: [(&str, u8); 5] = [("SHORT", 1), ("MAGIC", 2), ("VERSION", 3), ("HEAD", 4), ("ABSENT", ABSENT)];

/// What a name has, and whether one has it.
type OfNames = (&'static str, fn(&str) -> bool);

const OF_NAMES: [OfNames; 6] = [
    ("zero", |name| name.contains('\0')),
    ("a character above FFFF", |name| name.chars().any(|one| one > '\u{FFFF}')),
    ("zero and a character above FFFF", |name| name.contains('\0') && name.chars().any(|one| one > '\u{FFFF}')),
    ("a character of two or three bytes", |name| name.chars().any(|one| ('\u{80}'..='\u{FFFF}').contains(&one))),
    ("no character", str::is_empty),
    ("65,535 modified bytes", |name| modified(name).len() == MOST_BYTES),
];

/// The two names of a call.
const NAMES: [&str; 2] = ["column", "kind"];
const OUTCOMES: [(&str, u8); 2] = [("found", ACCEPTED), ("ABSENT", ABSENT)];

/// How often each kind occurred. Where there are two lists, the first is of columns.
#[derive(Default)]
pub struct NameKinds {
    literal: [[u64; FAULTS.len()]; NAMES.len()],
    literal_for_both: u64,
    literal_without_buffers: u64,
    literal_for_kind_of_absent: u64,
    literal_before: [u64; ANSWERED.len()],
    found: [[u64; OF_NAMES.len()]; NAMES.len()],
    /// By outcome, name and improper form that is listed too.
    beside: [[[u64; IMPROPER.len()]; NAMES.len()]; OUTCOMES.len()],
}

impl NameKinds {
    pub fn add(&mut self, named: &Named) {
        if named.answer == LITERAL {
            return self.add_literal(named);
        }
        let (Ok(column), Ok(kind)) = (std::str::from_utf8(named.column), std::str::from_utf8(named.kind)) else {
            return;
        };
        if named.answer == ACCEPTED {
            for (counts, name) in self.found.iter_mut().zip([column, kind]) {
                add(counts, OF_NAMES.map(|(_, is)| is(name)));
            }
        }
        let Some(outcome) = OUTCOMES.iter().position(|(_, answer)| *answer == named.answer) else {
            return;
        };
        let may_be_improper = |name: &str| name.len() <= SHORT_NAME && name.chars().any(|one| one == '\0' || one > '\u{FFFF}');
        if may_be_improper(column) || may_be_improper(kind) {
            let columns = listed(named.used);
            let stored = modified(column);
            let of_column = columns.iter().find(|(name, _)| *name == stored).map_or(&[][..], |(_, kinds)| kinds);
            for (i, form) in IMPROPER.iter().enumerate() {
                let [of_columns, of_kinds] = &mut self.beside[outcome];
                let is_listed = |form: Vec<u8>| columns.iter().any(|(name, _)| *name == form);
                of_columns[i] += u64::from(may_be_improper(column) && form.of(column).is_some_and(is_listed));
                let is_listed = |form: Vec<u8>| of_column.contains(&&form[..]);
                of_kinds[i] += u64::from(may_be_improper(kind) && form.of(kind).is_some_and(is_listed));
            }
        }
    }

    fn add_literal(&mut self, named: &Named) {
        let faults = [named.column, named.kind].map(fault_of);
        for (counts, fault) in self.literal.iter_mut().zip(faults) {
            add(counts, FAULTS.map(|(_, other)| fault == Some(other)));
        }
        self.literal_for_both += u64::from(faults[0].is_some() && faults[1].is_some());
        self.literal_without_buffers += u64::from(named.used.is_empty());
        let (answer, ..) = reader::locate(&[], named.used, b"another", b"name");
        add(&mut self.literal_before, ANSWERED.map(|(_, other)| other == answer));
        if let (None, Ok(column), ABSENT) = (faults[0], std::str::from_utf8(named.column), answer) {
            let stored = modified(column);
            self.literal_for_kind_of_absent += u64::from(listed(named.used).iter().all(|(name, _)| *name != stored));
        }
    }

    /// Each kind and how often it occurred.
    pub fn all(&self) -> Vec<(String, u64)> {
        let mut all = vec![
            ("LITERAL, column and kind".to_string(), self.literal_for_both),
            ("LITERAL, no buffers".to_string(), self.literal_without_buffers),
            ("LITERAL, kind of an absent column".to_string(), self.literal_for_kind_of_absent),
        ];
        for (i, name) in NAMES.iter().enumerate() {
            let with = |fault: &str| format!("LITERAL, {name} with {fault}");
            all.extend(FAULTS.iter().zip(self.literal[i]).map(|((fault, _), count)| (with(fault), count)));
            all.extend(OF_NAMES.iter().zip(self.found[i]).map(|((of, _), count)| (format!("found, {name} with {of}"), count)));
            for ((outcome, _), counts) in OUTCOMES.iter().zip(self.beside) {
                let beside = |form: &str| format!("{outcome}, beside an improper form of the {name}: {form}");
                all.extend(IMPROPER.iter().zip(counts[i]).map(|(form, count)| (beside(form.name), count)));
            }
        }
        let before = |answer: &str| format!("LITERAL, where another name is {answer}");
        all.extend(ANSWERED.iter().zip(self.literal_before).map(|((answer, _), count)| (before(answer), count)));
        all
    }
}

/// The stored names of a head in which Locate finds no fault: each column's, with those of its kinds.
fn listed(file: &[u8]) -> Vec<(&[u8], Vec<&[u8]>)> {
    let mut rest = &file[FIRST_FIELDS..];
    let mut take = |count: usize| {
        let (taken, behind) = rest.split_at(count);
        rest = behind;
        taken
    };
    let number = |bytes: &[u8]| bytes.iter().fold(0, |number, byte| number << 8 | usize::from(*byte));
    let mut columns = Vec::new();
    for _ in 0..number(take(4)) {
        let length = number(take(2));
        let name = take(length);
        let mut kinds = Vec::new();
        for _ in 0..number(take(4)) {
            let length = number(take(2));
            kinds.push(take(length));
            // Start and length of the index.
            take(8);
        }
        columns.push((name, kinds));
    }
    columns
}
