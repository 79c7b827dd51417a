//! The plain reader answers as the reference reader does: with the same record, refusal, fault, field and bytes behind the field, on
//! sound bodies in all layouts, and on damaged bodies, short fields, literals that don't fit, and tables that no Open filled.
//!
//! The environment variables PODDURANCE_SEED (where the seeds start) and PODDURANCE_CASES (how many calls at least) ask for other or
//! more cases.

use std::env;
use std::fmt::Debug;

use plain_reader::{ask, audit, look_up, open, Question, Record, Refusal};
use reference::random::{self, Random};
use reference::reader::{self, NO_FAULT};
use reference::scan::scan;
use reference::types::{self, EQUAL, FIRST_EDITION, IN};
use reference::writer::{body_traced, Column, Groups, Layout, Traced};

const DEFAULT_SEED: u64 = 20_240_101;
const DEFAULT_CASES: u64 = 400_000;
/// At least so many calls must have been given each answer that the call can give,
const FEWEST_OF_EACH: u64 = 100;
/// of so many calls.
const FEWEST_PER: u64 = 150_000;

const ACCEPTED: u8 = 0;

/// The calls and the answers that each can give.
const CALLS: [(&str, &[u8]); 4] = [
    ("Audit", &[ACCEPTED, 1, 3, 5, 6, 7, 8, 9, 10, 11, 12]),
    ("Ask", &[ACCEPTED, 1, 3, 5, 6, 7, 8, 9, 10, 11, 12]),
    ("Open", &[ACCEPTED, 1, 3, 5, 6, 7, 8, 9, 10, 11, 12]),
    ("Look up", &[ACCEPTED, 1, 3, 5, 6, 7, 10, 11, 12]),
];
const AUDIT: usize = 0;
const ASK: usize = 1;
const OPEN: usize = 2;
const LOOK_UP: usize = 3;

/// The fields of a bitmap, as the writer names them.
const OF_BITMAPS: [&str; 10] =
    ["cookie", "run flags", "container number", "key", "cardinality", "container offset", "run number", "runs", "array", "bits"];

/// An answer as the reference reader gives it: number, what an accepted call says, and fault.
fn said<T>(answer: Result<T, Refusal>, none: T) -> (u8, T, [u64; 3]) {
    match answer {
        Ok(found) => (ACCEPTED, found, NO_FAULT),
        Err(refusal) => (refusal.number(), none, refusal.fault()),
    }
}

fn numbers(record: Record) -> [u64; 4] {
    [record.rows, record.nulls, record.deleted, record.matched]
}

fn reference_numbers(record: reference::record::Record) -> [u64; 4] {
    [record.rows, record.nulls, record.deleted, record.matched]
}

/// Makes each call of both readers, compares, and counts the answers.
struct Comparison {
    seed: u64,
    answers: [[u64; 256]; CALLS.len()],
}

impl Comparison {
    fn calls(&self) -> u64 {
        self.answers.iter().flatten().sum()
    }

    /// Counts an answer that is the same in both.
    fn same<T: Debug + PartialEq>(&mut self, call: usize, answer: u8, found: T, expected: T, inputs: &dyn Debug) {
        let (name, possible) = CALLS[call];
        assert!(found == expected, "{name}, seed {}: {found:?}, reference reader {expected:?}; {inputs:x?}", self.seed);
        assert!(possible.contains(&answer), "{name}, seed {}: the answer {answer}", self.seed);
        self.answers[call][usize::from(answer)] += 1;
    }

    fn audit(&mut self, body: &[u8], ty: u32, before: &[u8]) {
        let (mut field, mut expected_field) = (before.to_vec(), before.to_vec());
        let found = said(audit(body, ty, &mut field), 0);
        let expected = reader::audit(body, ty, &mut expected_field);
        self.same(AUDIT, found.0, (found, field), (expected, expected_field), &(ty, body, before));
    }

    /// The record and the field.
    fn ask(&mut self, body: &[u8], ty: u32, question: u32, literals: &[u8], before: &[u8]) -> ([u64; 4], Vec<u8>) {
        let (mut field, mut expected_field) = (before.to_vec(), before.to_vec());
        let asked = if question == EQUAL { Question::Equal } else { Question::In };
        let found = said(ask(body, ty, asked, literals, &mut field).map(numbers), [0; 4]);
        let (answer, record, fault) = reader::ask(body, ty, FIRST_EDITION, question, literals, &mut expected_field);
        let expected = (answer, reference_numbers(record), fault);
        let after = field.clone();
        self.same(ASK, found.0, (found, field), (expected, expected_field), &(ty, question, literals, body, before));
        (found.1, after)
    }

    /// The table.
    fn open(&mut self, body: &[u8], ty: u32, before: &[u8], words: &[u32]) -> Vec<u32> {
        let (mut field, mut expected_field) = (before.to_vec(), before.to_vec());
        let (mut table, mut expected_table) = (words.to_vec(), words.to_vec());
        let found = said(open(body, ty, &mut field, &mut table), (0, 0));
        let (answer, rows, blocks, fault) = reader::open(body, ty, &mut expected_field, &mut expected_table);
        let expected = (answer, (rows, blocks), fault);
        let filled = table.clone();
        let inputs = (ty, body, before, words);
        self.same(OPEN, found.0, (found, field, table), (expected, expected_field, expected_table), &inputs);
        filled
    }

    fn look_up(&mut self, body: &[u8], ty: u32, literals: &[u8], table: &[u32], before: &[u8]) {
        let (mut field, mut expected_field) = (before.to_vec(), before.to_vec());
        let answer = look_up(body, ty, literals, table, &mut field);
        let found = said(answer.map(|(record, compared)| (numbers(record), compared)), ([0; 4], 0));
        let (answer, record, compared, fault) = reader::look_up(body, ty, FIRST_EDITION, literals, table, &mut expected_field);
        let expected = (answer, (reference_numbers(record), compared), fault);
        self.same(LOOK_UP, found.0, (found, field), (expected, expected_field), &(ty, literals, table, body, before));
    }

    /// All four calls, with tables of any words.
    fn all(&mut self, random: &mut Random, body: &[u8], ty: u32, question: u32, literals: &[u8], rows: usize) {
        self.audit(body, ty, &random::field_or_short(random, rows));
        self.ask(body, ty, question, literals, &random::field_or_short(random, rows));
        let table = any_table(random, body);
        let table = self.open(body, ty, &random::field_or_short(random, rows), &table);
        self.look_up(body, ty, literals, &table, &random::field_or_short(random, rows));
    }
}

/// A question of this reader: EQUAL or IN, and literals that mostly fit it.
fn question(random: &mut Random, groups: &Groups) -> (u32, Vec<Vec<u8>>) {
    if random.percent(50) {
        return (EQUAL, vec![random::literal(random, groups)]);
    }
    loop {
        if let (IN, values) = random::question(random, groups) {
            return (IN, values);
        }
    }
}

/// A few words of anything, mostly positions within the body.
fn any_table(random: &mut Random, body: &[u8]) -> Vec<u32> {
    let words = random.below(40);
    (0..words)
        .map(|_| match random.below(10) {
            0 => random.number() as u32,
            1 => body.len() as u32 + random.below(3) as u32,
            _ => random.below(body.len() + 1) as u32,
        })
        .collect()
}

/// A column: mostly small, so that damage matters.
fn small_column(random: &mut Random) -> Column {
    let ty = random.below(types::WIDTHS.len()) as u32;
    let rows = if random.percent(85) { random.below(60) } else { random::row_count(random).min(9_000) };
    random::column_of(random, ty, rows)
}

/// A body as it is, and where the entries of its directory start.
struct Written {
    groups: Groups,
    traced: Traced,
    table: Vec<u32>,
}

impl Written {
    fn new(random: &mut Random, groups: Groups) -> Written {
        let layout = random::layout(random, &groups);
        Written::with(groups, &layout)
    }

    fn with(groups: Groups, layout: &Layout) -> Written {
        let traced = body_traced(&groups, layout);
        let mut table = Vec::new();
        let mut value = 0;
        for field in &traced.fields {
            match field.name {
                "value" | "string length" => value = field.at as u32,
                "block offset" => table.push(value),
                _ => {}
            }
        }
        Written { groups, traced, table }
    }
}

/// Sound bodies, with the scan's answers too.
fn sound(both: &mut Comparison, random: &mut Random) {
    let column = if random.percent(80) { random::column(random) } else { random::column_of_many(random) };
    let mut groups = column.groups();
    random::add_unused_values(random, &mut groups);
    let Written { groups, traced, table } = Written::new(random, groups);
    let (body, rows) = (&traced.bytes, column.cells.len());
    both.audit(body, column.ty, &random::field(random, rows));
    let words: Vec<u32> = (0..table.len() + random.below(3)).map(|_| random.number() as u32).collect();
    let filled = both.open(body, column.ty, &random::field(random, rows), &words);
    for _ in 0..6 {
        let (question, values) = question(random, &groups);
        let literals = types::literals(column.ty, &values);
        let before = random::field(random, rows);
        let found = both.ask(body, column.ty, question, &literals, &before);
        let (expected, record) = scan(&column, FIRST_EDITION, question, &values);
        let expected = (reference_numbers(record), [&expected, &before[rows.div_ceil(8)..]].concat());
        assert_eq!(found, expected, "the scan, seed {}", both.seed);
        both.look_up(body, column.ty, &literals, &filled, &before);
    }
}

/// Bodies with a broken rule.
fn damaged(both: &mut Comparison, random: &mut Random) {
    let column = small_column(random);
    let mut groups = column.groups();
    random::add_unused_values(random, &mut groups);
    for _ in 0..6 {
        let mut broken = groups.clone();
        let is_broken = random.percent(40);
        if is_broken {
            random::break_groups(random, &mut broken);
        }
        let written = Written::new(random, broken);
        let body = match random.below(10) {
            0..=7 if is_broken => written.traced.bytes,
            0..=2 => random::damage(random, &of_bitmaps(&written.traced)),
            _ => random::damage(random, &written.traced),
        };
        let ty = if random.percent(3) { random.below(14) as u32 } else { column.ty };
        let rows = column.cells.len() + random.below(9);
        let (question, values) = question(random, &groups);
        let literals = types::literals(column.ty, &values);
        both.all(random, &body, ty, question, &literals, rows);
        let literals = types::literals(column.ty, &[random::literal(random, &groups)]);
        both.look_up(&body, ty, &literals, &written.table, &random::field_or_short(random, rows));
        both.open(&body, ty, &random::field_or_short(random, rows), &vec![0; written.table.len()]);
    }
}

/// The bytes with the fields of bitmaps alone.
fn of_bitmaps(traced: &Traced) -> Traced {
    let fields = traced.fields.iter().filter(|field| OF_BITMAPS.contains(&field.name)).copied().collect();
    Traced { bytes: traced.bytes.clone(), fields }
}

/// Bodies of one or two entries whose bitmaps are nearly sound.
fn near_bitmaps(both: &mut Comparison, random: &mut Random) {
    let bitmaps = [random::near_bitmap(random), random::near_bitmap(random)];
    let rows = *random.pick(&[0, 1, 65_535, 65_536, 131_072, 300_000, 400_001, 3_000_000]);
    let length = |random: &mut Random, bitmap: &[u8]| match random.below(8) {
        0..=3 => -1,
        4..=6 => bitmap.len() as i32,
        _ => bitmap.len() as i32 + random.below(5) as i32 - 2,
    };
    let lengths = [length(random, &bitmaps[0]), length(random, &bitmaps[1])];
    let tail = random.below(4);
    let (entries, has_null) = *random.pick(&[(1, false), (0, true), (1, true)]);
    let mut body = vec![2];
    body.extend(u32::to_be_bytes(rows));
    body.extend(u32::to_be_bytes(entries));
    body.push(u8::from(has_null));
    if has_null {
        body.extend(0i32.to_be_bytes());
        body.extend(lengths[0].to_be_bytes());
    }
    body.extend(u32::to_be_bytes(entries));
    let listed = body.len() as u32;
    if entries == 1 {
        body.extend([7, 0, 0, 0, 0]);
        body.extend(13u32.to_be_bytes());
        body.extend(1u32.to_be_bytes());
        body.push(7);
        let offset = if has_null { bitmaps[0].len() as i32 } else { 0 };
        body.extend(offset.to_be_bytes());
        body.extend(lengths[usize::from(has_null)].to_be_bytes());
    } else {
        body.extend(0u32.to_be_bytes());
    }
    body.extend(&bitmaps[0]);
    if has_null {
        body.extend(&bitmaps[1]);
    }
    body.extend(random.bytes(tail));
    let before = random::field(random, rows as usize);
    both.audit(&body, types::TINYINT, &before);
    both.ask(&body, types::TINYINT, EQUAL, &[7], &before);
    both.open(&body, types::TINYINT, &before, &[0]);
    both.look_up(&body, types::TINYINT, &[7], &[listed], &before);
}

/// Rows of several containers, in stretches and scattered, at times with a broken rule.
fn wide(both: &mut Comparison, random: &mut Random) {
    let mut groups = random::wide_groups(random);
    if random.percent(40) {
        random::break_groups(random, &mut groups);
    }
    let written = Written::new(random, groups);
    let body = if random.percent(40) { random::damage(random, &of_bitmaps(&written.traced)) } else { written.traced.bytes };
    let (ty, rows) = (written.groups.ty, written.groups.rows as usize);
    let literals = types::literals(ty, &[random::literal(random, &written.groups)]);
    both.all(random, &body, ty, EQUAL, &literals, rows);
    let (question, values) = question(random, &written.groups);
    both.ask(&body, ty, question, &types::literals(ty, &values), &random::field(random, rows));
    both.look_up(&body, ty, &literals, &written.table, &random::field(random, rows));
}

/// Literals that don't fit, on sound and on damaged bodies.
fn misfits(both: &mut Comparison, random: &mut Random) {
    let column = small_column(random);
    let written = Written::new(random, column.groups());
    for _ in 0..6 {
        let (ty, _, question, literals) = random::misfit_question(random, &written.groups);
        let question = if question == EQUAL { EQUAL } else { IN };
        let body = if random.percent(70) { written.traced.bytes.clone() } else { random::damage(random, &written.traced) };
        both.all(random, &body, ty, question, &literals, column.cells.len());
        both.look_up(&body, ty, &literals, &written.table, &random::field_or_short(random, column.cells.len()));
    }
}

/// Lookups whose table, body and type are not those of one Open.
fn unopened(both: &mut Comparison, random: &mut Random) {
    let column = small_column(random);
    let mut groups = column.groups();
    random::add_unused_values(random, &mut groups);
    let layout = Layout { version: 2, ..random::layout(random, &groups) };
    let written = Written::with(groups, &layout);
    for _ in 0..10 {
        let mut table = written.table.clone();
        let mut ty = column.ty;
        let mut body = written.traced.bytes.clone();
        match random.below(6) {
            0 => {
                for word in &mut table {
                    *word = random.below(body.len() + 2) as u32;
                }
            }
            1 => {
                for word in &mut table {
                    if random.percent(40) {
                        *word = random.pick(&written.traced.fields).at as u32;
                    }
                }
            }
            2 => random.shuffle(&mut table),
            3 => ty = random.below(types::WIDTHS.len()) as u32,
            4 => body = random::damage(random, &written.traced),
            _ => body.truncate(body.len() - random.below(body.len().min(40))),
        }
        let literal = if ty == column.ty { random::literal(random, &written.groups) } else { random::value(random, ty, 40) };
        let near = column.cells.len() + random.below(9);
        let before = random::field_or_short(random, near);
        both.look_up(&body, ty, &types::literals(ty, &[literal]), &table, &before);
    }
}

/// Any bytes at all, behind a version.
fn any_bytes(both: &mut Comparison, random: &mut Random) {
    let count = random.below(60);
    let mut body = random.bytes(count);
    for byte in &mut body {
        if random.percent(70) {
            *byte = *random.pick(&[0, 0, 0, 0, 1, 2, 255]);
        }
    }
    if let Some(version) = body.first_mut() {
        *version = random.between(1, 2) as u8;
    }
    let ty = random.below(types::WIDTHS.len()) as u32;
    let literals = types::literals(ty, &[random::value(random, ty, 4)]);
    both.all(random, &body, ty, EQUAL, &literals, 300);
}

fn round(both: &mut Comparison, random: &mut Random) {
    match random.below(100) {
        0..=29 => sound(both, random),
        30..=59 => damaged(both, random),
        60..=64 => near_bitmaps(both, random),
        65 => wide(both, random),
        66..=74 => misfits(both, random),
        75..=89 => unopened(both, random),
        _ => any_bytes(both, random),
    }
}

fn number_from_environment(name: &str) -> Option<u64> {
    env::var(name).ok().map(|text| text.parse().expect("a number"))
}

#[test]
fn plain_reader_and_reference_reader_agree() {
    let first_seed = number_from_environment("PODDURANCE_SEED").unwrap_or(DEFAULT_SEED);
    let cases = number_from_environment("PODDURANCE_CASES").unwrap_or(DEFAULT_CASES);
    let mut both = Comparison { seed: first_seed, answers: [[0; 256]; CALLS.len()] };
    while both.calls() < cases {
        let mut random = Random::new(both.seed);
        round(&mut both, &mut random);
        both.seed = both.seed.wrapping_add(1);
    }

    println!("{} calls of plain reader and reference reader agree", both.calls());
    assert_ne!(both.calls(), 0, "nothing was compared");
    let fewest = FEWEST_OF_EACH * (cases / FEWEST_PER);
    for ((name, possible), answers) in CALLS.iter().zip(&both.answers) {
        for answer in *possible {
            let count = answers[usize::from(*answer)];
            println!("{name:>8} {answer:>3}: {count}");
            assert!(count >= fewest, "{name} gave the answer {answer} {count} times");
        }
    }
}
