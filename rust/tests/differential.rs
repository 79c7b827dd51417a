//! The library and the reference reader answer alike: on sound files with the scan's answer in each edition, less the deleted rows too,
//! on damaged ones with the same refusal, what it carries, field and bytes behind the field. Lookups answer as Ask on what was opened, and
//! alike on anything else. Windows over deletion bins of both kinds have the rows that were written.
//!
//! The environment variables PODDURANCE_SEED (where the seeds start) and PODDURANCE_CASES (how many calls at least) ask
//! for other or more cases; PODDURANCE_HEAP lends buffers from the heap instead of between guards, so that valgrind sees
//! their ends. `tests/valgrind` runs the test so.
//!
//! A guard that is touched ends the test program at once. Before each round its seed is written to the file
//! `target/tmp/differential-seed`, so that the round can be repeated alone: PODDURANCE_SEED is the seed, PODDURANCE_CASES is 1.

mod comparison;
mod large;
mod lookup;
mod names;
mod support;
mod window;

use std::fmt::Debug;
use std::fs::File;
use std::os::unix::fs::FileExt;

use comparison::{
    answered, looked_up, opened, raw_record, record_of, said, Answered, Asked, Comparison, Where, ASK, ASK_FILE, AUDIT, LOCATE,
    LOOK_UP, OPEN, READ_DELETIONS, SUBTRACT, SUBTRACT_RECORD,
};
use poddurance::raw;
use reference::names::modified;
use reference::random::{self, Random};
use reference::reader::{self, Fault, NO_FAULT};
use reference::record::Record;
use reference::scan::{scan, scan_without};
use reference::types::{
    self, BIGINT, BOOLEAN, EDITIONS, EQUAL, FIRST_EDITION, IN, INT, IS_NOT_NULL, IS_NULL, NOT_EQUAL, NOT_IN, SECOND_EDITION,
    STRING, TINYINT,
};
use reference::writer::{
    bitmap, body, body_of, body_traced, deletion_file, fix_checksums, index_file, index_file_traced, BitmapForm, Column,
    ContainerForm, Content, FileLayout, Groups, Index, IndexedColumn, Layout, Place,
};
use support::{hex, number_from_environment, say, Lender, Tally, CALLS};

/// The answers that each call can give, as the orders of documents 01 and 02 list them.
const POSSIBLE: [&[u8]; CALLS.len()] = [
    &[0, 1, 2, 3, 4, 11, 12, 255],
    &[0, 1, 3, 5, 6, 7, 8, 9, 10, 11, 12],
    &[0, 1, 3, 5, 6, 7, 8, 9, 10, 11, 12],
    &[0, 1, 2, 3, 4, 5, 6, 7, 8, 9, 10, 11, 12, 255],
    &[0, 1, 3, 5, 6, 7, 8, 9, 10, 11, 12],
    &[0, 1, 3, 5, 6, 7, 10, 11, 12],
    &[0, 1, 2, 3, 6, 7, 10, 12, 13, 14],
    &[0, 1, 2, 3, 6, 10, 12, 13, 14],
    &[0, 10, 12],
    &[0, 10, 12],
];

const DEFAULT_SEED: u64 = 20_240_101;
const DEFAULT_CASES: u64 = 540_000;
/// How many fixed calls there are at least. With the random ones, and the calls of the test `faults`, they are the README's about
/// 1,400,000.
const FIXED_CALLS: u64 = 375_000;

const MAX: u64 = 2_147_483_647;

const ROOM: u8 = 10;
const LITERAL: u8 = 11;
const LIMIT: u8 = 12;

/// Numbers that are no edition's: next to theirs, and theirs in the low bits with others set.
const UNKNOWN_EDITIONS: [u32; 12] =
    [0, 3, 4, 255, 256, 256 + 1, 256 + 2, 65_536 + 1, 1 << 31, (1 << 31) + 1, (1 << 31) + 2, u32::MAX];

// Random rounds

fn round(both: &mut Comparison, random: &mut Random) {
    // Whether buffers of this round begin or end at a guard is the seed's choice alone, so that a round repeats without the others.
    let Comparison { first, second, third, fourth, fifth, sixth, .. } = both;
    for lender in [first, second, third, fourth, fifth, sixth] {
        lender.place_next(random.percent(50));
    }
    match random.below(150) {
        0..=34 => sound_column(both, random),
        35..=38 => large::many_values(both, random),
        39 => large::several_containers(both, random),
        40..=64 => damaged_body(both, random),
        65..=69 => misfit_questions(both, random),
        70..=79 => index_files(both, random),
        80..=94 => deletion_files(both, random),
        95..=99 => subtractions(both, random),
        100..=111 => lookup::opened_column(both, random),
        112..=129 => lookup::unopened(both, random),
        130..=139 => window::sound_files(both, random),
        _ => window::damaged_files(both, random),
    }
}

/// From a column to a file in any layout, and back to the scan's answers.
fn sound_column(both: &mut Comparison, random: &mut Random) {
    let column = random::column(random);
    let mut groups = column.groups();
    random::add_unused_values(random, &mut groups);
    let layout = random::layout(random, &groups);
    let body = body(&groups, &layout);
    check_column(both, random, &column, &groups, &body);
}

/// A body of the column is found, accepted, and answers as the scan does.
fn check_column(both: &mut Comparison, random: &mut Random, column: &Column, groups: &Groups, body: &[u8]) {
    let rows = column.cells.len();
    let [name, kind] = random::names(random);
    let (mut columns, file_layout) = random::index_file(random, &name, &kind, body);
    random::add_improper(random, &mut columns, &name, &kind);
    let file = index_file_traced(&columns, &file_layout).bytes;
    let other = random.bytes(7);
    let (wrong_name, wrong_kind) = (random::not_utf8(random, &name), random::not_utf8(random, &kind));
    let (name, kind) = (name.as_bytes(), kind.as_bytes());
    let at = match random.percent(50) {
        true => Where { embedded: &file, file: &other, column: name, kind },
        false => Where::in_file(&file, name, kind),
    };
    let (answer, start, length) = both.locate(at.embedded, at.file, at.column, at.kind);
    both.demand(answer == 0, "Locate of a sound file", &[("file", &file), ("column", name), ("kind", kind)]);
    let part = &file[start as usize..][..length as usize];
    both.demand(part == body, "the part that Locate hands back", &[("file", &file), ("body", body)]);

    let needed = rows.div_ceil(8);
    let before = random::field(random, rows);
    let (answer, count, after, _) = both.audit(part, column.ty, &before);
    let sound = answer == 0
        && count == rows as u64
        && after[..needed].iter().all(|byte| *byte == 0)
        && after[needed..] == before[needed..];
    both.demand(sound, "Audit of a sound body", &[("body", body)]);

    let (answer, _, nulls, _) = both.ask(part, column.ty, random::edition(random), IS_NULL, &[], &random::field(random, rows));
    both.demand(answer == 0, "IS NULL of a sound body", &[("body", body)]);
    let mut last = None;
    for _ in 0..random.between(3, 8) {
        let (question, values) = random::question(random, groups);
        let literals = types::literals(column.ty, &values);
        let before = random::field(random, rows);
        let found = EDITIONS.map(|edition| {
            let (expected, record) = scan(column, edition, question, &values);
            let found = both.ask(part, column.ty, edition, question, &literals, &before);
            let expected = [&expected[..], &before[needed..]].concat();
            let what = format!("Ask {question} in edition {edition} of a sound body");
            let sound = found == (0, record, expected, NO_FAULT);
            both.demand(sound, &what, &[("body", body), ("literals", &literals)]);
            let asked = Asked { ty: column.ty, edition, question, literals: &literals };
            let from_file = both.ask_file(at, asked, &before);
            both.demand(from_file == found, "Ask of a sound file", &[("file", &file)]);
            found
        });
        check_editions(both, question, &found, &nulls);
        last = Some((question, values, found));
    }
    // Nothing but the edition is wrong.
    let (question, values) = random::question(random, groups);
    let (edition, literals) = (random::unknown_edition(random), types::literals(column.ty, &values));
    let before = random::field(random, rows);
    let found = both.ask(part, column.ty, edition, question, &literals, &before);
    let from_file = both.ask_file(at, Asked { ty: column.ty, edition, question, literals: &literals }, &before);
    let refused = (LITERAL, Record::NONE, before, NO_FAULT);
    both.demand(found == refused && from_file == refused, "Ask in an unknown edition", &[("body", body)]);

    // Nothing but a name is wrong.
    let wrong = match random.percent(50) {
        true => Where { column: &wrong_name, ..at },
        false => Where { kind: &wrong_kind, ..at },
    };
    let located = both.locate(wrong.embedded, wrong.file, wrong.column, wrong.kind);
    let asked = Asked { ty: column.ty, edition: random::edition(random), question, literals: &literals };
    let from_file = both.ask_file(wrong, asked, &refused.2);
    let inputs = [("column", wrong.column), ("kind", wrong.kind)];
    both.demand(located == (LITERAL, 0, 0) && from_file == refused, "a name that isn't standard UTF-8", &inputs);

    let (question, values, found) = last.expect("a question was asked");
    let which = random.below(EDITIONS.len());
    let asked = (EDITIONS[which], question, &values[..]);
    less_deletions(both, random, column, asked, &found[which]);
}

/// The answer to edition, question and values less the rows of one bin, and then of another: the scan of the column without them.
fn less_deletions(
    both: &mut Comparison,
    random: &mut Random,
    column: &Column,
    (edition, question, values): (u32, u32, &[Vec<u8>]),
    (_, given, field, _): &Answered,
) {
    let rows = column.cells.len();
    let needed = rows.div_ceil(8);
    let (file, bins) = random::deletion_file(random, rows as u32);
    let (mut record, mut left, mut gone) = (*given, field.clone(), Vec::new());
    for (bin, listed) in bins.iter().enumerate().rev().take(2) {
        let before = random::field(random, rows);
        let (answer, count, deleted, _) = both.read_deletions(&file.bytes, bin as u64, rows as u64, &before);
        let expected = field_of(listed, needed);
        let sound = answer == 0
            && count == listed.len() as u64
            && deleted[..needed] == expected[..]
            && deleted[needed..] == before[needed..];
        both.demand(sound, "Read deletions of a sound file", &[("file", &file.bytes)]);

        let (answer, after, removed, field) = subtract_both(both, &left, &deleted, record);
        let inputs = [("first", &left[..]), ("second", &deleted)];
        gone.extend(listed);
        let (expected, of_scan) = scan_without(&gone, column, edition, question, values);
        // Deleted are the rows of this bin, and not those of an earlier one.
        let expected_record = Record { deleted: count, ..of_scan };
        let sound = answer == 0
            && after == expected_record
            && field == [&expected[..], &left[needed..]].concat()
            && after.matched + removed == record.matched;
        both.demand(sound, &format!("question {question} in edition {edition} less deletions"), &inputs);
        (record, left) = (after, field);
    }
}

/// Subtract of a record, which says what the other Subtract says: answer, record, rows removed and field.
fn subtract_both(both: &mut Comparison, first: &[u8], second: &[u8], given: Record) -> (u8, Record, u64, Vec<u8>) {
    let found = both.subtract_record(first, second, given);
    let without = both.subtract(first, second, given.rows);
    let same = (found.0, found.1.matched, found.2, &found.3) == (without.0, without.1, without.2, &without.3);
    both.demand(same, "Subtract with a record and without", &[("first", first), ("second", second)]);
    found
}

/// What a question is answered with in the first edition and in the second: the second's rows are the first's without those of
/// IS NULL, as Subtract takes them away. IS NULL itself is the same in both.
fn check_editions(both: &mut Comparison, question: u32, [first, second]: &[Answered; 2], nulls: &[u8]) {
    let inputs = [("first edition", &first.2[..]), ("second edition", &second.2), ("IS NULL", nulls)];
    if question == IS_NULL {
        return both.demand(first == second, "IS NULL in two editions", &inputs);
    }
    let (answer, record, removed, after) = subtract_both(both, &first.2, nulls, first.1);
    let same = answer == 0
        && after == second.2
        && record == Record { deleted: first.1.nulls, ..second.1 }
        && first.1.matched - removed == second.1.matched;
    both.demand(same, &format!("question {question} in two editions"), &inputs);
}

fn field_of(rows: &[u32], bytes: usize) -> Vec<u8> {
    let mut field = vec![0; bytes];
    for row in rows {
        field[*row as usize / 8] |= 1 << (row % 8);
    }
    field
}

/// A column whose body is to be damaged: mostly small, so that the damage matters.
fn small_column(random: &mut Random) -> Column {
    let ty = random.below(types::WIDTHS.len()) as u32;
    let rows = if random.percent(85) { random.below(60) } else { random::row_count(random).min(9000) };
    random::column_of(random, ty, rows)
}

fn damaged_body(both: &mut Comparison, random: &mut Random) {
    let column = small_column(random);
    let rows = column.cells.len();
    let mut groups = column.groups();
    random::add_unused_values(random, &mut groups);
    for _ in 0..8 {
        let mut said = groups.clone();
        let broken = random.percent(40);
        if broken {
            random::break_groups(random, &mut said);
        }
        let layout = random::layout(random, &said);
        let traced = body_traced(&said, &layout);
        let body = if broken && random.percent(80) { traced.bytes } else { random::damage(random, &traced) };
        let ty = if random.percent(3) { random.below(14) as u32 } else { column.ty };
        let near = rows + random.below(9);
        let before = random::field_or_short(random, near);
        lookup::open_as_audited(both, random, &body, ty, &before);
        let before = random::field_or_short(random, near);
        let (question, values) = random::question(random, &groups);
        let (edition, literals) = (random::edition_or_unknown(random), types::literals(column.ty, &values));
        if random.percent(30) {
            let file = index_file(&[("s", "bitmap", &body)]);
            both.ask_file(Where::small(&file), Asked { ty, edition, question, literals: &literals }, &before);
        } else {
            both.ask(&body, ty, edition, question, &literals, &before);
        }
    }
}

fn misfit_questions(both: &mut Comparison, random: &mut Random) {
    let column = small_column(random);
    let groups = column.groups();
    let traced = body_traced(&groups, &random::layout(random, &groups));
    for _ in 0..10 {
        let (ty, edition, question, literals) = random::misfit_question(random, &groups);
        let body = if random.percent(70) { traced.bytes.clone() } else { random::damage(random, &traced) };
        let before = random::field_or_short(random, column.cells.len());
        both.ask(&body, ty, edition, question, &literals, &before);
        let file = index_file(&[("s", "bitmap", &body)]);
        both.ask_file(Where::small(&file), Asked { ty, edition, question, literals: &literals }, &before);
        both.audit(&body, ty, &before);
    }
}

fn index_files(both: &mut Comparison, random: &mut Random) {
    let [name, kind] = random::names(random);
    let length = random.below(40);
    let body = random.bytes(length);
    let (mut columns, layout) = random::index_file(random, &name, &kind, &body);
    random::add_improper(random, &mut columns, &name, &kind);
    match random.below(20) {
        0..=2 => random::list_twice(random, &mut columns, &name),
        3..=5 => random::store_improperly(random, &mut columns, &name, &kind),
        6 => columns.retain(|column| column.name != modified(&name)),
        7 => columns.clear(),
        _ => {}
    }
    let traced = index_file_traced(&columns, &layout);
    for _ in 0..10 {
        let file = if random.percent(20) { traced.bytes.clone() } else { random::damage(random, &traced) };
        let (name, kind) = (random::asked_name(random, &name), random::asked_name(random, &kind));
        let other = random.bytes(length);
        let at = match random.percent(20) {
            true => Where { embedded: &file, file: &other, column: &name, kind: &kind },
            false => Where::in_file(&file, &name, &kind),
        };
        both.locate(at.embedded, at.file, at.column, at.kind);
        if random.percent(30) {
            let edition = random::edition_or_unknown(random);
            let asked = Asked { ty: TINYINT, edition, question: EQUAL, literals: &[7] };
            let rows = random.below(20);
            both.ask_file(at, asked, &random::field(random, rows));
        }
    }
}

fn deletion_files(both: &mut Comparison, random: &mut Random) {
    let rows = if random.percent(80) { random.below(300) } else { random::row_count(random) } as u32;
    let (traced, bins) = random::deletion_file(random, rows);
    for bin in 0..=bins.len() {
        let before = random::field_or_short(random, rows as usize);
        let (answer, count, after, _) = both.read_deletions(&traced.bytes, bin as u64, u64::from(rows), &before);
        let needed = rows.div_ceil(8) as usize;
        if let (Some(deleted), true) = (bins.get(bin), before.len() >= needed) {
            let sound = answer == 0
                && count == deleted.len() as u64
                && after[..needed] == field_of(deleted, needed)[..]
                && after[needed..] == before[needed..];
            both.demand(sound, "Read deletions of a sound file", &[("file", &traced.bytes)]);
        }
    }
    for _ in 0..2 {
        let file = deletion_file(&[random::near_bitmap(random)]);
        // As many rows as the highest key can need, as a rule.
        let rows = if random.percent(80) { 16 << 16 } else { random.between(1, 16 << 16) };
        let before = random::field(random, rows);
        both.read_deletions(&file, 0, rows as u64, &before);
    }
    for _ in 0..8 {
        let mut file = random::damage(random, &traced);
        if random.percent(65) {
            fix_checksums(&mut file);
        }
        let bin = match random.below(20) {
            0 => random.number(),
            1 => u64::MAX,
            _ => random.below(bins.len() + 1) as u64,
        };
        let asked_rows = match random.below(20) {
            0 => random.number() >> random.below(64),
            1 => MAX + 1,
            2 => u64::from(rows) | 1 << 32,
            3 => u64::from(rows.saturating_sub(1)),
            _ => u64::from(rows) + random.below(3) as u64,
        };
        let before = random::field_or_short(random, rows as usize + 2);
        both.read_deletions(&file, bin, asked_rows, &before);
    }
}

fn subtractions(both: &mut Comparison, random: &mut Random) {
    for _ in 0..6 {
        let rows = random::row_count(random).min(9000);
        let [first, second, third] = [(); 3].map(|()| random::shaped_field_or_short(random, rows));
        let room = 8 * first.len().min(second.len()) as u64;
        let asked_rows = match random.below(20) {
            0 => random.number() >> random.below(64),
            1..=2 => *random.pick(&[MAX, MAX + 1, u64::MAX, u64::MAX - 6, 1 << 32]),
            3 => room + random.below(2) as u64,
            4 => room.saturating_sub(random.below(8) as u64),
            _ => rows as u64,
        };
        let given = random::record(random, asked_rows);
        let (answer, record, after) = subtract_rows(both, &first, &second, given);
        if answer == 0 {
            // What the first call counted is given to the second, which counts anew.
            subtract_rows(both, &after, &third, record);
        }
    }
}

/// Subtract of a record, compared with what is counted row by row: answer, record and field.
fn subtract_rows(both: &mut Comparison, first: &[u8], second: &[u8], given: Record) -> (u8, Record, Vec<u8>) {
    let (answer, record, removed, after) = subtract_both(both, first, second, given);
    let inputs = [("first", first), ("second", second)];
    if answer != 0 {
        let sound = (record, removed, &after[..]) == (Record::NONE, 0, first);
        both.demand(sound, "Subtract record that refuses", &inputs);
        return (answer, record, after);
    }
    let mut expected = first.to_vec();
    let mut counted = Record { deleted: 0, matched: 0, ..given };
    let mut expected_removed = 0;
    for row in 0..given.rows as usize {
        let bit = 1 << (row % 8);
        let [in_first, in_second] = [first, second].map(|field| field[row / 8] & bit != 0);
        counted.deleted += u64::from(in_second);
        counted.matched += u64::from(in_first && !in_second);
        if in_first && in_second {
            expected[row / 8] -= bit;
            expected_removed += 1;
        }
    }
    let sound = (record, removed, &after) == (counted, expected_removed, &expected);
    both.demand(sound, "Subtract record", &inputs);
    (answer, record, after)
}

// Fixed cases

fn int(number: i32) -> Vec<u8> {
    number.to_be_bytes().to_vec()
}

/// Every cut and every flipped bit of small files of each kind.
fn every_cut_and_flip(both: &mut Comparison) {
    let changed = |bytes: &[u8]| {
        let mut all: Vec<Vec<u8>> = (0..=bytes.len()).map(|end| bytes[..end].to_vec()).collect();
        for bit in 0..8 * bytes.len() {
            let mut flipped = bytes.to_vec();
            flipped[bit / 8] ^= 1 << (bit % 8);
            all.push(flipped);
        }
        all
    };
    let editions = [FIRST_EDITION, SECOND_EDITION, SECOND_EDITION + 1];
    let column = Column::new(TINYINT, vec![Some(vec![7]), Some(vec![9]), None, Some(vec![7]), Some(vec![7])]);
    let runs = BitmapForm::WithRuns(vec![ContainerForm::Runs { cuts: vec![4] }]);
    for layout in [Layout::version(1), Layout::version(2).with_blocks_of(1), Layout::version(2).with_form(runs)] {
        let whole = body_of(&column, &layout);
        for body in changed(&whole) {
            both.audit(&body, TINYINT, &[0xA5; 2]);
            for edition in editions {
                both.ask(&body, TINYINT, edition, NOT_EQUAL, &[7], &[0xA5; 2]);
            }
        }
        for file in changed(&index_file(&[("s", "bitmap", &whole)])) {
            both.locate(&[], &file, b"s", b"bitmap");
            for edition in editions {
                let asked = Asked { ty: TINYINT, edition, question: NOT_EQUAL, literals: &[7] };
                both.ask_file(Where::small(&file), asked, &[0xA5; 2]);
            }
        }
    }
    let bitmaps = [bitmap(&[0, 2, 5], &BitmapForm::WithoutRuns), bitmap(&[1, 2, 3, 4, 5, 6], &BitmapForm::Smallest)];
    for mut file in changed(&deletion_file(&bitmaps)) {
        both.read_deletions(&file, 1, 7, &[0x5A; 2]);
        fix_checksums(&mut file);
        both.read_deletions(&file, 1, 7, &[0x5A; 2]);
        both.read_deletions(&file, 0, 7, &[0x5A; 2]);
    }
}

/// Inputs that break two rules, or keep one narrowly: which answer goes first.
fn orders(both: &mut Comparison) {
    let mut broken = |body: &[&[u8]], ty: u32, rows: usize, answer: u8, fault: Fault| {
        let body = body.concat();
        let found = both.audit(&body, ty, &vec![0xA5; rows.div_ceil(8)]);
        assert_eq!((found.0, found.3), (answer, fault), "Audit of {}", hex(&body));
    };
    let mut audit = |body: &[&[u8]], ty: u32, rows: usize, answer: u8| broken(body, ty, rows, answer, NO_FAULT);
    let (none, one) = (int(0), int(1));
    audit(&[], 12, 0, 11);
    audit(&[], TINYINT, 0, 1);
    // Version 2, no rows: value number, has-null, block number, and then the end.
    audit(&[&[2], &none, &one, &[0], &none], TINYINT, 0, 5);
    audit(&[&[2], &none, &none, &[0], &one], TINYINT, 0, 5);
    audit(&[&[2], &none, &none, &[0], &none], TINYINT, 0, 1);
    audit(&[&[2], &none, &none, &[0], &none, &none], TINYINT, 0, 0);
    audit(&[&[2], &none, &none, &[0], &none, &one], TINYINT, 0, 5);
    audit(&[&[2], &int(-1), &none], TINYINT, 0, 5);
    audit(&[&[2], &none, &int(i32::MIN), &[0]], TINYINT, 0, 5);
    audit(&[&[2], &none, &none, &[2]], TINYINT, 0, 5);
    // The directory's values are compared with their blocks' alone: 9, 7 and then the end.
    audit(&[&[2], &none, &int(2), &[0], &int(2), &[9], &none, &[7], &int(13)], TINYINT, 0, 1);
    // A block's offset, right and wrong, where the bytes end.
    audit(&[&[2], &none, &one, &[0], &one, &[9], &none, &int(13)], TINYINT, 0, 1);
    audit(&[&[2], &none, &one, &[0], &one, &[9], &one, &int(13)], TINYINT, 0, 5);
    audit(&[&[2], &none, &one, &[0], &one, &[9], &int(-1), &int(13)], TINYINT, 0, 5);
    let block = |count: i32, value: u8| [&int(count)[..], &[value], &int(-1), &int(7)].concat();
    audit(&[&[2], &one, &one, &[0], &one, &[9], &none, &int(13), &block(1, 9)], TINYINT, 1, 0);
    audit(&[&[2], &one, &one, &[0], &one, &[9], &none, &int(12), &block(1, 9)], TINYINT, 1, 5);
    audit(&[&[2], &one, &one, &[0], &one, &[9], &none, &int(13), &block(i32::MAX, 9)], TINYINT, 1, 1);
    audit(&[&[2], &one, &one, &[0], &one, &[9], &none, &int(13), &block(1, 8)], TINYINT, 1, 5);
    audit(&[&[2], &one, &one, &[0], &one, &[9], &none, &int(13), &int(1), &[8]], TINYINT, 1, 5);
    audit(&[&[2], &one, &one, &[0], &one, &[9], &none, &int(13), &int(0)], TINYINT, 1, 5);
    audit(&[&[2], &one, &int(2), &[0], &one, &[9], &none, &int(13), &block(1, 9)], TINYINT, 1, 5);
    // A block without entries, though all offsets and the sum are right.
    audit(&[&[2], &one, &one, &[0], &int(2), &[9], &none, &[9], &int(4), &int(17), &none, &block(1, 9)], TINYINT, 1, 5);
    // ROOM goes before every bitmap.
    audit(&[&[1], &int(9), &one, &[0], &[9], &int(99)], TINYINT, 8, 10);
    broken(&[&[1], &int(9), &one, &[0], &[9], &int(99)], TINYINT, 9, 6, [1, 0, 0]);

    // Bitmaps of one value of 3 rows, their offset and length as stored in version 2: answer and fault.
    let of = |rows: &[u32], form: BitmapForm| bitmap(rows, &form);
    let three = of(&[0, 1, 2], BitmapForm::WithoutRuns);
    let size = three.len() as i32;
    let values = BitmapForm::WithRuns(Vec::new());
    let mut high_half = three.clone();
    high_half[2] = 1;
    let two_keys = of(&[0, 1, 2, 3, 65536], BitmapForm::WithoutRuns);
    let mut bad_second = two_keys.clone();
    let cut = bad_second.len() - 1;
    bad_second.truncate(cut);
    for (offset, length, bitmap, answer, fault) in [
        (0, -1, three.clone(), 0, NO_FAULT),
        (0, size, three.clone(), 0, NO_FAULT),
        (0, size - 1, three.clone(), 6, [1, 0, 0]),
        (0, size + 1, [&three[..], &[0]].concat(), 6, [1, 1, 0]),
        (0, 0, three.clone(), 6, [1, 0, 0]),
        (0, -2, three.clone(), 6, [1, 0, 0]),
        (0, i32::MIN, three.clone(), 6, [1, 0, 0]),
        (size, -1, three.clone(), 6, [1, 0, 0]),
        (i32::MAX, -1, three.clone(), 6, [1, 0, 0]),
        (0, -1, Vec::new(), 6, [1, 0, 0]),
        (0, -1, of(&[0, 1, 2], values), 0, NO_FAULT),
        (0, -1, high_half, 6, [1, 0, 0]),
        (0, -1, of(&[0, 1, 2, 3], BitmapForm::WithoutRuns), 7, [1, 0, 0]),
        (0, -1, two_keys, 7, [1, 0, 0]),
        (0, -1, bad_second, 6, [1, 1, 0]),
        (0, -1, of(&[0, 2], BitmapForm::WithoutRuns), 9, [0, 0, 1]),
        (0, -1, of(&[], BitmapForm::WithoutRuns), 9, [0, 0, 0]),
        (-1, 5, three.clone(), 9, [0, 0, 1]),
        (i32::MIN, 5, three, 7, [1, 0, 0]),
    ] {
        let entry = [&one[..], &[9], &int(offset), &int(length)].concat();
        broken(&[&[2], &int(3), &one, &[0], &one, &[9], &none, &int(13), &entry, &bitmap], TINYINT, 3, answer, fault);
    }
    // Null's bitmap comes first: its fault goes before the value's, and a row of both is TWICE.
    broken(&[&[1], &int(3), &one, &[1], &int(-9), &[9], &int(99)], TINYINT, 3, 7, [0, 0, 0]);
    broken(&[&[1], &int(3), &one, &[1], &int(-3), &[9], &int(99)], TINYINT, 3, 6, [1, 0, 0]);
    broken(&[&[1], &int(3), &one, &[1], &int(-3), &[9], &int(-3)], TINYINT, 3, 8, [1, 0, 0]);

    let string = |length: i32| [&int(length)[..], b"ab"].concat();
    for (length, answer) in [(2, 1), (3, 1), (65535, 1), (65536, 12), (i32::MAX, 12), (-1, 5), (i32::MIN, 5)] {
        let body = [&[1][..], &none, &one, &[0], &string(length)].concat();
        assert_eq!(both.audit(&body, STRING, &[]).0, answer, "a value of length {length}");
    }
    for (length, answer) in [(2, 1), (3, 11), (65535, 11), (65536, 12), (i32::MAX, 12), (-1, 11), (i32::MIN, 11), (1, 11)] {
        for edition in EDITIONS {
            let found = both.ask(&[], STRING, edition, EQUAL, &string(length), &[]);
            assert_eq!(found.0, answer, "a literal of length {length}");
        }
    }

    locate_orders(both);
    edition_orders(both);
    ask_file_orders(both);
    deletion_orders(both);
}

fn locate_orders(both: &mut Comparison) {
    assert_eq!(both.locate(&[], &[], b"s", b"bitmap").0, 1);
    let none = index_file(&[]);
    assert_eq!(none.len(), 24);
    assert_eq!(both.locate(&[], &none, b"s", b"bitmap").0, 255);
    for length in 0..24 {
        assert_eq!(both.locate(&[], &none[..length], b"s", b"bitmap").0, if length < 16 { 1 } else { 4 });
    }
    let at = |kind: &[u8], start: i32, length: i32| Index { kind: kind.to_vec(), content: Content::At { start, length } };
    let column = |name: &[u8], indexes: &[Index]| IndexedColumn { name: name.to_vec(), indexes: indexes.to_vec() };
    // A head of 47 bytes and 5 more.
    let mut small = |start: i32, length: i32, answer: u8| {
        let layout = FileLayout { tail: vec![1; 5], ..FileLayout::default() };
        let file = index_file_traced(&[column(b"s", &[at(b"bitmap", start, length)])], &layout).bytes;
        assert_eq!(both.locate(&[], &file, b"s", b"bitmap").0, answer, "start {start}, length {length}");
    };
    for (start, length, answer) in [(47, 5, 0), (47, 0, 0), (52, 0, 0), (46, 1, 4), (46, 0, 4), (53, 0, 4), (47, 6, 4)] {
        small(start, length, answer);
    }
    for (start, length) in
        [(-1, 0), (-1, 5), (i32::MIN, 0), (47, -1), (52, -5), (i32::MAX, i32::MAX), (47, i32::MIN), (47, i32::MAX)]
    {
        small(start, length, 4);
    }
    let index = at(b"bitmap", 0, 0);
    let mut answers = |columns: &[IndexedColumn], answer: u8| {
        let file = index_file_traced(columns, &FileLayout::default()).bytes;
        assert_eq!(both.locate(&[], &file, b"s", b"bitmap").0, answer);
    };
    answers(&[column(b"s", &[]), column(b"s", &[])], 4);
    let listed_once = column(b"t", std::slice::from_ref(&index));
    answers(&[listed_once.clone(), listed_once], 255);
    answers(&[column(b"t", &[index.clone(), index.clone()])], 255);
    answers(&[column(b"s", &[at(b"bsi", -1, -1), at(b"bsi", -1, -1)])], 255);
    answers(&[column(b"s", &[at(b"bitmap", 200, 0), index])], 4);
}

/// An unknown edition is LITERAL for each question, whatever else is wrong with question, literals, body and field, but for buffers past
/// the limit. In a known one the answer has document 01's number.
fn edition_orders(both: &mut Comparison) {
    let small = body_of(&Column::new(TINYINT, vec![Some(vec![7]), Some(vec![9]), None]), &Layout::version(2));
    // 9 at row 0, where 7 is.
    let mut twice = body_of(&Column::new(TINYINT, vec![Some(vec![7]), Some(vec![9]), None]), &Layout::version(1));
    *twice.last_mut().expect("the last offset") = 0xFF;
    let many = vec![7; 1_025];
    let long = int(65_536);
    // Type, question, literals, body and length of the field, and the answer in a known edition.
    type Case<'a> = (u32, u32, &'a [u8], &'a [u8], usize, u8);
    let cases: [Case; 19] = [
        (TINYINT, EQUAL, &[7], &small, 2, 0),
        (TINYINT, NOT_EQUAL, &[7], &small, 2, 0),
        (TINYINT, IN, &[7, 9], &small, 2, 0),
        (TINYINT, NOT_IN, &[], &small, 2, 0),
        (TINYINT, IS_NULL, &[], &small, 2, 0),
        (TINYINT, IS_NOT_NULL, &[], &small, 2, 0),
        (TINYINT, IS_NOT_NULL + 1, &[], &small, 2, LITERAL),
        (STRING + 1, EQUAL, &[7], &small, 2, LITERAL),
        // Literals that don't fit, in number and in form.
        (TINYINT, EQUAL, &[], &small, 2, LITERAL),
        (TINYINT, IS_NULL, &[7], &small, 2, LITERAL),
        (BOOLEAN, IN, &[0, 2], &small, 2, LITERAL),
        (INT, NOT_IN, &[7], &small, 2, LITERAL),
        // Literals past a limit.
        (TINYINT, NOT_IN, &many, &small, 2, LIMIT),
        (TINYINT, IS_NULL, &many, &small, 2, LIMIT),
        (STRING, NOT_EQUAL, &long, &small, 2, LIMIT),
        // No body, a wrong version, too short a field, and a row that stands twice.
        (TINYINT, NOT_EQUAL, &[7], &[], 2, 1),
        (TINYINT, IS_NULL, &[], &[3], 2, 3),
        (TINYINT, NOT_IN, &[], &small, 0, 10),
        (TINYINT, IS_NOT_NULL, &[], &twice, 2, 8),
    ];
    for (ty, question, literals, body, length, answer) in cases {
        let field = vec![0xA5; length];
        let file = index_file(&[("s", "bitmap", body)]);
        let mut answers = |edition: u32| {
            let found = both.ask(body, ty, edition, question, literals, &field);
            let from_file = both.ask_file(Where::small(&file), Asked { ty, edition, question, literals }, &field);
            assert_eq!(found, from_file, "type {ty}, question {question} in edition {edition}");
            found
        };
        for edition in EDITIONS {
            assert_eq!(answers(edition).0, answer, "type {ty}, question {question} in edition {edition}");
        }
        for edition in UNKNOWN_EDITIONS {
            let refused = (LITERAL, Record::NONE, field.clone(), NO_FAULT);
            assert_eq!(answers(edition), refused, "type {ty}, question {question} in edition {edition}");
        }
    }
}

/// Each column of up to four rows of 7, 9 and null, each question with each set of 7, 8 and 9 that fits it, in bodies of both versions: the scan's answer
/// in each edition, and the second's from the first's. Of up to three rows, less each set of deleted rows.
fn each_small_column(both: &mut Comparison) {
    const MOST_ROWS: u32 = 4;
    const MOST_ROWS_DELETED: u32 = 3;
    let cells = [Some(vec![7]), Some(vec![9]), None];
    let values = [[7], [8], [9]];
    let sets: Vec<Vec<[u8; 1]>> =
        (0..1 << values.len()).map(|set| (0..values.len()).filter(|i| set >> i & 1 == 1).map(|i| values[i]).collect()).collect();
    let fits = |question: u32, number: usize| match question {
        EQUAL | NOT_EQUAL => number == 1,
        IN | NOT_IN => true,
        _ => number == 0,
    };
    let questions: Vec<(u32, &Vec<[u8; 1]>)> = (EQUAL..=IS_NOT_NULL)
        .flat_map(|question| sets.iter().map(move |set| (question, set)))
        .filter(|(question, set)| fits(*question, set.len()))
        .collect();
    for rows in 0..=MOST_ROWS {
        for number in 0..cells.len().pow(rows) {
            let cell = |row: u32| cells[number / cells.len().pow(row) % cells.len()].clone();
            let column = Column::new(TINYINT, (0..rows).map(cell).collect());
            for layout in [Layout::version(1), Layout::version(2).with_blocks_of(1)] {
                let body = body_of(&column, &layout);
                let nulls = both.ask(&body, TINYINT, FIRST_EDITION, IS_NULL, &[], &[0xA5; 2]).2;
                for (question, set) in &questions {
                    let (question, literals) = (*question, types::literals(TINYINT, set));
                    let found = EDITIONS.map(|edition| {
                        let found = both.ask(&body, TINYINT, edition, question, &literals, &[0xA5; 2]);
                        let (mut expected, record) = scan(&column, edition, question, set);
                        // Without rows the field has no bytes.
                        expected.resize(2, 0xA5);
                        let sound = found == (0, record, expected, NO_FAULT);
                        both.demand(sound, &format!("Ask {question} in edition {edition}"), &[("body", &body)]);
                        for second in (0..1u8 << rows).filter(|_| rows <= MOST_ROWS_DELETED) {
                            let deleted: Vec<u32> = (0..rows).filter(|row| second >> row & 1 == 1).collect();
                            // The spare bits of the second field aren't rows.
                            let subtracted = both.subtract_record(&found.2, &[second | 0xFF << rows], found.1);
                            let (mut expected, left) = scan_without(&deleted, &column, edition, question, set);
                            expected.resize(2, 0xA5);
                            let sound = subtracted == (0, left, record.matched - left.matched, expected);
                            let what = format!("Ask {question} in edition {edition} less deletions");
                            both.demand(sound, &what, &[("body", &body), ("first", &found.2), ("second", &[second])]);
                        }
                        found
                    });
                    check_editions(both, question, &found, &nulls);
                }
            }
        }
    }
}

/// Each two fields of a byte's lower half, for as many rows and for fewer: what is behind the row count stays and isn't counted.
fn each_small_subtraction(both: &mut Comparison) {
    let numbers = [0, 1, 3, u64::MAX];
    for rows in 0..=4 {
        for fields in 0..=255u8 {
            let (first, second) = ([fields & 0x0F, 0xA5], [fields >> 4]);
            let number = |i: u8| numbers[usize::from(fields >> i) % numbers.len()];
            let given = Record { rows, nulls: number(0), deleted: number(2), matched: number(4) };
            subtract_rows(both, &first, &second, given);
        }
    }
}

/// LIMIT, then ROOM of either field, whatever the other numbers are. At the limit it is ROOM.
fn subtract_orders(both: &mut Comparison) {
    let lengths = [0, 1, 2, 3, 8, 9];
    for (first, second) in lengths.into_iter().flat_map(|first| lengths.map(|second| (first, second))) {
        let room = 8 * first.min(second) as u64;
        let near = [room.saturating_sub(8), room.saturating_sub(7), room.saturating_sub(1), room, room + 1, room + 8];
        let limits = [MAX - 7, MAX - 6, MAX, MAX + 1, MAX + 2, 1 << 32, (1 << 32) + 1, 1 << 63, u64::MAX - 6, u64::MAX];
        for rows in near.into_iter().chain(limits) {
            let answer = match rows {
                _ if rows > MAX => LIMIT,
                _ if rows > room => ROOM,
                _ => 0,
            };
            for number in [0, 1, rows, u64::MAX] {
                let given = Record { rows, nulls: number, deleted: number, matched: number };
                let found = subtract_rows(both, &vec![0xA5; first], &vec![0x66; second], given);
                assert_eq!(found.0, answer, "{given:?}, fields of {first} and {second} bytes");
            }
        }
    }
}

/// Locate goes before the question, and this before the body. Without a body the field is as it was.
fn ask_file_orders(both: &mut Comparison) {
    let body = body_of(&Column::new(TINYINT, vec![Some(vec![7]), Some(vec![9]), None]), &Layout::version(1));
    let sound = index_file(&[("s", "bitmap", &body)]);
    let none = index_file(&[]);
    let wrong_body = index_file(&[("s", "bitmap", &[3])]);
    let no_body = index_file(&[("s", "bitmap", &[])]);
    // Three rows, one of them null.
    let of_small = |matched: u64| Record { rows: 3, nulls: 1, deleted: 0, matched };
    let fits = Asked { ty: TINYINT, edition: SECOND_EDITION, question: EQUAL, literals: &[7] };
    let misfits = [
        Asked { ty: 12, ..fits },
        Asked { edition: 0, ..fits },
        Asked { edition: 3, ..fits },
        Asked { edition: 3, literals: &[7; 1_025], ..fits },
        Asked { question: 6, ..fits },
        Asked { literals: &[], ..fits },
        Asked { literals: &[7; 2], ..fits },
    ];
    for (file, length, answer, answer_to_misfit) in [
        (&sound[..], 2, 0, 11),
        (&sound, 0, 10, 11),
        (&[], 2, 1, 1),
        (&[0; 16], 2, 2, 2),
        (&sound[..70], 2, 4, 4),
        (&none, 2, 255, 255),
        (&wrong_body, 2, 3, 11),
        (&no_body, 2, 1, 11),
    ] {
        let field = vec![0xA5; length];
        // A refusal up to ROOM, and ABSENT, leave the field alone.
        let accepted = (0, of_small(1), vec![0b001, 0xA5], NO_FAULT);
        let expected = if answer == 0 { accepted } else { (answer, Record::NONE, field.clone(), NO_FAULT) };
        assert_eq!(both.ask_file(Where::small(file), fits, &field), expected, "Ask of {}", hex(file));
        for misfit in misfits {
            let expected = (answer_to_misfit, Record::NONE, field.clone(), NO_FAULT);
            assert_eq!(both.ask_file(Where::small(file), misfit, &field), expected, "Ask of {}", hex(file));
        }
    }
    // Behind ROOM the field is zero: the value 9 at row 0, where 7 is.
    let mut twice = sound.clone();
    twice[70] = 0xFF;
    assert_eq!(both.ask_file(Where::small(&twice), fits, &[0xA5; 2]), (8, Record::NONE, vec![0, 0xA5], [2, 0, 0]));
    // What is embedded is looked at, and the file is not.
    let embedded = Where { embedded: &sound, ..Where::small(&[]) };
    assert_eq!(both.ask_file(embedded, fits, &[0xA5]), (0, of_small(1), vec![1], NO_FAULT));
    let embedded = Where { embedded: &none, ..Where::small(&sound) };
    assert_eq!(both.ask_file(embedded, fits, &[0xA5]), (255, Record::NONE, vec![0xA5], NO_FAULT));
}

fn deletion_orders(both: &mut Comparison) {
    let one = deletion_file(&[bitmap(&[1], &BitmapForm::WithoutRuns)]);
    let with = |more: &[u8]| [&one[..], more].concat();
    let mut wrong_magic = one.clone();
    wrong_magic[5] ^= 1;
    for (file, bin, rows, length, answer) in [
        (one.clone(), 0, 2, 1, 0),
        (one.clone(), 0, 1, 1, 7),
        (one.clone(), 0, 0, 0, 7),
        (one.clone(), 1, 2, 1, 14),
        (one.clone(), u64::MAX, 2, 1, 14),
        (one.clone(), 0, 9, 1, 10),
        (one.clone(), 0, MAX + 1, 1, 12),
        (Vec::new(), 0, 9, 1, 10),
        (Vec::new(), 0, 9, 2, 1),
        (vec![2], 0, 9, 2, 3),
        (vec![1], 0, 9, 2, 14),
        (with(&[0]), 0, 2, 1, 1),
        (with(&int(3)), 0, 2, 1, 1),
        (with(&int(3)), 7, 2, 1, 1),
        (with(&[&int(3)[..], &[0; 7]].concat()), 0, 2, 1, 1),
        (with(&[&int(4)[..], &[0; 8]].concat()), 0, 2, 1, 0),
        (with(&[&int(4)[..], &[0; 8]].concat()), 1, 2, 1, 2),
        (with(&[&int(4)[..], &[0; 7]].concat()), 0, 2, 1, 1),
        (with(&int(-1)), 0, 2, 1, 1),
        (wrong_magic, 0, 2, 1, 2),
        (one[..one.len() - 1].to_vec(), 0, 2, 1, 1),
    ] {
        let found = both.read_deletions(&file, bin, rows, &vec![0xA5; length]);
        assert_eq!((found.0, found.3), (answer, NO_FAULT), "bin {bin} for {rows} rows of {}", hex(&file));
    }
    // A bin of its magic alone has no bitmap; one with a byte behind its bitmap isn't filled by it.
    let bare = deletion_file(&[Vec::new()]);
    assert_eq!(both.read_deletions(&bare, 0, 2, &[0xA5]), (6, 0, vec![0], NO_FAULT));
    let longer = deletion_file(&[[&bitmap(&[1], &BitmapForm::WithoutRuns)[..], &[0]].concat()]);
    assert_eq!(both.read_deletions(&longer, 0, 2, &[0xA5]), (6, 0, vec![0], [0, 1, 0]));
}

/// Bitmaps that keep all rules but one, or keep one narrowly, without offsets: cookie 12347 and one or two containers.
fn bitmap_rules(both: &mut Comparison) {
    let pair = |number: u16| number.to_le_bytes();
    let numbers = |numbers: &[u16]| numbers.iter().flat_map(|number| pair(*number)).collect::<Vec<u8>>();
    /// Key and cardinality less 1 of each container, flags, the containers, and which of them is broken.
    type Case = (&'static [u16], u8, &'static [u16], Option<u64>);
    let cases: [Case; 19] = [
        (&[0, 1], 0, &[3, 4], None),
        (&[0, 1], 0, &[3, 3], Some(0)),
        (&[0, 1], 0, &[4, 3], Some(0)),
        (&[0, 1], 0, &[3], Some(0)),
        (&[0, 1], 2, &[3, 4], Some(0)),
        (&[0, 0], 1, &[1, 65535, 0], None),
        (&[0, 1], 1, &[1, 65535, 1], Some(0)),
        (&[0, 65535], 1, &[1, 0, 65535], None),
        (&[0, 65535], 1, &[1, 1, 65535], Some(0)),
        (&[0, 65535], 1, &[1, 1, 65534], Some(0)),
        (&[0, 0], 1, &[0], Some(0)),
        (&[0, 3], 1, &[2, 0, 1, 2, 1], None),
        (&[0, 3], 1, &[2, 0, 1, 1, 1], Some(0)),
        (&[0, 3], 1, &[2, 2, 1, 0, 1], Some(0)),
        (&[0, 2], 1, &[2, 0, 1, 2, 1], Some(0)),
        (&[0, 4], 1, &[2, 0, 1, 2, 1], Some(0)),
        (&[0, 0, 1, 0], 0, &[3, 3], None),
        (&[0, 0, 0, 0], 0, &[3, 4], Some(1)),
        (&[1, 0, 0, 0], 0, &[3, 4], Some(1)),
    ];
    for (headers, flags, containers, broken) in cases {
        let count = headers.len() as u16 / 2;
        let bitmap = [&pair(12347)[..], &pair(count - 1), &[flags], &numbers(headers), &numbers(containers)].concat();
        let file = deletion_file(&[bitmap]);
        let found = both.read_deletions(&file, 0, 2 << 16, &[0xA5; 16384]);
        let expected = broken.map_or((0, NO_FAULT), |container| (6, [0, container, 0]));
        assert_eq!((found.0, found.3), expected, "the file {}", hex(&file));
    }
}

/// Numbers of values, blocks, literals and bytes of strings at and past their limits.
fn limits(both: &mut Comparison, random: &mut Random) {
    let numbers = |count: i32| Column::new(INT, (0..count).map(|number| Some(int(7 * number - 100_000))).collect());
    for (version, most) in [(1, 4096), (2, 65536)] {
        let column = numbers(most);
        let groups = column.groups();
        for layout in [Layout::version(version), Layout::version(version).with_blocks_of(1)] {
            let body = body(&groups, &layout);
            let field = random::field(random, most as usize);
            for (edition, question) in EDITIONS.into_iter().flat_map(|edition| [(edition, EQUAL), (edition, NOT_EQUAL)]) {
                let literal = &groups.values[most as usize - 1].0;
                let (expected, record) = scan(&column, edition, question, &[literal]);
                let found = both.ask(&body, INT, edition, question, literal, &field);
                let sound = found.0 == 0 && found.1 == record && found.2[..expected.len()] == expected[..];
                both.demand(sound, "Ask of the most values", &[("body", &body)]);
            }
            assert_eq!(both.audit(&body, INT, &field).0, 0);
        }
        let body = body_of(&numbers(most + 1), &Layout::version(version).with_blocks_of(3));
        let field = random::field(random, most as usize + 1);
        assert_eq!(both.audit(&body, INT, &field).0, 12);
    }
    // 65,537 blocks; LIMIT goes before DICT, so the value number may be wrong too.
    for values in [0, 1, 65536] {
        let mut body = vec![2, 0, 0, 0, 0];
        body.extend(int(values));
        body.push(0);
        body.extend(int(65537));
        assert_eq!(both.audit(&body, INT, &[]).0, 12);
    }

    for (length, answer) in [(65535, 0), (65536, 12)] {
        let text = vec![b'x'; length];
        let column = Column::new(STRING, vec![Some(text.clone()), None]);
        for version in [1, 2] {
            let body = body_of(&column, &Layout::version(version));
            assert_eq!(both.audit(&body, STRING, &[0xFF]).0, answer);
            let literals = types::literals(STRING, &[&text]);
            for edition in EDITIONS {
                assert_eq!(both.ask(&body, STRING, edition, EQUAL, &literals, &[0xFF]).0, answer);
            }
        }
    }

    let body = body_of(&Column::new(BOOLEAN, vec![Some(vec![1]), Some(vec![0])]), &Layout::version(1));
    for (count, question, answer) in
        [(1024, IN, 0), (1024, EQUAL, 11), (1025, IN, 12), (1025, EQUAL, 12), (1025, IS_NULL, 12), (1024, IS_NULL, 11)]
    {
        for edition in EDITIONS {
            assert_eq!(both.ask(&body, BOOLEAN, edition, question, &vec![1; count], &[0xFF]).0, answer);
        }
    }
    for edition in EDITIONS {
        let mut literals = vec![1; 1024];
        literals.push(9);
        assert_eq!(both.ask(&body, BOOLEAN, edition, IN, &literals, &[0xFF]).0, 12);
        literals[1023] = 9;
        assert_eq!(both.ask(&body, BOOLEAN, edition, IN, &literals, &[0xFF]).0, 11);
    }
}

/// Bitmaps of 65,536 containers, of 65,535 runs in one, and at the edges of containers.
fn containers(both: &mut Comparison, random: &mut Random) {
    let edges: Vec<u32> = (0..20).flat_map(|key| [key << 16, (key << 16) + 65535]).collect();
    let full: Vec<u32> = (0..65536).collect();
    let nearly_all_cuts: Vec<u16> = (1..=65535).filter(|row| *row != 77).collect();
    let cases = [
        (edges.clone(), BitmapForm::WithoutRuns),
        (edges, BitmapForm::WithRuns(vec![ContainerForm::Runs { cuts: Vec::new() }; 9])),
        (full.clone(), BitmapForm::WithoutRuns),
        (full.clone(), BitmapForm::Smallest),
        (full, BitmapForm::WithRuns(vec![ContainerForm::Runs { cuts: nearly_all_cuts }])),
        ((0..4096).map(|row| 16 * row).collect(), BitmapForm::WithoutRuns),
        ((0..4097).map(|row| 15 * row).collect(), BitmapForm::WithoutRuns),
    ];
    for (rows, form) in cases {
        let last = u64::from(*rows.last().expect("rows"));
        let file = deletion_file(&[bitmap(&rows, &form)]);
        let field = random::field(random, last as usize + 1);
        let (answer, count, after, _) = both.read_deletions(&file, 0, last + 1, &field);
        let expected = field_of(&rows, (last as usize + 1).div_ceil(8));
        let sound = answer == 0 && count == rows.len() as u64 && after[..expected.len()] == expected[..];
        both.demand(sound, "Read deletions", &[("file", &file)]);
        assert_eq!(both.read_deletions(&file, 0, last, &field).0, 7);
    }
    // The last key of all holds rows past every row count.
    let every_key: Vec<u32> = (0..65536).map(|key| key << 16).collect();
    for form in [BitmapForm::WithoutRuns, BitmapForm::WithRuns(Vec::new())] {
        let file = deletion_file(&[bitmap(&every_key, &form)]);
        assert_eq!(both.read_deletions(&file, 0, 100, &[0xFF; 13]).0, 7);
    }
}

/// A value without rows whose bitmap lies inside the bits of another value's.
fn bitmap_inside_bits(both: &mut Comparison, random: &mut Random) {
    let empty = bitmap(&[], &BitmapForm::WithoutRuns);
    for at in [1, 100, 4097, 8192 - empty.len()] {
        let mut bits = vec![0xFF; 8192];
        bits[at..at + empty.len()].copy_from_slice(&empty);
        let value = 5i64.to_be_bytes().to_vec();
        let is_set = |row: usize| bits[row / 8] >> (row % 8) & 1 == 1;
        let cells = (0..65536).map(|row| is_set(row).then(|| value.clone())).collect();
        let column = Column::new(BIGINT, cells);
        let mut groups = column.groups();
        groups.add_unused(6i64.to_be_bytes().to_vec());
        for version in [1, 2] {
            let mut layout = Layout::version(version);
            layout.bitmap_order = vec![1, 0, 2];
            layout.places = vec![Place::default(), Place::default(), Place { reuse: true, ..Place::default() }];
            let whole = body(&groups, &layout);
            let apart = body(&groups, &Layout::version(version));
            assert_eq!(whole.len() + empty.len(), apart.len(), "the empty bitmap has bytes of its own");
            check_column(both, random, &column, &groups, &whole);
        }
    }
}

/// The most rows: every row in one run per container.
fn most_rows(both: &mut Comparison) {
    let containers = 32768u32;
    // Written by hand, since a list of the rows would take gigabytes.
    let mut all_rows = (12347 | (containers - 1) << 16).to_le_bytes().to_vec();
    all_rows.extend(vec![0xFF; containers as usize / 8]);
    // The last row of all is left to another value, and the row behind it is past the limit.
    let less_one = |key: u32| if key == containers - 1 { 65533u16 } else { 65535 };
    for key in 0..containers {
        all_rows.extend((key as u16).to_le_bytes());
        all_rows.extend(less_one(key).to_le_bytes());
    }
    let first = all_rows.len() as u32 + 4 * containers;
    for key in 0..containers {
        all_rows.extend((first + 6 * key).to_le_bytes());
    }
    for key in 0..containers {
        all_rows.extend([1, 0, 0, 0]);
        all_rows.extend(less_one(key).to_le_bytes());
    }

    let mut body = vec![1];
    body.extend(int(MAX as i32));
    body.extend([0, 0, 0, 2, 0]);
    body.extend([&int(5)[..], &int(0), &int(6), &int(-(MAX as i32))].concat());
    body.extend(&all_rows);
    let bytes = MAX.div_ceil(8) as usize;
    let file = deletion_file(std::slice::from_ref(&all_rows));

    let mut field = Lender::guarded();
    let field = field.lend_anything(bytes);
    let mut reference_field = vec![0; bytes];
    fn compare<C: Debug + PartialEq>(
        tally: &mut Tally,
        call: usize,
        [found, expected]: [(u8, C, Fault); 2],
        sound: C,
        same: bool,
    ) {
        assert_eq!(found, expected, "{} of the most rows", CALLS[call]);
        assert_eq!(found, (0, sound, NO_FAULT), "{} of the most rows", CALLS[call]);
        assert!(same, "{} of the most rows leaves another field", CALLS[call]);
        tally.add(call, found.0);
    }
    let found = said(raw::audit(&body, INT, field));
    let expected = reader::audit(&body, INT, &mut reference_field);
    compare(&mut both.tally, AUDIT, [found, expected], MAX, *field == *reference_field);
    let all_but_one = Record { rows: MAX, nulls: 0, deleted: 0, matched: MAX - 1 };
    for edition in EDITIONS {
        let found = answered(raw::ask(&body, INT, edition, NOT_IN, &int(6), field));
        let expected = reader::ask(&body, INT, edition, NOT_IN, &int(6), &mut reference_field);
        compare(&mut both.tally, ASK, [found, expected], all_but_one, *field == *reference_field);
    }
    most_rows_looked_up(both, &all_rows, field, &mut reference_field);
    let found = said(raw::read_deletions(&file, 0, MAX, field));
    let expected = reader::read_deletions(&file, 0, MAX, &mut reference_field);
    compare(&mut both.tally, READ_DELETIONS, [found, expected], MAX - 1, *field == *reference_field);
    // The reference reader's field is the library's second field, so that a third of this size isn't needed.
    let found = raw::subtract(field, &reference_field, MAX);
    assert_eq!(found, (0, 0, MAX - 1));
    assert!(field.iter().all(|byte| *byte == 0));
    both.tally.add(SUBTRACT, found.0);
    // All rows but row 0; of the deleted ones row 0 isn't there, and the last row isn't deleted.
    field.fill(0xFF);
    field[0] = 0xFE;
    let (answer, record, removed) = raw::subtract_record(field, &reference_field, raw_record(all_but_one));
    let left = Record { deleted: MAX - 1, matched: 1, ..all_but_one };
    assert_eq!((answer, record_of(record), removed), (0, left, MAX - 2));
    let (last, others) = field.split_last().expect("bytes");
    // The last row of all, and the bit behind it, which stands for no row.
    assert_eq!(*last, 0xC0);
    assert!(others.iter().all(|byte| *byte == 0));
    both.tally.add(SUBTRACT_RECORD, answer);
    window::most_rows(both, field, &mut reference_field);
}

/// The most rows in version 2: all of them but one the first value's, by a bitmap, and one the second's.
fn most_rows_looked_up(both: &mut Comparison, bitmap: &[u8], field: &mut [u8], reference_field: &mut [u8]) {
    let mut body = vec![2];
    body.extend(int(MAX as i32));
    body.extend([0, 0, 0, 2, 0, 0, 0, 0, 1]);
    let position = body.len() as u32;
    let block = [int(2), int(5), int(0), int(-1), int(6), int(-(MAX as i32)), int(-1)].concat();
    body.extend([int(5), int(0), int(block.len() as i32), block].concat());
    body.extend(bitmap);
    let (mut table, mut reference_table) = ([0], [0]);
    let found = opened(raw::open(&body, INT, field, &mut table));
    assert_eq!(found, reader::open(&body, INT, reference_field, &mut reference_table));
    assert_eq!((found, table, reference_table), ((0, MAX, 1, NO_FAULT), [position], [position]));
    assert!(*field == *reference_field, "Open of the most rows leaves another field");
    both.tally.add(OPEN, found.0);
    for (literal, matched, compared) in [(5, MAX - 1, 2), (6, 1, 3), (4, 0, 1)] {
        let found = looked_up(raw::look_up(&body, INT, FIRST_EDITION, &int(literal), &table, field));
        let expected = reader::look_up(&body, INT, FIRST_EDITION, &int(literal), &table, reference_field);
        assert_eq!(found, expected, "Look up in the most rows");
        assert_eq!(found, (0, Record { rows: MAX, nulls: 0, deleted: 0, matched }, compared, NO_FAULT));
        assert!(*field == *reference_field, "Look up in the most rows leaves another field");
        both.tally.add(LOOK_UP, found.0);
    }
}

/// Buffers past the limit are refused before anything else; they are only mapped, not filled.
fn buffers_past_the_limit(both: &mut Comparison) {
    let mut long = Lender::guarded();
    let long = &*long.lend_anything(MAX as usize + 1);
    let mut field = [0xA5; 2];
    let small = body_of(&Column::new(TINYINT, vec![Some(vec![7])]), &Layout::version(1));
    let file = index_file(&[("s", "bitmap", &small)]);

    type Triple = (u8, u64, u64);
    /// No standard UTF-8.
    const WRONG: &[u8] = &[0xC0, 0x80];
    let locates: [([&[u8]; 4], u8); 12] = [
        ([long, &[], b"s", b"bitmap"], LIMIT),
        ([&[], long, b"s", b"bitmap"], LIMIT),
        ([&[], &file, long, b"bitmap"], LIMIT),
        ([&[], &file, b"s", long], LIMIT),
        ([long, &file, b"s", b"bitmap"], LIMIT),
        // LIMIT goes before LITERAL.
        ([long, &[], WRONG, b"bitmap"], LIMIT),
        ([&[], long, b"s", WRONG], LIMIT),
        ([&[], &file, long, WRONG], LIMIT),
        ([&[], &[], WRONG, long], LIMIT),
        // The buffer that isn't looked at may be too long.
        ([&file, long, b"s", b"bitmap"], 0),
        ([&file, long, WRONG, b"bitmap"], LITERAL),
        ([&file, long, b"s", WRONG], LITERAL),
    ];
    for ([embedded, file, column, kind], answer) in locates {
        let found: Triple = raw::locate(embedded, file, column, kind);
        assert_eq!(found, reader::locate(embedded, file, column, kind));
        assert_eq!(found.0, answer);
        both.tally.add(LOCATE, found.0);
    }
    let refused = (12, 0, NO_FAULT);
    for ty in [TINYINT, 99] {
        assert_eq!(said(raw::audit(long, ty, &mut field)), refused);
        assert_eq!(reader::audit(long, ty, &mut field), refused);
        both.tally.add(AUDIT, 12);
        for edition in EDITIONS.into_iter().chain(UNKNOWN_EDITIONS) {
            for (body, literals) in [(long, &[7][..]), (&small, long), (&[], long)] {
                let refused = (12, Record::NONE, NO_FAULT);
                assert_eq!(answered(raw::ask(body, ty, edition, 99, literals, &mut field)), refused);
                assert_eq!(reader::ask(body, ty, edition, 99, literals, &mut field), refused);
                both.tally.add(ASK, 12);
            }
        }
    }
    lookups_past_the_limit(both, long);
    let none = index_file(&[]);
    let mut ask_file = |[embedded, file, column, kind]: [&[u8]; 4], literals: &[u8], answer: u8| {
        let expected = (answer, Record::NONE, NO_FAULT);
        for edition in EDITIONS.into_iter().chain(UNKNOWN_EDITIONS) {
            let found = raw::ask_file(embedded, file, column, kind, TINYINT, edition, EQUAL, literals, &mut field);
            assert_eq!(answered(found), expected);
            let found = reader::ask_file(embedded, file, column, kind, TINYINT, edition, EQUAL, literals, &mut field);
            assert_eq!(found, expected);
            both.tally.add(ASK_FILE, answer);
        }
    };
    for (buffers, answer) in locates.into_iter().filter(|(_, answer)| *answer != 0) {
        ask_file(buffers, &[7], answer);
        // Without a body the question isn't looked at.
        ask_file(buffers, long, answer);
    }
    ask_file([&[], &file, b"s", b"bitmap"], long, 12);
    ask_file([&file, long, b"s", b"bitmap"], long, 12);
    ask_file([&[], &none, b"s", b"bitmap"], long, 255);
    ask_file([&[], &[], b"s", b"bitmap"], long, 1);
    assert_eq!(said(raw::read_deletions(long, 0, 8, &mut field)), refused);
    assert_eq!(reader::read_deletions(long, 0, 8, &mut field), refused);
    both.tally.add(READ_DELETIONS, 12);
    window::files_past_the_limit(both, long);
    assert_eq!(field, [0xA5; 2], "a field was changed by LIMIT");
    // Row fields may be longer than any input buffer.
    assert_eq!(raw::subtract(&mut field, long, 16), (0, 8, 0));
    assert_eq!(reader::subtract(&mut field, long, 16), (0, 8, 0));
    both.tally.add(SUBTRACT, 0);
    let sixteen = Record { rows: 16, nulls: 3, deleted: 0, matched: 8 };
    let (answer, record, removed) = raw::subtract_record(&mut field, long, raw_record(sixteen));
    assert_eq!((answer, record_of(record), removed), (0, sixteen, 0));
    assert_eq!(reader::subtract_record(&mut field, long, sixteen), (0, sixteen, 0));
    both.tally.add(SUBTRACT_RECORD, 0);
}

/// A body or literals past the limit are LIMIT; a table that has more words than any input buffer has bytes is none.
fn lookups_past_the_limit(both: &mut Comparison, long: &[u8]) {
    let column = Column::new(TINYINT, vec![Some(vec![7]), Some(vec![9]), None]);
    let small = body_of(&column, &Layout::version(2).with_blocks_of(1));
    let (mut field, mut table) = ([0xA5; 2], [0xA5A5; 2]);
    for ty in [TINYINT, 99] {
        let refused = (LIMIT, 0, 0, NO_FAULT);
        assert_eq!(opened(raw::open(long, ty, &mut field, &mut table)), refused);
        assert_eq!(reader::open(long, ty, &mut field, &mut table), refused);
        both.tally.add(OPEN, LIMIT);
        for edition in EDITIONS.into_iter().chain(UNKNOWN_EDITIONS) {
            for (body, literals) in [(long, &[7][..]), (&small, long), (&[], long)] {
                let refused = (LIMIT, Record::NONE, 0, NO_FAULT);
                assert_eq!(looked_up(raw::look_up(body, ty, edition, literals, &table, &mut field)), refused);
                assert_eq!(reader::look_up(body, ty, edition, literals, &table, &mut field), refused);
                both.tally.add(LOOK_UP, LIMIT);
            }
        }
    }
    assert_eq!((field, table), ([0xA5; 2], [0xA5A5; 2]), "field or table was changed by LIMIT");

    let mut words = Lender::guarded();
    let words = words.lend_any_words(MAX as usize + 1);
    let accepted = (0, 3, 2, NO_FAULT);
    assert_eq!(opened(raw::open(&small, TINYINT, &mut field, words)), accepted);
    assert_eq!(reader::open(&small, TINYINT, &mut [0xA5], &mut table), accepted);
    assert_eq!((field, &words[..3]), ([0, 0xA5], &[table[0], table[1], 0][..]));
    both.tally.add(OPEN, 0);
    let seven = Record { rows: 3, nulls: 1, deleted: 0, matched: 1 };
    let found = looked_up(raw::look_up(&small, TINYINT, FIRST_EDITION, &[7], words, &mut field));
    assert_eq!(found, reader::look_up(&small, TINYINT, FIRST_EDITION, &[7], words, &mut [0xA5]));
    assert_eq!((found.0, found.1, field), (0, seven, [1, 0xA5]));
    both.tally.add(LOOK_UP, 0);
}

/// The file with the seed of the round that runs. What is written to it stays there however the program ends.
struct SeedNote(File);

impl SeedNote {
    fn new() -> SeedNote {
        let file = File::create(concat!(env!("CARGO_TARGET_TMPDIR"), "/differential-seed")).expect("target/tmp can be written");
        let note = SeedNote(file);
        note.put("none: the fixed cases run");
        note
    }

    fn write(&self, seed: u64) {
        self.put(&seed.to_string());
    }

    /// Over the line before, with spaces so that nothing of it is left.
    fn put(&self, text: &str) {
        self.0.write_all_at(format!("{text:<26}\n").as_bytes(), 0).expect("target/tmp can be written");
    }
}

#[test]
fn library_and_reference_reader_agree() {
    let asked_seed = number_from_environment("PODDURANCE_SEED");
    let first_seed = asked_seed.unwrap_or(DEFAULT_SEED);
    let cases = number_from_environment("PODDURANCE_CASES").unwrap_or(DEFAULT_CASES);
    let alone = cases == 1;
    let mut both = Comparison::new();
    let mut fixed = 0;
    let note = SeedNote::new();
    if !alone {
        let random = &mut Random::new(first_seed);
        every_cut_and_flip(&mut both);
        orders(&mut both);
        each_small_column(&mut both);
        each_small_subtraction(&mut both);
        subtract_orders(&mut both);
        bitmap_rules(&mut both);
        limits(&mut both, random);
        names::all(&mut both);
        containers(&mut both, random);
        bitmap_inside_bits(&mut both, random);
        large::values_listed_twice(&mut both);
        large::many_literals(&mut both);
        large::one_byte_apart(&mut both);
        large::each_two_values(&mut both);
        large::rows_of_containers(&mut both, random);
        large::last_row_of_bits(&mut both);
        large::fault_in_a_container(&mut both);
        lookup::each_type(&mut both);
        lookup::halving(&mut both);
        lookup::every_cut_and_flip(&mut both);
        lookup::each_table(&mut both);
        lookup::orders(&mut both);
        lookup::most_blocks(&mut both);
        window::all(&mut both);
        most_rows(&mut both);
        buffers_past_the_limit(&mut both);
        fixed = both.tally.calls();
        assert!(fixed >= FIXED_CALLS, "{fixed} calls");
    }

    let mut seed = first_seed;
    loop {
        both.seed = Some(seed);
        note.write(seed);
        round(&mut both, &mut Random::new(seed));
        if both.tally.calls() - fixed >= cases {
            break;
        }
        seed = seed.wrapping_add(1);
    }

    let calls = both.tally.calls();
    let accepted = both.tally.accepted();
    say(&format!(
        "\n{calls} calls of library and reference reader agree ({fixed} of them fixed); seeds {first_seed} to {seed}; \
         {}% accepted\n{}",
        100 * accepted / calls,
        both.tally.table()
    ));
    let kinds: Vec<String> = both.kinds.all().into_iter().map(|(kind, count)| format!("{count:>8}  {kind}")).collect();
    say(&kinds.join("\n"));
    for (call, possible) in POSSIBLE.iter().enumerate() {
        for answer in 0..=255 {
            let count = both.tally.of(call, answer);
            let name = CALLS[call];
            assert!(count == 0 || possible.contains(&answer), "{name} can't give the answer {answer}");
            if cases >= DEFAULT_CASES {
                assert!(count > 0 || !possible.contains(&answer), "{name} never gave the answer {answer}");
            }
        }
    }
    if cases >= DEFAULT_CASES {
        assert!(100 * accepted >= 30 * calls, "fewer than 30% accepted");
        for (kind, count) in both.kinds.all() {
            assert!(count > 0, "{kind}: never");
        }
    }
}
