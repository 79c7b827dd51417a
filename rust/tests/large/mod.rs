//! Many values, many literals, and bitmaps of several containers, which small draws hardly ever reach: rounds at random, and fixed cases
//! whose answers are known.

use std::collections::HashSet;

use super::*;
use reference::writer::Traced;

const DICT: u8 = 5;
const BITMAP: u8 = 6;
const RANGE: u8 = 7;
const TWICE: u8 = 8;
const MISSING: u8 = 9;

/// The rows of one container.
const CONTAINER: u32 = 65_536;

// Random rounds

/// A column of many values answers questions of many literals as the scan does; and a value listed twice is DICT, however far apart.
pub fn many_values(both: &mut Comparison, random: &mut Random) {
    let column = random::column_of_many(random);
    let groups = column.groups();
    let body = body(&groups, &random::layout(random, &groups));
    check_column(both, random, &column, &groups, &body);
    let number = groups.values.len();
    if number < 2 {
        return;
    }
    for _ in 0..4 {
        let mut said = groups.clone();
        let (one, other) = (random.below(number), random.below(number - 1));
        let other = if other < one { other } else { other + 1 };
        said.values[other].0 = said.values[one].0.clone();
        let traced = body_traced(&said, &random::layout(random, &said));
        let field = random::field(random, column.cells.len());
        let found = both.audit(&traced.bytes, column.ty, &field);
        both.demand(found.0 == DICT, "Audit of a value listed twice", &[("body", &traced.bytes)]);
        // And with what comes first of two faults.
        both.audit(&random::damage(random, &traced), column.ty, &field);
    }
}

/// A body of bitmaps with several containers is accepted; with one row lost, doubled or too high it is refused for that; and with a fault
/// in one container both readers say the same.
pub fn several_containers(both: &mut Comparison, random: &mut Random) {
    let groups = random::wide_groups(random);
    let rows = groups.rows as usize;
    let field = random::field(random, rows + 1);
    let sound = body_traced(&groups, &random::layout(random, &groups));
    let found = both.audit(&sound.bytes, groups.ty, &field);
    both.demand(found.0 == 0, "Audit of several containers", &[("body", &sound.bytes)]);

    let bitmaps = of_bitmaps(&sound);
    for _ in 0..6 {
        let body = random::damage(random, &bitmaps);
        both.audit(&body, groups.ty, &field);
        let (question, values) = random::question(random, &groups);
        let edition = random::edition_or_unknown(random);
        both.ask(&body, groups.ty, edition, question, &types::literals(groups.ty, &values), &field);
    }
    for _ in 0..3 {
        let entry = random.below(groups.values.len() + 1);
        let of_entry = groups.clone().rows_of(entry).clone();
        if of_entry.is_empty() {
            continue;
        }
        let row = *random.pick(&of_entry);
        let (said, answer) = change(random, &groups, entry, row);
        let body = body(&said, &random::layout(random, &said));
        let found = both.audit(&body, groups.ty, &field);
        both.demand(found.0 == answer, &format!("Audit that is to answer {answer}"), &[("body", &body)]);
    }
}

/// The same bytes with the fields of bitmaps alone, so that damage leaves the dictionary as it is.
pub fn of_bitmaps(traced: &Traced) -> Traced {
    let within = [
        "cookie",
        "run flags",
        "container number",
        "key",
        "cardinality",
        "container offset",
        "run number",
        "runs",
        "array",
        "bits",
    ];
    let fields = traced.fields.iter().filter(|field| within.contains(&field.name)).copied().collect();
    Traced { bytes: traced.bytes.clone(), fields }
}

fn insert(rows: &mut Vec<u32>, row: u32) {
    if let Err(at) = rows.binary_search(&row) {
        rows.insert(at, row);
    }
}

fn remove(rows: &mut Vec<u32>, row: u32) {
    if let Ok(at) = rows.binary_search(&row) {
        rows.remove(at);
    }
}

/// One wrong thing about a row of an entry, and what it is answered with.
fn change(random: &mut Random, groups: &Groups, entry: usize, row: u32) -> (Groups, u8) {
    let mut said = groups.clone();
    let other = (entry + random.between(1, groups.values.len())) % (groups.values.len() + 1);
    let answer = match random.below(5) {
        0 => {
            remove(said.rows_of(entry), row);
            MISSING
        }
        1 => {
            insert(said.rows_of(other), row);
            TWICE
        }
        2 => move_row(&mut said, entry, other, row),
        3 => {
            insert(said.rows_of(entry), groups.rows);
            RANGE
        }
        _ => {
            said.rows += 1;
            MISSING
        }
    };
    (said, answer)
}

/// The entry loses the row and has one of the other's instead, so that the number of rows is right and a row is there twice; where the
/// other has none, the row is only lost.
fn move_row(said: &mut Groups, entry: usize, other: usize, row: u32) -> u8 {
    let others = said.rows_of(other).clone();
    let rows = said.rows_of(entry);
    remove(rows, row);
    match others.get(others.partition_point(|other| *other < row)).or(others.last()) {
        Some(doubled) => {
            insert(rows, *doubled);
            TWICE
        }
        None => MISSING,
    }
}

// Fixed cases

/// The library's hash of a stored value (crate `hash_table`), so that values can be drawn that share one. Were it another there, the cases
/// would be as right, and only less hard.
fn hash(stored: &[u8]) -> u32 {
    let words = stored.chunks_exact(4);
    let rest = words.remainder().iter().map(|byte| u32::from(*byte));
    let words = words.map(|word| u32::from_le_bytes(word.try_into().expect("4 bytes")));
    words.chain(rest).fold(0, |hash: u32, number| hash.wrapping_add(number).wrapping_mul(2_654_435_761)) >> 20
}

/// The value of a number, another one for each.
type ValueOf = fn(u32) -> Vec<u8>;

/// The first values of a kind, and the first of those that have the hash of the first.
fn drawn(ty: u32, number: usize, value: ValueOf) -> [Vec<Vec<u8>>; 2] {
    let stored = |i: u32| types::literals(ty, &[value(i)]);
    let shared = hash(&stored(0));
    let first = (0..number as u32).map(value).collect();
    let colliding = (0..).filter(|i| hash(&stored(*i)) == shared).take(number.min(60)).map(value).collect();
    [first, colliding]
}

/// Values in which one is listed twice, with as many as are compared with each other, one more, and the most.
pub fn values_listed_twice(both: &mut Comparison) {
    let kinds: [(u32, ValueOf); 3] = [
        (INT, |i| i.to_be_bytes().to_vec()),
        (BIGINT, |i| (i64::from(i) << 20).to_be_bytes().to_vec()),
        (STRING, |i| if i == 1 { Vec::new() } else { format!("{i:07}").into_bytes() }),
    ];
    for number in [2, 16, 17, 32, 33, 34, 60, 4096] {
        for (ty, value) in kinds {
            for values in drawn(ty, number, value) {
                list_twice(both, ty, &values);
            }
        }
    }
    // Each differs from the first in one byte alone.
    let like_first = |at: usize| (0..40).map(|i| if i == at { b'y' } else { b'x' }).collect();
    list_twice(both, STRING, &(0..=40).map(like_first).collect::<Vec<Vec<u8>>>());
}

fn list_twice(both: &mut Comparison, ty: u32, values: &[Vec<u8>]) {
    let number = values.len();
    let rows = number as u32;
    let groups =
        Groups { ty, rows, nulls: Vec::new(), values: values.iter().cloned().zip((0..rows).map(|row| vec![row])).collect() };
    let field = vec![0xA5; number.div_ceil(8)];
    assert_eq!(both.audit(&body(&groups, &Layout::version(1)), ty, &field).0, 0, "{number} values of type {ty}");
    let last = number - 1;
    for (one, other) in [(0, last), (0, 1), (last - 1, last), (last / 2, last), (0, last.div_ceil(2))] {
        let mut said = groups.clone();
        said.values[other].0 = said.values[one].0.clone();
        let traced = body_traced(&said, &Layout::version(1));
        // The value's place, and where its bytes end; its offset stands behind.
        let of_values = traced.fields.iter().filter(|field| ["value", "string length"].contains(&field.name));
        let place = of_values.clone().nth(other).expect("a field of each value");
        let end = place.at + types::literals(ty, &[&said.values[other].0]).len();
        for (length, answer) in [(traced.bytes.len(), DICT), (end + 4, DICT), (end, DICT), (end - 1, 1)] {
            let body = &traced.bytes[..length];
            let what = format!("value {one} again at {other} of {number}, type {ty}, cut at {length}");
            assert_eq!(both.audit(body, ty, &field).0, answer, "{what}");
            for edition in EDITIONS {
                assert_eq!(both.ask(body, ty, edition, IS_NULL, &[], &field).0, answer, "{what}");
            }
        }
    }
}

/// Questions of up to the most literals: listed and not, repeated, of one hash, and the empty string among them.
pub fn many_literals(both: &mut Comparison) {
    let kinds: [(u32, ValueOf); 2] =
        [(INT, |i| i.to_be_bytes().to_vec()), (STRING, |i| if i == 0 { Vec::new() } else { format!("{i:07}").into_bytes() })];
    for (ty, value) in kinds {
        let [_, colliding] = drawn(ty, 1024, value);
        let listed = (0..1500).map(value).chain(colliding.iter().cloned());
        let cells: Vec<Option<Vec<u8>>> = listed.map(Some).chain([None]).collect();
        let column = Column::new(ty, cells);
        let rows = column.cells.len();
        for version in [1, 2] {
            let body = body_of(&column, &Layout::version(version).with_blocks_of(7));
            for number in [1, 2, 16, 17, 18, 32, 33, 34, 60, 1023, 1024] {
                let all_listed = (0..number).rev().map(value).collect();
                let none_listed = (10_000..10_000 + number).map(value).collect();
                let every_other = (0..number).map(|i| value(if i % 2 == 0 { i } else { 20_000 + i })).collect();
                let each_twice = (0..number).map(|i| value(i / 2)).collect();
                let one_of_all = (0..number).map(|_| value(0)).collect();
                let one_hash = colliding.iter().cloned().cycle().take(number as usize).collect();
                for literals in [all_listed, none_listed, every_other, each_twice, one_of_all, one_hash] {
                    let literals: Vec<Vec<u8>> = literals;
                    let asked = types::literals(ty, &literals);
                    let distinct: Vec<&Vec<u8>> = HashSet::<&Vec<u8>>::from_iter(&literals).into_iter().collect();
                    for (edition, question) in EDITIONS.into_iter().flat_map(|edition| [(edition, IN), (edition, NOT_IN)]) {
                        let (expected, record) = scan(&column, edition, question, &distinct);
                        let found = both.ask(&body, ty, edition, question, &asked, &vec![0xA5; rows.div_ceil(8)]);
                        let sound = found == (0, record, expected, NO_FAULT);
                        both.demand(sound, &format!("Ask of {number} literals"), &[("body", &body), ("literals", &asked)]);
                    }
                }
            }
        }
    }
}

/// Names and strings that are as long and differ in one byte, wherever it stands.
pub fn one_byte_apart(both: &mut Comparison) {
    for length in 0..=20 {
        let text: String = ('a'..).take(length).collect();
        let file = index_file(&[(&text, &text, b"body")]);
        assert_eq!(both.locate(&[], &file, text.as_bytes(), text.as_bytes()).0, 0);
        let column = Column::new(STRING, vec![Some(text.clone().into_bytes()), None]);
        let bodies = [1, 2].map(|version| body_of(&column, &Layout::version(version)));
        let mut others: Vec<Vec<u8>> = vec![format!("{text}a").into_bytes()];
        for at in 0..length {
            let mut other = text.clone().into_bytes();
            other[at] ^= 1;
            others.extend([other, text.as_bytes()[..at].to_vec()]);
        }
        for other in others {
            assert_eq!(both.locate(&[], &file, &other, text.as_bytes()).0, 255);
            assert_eq!(both.locate(&[], &file, text.as_bytes(), &other).0, 255);
            for body in &bodies {
                let (alone, with_text) =
                    (types::literals(STRING, &[&other]), types::literals(STRING, &[&other[..], text.as_bytes()]));
                // Two rows, one of them null.
                let record = |matched: u64| Record { rows: 2, nulls: 1, deleted: 0, matched };
                for edition in EDITIONS {
                    assert_eq!(both.ask(body, STRING, edition, EQUAL, &alone, &[0xA5]), (0, record(0), vec![0], NO_FAULT));
                    assert_eq!(both.ask(body, STRING, edition, IN, &with_text, &[0xA5]), (0, record(1), vec![1], NO_FAULT));
                }
            }
        }
    }
}

/// Each two of many values in version 2, in one block and in two: they must rise.
pub fn each_two_values(both: &mut Comparison) {
    let numbers =
        [i64::MIN, i64::MIN + 1, -65_537, -256, -255, -128, -2, -1, 0, 1, 127, 128, 255, 256, 65_536, i64::MAX - 1, i64::MAX];
    let strings: [&[u8]; 14] = [
        b"",
        b"\0",
        b"\0\0",
        b"a",
        b"aa",
        b"ab",
        b"b",
        b"\x7F",
        b"\x80",
        b"\xFF",
        b"1234567",
        b"12345678",
        b"12345678\0",
        b"123456789",
    ];
    for ty in 0..types::WIDTHS.len() as u32 {
        let values: Vec<Vec<u8>> = match types::WIDTHS[ty as usize] {
            _ if ty == BOOLEAN => vec![vec![0], vec![1]],
            types::Width::Counted => strings.map(<[u8]>::to_vec).to_vec(),
            types::Width::Fixed(width) => {
                // What doesn't fit is shifted, so that extremes stay extremes.
                let fits = |number: i64| number << (64 - 8 * width) >> (64 - 8 * width) == number;
                let shifted = |number: i64| if fits(number) { number } else { number >> (64 - 8 * width) };
                numbers.map(|number| shifted(number).to_be_bytes()[8 - width..].to_vec()).to_vec()
            }
        };
        for one in &values {
            for other in &values {
                let rising = types::compare(ty, one, other).is_lt();
                let groups =
                    Groups { ty, rows: 2, nulls: Vec::new(), values: vec![(one.clone(), vec![0]), (other.clone(), vec![1])] };
                for layout in [Layout::version(2), Layout::version(2).with_blocks_of(1)] {
                    let found = both.audit(&body(&groups, &layout), ty, &[0xA5]);
                    assert_eq!(found.0, if rising { 0 } else { DICT }, "{} and {} of type {ty}", hex(one), hex(other));
                }
            }
        }
    }
}

/// Null in bits or runs, a value in bits or runs, and one in arrays, over several containers: one row lost, doubled, or past the end, of
/// each entry and in each container.
pub fn rows_of_containers(both: &mut Comparison, random: &mut Random) {
    for (containers, less) in [(1, 0), (1, 40_000), (2, 65_535), (3, 1), (4, 0), (4, 17)] {
        let rows = containers * CONTAINER - less;
        let third = |row: u32| row / 1_000 % 3;
        let (first, others): (Vec<u32>, Vec<u32>) = (0..rows).partition(|row| third(*row) == 0);
        let (second, nulls) = others.into_iter().partition(|row| third(*row) == 1 && row % 8 == 3);
        let groups = Groups { ty: TINYINT, rows, nulls, values: vec![(vec![4], first), (vec![5], second)] };
        let runs = BitmapForm::WithRuns(vec![ContainerForm::Runs { cuts: Vec::new() }; containers as usize]);
        for (i, form) in [BitmapForm::WithoutRuns, BitmapForm::Smallest, runs].into_iter().enumerate() {
            let layout = Layout::version(1 + i as u8 % 2).with_form(form);
            let field = random::field(random, rows as usize + 1);
            let mut audit = |said: &Groups, answer: u8, fault: Fault| {
                let body = body(said, &layout);
                let found = both.audit(&body, TINYINT, &field);
                let what = format!("Audit that is to answer {answer} and {fault:?}");
                both.demand((found.0, found.3) == (answer, fault), &what, &[("body", &body)]);
            };
            let of = |entry: usize| [entry as u64, 0, 0];
            audit(&groups, 0, NO_FAULT);
            let last = (0..3).find(|entry| groups.clone().rows_of(*entry).contains(&(rows - 1))).expect("an owner");
            audit(&Groups { rows: rows - 1, ..groups.clone() }, RANGE, of(last));
            audit(&Groups { rows: rows + 1, ..groups.clone() }, MISSING, [0, 0, rows.into()]);
            for entry in 0..3 {
                let mut said = groups.clone();
                insert(said.rows_of(entry), rows);
                audit(&said, RANGE, of(entry));
                let of_entry = groups.clone().rows_of(entry).clone();
                for within in of_entry.chunk_by(|a, b| a / CONTAINER == b / CONTAINER) {
                    for row in [within[0], within[within.len() / 2], within[within.len() - 1]] {
                        let mut said = groups.clone();
                        remove(said.rows_of(entry), row);
                        audit(&said, MISSING, [0, 0, row.into()]);
                        let other = (entry + 1) % 3;
                        let later = of(entry.max(other));
                        let mut said = groups.clone();
                        insert(said.rows_of(other), row);
                        audit(&said, TWICE, later);
                        let mut said = groups.clone();
                        let answer = move_row(&mut said, entry, other, row);
                        audit(&said, answer, if answer == TWICE { later } else { [0, 0, row.into()] });
                    }
                }
            }
        }
    }
}

/// Bits whose last row stands at each bit of a byte, far before the container's end: the end of the rows is behind it, and not there.
pub fn last_row_of_bits(both: &mut Comparison) {
    for containers in 1..=2 {
        for last in 5_000..5_008 {
            let rows = (containers - 1) * CONTAINER + last + 1;
            let groups = Groups { ty: TINYINT, rows, nulls: Vec::new(), values: vec![(vec![4], (0..rows).collect())] };
            for (counted, answer) in [(rows, 0), (rows - 1, RANGE), (rows + 1, MISSING)] {
                let body = body(&Groups { rows: counted, ..groups.clone() }, &Layout::version(1));
                assert_eq!(both.audit(&body, TINYINT, &vec![0xA5; counted.div_ceil(8) as usize]).0, answer, "{rows} rows");
            }
        }
    }
}

/// A bitmap of several containers of each form in which one number of one container is wrong, the dictionary and all others being right.
pub fn fault_in_a_container(both: &mut Comparison) {
    let (array, bits, runs) = (|row: u32| row % 100 == 7, |row: u32| row % 2 == 1, |row: u32| row % 1_000 < 300);
    let containers = 5;
    let is_set = |row: u32| match row / CONTAINER % 3 {
        0 => array(row),
        1 => bits(row),
        _ => runs(row),
    };
    let rows = containers * CONTAINER;
    let (set, nulls): (Vec<u32>, Vec<u32>) = (0..rows).partition(|row| is_set(*row));
    let groups = Groups { ty: TINYINT, rows, nulls, values: vec![(vec![4], set)] };
    let field = vec![0xA5; rows as usize / 8];
    for (version, form) in [(1, BitmapForm::Smallest), (2, BitmapForm::WithoutRuns)] {
        let traced = body_traced(&groups, &Layout::version(version).with_form(form));
        assert_eq!(both.audit(&traced.bytes, TINYINT, &field).0, 0);
        let mut faults = 0;
        // Null's bitmap comes first, and the value's has as many containers.
        let mut before = 0;
        for at in of_bitmaps(&traced).fields {
            let here = [u64::from(before / containers), u64::from(before % containers), 0];
            let in_container = ["run number", "runs", "array", "bits"].contains(&at.name);
            before += u32::from(in_container && at.name != "run number");
            let places = [0, at.width / 4 * 2, (at.width - 1) / 2 * 2].map(|inside| at.at + inside);
            for (i, place) in places.into_iter().enumerate() {
                // One more: rows stand elsewhere, or their number, or what is said of them, is another.
                let mut more = traced.bytes.clone();
                more[place] = more[place].wrapping_add(1);
                let found = both.audit(&more, TINYINT, &field);
                assert_ne!(found.0, 0, "{} at {place}", at.name);
                if found.0 == BITMAP {
                    assert!(!in_container || found.3 == here, "{} at {place}: {:?} instead of {here:?}", at.name, found.3);
                    faults += 1;
                }
                // As the one before: the rows of an array no longer rise.
                if at.name == "array" && i > 0 {
                    let mut equal = traced.bytes.clone();
                    equal.copy_within(place - 2..place, place);
                    let found = both.audit(&equal, TINYINT, &field);
                    assert_eq!((found.0, found.3), (BITMAP, here), "the array at {}", at.at);
                }
            }
        }
        assert_eq!(before, 2 * containers);
        assert!(faults > 3 * containers, "{faults} faults of form");
    }
}
