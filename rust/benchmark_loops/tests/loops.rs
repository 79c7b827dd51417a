//! Both loops do the same: on random fields and runs of rows they leave the same field and give the same answer, and so does a plain
//! loop that is written here.

use std::ops::Range;

use benchmark_loops::{mark_bits, mark_run};
use reference::random::Random;

const SEED: u64 = 20_240_101;
const SHORT_FIELDS: usize = 200_000;
/// The most bytes of a short field.
const SHORT: usize = 40;
const LONG_FIELDS: usize = 1_000;
/// The bytes of a long field: that of a Roaring container.
const LONG: usize = 8_192;
/// So many bytes on each side of a field must stay as they are.
const AROUND: usize = 16;
/// Runs that miss the field's end do so by up to so many rows.
const NEAR: usize = 20;

/// What both loops are to do: sets the rows from the first up to the end, none if the end isn't behind the first, and answers whether
/// one of them was set already. Row r is the bit of weight 2^(r mod 8) of byte r/8.
fn mark_plainly(field: &mut [u8], rows: Range<u64>) -> bool {
    let mut set: Vec<bool> = field.iter().flat_map(|byte| (0..8).map(move |bit| byte / 2u8.pow(bit) % 2 == 1)).collect();
    let mut seen = false;
    for (row, is_set) in (0..).zip(&mut set) {
        if rows.contains(&row) {
            seen |= *is_set;
            *is_set = true;
        }
    }
    for (byte, bits) in field.iter_mut().zip(set.chunks(8)) {
        *byte = (0..).zip(bits).map(|(bit, is_set)| u8::from(*is_set) * 2u8.pow(bit)).sum();
    }
    seen
}

/// A kind of run: its name, whether a run is of it in a field of so many rows, and whether such a run has rows in the field, which
/// may be set already or not.
type Kind = (&'static str, fn(&Range<u64>, u64) -> bool, bool);

const KINDS: [Kind; 12] = [
    ("empty", |run, _| run.start == run.end, false),
    ("reversed", |run, _| run.end < run.start, false),
    ("one row", |run, rows| run.end <= rows && row_count(run) == 1, true),
    ("within a byte, not all of it", |run, rows| run.end <= rows && bytes(run) == 1 && row_count(run) < 8, true),
    ("one whole byte", |run, rows| run.end <= rows && bytes(run) == 1 && row_count(run) == 8, true),
    ("from a byte's start to another's end", |run, rows| run.end <= rows && bytes(run) > 1 && starts(run) && ends(run), true),
    ("from a byte's start into another", |run, rows| run.end <= rows && bytes(run) > 1 && starts(run) && !ends(run), true),
    ("from inside a byte to another's end", |run, rows| run.end <= rows && bytes(run) > 1 && !starts(run) && ends(run), true),
    ("from inside a byte into another", |run, rows| run.end <= rows && bytes(run) > 1 && !starts(run) && !ends(run), true),
    ("from the field past its end", |run, rows| run.start < rows && rows < run.end, true),
    ("past the field's end", |run, rows| rows <= run.start && row_count(run) > 0, false),
    ("from the field to the highest end", |run, rows| run.start < rows && run.end == u64::MAX, true),
];

fn row_count(run: &Range<u64>) -> u64 {
    run.end.saturating_sub(run.start)
}

/// The number of bytes that rows of the run lie in.
fn bytes(run: &Range<u64>) -> u64 {
    match row_count(run) {
        0 => 0,
        _ => (run.end - 1) / 8 - run.start / 8 + 1,
    }
}

/// Whether the first row is the first of a byte.
fn starts(run: &Range<u64>) -> bool {
    run.start % 8 == 0
}

/// Whether the last row is the last of a byte.
fn ends(run: &Range<u64>) -> bool {
    run.end % 8 == 0
}

/// A run of rows for a field of so many bytes.
fn random_run(random: &mut Random, size: usize) -> Range<u64> {
    let rows = 8 * size;
    let mut any = |end: usize| random.below(end + 1) as u64;
    match any(9) {
        0 => {
            let first = any(rows + NEAR);
            first..first
        }
        1 => {
            let (first, more) = (any(rows + NEAR), any(7));
            first..first + more
        }
        2 => {
            let byte = any(size);
            8 * byte..8 * (byte + 1)
        }
        3 => 8 * any(size)..8 * any(size),
        4 => 8 * any(size)..any(rows),
        5 => any(rows)..8 * any(size),
        6 => any(rows)..any(rows),
        7 => any(rows + NEAR)..any(rows + NEAR),
        8 => any(rows + NEAR)..u64::MAX - any(1) * any(NEAR),
        _ => random.number()..random.number(),
    }
}

/// Fields of each kind: cleared ones, full ones and others.
fn random_field(random: &mut Random, size: usize) -> Vec<u8> {
    match random.below(4) {
        0 => vec![0; size],
        1 => vec![0xFF; size],
        // Few rows, so that runs of some length may find none set.
        2 => (0..size).map(|_| if random.percent(10) { 1 << random.below(8) } else { 0 }).collect(),
        _ => random.bytes(size),
    }
}

/// How often something was seen, with the answers false and true.
#[derive(Default)]
struct Tally {
    kinds: [[u32; 2]; KINDS.len()],
    no_bytes: u32,
    cleared: u32,
    full: u32,
    other: u32,
}

impl Tally {
    fn add(&mut self, field: &[u8], run: &Range<u64>, answer: bool) {
        for (tally, (_, is_of, _)) in self.kinds.iter_mut().zip(KINDS) {
            tally[usize::from(answer)] += u32::from(is_of(run, 8 * field.len() as u64));
        }
        let all = |value: u8| field.iter().all(|byte| *byte == value);
        match field {
            [] => self.no_bytes += 1,
            _ if all(0) => self.cleared += 1,
            _ if all(0xFF) => self.full += 1,
            _ => self.other += 1,
        }
    }
}

/// Marks a random run in a random field of that size, by each loop.
fn compare(random: &mut Random, size: usize, tally: &mut Tally) {
    let field = random_field(random, size);
    let run = random_run(random, size);
    let around = random.bytes(AROUND);
    let lent = || [&around[..], &field[..], &around[..]].concat();
    let marked = |mark: fn(&mut [u8], Range<u64>) -> bool| {
        let mut buffer = lent();
        let answer = mark(&mut buffer[AROUND..AROUND + size], run.clone());
        (answer, buffer)
    };
    let expected = marked(mark_plainly);
    let [by_run, by_bits] = [marked(mark_run), marked(mark_bits)];
    assert_eq!(by_run.0, expected.0, "mark_run's answer, {run:?} in {field:02X?}");
    assert_eq!(by_bits.0, expected.0, "mark_bits's answer, {run:?} in {field:02X?}");
    assert!(by_run.1 == expected.1, "mark_run's field, {run:?} in {field:02X?}: {:02X?}", by_run.1);
    assert!(by_bits.1 == expected.1, "mark_bits's field, {run:?} in {field:02X?}: {:02X?}", by_bits.1);
    tally.add(&field, &run, expected.0);
}

/// Each kind of run occurred, and with each answer that it can have.
fn check(tally: &Tally) {
    for ((name, _, has_rows), [set_none, set_some]) in KINDS.iter().zip(tally.kinds) {
        assert_ne!(set_none, 0, "no run {name} found its rows clear");
        assert_eq!(set_some != 0, *has_rows, "runs {name} that found a row set: {set_some}");
    }
    assert_ne!(tally.cleared, 0);
    assert_ne!(tally.full, 0);
    assert_ne!(tally.other, 0);
}

#[test]
fn both_loops_do_the_same_in_short_fields() {
    let (mut random, mut tally) = (Random::new(SEED), Tally::default());
    for _ in 0..SHORT_FIELDS {
        let size = random.between(0, SHORT);
        compare(&mut random, size, &mut tally);
    }
    check(&tally);
    assert_ne!(tally.no_bytes, 0);
}

#[test]
fn both_loops_do_the_same_in_long_fields() {
    let (mut random, mut tally) = (Random::new(SEED), Tally::default());
    for _ in 0..LONG_FIELDS {
        compare(&mut random, LONG, &mut tally);
    }
    check(&tally);
}

#[test]
fn the_plain_loop_sets_the_rows_of_a_run() {
    for (before, run, after, answer) in [
        ([0b0000_0000, 0b0000_0000], 3..10, [0b1111_1000, 0b0000_0011], false),
        ([0b0000_1000, 0b0000_0100], 3..10, [0b1111_1000, 0b0000_0111], true),
        ([0b0000_0100, 0b0000_0100], 3..10, [0b1111_1100, 0b0000_0111], false),
        ([0b0000_0000, 0b0000_0000], 15..17, [0b0000_0000, 0b1000_0000], false),
        ([0b1111_1111, 0b1111_1111], 16..u64::MAX, [0b1111_1111, 0b1111_1111], false),
        ([0b1111_1111, 0b1111_1111], 7..7, [0b1111_1111, 0b1111_1111], false),
        ([0b0000_0000, 0b0000_0000], Range { start: 8, end: 7 }, [0b0000_0000, 0b0000_0000], false),
    ] {
        let mut field = before;
        assert_eq!((mark_plainly(&mut field, run.clone()), field), (answer, after), "{run:?} in {before:02X?}");
    }
}
