//! The cases that document 01 writes out, for Audit, EQUAL and IN, and a few more: room, limits, Open and Look up.

use plain_reader::{ask, audit, look_up, open, Question, Record, Refusal};

const TINYINT: u32 = 0;
const STRING: u32 = 11;
const UNKNOWN_TYPE: u32 = 12;

/// TINYINT 7, 9, null.
const VERSION_1: [u8; 24] = [
    0x01, 0x00, 0x00, 0x00, 0x03, 0x00, 0x00, 0x00, 0x02, 0x01, 0xFF, 0xFF, 0xFF, 0xFD, 0x07, 0xFF, 0xFF, 0xFF, 0xFF, 0x09, 0xFF,
    0xFF, 0xFF, 0xFE,
];
/// The same as version 2.
const VERSION_2: [u8; 62] = [
    0x02, 0x00, 0x00, 0x00, 0x03, 0x00, 0x00, 0x00, 0x02, 0x01, 0xFF, 0xFF, 0xFF, 0xFD, 0xFF, 0xFF, 0xFF, 0xFF, 0x00, 0x00, 0x00,
    0x02, 0x07, 0x00, 0x00, 0x00, 0x00, 0x09, 0x00, 0x00, 0x00, 0x0D, 0x00, 0x00, 0x00, 0x1A, 0x00, 0x00, 0x00, 0x01, 0x07, 0xFF,
    0xFF, 0xFF, 0xFF, 0xFF, 0xFF, 0xFF, 0xFF, 0x00, 0x00, 0x00, 0x01, 0x09, 0xFF, 0xFF, 0xFF, 0xFE, 0xFF, 0xFF, 0xFF, 0xFF,
];
const ROWS_0_2_5: [u8; 22] = [
    0x3A, 0x30, 0x00, 0x00, 0x01, 0x00, 0x00, 0x00, 0x00, 0x00, 0x02, 0x00, 0x10, 0x00, 0x00, 0x00, 0x00, 0x00, 0x02, 0x00, 0x05,
    0x00,
];
const ROWS_1_TO_4: [u8; 15] = [0x3B, 0x30, 0x00, 0x00, 0x01, 0x00, 0x00, 0x03, 0x00, 0x01, 0x00, 0x01, 0x00, 0x03, 0x00];
const NO_VALUES: [u8; 10] = [0x01, 0, 0, 0, 0, 0, 0, 0, 0, 0];

/// What a buffer holds before a call, so that a byte that was left alone is seen.
const ANY: u8 = 0xA5;

/// A body of version 1 with one TINYINT value, 7, whose rows stand at the offset in these bitmaps.
fn one_value(rows: u32, offset: i32, bitmaps: &[u8]) -> Vec<u8> {
    let front: [&[u8]; 6] = [&[1], &rows.to_be_bytes(), &1u32.to_be_bytes(), &[0, 7], &offset.to_be_bytes(), bitmaps];
    front.concat()
}

/// A body of version 1 with these strings, each of whose bitmaps stands behind the one before.
fn strings(rows: u32, entries: &[(&str, &[u8])]) -> Vec<u8> {
    let mut body = [&[1][..], &rows.to_be_bytes(), &(entries.len() as u32).to_be_bytes(), &[0]].concat();
    let mut offset = 0i32;
    for (value, bitmap) in entries {
        body.extend(string(value));
        body.extend(offset.to_be_bytes());
        offset += bitmap.len() as i32;
    }
    body.extend(entries.iter().flat_map(|(_, bitmap)| *bitmap));
    body
}

fn string(value: &str) -> Vec<u8> {
    [&(value.len() as u32).to_be_bytes(), value.as_bytes()].concat()
}

/// A bitmap of one array.
fn array(rows: &[u16]) -> Vec<u8> {
    let header: [&[u8]; 4] =
        [&[0x3A, 0x30, 0, 0, 1, 0, 0, 0], &[0, 0], &(rows.len() as u16 - 1).to_le_bytes(), &16u32.to_le_bytes()];
    let rows: Vec<u8> = rows.iter().flat_map(|row| row.to_le_bytes()).collect();
    [header.concat(), rows].concat()
}

fn record(rows: u64, nulls: u64, matched: u64) -> Record {
    Record { rows, nulls, deleted: 0, matched }
}

#[test]
fn the_column_of_three_rows() {
    for body in [&VERSION_1[..], &VERSION_2] {
        let mut field = [ANY; 2];
        assert_eq!(audit(body, TINYINT, &mut field), Ok(3));
        assert_eq!(field, [0, ANY]);
        for (literals, rows, matched) in [([7], 0b001, 1), ([9], 0b010, 1), ([8], 0, 0)] {
            for question in [Question::Equal, Question::In] {
                let mut field = [ANY; 2];
                assert_eq!(ask(body, TINYINT, question, &literals, &mut field), Ok(record(3, 1, matched)));
                assert_eq!(field, [rows, ANY]);
            }
        }
        let mut field = [ANY];
        assert_eq!(ask(body, TINYINT, Question::In, &[9, 8, 7, 9], &mut field), Ok(record(3, 1, 2)));
        assert_eq!(field, [0b011]);
        assert_eq!(ask(body, TINYINT, Question::In, &[], &mut field), Ok(record(3, 1, 0)));
        assert_eq!(field, [0]);
    }
}

#[test]
fn the_column_of_three_rows_is_opened() {
    let mut field = [ANY];
    let mut table = [u32::MAX; 3];
    assert_eq!(open(&VERSION_2, TINYINT, &mut field, &mut table), Ok((3, 2)));
    assert_eq!((field, table), ([0], [22, 27, u32::MAX]));
    for (literals, rows, matched, compared) in [([7], 0b001, 1, 3), ([9], 0b010, 1, 2), ([8], 0, 0, 3), ([6], 0, 0, 2)] {
        let mut field = [ANY; 2];
        assert_eq!(look_up(&VERSION_2, TINYINT, &literals, &table, &mut field), Ok((record(3, 1, matched), compared)));
        assert_eq!(field, [rows, ANY]);
    }
    let mut field = [ANY];
    assert_eq!(open(&VERSION_1, TINYINT, &mut field, &mut table), Err(Refusal::Version));
    assert_eq!(open(&VERSION_2, TINYINT, &mut field, &mut table[..1]), Err(Refusal::Room));
    assert_eq!((field, table), ([ANY], [22, 27, u32::MAX]));
}

#[test]
fn the_bitmaps_written_out() {
    // With a row in none of them, which is then missing.
    let mut field = [ANY];
    assert_eq!(audit(&one_value(6, 0, &ROWS_0_2_5), TINYINT, &mut field), Err(Refusal::Missing { row: 1 }));
    assert_eq!(audit(&one_value(5, 0, &ROWS_1_TO_4), TINYINT, &mut field), Err(Refusal::Missing { row: 0 }));
    assert_eq!(audit(&one_value(5, 0, &ROWS_0_2_5), TINYINT, &mut field), Err(Refusal::Range { entry: 1 }));
    assert_eq!(audit(&one_value(4, 0, &ROWS_1_TO_4), TINYINT, &mut field), Err(Refusal::Range { entry: 1 }));
    assert_eq!(field, [0]);
    let body = strings(6, &[("a", &ROWS_0_2_5), ("b", &ROWS_1_TO_4)]);
    assert_eq!(audit(&body, STRING, &mut field), Err(Refusal::Twice { entry: 2 }));
    // A cardinality that isn't true.
    let mut runs = ROWS_1_TO_4;
    runs[7] = 2;
    assert_eq!(audit(&one_value(5, 0, &runs), TINYINT, &mut field), Err(Refusal::Bitmap { entry: 1, container: 0 }));
    for cut in 0..ROWS_0_2_5.len() {
        let cut = one_value(6, 0, &ROWS_0_2_5[..cut]);
        assert_eq!(audit(&cut, TINYINT, &mut field), Err(Refusal::Bitmap { entry: 1, container: 0 }));
    }
}

#[test]
fn negative_offsets() {
    let mut field = [ANY];
    assert_eq!(audit(&one_value(1, -1, &[]), TINYINT, &mut field), Ok(1));
    assert_eq!(audit(&one_value(1, -2, &[]), TINYINT, &mut field), Err(Refusal::Range { entry: 1 }));
    assert_eq!(audit(&one_value(8, i32::MIN, &[]), TINYINT, &mut field), Err(Refusal::Range { entry: 1 }));
    assert_eq!(ask(&one_value(1, -1, &[]), TINYINT, Question::Equal, &[7], &mut field), Ok(record(1, 0, 1)));
    assert_eq!(field, [1]);
}

#[test]
fn logins() {
    let body = strings(6, &[("login", &ROWS_0_2_5), ("click", &array(&[1, 4])), ("purchase", &array(&[3]))]);
    let mut field = [ANY, ANY];
    let asked = [string("login"), string("purchase")].concat();
    assert_eq!(ask(&body, STRING, Question::In, &asked, &mut field), Ok(record(6, 0, 4)));
    assert_eq!(field, [0b10_1101, ANY]);
    assert_eq!(ask(&body, STRING, Question::Equal, &string("click"), &mut field), Ok(record(6, 0, 2)));
    assert_eq!(field, [0b01_0010, ANY]);
}

#[test]
fn no_rows() {
    assert_eq!(audit(&NO_VALUES, TINYINT, &mut []), Ok(0));
    let mut field = [ANY];
    assert_eq!(ask(&NO_VALUES, TINYINT, Question::Equal, &[7], &mut field), Ok(record(0, 0, 0)));
    assert_eq!(field, [ANY]);
}

#[test]
fn arrays_and_bits() {
    /// The most rows of an array.
    const MOST: u16 = 4_096;
    let mut field = [ANY; 513];
    let most: Vec<u16> = (0..MOST).collect();
    assert_eq!(audit(&one_value(MOST.into(), 0, &array(&most)), TINYINT, &mut field), Ok(MOST.into()));
    let more: Vec<u16> = (0..=MOST).collect();
    let body = one_value(u32::from(MOST) + 1, 0, &array(&more));
    assert_eq!(audit(&body, TINYINT, &mut field), Err(Refusal::Bitmap { entry: 1, container: 0 }));
    let mut bits = [0; 8_192];
    bits[..512].fill(0xFF);
    bits[512] = 1;
    let bitmap = [&array(&more)[..16], &bits].concat();
    let body = one_value(u32::from(MOST) + 1, 0, &bitmap);
    assert_eq!(ask(&body, TINYINT, Question::Equal, &[7], &mut field), Ok(record(4_097, 0, 4_097)));
    assert!(field[..512].iter().all(|byte| *byte == 0xFF) && field[512] == 1);
}

#[test]
fn early_refusals_leave_the_buffer() {
    let mut field = [ANY];
    let long = [7; 1_025];
    assert_eq!(audit(&[], TINYINT, &mut field), Err(Refusal::Short));
    assert_eq!(audit(&[], UNKNOWN_TYPE, &mut field), Err(Refusal::Literal));
    assert_eq!(audit(&[3], TINYINT, &mut field), Err(Refusal::Version));
    assert_eq!(audit(&VERSION_1, TINYINT, &mut []), Err(Refusal::Room));
    assert_eq!(ask(&VERSION_1, TINYINT, Question::Equal, &[], &mut field), Err(Refusal::Literal));
    assert_eq!(ask(&VERSION_1, TINYINT, Question::Equal, &[7, 8], &mut field), Err(Refusal::Literal));
    assert_eq!(ask(&VERSION_1, TINYINT, Question::In, &long, &mut field), Err(Refusal::Limit));
    assert_eq!(ask(&[], STRING, Question::In, &[0, 1, 0, 0], &mut field), Err(Refusal::Limit));
    assert_eq!(ask(&[], STRING, Question::In, &[0xFF, 1, 0, 0], &mut field), Err(Refusal::Literal));
    assert_eq!(field, [ANY]);
}

#[test]
fn inputs_past_the_limit() {
    /// One byte more than an input may have. The system lends memory only for what is read.
    const LONG: usize = 2_147_483_648;
    let long = vec![0; LONG];
    let mut field = [ANY];
    for ty in [TINYINT, UNKNOWN_TYPE] {
        assert_eq!(audit(&long, ty, &mut field), Err(Refusal::Limit));
        assert_eq!(open(&long, ty, &mut field, &mut []), Err(Refusal::Limit));
        for (body, literals) in [(&long[..], &[7][..]), (&VERSION_2, &long)] {
            assert_eq!(ask(body, ty, Question::In, literals, &mut field), Err(Refusal::Limit));
            assert_eq!(look_up(body, ty, literals, &[], &mut field), Err(Refusal::Limit));
        }
    }
    assert_eq!(audit(&long[1..], TINYINT, &mut field), Err(Refusal::Version));
    assert_eq!(field, [ANY]);
}

#[test]
fn what_a_refusal_carries() {
    let refusals = [
        (Refusal::Short, 1, [0; 3]),
        (Refusal::Version, 3, [0; 3]),
        (Refusal::Dict, 5, [0; 3]),
        (Refusal::Bitmap { entry: 4, container: 5 }, 6, [4, 5, 0]),
        (Refusal::Range { entry: 4 }, 7, [4, 0, 0]),
        (Refusal::Twice { entry: 4 }, 8, [4, 0, 0]),
        (Refusal::Missing { row: 6 }, 9, [0, 0, 6]),
        (Refusal::Room, 10, [0; 3]),
        (Refusal::Literal, 11, [0; 3]),
        (Refusal::Limit, 12, [0; 3]),
    ];
    for (refusal, number, fault) in refusals {
        assert_eq!((refusal.number(), refusal.fault()), (number, fault));
    }
}
