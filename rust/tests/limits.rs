//! Buffers over document 01's limit are LIMIT before anything else is looked at. The memory is zeroed by the system when it is
//! first touched, which none of these calls does, so that it takes no room.

mod support;

use poddurance::raw::{self, Fault, Record};
use poddurance::{ask, ask_file, open, Edition, Error, Literals, Question, Refusal, RowField, Type, LIMIT};
use support::Lender;

const LITERAL: u8 = 11;
const LIMIT_PASSED: u8 = 12;

/// Numbers that are no edition's.
const UNKNOWN_EDITIONS: [u32; 5] = [0, 3, 257, 1 << 31, u32::MAX];

/// The head of an index file without columns.
const HEAD: [u8; 24] = [0, 5, 0x4E, 0x4E, 0xD0, 0x1A, 0x35, 0xAE, 0, 0, 0, 1, 0, 0, 0, 24, 0, 0, 0, 0, 0, 0, 0, 0];

const BODY: [u8; 24] = [1, 0, 0, 0, 3, 0, 0, 0, 2, 1, 255, 255, 255, 253, 7, 255, 255, 255, 255, 9, 255, 255, 255, 254];

/// The same as version 2, in two blocks.
const BODY_2: [u8; 62] = [
    2, 0, 0, 0, 3, 0, 0, 0, 2, 1, 255, 255, 255, 253, 255, 255, 255, 255, 0, 0, 0, 2, 7, 0, 0, 0, 0, 9, 0, 0, 0, 13, 0, 0, 0, 26,
    0, 0, 0, 1, 7, 255, 255, 255, 255, 255, 255, 255, 255, 0, 0, 0, 1, 9, 255, 255, 255, 254, 255, 255, 255, 255,
];

/// The body as the bitmap index on column `s`.
fn index_file() -> Vec<u8> {
    let mut file = HEAD[..12].to_vec();
    file.extend(b"\0\0\0\x2F\0\0\0\x01\0\x01s\0\0\0\x01\0\x06bitmap\0\0\0\x2F\0\0\0\x18\0\0\0\0");
    file.extend(BODY);
    file
}

fn too_long() -> Vec<u8> {
    vec![0; LIMIT as usize + 1]
}

#[test]
fn locate_refuses_names_and_the_buffer_it_looks_at() {
    let long = too_long();
    let refused = (LIMIT_PASSED, 0, 0);
    assert_eq!(raw::locate(&long, &[], b"s", b"bitmap"), refused);
    assert_eq!(raw::locate(&[], &long, b"s", b"bitmap"), refused);
    assert_eq!(raw::locate(&HEAD, &[], &long, b"bitmap"), refused);
    assert_eq!(raw::locate(&HEAD, &[], b"s", &long), refused);
    assert_eq!(raw::locate(&[], &HEAD, &long, b"bitmap"), refused);
    assert_eq!(raw::locate(&[], &HEAD, b"s", &long), refused);
    // Before anything else: also before SHORT.
    assert_eq!(raw::locate(&[], &[], &long, b"bitmap"), refused);
    assert_eq!(raw::locate(&[], &[], b"s", &long), refused);
    // And before LITERAL, for the other name or with a file that is too long.
    assert_eq!(raw::locate(&HEAD, &[], &long, b"\xFF"), refused);
    assert_eq!(raw::locate(&HEAD, &[], b"\xFF", &long), refused);
    for name in [&[b's'; 65_536][..], b"\xFF"] {
        for (embedded, file) in [(&long[..], &[][..]), (&[], &long)] {
            assert_eq!(raw::locate(embedded, file, name, b"bitmap"), refused);
            assert_eq!(raw::locate(embedded, file, b"s", name), refused);
        }
    }
    assert_eq!(poddurance::locate(&[], &long, "s", "bitmap"), Err(Refusal::Limit));
}

#[test]
fn locate_does_not_test_the_buffer_it_does_not_look_at() {
    let long = too_long();
    assert_eq!(raw::locate(&HEAD, &long, b"s", b"bitmap"), (raw::ABSENT, 0, 0));
    assert_eq!(raw::locate(&[0], &long, b"s", b"bitmap"), (1, 0, 0));
    assert_eq!(raw::locate(&HEAD, &long, b"\xFF", b"bitmap"), (LITERAL, 0, 0));
    assert_eq!(raw::locate(&HEAD, &long, b"s", b"\xFF"), (LITERAL, 0, 0));
}

#[test]
fn audit_and_ask_refuse_body_and_literals() {
    let long = too_long();
    let mut field = [0xAA; 1];
    let refused = (LIMIT_PASSED, Record::NONE, Fault::NONE);
    // 99 is no type and no question; LIMIT goes before that, and before an unknown edition, too.
    for ty in [0, 11, 99] {
        assert_eq!(raw::audit(&long, ty, &mut field), (LIMIT_PASSED, 0, Fault::NONE));
        for edition in [1, 2].into_iter().chain(UNKNOWN_EDITIONS) {
            for question in [0, 4, 99] {
                assert_eq!(raw::ask(&long, ty, edition, question, &[7], &mut field), refused);
                assert_eq!(raw::ask(&BODY, ty, edition, question, &long, &mut field), refused);
                assert_eq!(raw::ask(&[], ty, edition, question, &long, &mut field), refused);
            }
        }
    }
    assert_eq!(field, [0xAA]);
}

#[test]
fn open_and_look_up_refuse_body_and_literals() {
    let long = too_long();
    let (mut field, mut table) = ([0xAA; 1], [7; 2]);
    let refused = (LIMIT_PASSED, Record::NONE, 0, Fault::NONE);
    // 99 is no type, and no table of so few words is one of the body's; LIMIT goes before that, and before an unknown edition, too.
    for ty in [0, 11, 99] {
        assert_eq!(raw::open(&long, ty, &mut field, &mut table), (LIMIT_PASSED, 0, 0, Fault::NONE));
        assert_eq!(raw::open(&long, ty, &mut [], &mut []), (LIMIT_PASSED, 0, 0, Fault::NONE));
        for edition in [1, 2].into_iter().chain(UNKNOWN_EDITIONS) {
            for table in [&[22, 27][..], &[]] {
                assert_eq!(raw::look_up(&long, ty, edition, &[7], table, &mut field), refused);
                assert_eq!(raw::look_up(&BODY_2, ty, edition, &long, table, &mut field), refused);
                assert_eq!(raw::look_up(&[], ty, edition, &long, table, &mut field), refused);
            }
        }
    }
    assert_eq!((field, table), ([0xAA], [7; 2]));
    assert_eq!(open(&long, Type::TinyInt, RowField::for_rows(3).unwrap()), Err(Error::Refused(Refusal::Limit)));
}

/// A table has no limit: one of more words than an input buffer may have bytes is lent to both calls, which look at its first two.
#[test]
fn tables_may_be_longer() {
    let mut lender = Lender::guarded();
    let table = lender.lend_any_words(LIMIT as usize + 1);
    let mut field = [0xAA];
    assert_eq!(raw::open(&BODY_2, 0, &mut field, table), (0, 3, 2, Fault::NONE));
    assert_eq!(table[..4], [22, 27, 0, 0]);
    let record = Record { rows: 3, nulls: 1, deleted: 0, matched: 1 };
    assert_eq!(raw::look_up(&BODY_2, 0, 2, &[9], table, &mut field), (0, record, 2, Fault::NONE));
    assert_eq!(field, [0b010]);
}

#[test]
fn read_deletions_refuses_file_and_rows() {
    let long = too_long();
    let mut field = [0xAA; 1];
    assert_eq!(raw::read_deletions(&long, 0, 6, &mut field), (LIMIT_PASSED, 0, Fault::NONE));
    for rows in [LIMIT + 1, 1 << 32, u64::MAX] {
        assert_eq!(raw::read_deletions(&[], 0, rows, &mut field), (LIMIT_PASSED, 0, Fault::NONE));
        assert_eq!(RowField::for_rows(rows), Err(Refusal::Limit));
        assert_eq!(RowField::all_of(rows), Err(Refusal::Limit));
    }
    assert_eq!(raw::read_deletions(&[], 0, LIMIT, &mut field), (10, 0, Fault::NONE)); // ROOM: at the limit it is not LIMIT
    assert_eq!(field, [0xAA]);
}

/// The end of all rows of a 64-bit bin.
const ROWS_END: u64 = 1 << 63;

/// File, length and end are one stage: each alone is LIMIT, before ROOM and before anything of the file.
#[test]
fn read_window_refuses_file_rows_and_end() {
    let long = too_long();
    let mut field = [0xAA; 1];
    let refused = (LIMIT_PASSED, 0, Fault::NONE);
    for (first, rows) in [(0, 6), (0, 0), (3, 9), (ROWS_END - 6, 6), (ROWS_END, 0), (ROWS_END, 1), (u64::MAX, 6), (0, LIMIT + 1)]
    {
        assert_eq!(raw::read_window(&long, 0, first, rows, &mut field), refused);
    }
    for rows in [LIMIT + 1, 1 << 32, ROWS_END, u64::MAX] {
        for first in [0, 1, ROWS_END.saturating_sub(rows), u64::MAX - rows, 0_u64.wrapping_sub(rows)] {
            assert_eq!(raw::read_window(&[], 0, first, rows, &mut field), refused);
        }
    }
    // One row past the end of all, and ends that don't fit 64 bits, the sum being 0 or more again.
    for rows in [0, 1, 2, 8, 9, LIMIT - 1, LIMIT] {
        for past in [ROWS_END - rows + 1, ROWS_END + 1, u64::MAX - rows, u64::MAX, 0_u64.wrapping_sub(rows).max(ROWS_END + 1)] {
            assert_eq!(raw::read_window(&[], 0, past, rows, &mut field), refused, "{rows} rows from {past} on");
            assert_eq!(raw::read_window(&[], 0, past, rows, &mut []), refused, "{rows} rows from {past} on");
        }
    }
    // At the limit it is ROOM, and exactly at the end too.
    for (first, rows) in [(0, LIMIT), (ROWS_END - LIMIT, LIMIT), (ROWS_END - 9, 9), (5, LIMIT)] {
        assert_eq!(raw::read_window(&[], 0, first, rows, &mut field), (10, 0, Fault::NONE));
    }
    assert_eq!(field, [0xAA]);
    // And with room the file is looked at.
    for (first, rows) in [(ROWS_END, 0), (ROWS_END - 1, 1), (ROWS_END - 8, 8), (0, 8)] {
        assert_eq!(raw::read_window(&[], 0, first, rows, &mut field), (1, 0, Fault::NONE));
    }
    assert_eq!(field, [0]);
}

#[test]
fn subtract_refuses_rows() {
    let (mut first, second) = ([0xAA], [0xFF]);
    for rows in [LIMIT + 1, 1 << 32, u64::MAX] {
        assert_eq!(raw::subtract(&mut first, &second, rows), (LIMIT_PASSED, 0, 0));
    }
    assert_eq!(raw::subtract(&mut first, &second, LIMIT), (10, 0, 0));
    assert_eq!(first, [0xAA]);
}

/// The record's row count is limited, and no other number of it.
#[test]
fn subtract_record_refuses_rows() {
    let (mut first, second) = ([0xAA], [0xFF]);
    for number in [0, LIMIT, LIMIT + 1, u64::MAX] {
        let of = |rows: u64| Record { rows, nulls: number, deleted: number, matched: number };
        for rows in [LIMIT + 1, LIMIT + 2, 1 << 32, u64::MAX] {
            assert_eq!(raw::subtract_record(&mut first, &second, of(rows)), (LIMIT_PASSED, Record::NONE, 0));
            // LIMIT goes before ROOM.
            assert_eq!(raw::subtract_record(&mut [], &[], of(rows)), (LIMIT_PASSED, Record::NONE, 0));
        }
        for rows in [9, LIMIT - 1, LIMIT] {
            assert_eq!(raw::subtract_record(&mut first, &second, of(rows)), (10, Record::NONE, 0));
        }
        assert_eq!(first, [0xAA]);
        let left = Record { rows: 0, nulls: number, deleted: 0, matched: 0 };
        assert_eq!(raw::subtract_record(&mut first, &second, of(0)), (0, left, 0));
        assert_eq!(first, [0xAA]);
    }
}

#[test]
fn row_fields_may_be_longer() {
    let mut long = too_long();
    assert_eq!(raw::audit(&BODY, 0, &mut long), (0, 3, Fault::NONE));
    let record = Record { rows: 3, nulls: 1, deleted: 0, matched: 1 };
    assert_eq!(raw::ask(&BODY, 0, 1, 0, &[7], &mut long), (0, record, Fault::NONE));
    assert_eq!(long[..9], [1, 0, 0, 0, 0, 0, 0, 0, 0]);
    let left = Record { deleted: 1, ..record };
    assert_eq!(raw::subtract_record(&mut long, &[2], record), (0, left, 0));
    assert_eq!(raw::subtract_record(&mut [0b111], &long, record), (0, Record { matched: 2, ..left }, 1));
    assert_eq!(raw::subtract(&mut long, &[1], 3), (0, 0, 1));
    assert_eq!(raw::subtract(&mut [0b111], &long, 3), (0, 3, 0));
    long[1] = 0xAA;
    assert_eq!(raw::read_window(&[1], 0, 3, 5, &mut long), (14, 0, Fault::NONE));
    assert_eq!(long[..3], [0, 0xAA, 0]);
}

/// A stored name has at most 65,535 bytes, and an asked one that would have more is LITERAL, up to the limit of its buffer.
#[test]
fn names_that_no_file_can_store() {
    let fits = vec![b's'; 65_535];
    assert_eq!(raw::locate(&HEAD, &[], &fits, b"bitmap"), (raw::ABSENT, 0, 0));
    assert_eq!(raw::locate(&HEAD, &[], b"s", &fits), (raw::ABSENT, 0, 0));
    let mut longest = too_long();
    longest.pop();
    for name in [&[b's'; 65_536][..], &longest] {
        for file in [&HEAD[..], &[], &[0]] {
            assert_eq!(raw::locate(file, &[], name, b"bitmap"), (LITERAL, 0, 0));
            assert_eq!(raw::locate(&[], file, b"s", name), (LITERAL, 0, 0));
        }
    }
}

#[test]
fn ask_file_refuses_what_locate_and_ask_refuse() {
    let long = too_long();
    let mut field = [0xAA; 1];
    let mut asked = |embedded: &[u8], file: &[u8], column: &[u8], kind: &[u8], literals: &[u8]| {
        // 99 is no type, no edition and no question; LIMIT goes before that too.
        raw::ask_file(embedded, file, column, kind, 99, 99, 99, literals, &mut field)
    };
    let refused = (LIMIT_PASSED, Record::NONE, Fault::NONE);
    let absent = (raw::ABSENT, Record::NONE, Fault::NONE);
    assert_eq!(asked(&long, &[], b"s", b"bitmap", &[7]), refused);
    assert_eq!(asked(&[], &long, b"s", b"bitmap", &[7]), refused);
    assert_eq!(asked(&HEAD, &[], &long, b"bitmap", &[7]), refused);
    assert_eq!(asked(&HEAD, &[], b"s", &long, &[7]), refused);
    assert_eq!(asked(&[], &[], &long, b"bitmap", &[7]), refused);
    assert_eq!(asked(&[], &index_file(), b"s", b"bitmap", &long), refused);
    // The buffer that isn't looked at may be too long, and without a body the literals aren't looked at.
    assert_eq!(asked(&HEAD, &long, b"s", b"bitmap", &[7]), absent);
    assert_eq!(asked(&HEAD, &long, b"s", b"bitmap", &long), absent);
    assert_eq!(asked(&[], &[], b"s", b"bitmap", &long), (1, Record::NONE, Fault::NONE));
    // A name within the limit that no head can hold, or that is not UTF-8, is refused before literals over the limit are looked at.
    for name in [&[b's'; 65_536][..], b"\xFF"] {
        for literals in [&[7][..], &long] {
            assert_eq!(asked(&[], &index_file(), name, b"bitmap", literals), (LITERAL, Record::NONE, Fault::NONE));
            assert_eq!(asked(&HEAD, &long, b"s", name, literals), (LITERAL, Record::NONE, Fault::NONE));
            assert_eq!(asked(&[], &[], b"s", name, literals), (LITERAL, Record::NONE, Fault::NONE));
        }
    }
    assert_eq!(field, [0xAA]);
    let (none, field) = (Literals::none(Type::TinyInt), RowField::for_rows(3).unwrap());
    let found = ask_file(&[], &long, "s", "bitmap", Edition::Second, Question::IsNull, &none, field);
    assert_eq!(found, Err(Error::Refused(Refusal::Limit)));
}

#[test]
fn limits_of_literals_are_the_library_s() {
    let mut field = [0];
    for (number, answer) in [(1_024, 0), (1_025, LIMIT_PASSED)] {
        let literals = Literals::of(Type::TinyInt, vec![7; number]).unwrap();
        assert_eq!(literals.len(), number);
        for edition in Edition::ALL {
            assert_eq!(raw::ask(&BODY, 0, edition.number(), 2, &vec![7; number], &mut field).0, answer);
            let asked = ask(&BODY, edition, Question::In, &literals, RowField::for_body(&BODY));
            assert_eq!(asked.map_or_else(number_of, |_| 0), answer);
            let field = RowField::for_body(&BODY);
            let asked = ask_file(&index_file(), &[], "s", "bitmap", edition, Question::In, &literals, field);
            assert_eq!(asked.map_or_else(number_of, |_| 0), answer);
        }
    }
    // Strings of no rows.
    let body = [1, 0, 0, 0, 0, 0, 0, 0, 0, 0];
    for (length, answer) in [(65_535u32, 0), (65_536, LIMIT_PASSED)] {
        let text = "x".repeat(length as usize);
        let stored = [&length.to_be_bytes(), text.as_bytes()].concat();
        let literals = Literals::of(Type::String, [&text]).unwrap();
        assert_eq!(literals.as_bytes(), stored);
        for edition in Edition::ALL {
            assert_eq!(raw::ask(&body, 11, edition.number(), 0, &stored, &mut []).0, answer);
            let asked = ask(&body, edition, Question::Equal, &literals, RowField::for_body(&body));
            assert_eq!(asked.map_or_else(number_of, |_| 0), answer);
        }
    }
}

/// As many blocks as may be, each of one value, are opened by the crate and in a table of as many words; one more is LIMIT.
#[test]
fn the_most_blocks_are_opened() {
    const MOST: u32 = raw::MOST_BLOCKS as u32;
    // INT 0 and on, each in the row of that number.
    let body = |blocks: u32| {
        let mut body = vec![2];
        body.extend(blocks.to_be_bytes()); // rows
        body.extend(blocks.to_be_bytes()); // values
        body.push(0);
        body.extend(blocks.to_be_bytes());
        body.extend((0..blocks).flat_map(|block| [block, 16 * block]).flat_map(u32::to_be_bytes));
        body.extend((16 * blocks).to_be_bytes());
        body.extend((0..blocks).flat_map(|block| [1, block, !block, u32::MAX]).flat_map(u32::to_be_bytes));
        body
    };
    let most = body(MOST);
    let (opened, mut field) = open(&most, Type::Int, RowField::for_body(&most)).unwrap();
    assert_eq!((opened.rows(), opened.blocks()), (MOST.into(), MOST.into()));
    assert!(opened.table().iter().copied().eq((0..MOST).map(|block| 14 + 8 * block)));
    for value in [0, 1, MOST / 2, MOST - 1] {
        let found = opened.look_up(Edition::Second, &Literals::of(Type::Int, [value]).unwrap(), field).unwrap();
        assert!(found.answer.field().iter().eq([u64::from(value)]));
        // floor(log2 65536) + 1 first values and the block's one, at most.
        assert!((17..=18).contains(&found.compared), "{value}: {}", found.compared);
        field = found.answer.into_field();
    }
    let (mut field, mut table) = (vec![0xAA; 8192], vec![7; raw::MOST_BLOCKS]);
    assert_eq!(raw::open(&most, 3, &mut field, &mut table[1..]), (10, 0, 0, Fault::NONE)); // one word less: ROOM
    assert!(field.iter().all(|byte| *byte == 0xAA) && table.iter().all(|word| *word == 7));
    assert_eq!(raw::open(&most, 3, &mut field, &mut table), (0, MOST.into(), MOST.into(), Fault::NONE));
    assert_eq!(table, opened.table());

    // The value number is over its limit too, and is read first. With one that isn't, the block number is.
    let mut over = body(MOST + 1);
    assert_eq!(open(&over, Type::Int, RowField::for_body(&over)), Err(Error::Refused(Refusal::Limit)));
    over[5..9].copy_from_slice(&MOST.to_be_bytes());
    assert_eq!(open(&over, Type::Int, RowField::for_body(&over)), Err(Error::Refused(Refusal::Limit)));
}

/// The edition stands between the limit of the literals' buffer and the limits that are met in reading them.
#[test]
fn an_unknown_edition_goes_before_limits_of_literals() {
    let refused = (LITERAL, Record::NONE, Fault::NONE);
    let mut field = [0xAA];
    let many = [7; 1_025];
    // A string over 65,535 whose bytes aren't there.
    let long_string = 65_536u32.to_be_bytes();
    for edition in UNKNOWN_EDITIONS {
        for question in 0..6 {
            assert_eq!(raw::ask(&BODY, 0, edition, question, &many, &mut field), refused);
            assert_eq!(raw::ask(&BODY, 11, edition, question, &long_string, &mut field), refused);
            let found = raw::ask_file(&[], &index_file(), b"s", b"bitmap", 0, edition, question, &many, &mut field);
            assert_eq!(found, refused);
        }
        let refused = (LITERAL, Record::NONE, 0, Fault::NONE);
        assert_eq!(raw::look_up(&BODY_2, 0, edition, &many, &[22, 27], &mut field), refused);
        assert_eq!(raw::look_up(&BODY_2, 11, edition, &long_string, &[22, 27], &mut field), refused);
    }
    // In a known one they are LIMIT, whatever the question.
    for edition in [1, 2] {
        for question in 0..6 {
            assert_eq!(raw::ask(&BODY, 0, edition, question, &many, &mut field).0, LIMIT_PASSED);
            assert_eq!(raw::ask(&BODY, 11, edition, question, &long_string, &mut field).0, LIMIT_PASSED);
        }
        assert_eq!(raw::look_up(&BODY_2, 0, edition, &many, &[22, 27], &mut field).0, LIMIT_PASSED);
        assert_eq!(raw::look_up(&BODY_2, 11, edition, &long_string, &[22, 27], &mut field).0, LIMIT_PASSED);
    }
    assert_eq!(field, [0xAA]);
}

fn number_of(error: Error) -> u8 {
    error.refusal().expect("the row counts are the same").number()
}
