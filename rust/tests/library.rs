//! The functions at the top of the crate: what a field holds after each call, and what they don't let happen.

use poddurance::{ask, ask_file, audit, locate, open, raw, read_deletions, read_window, subtract, subtract_record};
use poddurance::{
    Answer, Edition, Error, Literals, LookedUp, OpenedBody, Question, Record, Refusal, RowField, Subtracted, Type, Value,
};
use reference::types;
use reference::writer::{bin_32, bin_64, body_of, file_of_bins, BitmapForm, Column, ContainerForm, Layout};

/// TINYINT 7, 9, null.
const SMALL: [u8; 24] = [1, 0, 0, 0, 3, 0, 0, 0, 2, 1, 255, 255, 255, 253, 7, 255, 255, 255, 255, 9, 255, 255, 255, 254];

/// The same as version 2.
const SMALL_2: [u8; 62] = [
    2, 0, 0, 0, 3, 0, 0, 0, 2, 1, 255, 255, 255, 253, 255, 255, 255, 255, 0, 0, 0, 2, 7, 0, 0, 0, 0, 9, 0, 0, 0, 13, 0, 0, 0, 26,
    0, 0, 0, 1, 7, 255, 255, 255, 255, 255, 255, 255, 255, 0, 0, 0, 1, 9, 255, 255, 255, 254, 255, 255, 255, 255,
];

/// A body as the bitmap index on column `s`, as document 01 writes it out.
fn small_file(body: &[u8]) -> Vec<u8> {
    let mut file = vec![0, 5, 0x4E, 0x4E, 0xD0, 0x1A, 0x35, 0xAE, 0, 0, 0, 1, 0, 0, 0, 47, 0, 0, 0, 1];
    file.extend(b"\0\x01s\0\0\0\x01\0\x06bitmap\0\0\0\x2F");
    file.extend((body.len() as u32).to_be_bytes());
    file.extend([0; 4]);
    file.extend(body);
    file
}

/// One bin with rows 0, 2 and 5.
const DELETIONS: [u8; 35] = [
    1, 0, 0, 0, 26, 0x5E, 0x43, 0xF2, 0xD0, 0x3A, 0x30, 0, 0, 1, 0, 0, 0, 0, 0, 2, 0, 0x10, 0, 0, 0, 0, 0, 2, 0, 5, 0, 0x80,
    0x72, 0x25, 0x2B,
];

/// A body of version 1 in which all rows are null, as one run in each container.
fn nulls(rows: u32) -> Vec<u8> {
    let mut body = vec![1];
    body.extend(rows.to_be_bytes());
    body.extend([0, 0, 0, 0, 1, 0, 0, 0, 0]);
    let containers = rows.div_ceil(1 << 16);
    body.extend(12_347u16.to_le_bytes());
    body.extend((containers as u16 - 1).to_le_bytes());
    body.extend(RowField::all_of(containers.into()).unwrap().as_bytes());
    let last = |key: u32| ((rows - (key << 16)).min(1 << 16) - 1) as u16;
    for key in 0..containers {
        body.extend((key as u16).to_le_bytes());
        body.extend(last(key).to_le_bytes());
    }
    if containers >= 4 {
        let first = 4 + containers.div_ceil(8) + 8 * containers;
        body.extend((0..containers).flat_map(|key| (first + 6 * key).to_le_bytes()));
    }
    for key in 0..containers {
        body.extend([1, 0, 0, 0]);
        body.extend(last(key).to_le_bytes());
    }
    body
}

fn seven() -> Literals {
    Literals::of(Type::TinyInt, [7]).unwrap()
}

fn none() -> Literals {
    Literals::none(Type::TinyInt)
}

/// The record's row count, null rows, deleted rows and matched rows.
fn counts(record: &Record) -> [u64; 4] {
    [record.rows(), record.nulls(), record.deleted(), record.matched()]
}

/// A field for so many rows with rows of an earlier answer in it.
fn used(rows: u64) -> RowField {
    RowField::all_of(rows).unwrap()
}

#[test]
fn the_answers_that_document_01_writes_out() {
    for body in [&SMALL[..], &SMALL_2] {
        let field = |question, literals: &Literals| ask(body, Edition::First, question, literals, used(3)).unwrap();
        let answer = field(Question::Equal, &seven());
        assert_eq!((answer.field().as_bytes(), counts(answer.record()), answer.is_skip()), (&[0b001][..], [3, 1, 0, 1], false));
        let answer = field(Question::NotEqual, &seven());
        assert_eq!((answer.field().as_bytes(), counts(answer.record()), answer.is_skip()), (&[0b110][..], [3, 1, 0, 2], false));
        let answer = field(Question::Equal, &Literals::of(Type::TinyInt, [8]).unwrap());
        assert_eq!((answer.field().as_bytes(), counts(answer.record()), answer.is_skip()), (&[0][..], [3, 1, 0, 0], true));
        let audited = audit(body, Type::TinyInt, used(3)).unwrap();
        assert_eq!((audited.rows(), audited.into_field()), (3, RowField::for_rows(3).unwrap()));
    }
}

/// Ticket 4's rule of nulls: edition 2 is edition 1 without the null rows, in every question but IS NULL, which stays. It differs in
/// NOT EQUAL and NOT IN, of no literals too.
#[test]
fn the_second_edition_drops_null_rows() {
    let eight = Literals::of(Type::TinyInt, [8]).unwrap();
    let seven_and_nine = Literals::of(Type::TinyInt, [7, 9]).unwrap();
    for body in [&SMALL[..], &SMALL_2] {
        let file = small_file(body);
        for (question, literals, first, second) in [
            (Question::Equal, &seven(), &[0][..], &[0][..]),
            (Question::Equal, &eight, &[], &[]),
            (Question::NotEqual, &seven(), &[1, 2], &[1]),
            (Question::NotEqual, &eight, &[0, 1, 2], &[0, 1]),
            (Question::In, &seven(), &[0], &[0]),
            (Question::In, &seven_and_nine, &[0, 1], &[0, 1]),
            (Question::In, &none(), &[], &[]),
            (Question::NotIn, &seven(), &[1, 2], &[1]),
            (Question::NotIn, &seven_and_nine, &[2], &[]),
            (Question::NotIn, &none(), &[0, 1, 2], &[0, 1]),
            (Question::IsNull, &none(), &[2], &[2]),
            (Question::IsNotNull, &none(), &[0, 1], &[0, 1]),
        ] {
            for (edition, rows) in [(Edition::First, first), (Edition::Second, second)] {
                let answer = ask(body, edition, question, literals, used(3)).unwrap();
                assert!(answer.field().iter().eq(rows.iter().copied()), "{question} {edition}: {:?}", answer.field());
                // The null row is counted whether it is chosen or not.
                assert_eq!(counts(answer.record()), [3, 1, 0, rows.len() as u64], "{question} {edition}");
                assert_eq!(answer.is_skip(), rows.is_empty(), "{question} {edition}");
                // Of the file, and of its bytes embedded.
                for (embedded, file) in [(&[][..], &file[..]), (&file, &[0])] {
                    let of_file = ask_file(embedded, file, "s", "bitmap", edition, question, literals, used(3));
                    assert_eq!(of_file.as_ref(), Ok(&Some(answer.clone())), "{question} {edition}");
                }
            }
        }
    }
}

/// A column of null rows alone: by the second edition no question about values chooses a row of it.
#[test]
fn null_rows_alone() {
    for rows in [1, 9, 65_537] {
        let body = nulls(rows);
        let asked = |edition, question, literals: &Literals| {
            ask(&body, edition, question, literals, used(rows.into())).map(|answer| counts(answer.record()))
        };
        let (all, no_row) = (Ok([rows.into(), rows.into(), 0, rows.into()]), Ok([rows.into(), rows.into(), 0, 0]));
        for (question, literals) in [(Question::NotEqual, seven()), (Question::NotIn, seven()), (Question::NotIn, none())] {
            assert_eq!(asked(Edition::First, question, &literals), all, "{question}");
            assert_eq!(asked(Edition::Second, question, &literals), no_row, "{question}");
        }
        for edition in Edition::ALL {
            assert_eq!(asked(edition, Question::IsNull, &none()), all);
            assert_eq!(asked(edition, Question::IsNotNull, &none()), no_row);
            assert_eq!(asked(edition, Question::In, &seven()), no_row);
        }
    }
}

/// Any other number is no edition, for every question, and is found behind the length limits and before the literals are read.
#[test]
fn an_unknown_edition_is_refused_before_the_literals_are_read() {
    let literal = (Refusal::Literal.number(), raw::Record::NONE, raw::Fault::NONE);
    let file = small_file(&SMALL);
    // As many as are over the limit of literals: LIMIT, once they are read.
    let too_many = vec![7; 1_025];
    for edition in [0, 3, 4, 255, 257, 258, 65_537, u32::MAX - 1, u32::MAX] {
        for question in Question::ALL.map(Question::number) {
            for literals in [&[][..], &[7], &too_many] {
                // A sound body, and one that is refused by itself.
                for body in [&SMALL[..], &[]] {
                    let mut field = [0xAA; 2];
                    assert_eq!(raw::ask(body, 0, edition, question, literals, &mut field), literal, "{edition} {question}");
                    assert_eq!(field, [0xAA; 2]);
                }
                let mut field = [0xAA; 2];
                let asked = raw::ask_file(&[], &file, b"s", b"bitmap", 0, edition, question, literals, &mut field);
                assert_eq!((asked, field), (literal, [0xAA; 2]), "{edition} {question}");
                // What Locate says comes first.
                let asked = raw::ask_file(&[], &file, b"t", b"bitmap", 0, edition, question, literals, &mut field);
                assert_eq!(asked, (raw::ABSENT, raw::Record::NONE, raw::Fault::NONE), "{edition} {question}");
                let asked = raw::ask_file(&[], &file[..70], b"s", b"bitmap", 0, edition, question, literals, &mut field);
                assert_eq!(asked, (Refusal::Head.number(), raw::Record::NONE, raw::Fault::NONE), "{edition} {question}");
            }
        }
    }
    let limit = (Refusal::Limit.number(), raw::Record::NONE, raw::Fault::NONE);
    for edition in Edition::ALL.map(Edition::number) {
        assert_eq!(raw::ask(&SMALL, 0, edition, Question::NotIn.number(), &too_many, &mut [0; 2]), limit);
    }
}

#[test]
fn a_field_with_rows_of_an_earlier_answer_holds_the_new_answer_alone() {
    let answer = ask(&SMALL, Edition::Second, Question::IsNull, &none(), used(3)).unwrap();
    assert!(answer.field().iter().eq([2]));
    let deleted = read_deletions(&DELETIONS, 0, used(6)).unwrap();
    assert_eq!(deleted.count(), 3);
    assert!(deleted.field().iter().eq([0, 2, 5]));
    assert_eq!(audit(&SMALL, Type::TinyInt, used(3)).unwrap().into_field().count(), 0);
}

#[test]
fn an_index_for_fewer_or_more_rows_is_no_answer() {
    // 3 rows in the index; the field has as many bytes or more, and the library would accept each.
    for rows in [1, 2, 4, 8, 9, 1_000] {
        let expected = Error::RowsDiffer { expected: rows, found: 3 };
        assert_eq!(ask(&SMALL, Edition::Second, Question::IsNull, &none(), used(rows)), Err(expected));
        assert_eq!(audit(&SMALL, Type::TinyInt, used(rows)), Err(expected));
    }
    assert_eq!(ask(&SMALL, Edition::Second, Question::IsNull, &none(), used(0)), Err(Error::Refused(Refusal::Room)));
    assert_eq!(audit(&SMALL, Type::TinyInt, used(0)), Err(Error::Refused(Refusal::Room)));
    let long = nulls(9);
    assert_eq!(audit(&long, Type::TinyInt, used(8)), Err(Error::Refused(Refusal::Room)));
}

#[test]
fn a_field_of_another_data_file_is_not_subtracted() {
    for (first, second) in [(6, 7), (7, 6), (0, 1), (8, 16), (6, 1_000)] {
        let mut rows = used(first);
        assert_eq!(subtract(&mut rows, &used(second)), Err(Error::RowsDiffer { expected: first, found: second }));
        assert_eq!(rows, used(first));
    }
}

#[test]
fn subtracts() {
    let mut rows = used(6);
    let deleted = read_deletions(&DELETIONS, 0, RowField::for_rows(6).unwrap()).unwrap().into_field();
    assert_eq!(subtract(&mut rows, &deleted), Ok(Subtracted { left: 3, removed: 3 }));
    assert!(rows.iter().eq([1, 3, 4]));
    assert_eq!(subtract(&mut rows, &deleted), Ok(Subtracted { left: 3, removed: 0 }));
    let mut empty = used(0);
    assert_eq!(subtract(&mut empty, &used(0)), Ok(Subtracted { left: 0, removed: 0 }));
}

/// The rows of a column that are not null, of TINYINT 7 in each row but the last ones, which are null, in version 1.
fn not_null(rows: u16, null: u16) -> Answer {
    let run = |first: u16, rows: u16| {
        let [card, first, last] = [rows - 1, first, rows - 1].map(u16::to_le_bytes);
        [&[0x3B, 0x30, 0, 0, 1, 0, 0][..], &card, &[1, 0], &first, &last].concat()
    };
    let [high, low] = rows.to_be_bytes();
    let head = [1, 0, 0, high, low, 0, 0, 0, 1, 1, 0, 0, 0, 0, 7, 0, 0, 0, 15];
    let body = [&head[..], &run(rows - null, null), &run(0, rows - null)].concat();
    ask(&body, Edition::Second, Question::IsNotNull, &none(), used(rows.into())).unwrap()
}

#[test]
fn subtracts_and_brings_the_record_up_to_date() {
    let (mut rows, record) = not_null(6, 1).into_parts();
    assert_eq!(counts(&record), [6, 1, 0, 5]);
    // Rows 0, 2 and 5 are deleted, and row 5 is null and was not chosen.
    let deleted = read_deletions(&DELETIONS, 0, RowField::for_rows(6).unwrap()).unwrap().into_field();
    let subtracted = subtract_record(&mut rows, &deleted, record).unwrap();
    assert_eq!((counts(&subtracted.record), subtracted.removed), ([6, 1, 3, 3], 2));
    assert!(rows.iter().eq([1, 3, 4]));
    assert_eq!(subtracted.record.to_string(), "drawn from 3 of 6 rows");
    assert!(!subtracted.record.is_skip());

    // Again: nothing is left to remove, and the deleted rows are counted anew and not added.
    let again = subtract_record(&mut rows, &deleted, subtracted.record).unwrap();
    assert_eq!((counts(&again.record), again.removed), ([6, 1, 3, 3], 0));
    // Other deletions take the place of the first ones in the count.
    let others = field_of(6, &[1, 5]);
    let subtracted = subtract_record(&mut rows, &others, again.record).unwrap();
    assert_eq!((counts(&subtracted.record), subtracted.removed), ([6, 1, 2, 2], 1));
    // All rows are deleted, and none is left.
    let subtracted = subtract_record(&mut rows, &used(6), subtracted.record).unwrap();
    assert_eq!((counts(&subtracted.record), subtracted.removed), ([6, 1, 6, 0], 2));
    assert!(subtracted.record.is_skip());
    assert_eq!(rows, RowField::for_rows(6).unwrap());

    // No rows at all.
    let body = [1, 0, 0, 0, 0, 0, 0, 0, 0, 0];
    let (mut rows, record) = ask(&body, Edition::Second, Question::IsNull, &none(), used(0)).unwrap().into_parts();
    let subtracted = subtract_record(&mut rows, &used(0), record).unwrap();
    assert_eq!((counts(&subtracted.record), subtracted.removed), ([0; 4], 0));
}

/// The sentence of document 02.
#[test]
fn a_record_says_what_the_graph_is_drawn_from() {
    let (mut rows, record) = not_null(1_000, 10).into_parts();
    assert_eq!(record.to_string(), "drawn from 990 of 1,000 rows");
    let deleted: Vec<u64> = (0..20).chain(990..1_000).collect();
    let subtracted = subtract_record(&mut rows, &field_of(1_000, &deleted), record).unwrap();
    assert_eq!(subtracted.record.to_string(), "drawn from 970 of 1,000 rows");
    assert_eq!((counts(&subtracted.record), subtracted.removed), ([1_000, 10, 30, 970], 20));
}

/// The two fields and the record are of one data file, or nothing is subtracted.
#[test]
fn a_record_of_another_row_count_is_not_subtracted() {
    let answer = not_null(6, 1);
    let record = || answer.clone().into_parts().1;
    for others in [0, 1, 5, 7, 8, 9, 1_000] {
        let differs = |expected, found| Err(Error::RowsDiffer { expected, found });
        let mut rows = answer.field().clone();
        assert_eq!(subtract_record(&mut rows, &used(others), record()), differs(6, others));
        assert_eq!(&rows, answer.field());
        // Both fields fit each other, and the record is of another answer.
        let mut rows = used(others);
        assert_eq!(subtract_record(&mut rows, &used(others), record()), differs(others, 6));
        assert_eq!(rows, used(others));
        assert_eq!(subtract_record(&mut rows, &used(6), record()), differs(others, 6));
        assert_eq!(rows, used(others));
    }
}

/// Whatever numbers a record comes with, the row count alone is taken from it; deleted and matched rows are counted anew.
#[test]
fn the_raw_call_replaces_counts() {
    for (nulls, deleted, matched) in [(0, 0, 0), (1, 2, 3), (7, 0, 6), (u64::MAX, u64::MAX, u64::MAX), (0, 1 << 63, 1 << 32)] {
        let record = raw::Record { rows: 6, nulls, deleted, matched };
        let mut first = [0b110110];
        let left = raw::Record { rows: 6, nulls, deleted: 3, matched: 2 };
        assert_eq!(raw::subtract_record(&mut first, &[0b100101], record), (raw::ACCEPTED, left, 2));
        assert_eq!(first, [0b010010]);
        assert_eq!(raw::subtract_record(&mut first, &[0b100101], left), (raw::ACCEPTED, left, 0));
    }
}

/// For each row count, bits and bytes of the first field that stand for no row below it stay, and those of the second count for nothing.
#[test]
fn the_raw_call_leaves_what_stands_for_no_row() {
    let (before, second) = ([0b1011_0111, 0b1101_1011, 0b1110_1101, 0xA5], [0b0110_1100, 0b1011_0001, 0b0101_1111, 0x5A, 0xFF]);
    let is_set = |field: &[u8], row: u64| field[(row / 8) as usize] >> (row % 8) & 1 == 1;
    for rows in 0..=32 {
        let mut first = before;
        let record = raw::Record { rows, nulls: 9, deleted: 8, matched: 7 };
        let (answer, after, removed) = raw::subtract_record(&mut first, &second, record);
        let number = |chosen: &dyn Fn(u64) -> bool| (0..rows).filter(|row| chosen(*row)).count() as u64;
        let deleted = number(&|row| is_set(&second, row));
        let matched = number(&|row| is_set(&before, row) && !is_set(&second, row));
        assert_eq!((answer, after), (raw::ACCEPTED, raw::Record { rows, nulls: 9, deleted, matched }));
        assert_eq!(matched + removed, number(&|row| is_set(&before, row)));
        for row in 0..32 {
            let expected = is_set(&before, row) && !(row < rows && is_set(&second, row));
            assert_eq!(is_set(&first, row), expected, "row {row} of {rows}");
        }
    }
}

/// LIMIT, then ROOM for either field; the record is all 0, the first field as it was, nothing removed.
#[test]
fn the_raw_call_refuses_with_an_empty_record() {
    let limit = poddurance::LIMIT;
    for (rows, first, second, refusal) in [
        (limit + 1, 1, 1, Refusal::Limit),
        // No field has room either, and LIMIT goes first.
        (limit + 1, 0, 0, Refusal::Limit),
        (1 << 63, 1, 1, Refusal::Limit),
        (u64::MAX, 0, 1, Refusal::Limit),
        (limit, 1, 1, Refusal::Room),
        (9, 1, 2, Refusal::Room),
        (9, 2, 1, Refusal::Room),
        (9, 1, 1, Refusal::Room),
        (1, 0, 1, Refusal::Room),
        (1, 1, 0, Refusal::Room),
    ] {
        let (mut field, other) = (vec![0xA5; first], vec![0xFF; second]);
        let record = raw::Record { rows, nulls: 3, deleted: 2, matched: 1 };
        let refused = (refusal.number(), raw::Record::NONE, 0);
        assert_eq!(raw::subtract_record(&mut field, &other, record), refused, "{rows} {first} {second}");
        assert_eq!(field, vec![0xA5; first], "{rows} {first} {second}");
    }
    // A refusal's record is that of no rows, and is accepted: the type at the top of the crate is there so that none is handed on.
    let mut field = [0xA5];
    assert_eq!(raw::subtract_record(&mut field, &[0xFF], raw::Record::NONE), (raw::ACCEPTED, raw::Record::NONE, 0));
    assert_eq!(field, [0xA5]);
}

/// With every refusal of Ask, and where there is no index, the record is all 0.
#[test]
fn a_refused_question_has_an_empty_record() {
    let file = small_file(&SMALL);
    let changed = |at: usize, byte: u8| {
        let mut bytes = file.clone();
        bytes[at] = byte;
        bytes
    };
    let asked = |file: &[u8], column: &[u8], literals: &[u8], field: &mut [u8]| {
        raw::ask_file(&[], file, column, b"bitmap", 0, 2, Question::Equal.number(), literals, field)
    };
    for (bytes, column, literals, room, number) in [
        (file.clone(), b"t", &[7][..], 1, raw::ABSENT),
        (file[..70].to_vec(), b"s", &[7], 1, Refusal::Head.number()),
        (file.clone(), b"s", &[], 1, Refusal::Literal.number()),
        (changed(54, 0x11), b"s", &[7], 1, Refusal::Limit.number()),
        (changed(66, 7), b"s", &[7], 1, Refusal::Dict.number()),
        (file.clone(), b"s", &[7], 0, Refusal::Room.number()),
        (changed(57, 0), b"s", &[7], 1, 6),
        (changed(65, 0xFC), b"s", &[7], 1, 7),
        (changed(70, 0xFF), b"s", &[7], 1, 8),
        (changed(51, 4), b"s", &[7], 1, 9),
    ] {
        let (answer, record, _) = asked(&bytes, column, literals, &mut vec![0xA5; room]);
        assert_eq!((answer, record), (number, raw::Record::NONE));
        if answer != raw::ABSENT && answer != Refusal::Head.number() {
            let (answer, record, _) = raw::ask(&bytes[47..], 0, 2, Question::Equal.number(), literals, &mut vec![0xA5; room]);
            assert_eq!((answer, record), (number, raw::Record::NONE));
        }
    }
}

#[test]
fn fields_sized_by_the_claim_of_a_body() {
    for rows in [1, 7, 8, 9, 65_536, 65_537, 300_000] {
        let body = nulls(rows);
        let audited = audit(&body, Type::Int, RowField::for_body(&body)).unwrap();
        assert_eq!(audited.rows(), rows.into());
        let field = audited.into_field();
        assert_eq!((field.rows(), field.count()), (rows.into(), 0));
        let answer = ask(&body, Edition::Second, Question::IsNull, &Literals::none(Type::Int), field).unwrap();
        assert_eq!(counts(answer.record()), [rows.into(), rows.into(), 0, rows.into()]);
        assert_eq!(answer.field(), &used(rows.into()));
    }
    // A claim that is wrong is refused, by the bitmaps or, where it is negative or cut off, before them.
    let mut body = SMALL;
    body[4] = 4;
    assert_eq!(audit(&body, Type::TinyInt, RowField::for_body(&body)), Err(Error::Refused(Refusal::Missing { row: 3 })));
    body[4] = 2;
    assert_eq!(audit(&body, Type::TinyInt, RowField::for_body(&body)), Err(Error::Refused(Refusal::Range { entry: 0 })));
    body[1] = 0x80;
    assert_eq!(audit(&body, Type::TinyInt, RowField::for_body(&body)), Err(Error::Refused(Refusal::Dict)));
    for length in 0..5 {
        let field = RowField::for_body(&body[..length]);
        assert_eq!(field.rows(), 0);
        assert_eq!(audit(&body[..length], Type::TinyInt, field), Err(Error::Refused(Refusal::Short)));
    }
}

#[test]
fn locate_hands_back_a_part_of_the_buffer_it_looks_at() {
    let file = small_file(&SMALL);
    let other = [0];
    assert_eq!(locate(&file, &other, "s", "bitmap").unwrap().unwrap().as_ptr(), file[47..].as_ptr());
    assert_eq!(locate(&[], &file, "s", "bitmap").unwrap().unwrap().as_ptr(), file[47..].as_ptr());
    assert_eq!(locate(&other, &file, "s", "bitmap"), Err(Refusal::Short));
    assert_eq!(locate(&[], &[], "s", "bitmap"), Err(Refusal::Short));
    assert_eq!(locate(&[], &file, "", "bitmap"), Ok(None));
}

#[test]
fn an_index_of_length_0_is_found() {
    let file = small_file(&[]);
    assert_eq!(locate(&[], &file, "s", "bitmap"), Ok(Some(&[][..])));
    assert_eq!(asked(&file, "s", Question::IsNull, &none(), 0), Err(Error::Refused(Refusal::Short)));
}

/// Asks the bitmap index on a column of a file, in the second edition, with rows of an earlier answer in the field.
fn asked(file: &[u8], column: &str, question: Question, literals: &Literals, rows: u64) -> Result<Option<Answer>, Error> {
    ask_file(&[], file, column, "bitmap", Edition::Second, question, literals, used(rows))
}

#[test]
fn the_file_that_document_01_writes_out_is_asked() {
    assert_eq!(small_file(&SMALL).len(), 71);
    for body in [&SMALL[..], &SMALL_2] {
        let file = small_file(body);
        let eight = Literals::of(Type::TinyInt, [8]).unwrap();
        let edition = Edition::First;
        for (question, literals, field, count) in [
            (Question::Equal, &seven(), 0b001, 1),
            (Question::NotEqual, &seven(), 0b110, 2),
            (Question::Equal, &eight, 0, 0),
            (Question::In, &none(), 0, 0),
            (Question::NotIn, &none(), 0b111, 3),
            (Question::IsNull, &none(), 0b100, 1),
            (Question::IsNotNull, &none(), 0b011, 2),
        ] {
            let answer = ask_file(&[], &file, "s", "bitmap", edition, question, literals, used(3)).unwrap().unwrap();
            assert_eq!((answer.field().as_bytes(), counts(answer.record())), (&[field][..], [3, 1, 0, count]));
            assert_eq!(answer.is_skip(), count == 0);
            assert_eq!(Ok(answer.clone()), ask(body, edition, question, literals, used(3)));
            // Embedded, it is looked at alone.
            let embedded = ask_file(&file, &[0], "s", "bitmap", edition, question, literals, used(3));
            assert_eq!(embedded, Ok(Some(answer)));
        }
    }
}

#[test]
fn an_index_that_is_not_there_is_no_answer() {
    let file = small_file(&SMALL);
    for (column, kind) in [("t", "bitmap"), ("s", "bsi"), ("", "bitmap"), ("s", "")] {
        assert_eq!(ask_file(&[], &file, column, kind, Edition::Second, Question::Equal, &seven(), used(3)), Ok(None));
        assert_eq!(ask_file(&file, &[], column, kind, Edition::Second, Question::Equal, &seven(), used(3)), Ok(None));
        // It is said before literals that don't fit, and whatever rows the field is for.
        assert_eq!(ask_file(&[], &file, column, kind, Edition::Second, Question::Equal, &none(), used(1_000)), Ok(None));
    }
}

#[test]
fn a_file_is_refused_as_locate_and_then_ask_refuse() {
    let file = small_file(&SMALL);
    let changed = |at: usize, byte: u8| {
        let mut bytes = file.clone();
        bytes[at] = byte;
        bytes
    };
    for (bytes, refusal) in [
        (vec![], Refusal::Short),
        (changed(7, 0), Refusal::Magic),
        (changed(11, 2), Refusal::Version),
        (file[..70].to_vec(), Refusal::Head),
        (changed(66, 7), Refusal::Dict),
        (changed(57, 0), Refusal::Bitmap { entry: 0, container: 0 }),
        (changed(67, 0), Refusal::Bitmap { entry: 2, container: 0 }),
        (changed(65, 0xFC), Refusal::Range { entry: 1 }),
        (changed(70, 0xFC), Refusal::Range { entry: 2 }),
        (changed(65, 0xFD), Refusal::Twice { entry: 1 }),
        (changed(70, 0xFF), Refusal::Twice { entry: 2 }),
        (changed(51, 4), Refusal::Missing { row: 3 }),
        (changed(51, 9), Refusal::Room),
        (changed(54, 0x11), Refusal::Limit),
    ] {
        assert_eq!(asked(&bytes, "s", Question::Equal, &seven(), 3), Err(Error::Refused(refusal)));
    }
    // The literals are read before the body, and the head before them.
    assert_eq!(asked(&file, "s", Question::Equal, &none(), 3), Err(Error::Refused(Refusal::Literal)));
    assert_eq!(asked(&changed(70, 0xFF), "s", Question::Equal, &none(), 3), Err(Error::Refused(Refusal::Literal)));
    assert_eq!(asked(&file[..70], "s", Question::Equal, &none(), 3), Err(Error::Refused(Refusal::Head)));
}

#[test]
fn a_file_of_fewer_or_more_rows_is_no_answer() {
    let file = small_file(&SMALL);
    for rows in [1, 2, 4, 8, 9, 1_000] {
        let expected = Err(Error::RowsDiffer { expected: rows, found: 3 });
        assert_eq!(asked(&file, "s", Question::Equal, &seven(), rows), expected);
        assert_eq!(ask_file(&file, &[], "s", "bitmap", Edition::Second, Question::Equal, &seven(), used(rows)), expected);
    }
    assert_eq!(asked(&file, "s", Question::Equal, &seven(), 0), Err(Error::Refused(Refusal::Room)));
}

/// Document 01's body of version 2, opened, with a field that holds rows of an earlier answer.
fn opened_small() -> (OpenedBody<'static>, RowField) {
    open(&SMALL_2, Type::TinyInt, used(3)).unwrap()
}

#[test]
fn an_opened_body_tells_what_it_is() {
    let (opened, field) = opened_small();
    assert_eq!((opened.ty(), opened.rows(), opened.blocks()), (Type::TinyInt, 3, 2));
    // The directory starts behind version, three counts, has-null and null's offset and length; a value and an offset are 5 bytes.
    assert_eq!(opened.table(), [22, 27]);
    assert_eq!(field, RowField::for_rows(3).unwrap());
    assert_eq!(format!("{opened:?}"), "OpenedBody { ty: TinyInt, rows: 3, blocks: 2, .. }");
    assert_eq!(opened.clone(), opened);
    // Threads may have it and share it.
    fn shared<T: Send + Sync>(_: &T) {}
    shared(&opened);

    // No rows and no values, and so no blocks.
    let none = [2, 0, 0, 0, 0, 0, 0, 0, 0, 0, 0, 0, 0, 0, 0, 0, 0, 0];
    let (opened, field) = open(&none, Type::Int, used(0)).unwrap();
    assert_eq!((opened.rows(), opened.table()), (0, &[][..]));
    let found = opened.look_up(Edition::Second, &Literals::of(Type::Int, [7]).unwrap(), field).unwrap();
    assert_eq!((counts(found.answer.record()), found.compared, found.answer.is_skip()), ([0; 4], 0, true));
}

/// On an opened body a lookup is EQUAL in every part, for every value of the type and in both editions. The values compared are by document
/// 02's halving: with two blocks the second one's first value is looked at, and then the first one's where the literal is less.
#[test]
fn a_lookup_answers_as_ask() {
    let (opened, mut field) = opened_small();
    for value in i8::MIN..=i8::MAX {
        for edition in Edition::ALL {
            let literal = Literals::of(Type::TinyInt, [value]).unwrap();
            let LookedUp { answer, compared } = opened.look_up(edition, &literal, field).unwrap();
            assert_eq!(Ok(answer.clone()), ask(&SMALL_2, edition, Question::Equal, &literal, used(3)), "{value} {edition}");
            // Less than both first values, equal to or behind the first, equal to or behind the second; each block has one value.
            let expected = match value {
                ..7 => 2,
                7..9 => 3,
                9.. => 2,
            };
            assert_eq!(compared, expected, "{value} {edition}");
            field = answer.into_field();
        }
    }
}

/// Many values in blocks of several sizes, of numbers that compare signed and of strings: each is found, and those beside it are not. What is
/// compared keeps document 02's bounds.
#[test]
fn lookups_compare_few_values() {
    let numbers: Vec<Vec<u8>> = (-500..500).map(|value: i16| (2 * value).to_be_bytes().to_vec()).collect();
    let between: Vec<Vec<u8>> = (-500..=500).map(|value: i16| (2 * value - 1).to_be_bytes().to_vec()).collect();
    let texts: Vec<Vec<u8>> = (0..1_000).map(|number| format!("pump {number:03}").into_bytes()).collect();
    let beside: Vec<Vec<u8>> = (0..1_000).map(|number| format!("pump {number:03} ").into_bytes()).collect();
    for (ty, values, others) in [(Type::SmallInt, &numbers, &between), (Type::String, &texts, &beside)] {
        // Each value in one row, from the last one to the first, and two null rows.
        let cells = values.iter().rev().cloned().map(Some).chain([None, None]).collect();
        let column = Column::new(ty.number(), cells);
        for entries in [1, 2, 7, 333, 999, 1_000] {
            let body = body_of(&column, &Layout::version(2).with_blocks_of(entries));
            let (opened, mut field) = open(&body, ty, used(1_002)).unwrap();
            let blocks = 1_000_u64.div_ceil(entries as u64);
            assert_eq!((opened.rows(), opened.blocks(), opened.table().len() as u64), (1_002, blocks, blocks));
            let mut look_up = |value: &Vec<u8>| {
                let value = match ty {
                    Type::SmallInt => Value::from(i16::from_be_bytes([value[0], value[1]])),
                    _ => Value::String(value),
                };
                let literal = Literals::of(ty, [value]).unwrap();
                let lent = std::mem::replace(&mut field, used(0));
                let LookedUp { answer, compared } = opened.look_up(Edition::Second, &literal, lent).unwrap();
                let rows: Vec<u64> = answer.field().iter().collect();
                assert_eq!(counts(answer.record()), [1_002, 2, 0, rows.len() as u64]);
                field = answer.into_field();
                (rows, compared)
            };
            let in_directory = u64::from(blocks.ilog2()) + 1;
            for (number, value) in values.iter().enumerate() {
                let (rows, compared) = look_up(value);
                assert_eq!(rows, [999 - number as u64]);
                // In its block the values up to it are compared, and in the directory as many as the bound says or one less.
                let in_block = (number % entries) as u64 + 1;
                assert!(
                    (in_directory - 1..=in_directory).contains(&(compared - in_block)),
                    "{ty} {entries} {number}: {compared}"
                );
            }
            for value in others {
                let (rows, compared) = look_up(value);
                assert_eq!(rows, []);
                assert!(compared <= in_directory + entries as u64, "{ty} {entries}: {compared}");
            }
        }
    }
}

#[test]
fn only_version_2_is_opened() {
    assert_eq!(open(&SMALL, Type::TinyInt, used(3)), Err(Error::Refused(Refusal::Version)));
    let mut body = SMALL_2;
    for version in (0..=u8::MAX).filter(|version| *version != 2) {
        body[0] = version;
        assert_eq!(open(&body, Type::TinyInt, used(3)), Err(Error::Refused(Refusal::Version)));
        // It is read first: a body of another version is not SHORT.
        assert_eq!(open(&body[..1], Type::TinyInt, used(3)), Err(Error::Refused(Refusal::Version)));
    }
    assert_eq!(open(&[], Type::TinyInt, used(3)), Err(Error::Refused(Refusal::Short)));
}

/// Each byte of the body changed to each other one, and the body cut at each byte: but for the version, Open accepts and refuses as Audit does,
/// by the same row count too. The table that the crate lends is never too short, whatever the body claims.
#[test]
fn a_body_is_opened_exactly_if_it_is_audited() {
    let (mut accepted, mut refused) = (0, 0);
    let mut compare = |body: &[u8], ty: Type| {
        let audited = audit(body, ty, used(3)).map(|audited| audited.rows());
        let opened = open(body, ty, used(3)).map(|(opened, field)| {
            assert_eq!((field.rows(), field.count()), (opened.rows(), 0));
            opened.rows()
        });
        assert_eq!(opened, audited, "{body:?}");
        *if opened.is_ok() { &mut accepted } else { &mut refused } += 1;
    };
    for at in 1..SMALL_2.len() {
        compare(&SMALL_2[..at], Type::TinyInt);
        for byte in 0..=u8::MAX {
            let mut body = SMALL_2;
            body[at] = byte;
            compare(&body, Type::TinyInt);
        }
    }
    // As every type; of those that fit its form it is accepted.
    for ty in Type::ALL {
        compare(&SMALL_2, ty);
    }
    // Block numbers that are negative, at the limit, over it, and more than 32 bits of words would be; with null's place and without.
    for number in [0x8000_0000_u32, u32::MAX, 0x7FFF_FFFF, 65_535, 65_536, 65_537, 3, 1, 0] {
        for (has_null, at) in [(1, 18), (0, 10), (2, 10)] {
            let mut body = SMALL_2;
            body[9] = has_null;
            body[at..at + 4].copy_from_slice(&number.to_be_bytes());
            compare(&body, Type::TinyInt);
        }
    }
    assert!(accepted > 60 && refused > 10_000, "{accepted} {refused}");
}

#[test]
fn fields_of_other_row_counts_are_not_lent_to_an_opened_body() {
    for rows in [1, 2, 4, 8, 9, 1_000] {
        let expected = Error::RowsDiffer { expected: rows, found: 3 };
        assert_eq!(open(&SMALL_2, Type::TinyInt, used(rows)), Err(expected));
        let (opened, _) = opened_small();
        assert_eq!(opened.look_up(Edition::Second, &seven(), used(rows)), Err(expected));
    }
    assert_eq!(open(&SMALL_2, Type::TinyInt, used(0)), Err(Error::Refused(Refusal::Room)));
    assert_eq!(opened_small().0.look_up(Edition::Second, &seven(), used(0)), Err(Error::Refused(Refusal::Room)));
}

/// Literals of another type are an error, also where the library would find them well formed: those of no literals, and of types of the same
/// form.
#[test]
fn literals_of_another_type_are_not_looked_up() {
    let value = |ty| match ty {
        Type::Boolean => Value::Boolean(true),
        Type::Char | Type::VarChar | Type::String => Value::String(b"x"),
        _ => Value::Number(7),
    };
    // All rows are null, so that the body is one of every type.
    let body = [2, 0, 0, 0, 1, 0, 0, 0, 0, 1, 255, 255, 255, 255, 255, 255, 255, 255, 0, 0, 0, 0, 0, 0, 0, 0];
    for expected in Type::ALL {
        let (opened, _) = open(&body, expected, used(1)).unwrap();
        for found in Type::ALL {
            for literals in [Literals::of(found, [value(found)]).unwrap(), Literals::none(found)] {
                let looked_up = opened.look_up(Edition::Second, &literals, used(1)).map(|found| counts(found.answer.record()));
                let answer = match (found == expected, literals.len()) {
                    (true, 1) => Ok([1, 1, 0, 0]),
                    (true, _) => Err(Error::Refused(Refusal::Literal)),
                    (false, _) => Err(Error::TypesDiffer { expected, found }),
                };
                assert_eq!(looked_up, answer);
            }
        }
    }
    let error = Error::TypesDiffer { expected: Type::TinyInt, found: Type::LocalZonedTimestamp };
    assert_eq!(error.to_string(), "the body was opened as TINYINT, the literals are of LOCAL ZONED TIMESTAMP");
    assert_eq!(error.refusal(), None);
    assert!(std::error::Error::source(&error).is_none());
}

/// EQUAL takes one literal, and its limits are the library's.
#[test]
fn a_lookup_takes_one_literal() {
    let (opened, _) = opened_small();
    let refused = |literals: &Literals| opened.look_up(Edition::Second, literals, used(3)).unwrap_err().refusal();
    assert_eq!(refused(&none()), Some(Refusal::Literal));
    assert_eq!(refused(&Literals::of(Type::TinyInt, [7, 9]).unwrap()), Some(Refusal::Literal));
    assert_eq!(refused(&Literals::of(Type::TinyInt, vec![7; 1_024]).unwrap()), Some(Refusal::Literal));
    assert_eq!(refused(&Literals::of(Type::TinyInt, vec![7; 1_025]).unwrap()), Some(Refusal::Limit));
    // The opened body is as good as before.
    let found = opened.look_up(Edition::Second, &seven(), used(3)).unwrap();
    assert!(found.answer.field().iter().eq([0]));

    let body = body_of(&Column::strings(&[Some("login"), None]), &Layout::version(2));
    let (opened, _) = open(&body, Type::String, used(2)).unwrap();
    for (length, expected) in [(65_535, Ok([2, 1, 0, 0])), (65_536, Err(Error::Refused(Refusal::Limit)))] {
        let literal = Literals::of(Type::String, ["x".repeat(length).as_str()]).unwrap();
        let found = opened.look_up(Edition::Second, &literal, used(2)).map(|found| counts(found.answer.record()));
        assert_eq!(found, expected);
    }
}

/// The field that comes back from one lookup is lent to the next, and holds the rows of that one alone.
#[test]
fn deletions_are_subtracted_from_what_is_looked_up() {
    let states = ["fault", "idle", "fault", "running", "idle", "fault"].map(Some);
    let body = body_of(&Column::strings(&states), &Layout::version(2).with_blocks_of(1));
    let (opened, mut field) = open(&body, Type::String, used(6)).unwrap();
    // Rows 0, 2 and 5.
    let deleted = read_deletions(&DELETIONS, 0, used(6)).unwrap();
    for (state, rows, left) in
        [("fault", &[0, 2, 5][..], &[][..]), ("idle", &[1, 4], &[1, 4]), ("stopped", &[], &[]), ("running", &[3], &[3])]
    {
        let literal = Literals::of(Type::String, [state]).unwrap();
        let found = opened.look_up(Edition::Second, &literal, field).unwrap();
        assert!(found.answer.field().iter().eq(rows.iter().copied()), "{state}");
        let (mut field_left, record) = found.answer.into_parts();
        let subtracted = subtract_record(&mut field_left, deleted.field(), record).unwrap();
        assert_eq!(counts(&subtracted.record), [6, 0, 3, left.len() as u64], "{state}");
        assert_eq!(subtracted.removed, (rows.len() - left.len()) as u64, "{state}");
        assert!(field_left.iter().eq(left.iter().copied()), "{state}");
        field = field_left;
    }
}

/// The first row of a 64-bit bin's second bitmap.
const SECOND_BITMAP: u64 = 1 << 32;

/// Where rows end.
const END_OF_ROWS: u64 = 1 << 63;

/// A deletion file with one bin, a 64-bit one.
fn wide_file(rows: &[u64], form: &BitmapForm) -> Vec<u8> {
    file_of_bins(&[bin_64(rows, form)])
}

/// The forms that every container of a bitmap may have.
fn forms() -> [BitmapForm; 4] {
    let runs = ContainerForm::Runs { cuts: Vec::new() };
    [BitmapForm::Smallest, BitmapForm::WithoutRuns, BitmapForm::WithRuns(Vec::new()), BitmapForm::WithRuns(vec![runs; 4])]
}

/// Row r of the field is row first + r of the bin, wherever the window begins and ends: inside bytes, containers and bitmaps.
#[test]
fn a_window_has_the_rows_from_its_first_one_on() {
    let run = SECOND_BITMAP - 20..SECOND_BITMAP + 5_000;
    let rows: Vec<u64> = [5, 65_535, 65_536].into_iter().chain(run).chain([END_OF_ROWS - 9, END_OF_ROWS - 1]).collect();
    for form in forms() {
        let file = wide_file(&rows, &form);
        for first in [0, 3, 65_530, SECOND_BITMAP - 30, SECOND_BITMAP - 3, SECOND_BITMAP, SECOND_BITMAP + 4_999, END_OF_ROWS - 17]
        {
            for length in [0, 1, 7, 8, 17] {
                let deleted = read_window(&file, 0, first, used(length)).unwrap();
                let expected: Vec<u64> = rows.iter().copied().filter(|row| (first..first + length).contains(row)).collect();
                assert!(deleted.field().iter().map(|row| first + row).eq(expected.iter().copied()), "{first} {length} {form:?}");
                assert_eq!((deleted.count(), deleted.field().rows()), (expected.len() as u64, length));
            }
        }
        // All rows that fit below the end.
        let all = read_window(&file, 0, 0, used(70_000)).unwrap();
        assert!(all.field().iter().eq([5, 65_535, 65_536]));
    }
}

/// A data file is read in parts: two windows side by side have the rows of one over both.
#[test]
fn windows_side_by_side() {
    let rows: Vec<u64> = (0..200).filter(|row| row % 3 == 0).map(|row| SECOND_BITMAP - 100 + row).collect();
    let file = wide_file(&rows, &BitmapForm::Smallest);
    let first = SECOND_BITMAP - 101;
    let all = read_window(&file, 0, first, used(203)).unwrap();
    assert_eq!(all.count(), rows.len() as u64);
    for cut in 0..=203 {
        let left = read_window(&file, 0, first, used(cut)).unwrap();
        let right = read_window(&file, 0, first + cut, used(203 - cut)).unwrap();
        assert_eq!(left.count() + right.count(), all.count(), "{cut}");
        let joined = left.field().iter().chain(right.field().iter().map(|row| cut + row));
        assert!(joined.eq(all.field()), "{cut}");
    }
}

/// Of a 32-bit bin a window from 0 answers as the call without one, but that it has no RANGE: it gives the rows that there are.
#[test]
fn a_window_of_a_32_bit_bin() {
    let file = file_of_bins(&[bin_32(&[0, 2, 5, 65_542], &BitmapForm::Smallest)]);
    assert_eq!(read_window(&file, 0, 0, used(65_543)), read_deletions(&file, 0, used(65_543)));
    for (rows, below) in [(0, 0), (1, 1), (5, 2), (6, 3), (65_542, 3)] {
        assert_eq!(read_deletions(&file, 0, used(rows)), Err(Refusal::Range { entry: 0 }));
        let deleted = read_window(&file, 0, 0, used(rows)).unwrap();
        assert!(deleted.field().iter().eq([0, 2, 5].into_iter().take(below)), "{rows}");
        assert_eq!(deleted.count(), below as u64);
    }
    assert!(read_window(&file, 0, 65_539, used(9)).unwrap().field().iter().eq([3]));
    // No row of a 32-bit bin is at or above 2^32.
    assert_eq!(read_window(&file, 0, SECOND_BITMAP, used(65_543)).map(|deleted| deleted.count()), Ok(0));

    // Other refusals are the same, and name the container.
    let mut cut = bin_32(&[5, 65_542], &BitmapForm::WithRuns(Vec::new()));
    cut.pop();
    let cut = file_of_bins(&[cut]);
    for first in [0, 7, 65_540, END_OF_ROWS - 8] {
        assert_eq!(read_window(&cut, 0, first, used(8)), Err(Refusal::Bitmap { entry: 0, container: 1 }));
    }
}

/// A 64-bit bin is MAGIC without a window, and any fault behind its magic BITMAP of container 0 with one, wherever the window is.
#[test]
fn a_64_bit_bin_is_read_through_a_window_alone() {
    // Where the number of bitmaps stands, the first bitmap, which has two containers and 32 bytes, and the index behind it.
    const NUMBER: usize = 4;
    const FIRST_BITMAP: usize = 16;
    const SECOND_INDEX: usize = 48;
    let rows = [0, 2, 5, 65_542, SECOND_BITMAP, END_OF_ROWS - 1];
    let sound = bin_64(&rows, &BitmapForm::WithoutRuns);
    assert_eq!((sound[NUMBER], sound[FIRST_BITMAP], sound[FIRST_BITMAP + 12], sound[SECOND_INDEX]), (3, 0x3A, 1, 1));
    let broken = |at: usize, byte: u8| {
        let mut bin = sound.clone();
        bin[at] = byte;
        bin
    };
    // A number of bitmaps too high and too low, an index that doesn't rise, a cookie, the key of the second container, the last byte cut off and
    // one left over, and no number of bitmaps.
    let cases = [
        broken(NUMBER, 4),
        broken(NUMBER, 2),
        broken(SECOND_INDEX, 0),
        broken(FIRST_BITMAP, 0),
        broken(FIRST_BITMAP + 12, 0),
        sound[..sound.len() - 1].to_vec(),
        [&sound[..], &[0]].concat(),
        sound[..4].to_vec(),
        sound[..11].to_vec(),
    ];
    for bin in cases {
        assert_ne!(bin, sound);
        let file = file_of_bins(&[bin]);
        assert_eq!(read_deletions(&file, 0, used(6)), Err(Refusal::Magic));
        for first in [0, 3, SECOND_BITMAP, END_OF_ROWS - 6] {
            assert_eq!(read_window(&file, 0, first, used(6)), Err(Refusal::Bitmap { entry: 0, container: 0 }), "{file:?}");
        }
    }
    let mut file = file_of_bins(&[sound]);
    assert_eq!(read_window(&file, 0, 0, used(70_000)).map(|deleted| deleted.count()), Ok(4));
    assert_eq!(read_deletions(&file, 0, used(70_000)), Err(Refusal::Magic));
    *file.last_mut().unwrap() ^= 1;
    assert_eq!(read_window(&file, 0, 0, used(6)), Err(Refusal::Checksum));
    assert_eq!(read_deletions(&file, 0, used(6)), Err(Refusal::Magic));
}

/// The window's rows are taken away from an answer of as many rows.
#[test]
fn a_window_is_subtracted() {
    let file = wide_file(&[SECOND_BITMAP + 1, SECOND_BITMAP + 2], &BitmapForm::Smallest);
    let (mut rows, record) = not_null(6, 1).into_parts(); // all but row 5
    let deleted = read_window(&file, 0, SECOND_BITMAP, used(6)).unwrap();
    let subtracted = subtract_record(&mut rows, deleted.field(), record).unwrap();
    assert!(rows.iter().eq([0, 3, 4]));
    assert_eq!((counts(&subtracted.record), subtracted.removed), ([6, 1, 2, 3], 2));
}

/// Up to ROOM the buffer is as it was; behind it the field's bytes are zero, and accepted they hold the window's rows; what lies behind stays.
#[test]
fn the_raw_window_leaves_what_it_may_not_write() {
    let file = wide_file(&[3, SECOND_BITMAP + 3], &BitmapForm::Smallest);
    let none = raw::Fault::NONE;
    let read = |file: &[u8], bin, first, rows, room: usize| {
        let mut buffer = [0xAA; 4];
        let answer = raw::read_window(file, bin, first, rows, &mut buffer[..room]);
        (answer, buffer)
    };
    let (untouched, zeroed) = ([0xAA; 4], [0, 0, 0xAA, 0xAA]);
    for (first, rows) in [
        (0, poddurance::LIMIT + 1),
        (END_OF_ROWS - 11, 12),
        (END_OF_ROWS + 1, 0),
        (u64::MAX, 12),
        (u64::MAX - 11, 12),
        (u64::MAX, u64::MAX),
    ] {
        // Neither the room nor the file is looked at.
        for (file, room) in [(&file[..], 4), (&file, 0), (&[], 0)] {
            assert_eq!(read(file, 0, first, rows, room), ((Refusal::Limit.number(), 0, none), untouched), "{first} {rows}");
        }
    }
    for file in [&file[..], &[]] {
        assert_eq!(read(file, 0, 0, 12, 1), ((Refusal::Room.number(), 0, none), untouched));
    }
    let (mut version, mut magic, mut sum) = (file.clone(), file.clone(), file.clone());
    (version[0], magic[5]) = (2, 0);
    *sum.last_mut().unwrap() ^= 1;
    let mut broken = bin_64(&[3], &BitmapForm::Smallest);
    broken.pop();
    for (file, bin, refusal) in [
        (vec![], 0, Refusal::Short),
        (version, 0, Refusal::Version),
        (file[..file.len() - 1].to_vec(), 0, Refusal::Short),
        (file.clone(), 1, Refusal::NoBin),
        (file.clone(), u64::MAX, Refusal::NoBin),
        (magic, 0, Refusal::Magic),
        (sum, 0, Refusal::Checksum),
        (file_of_bins(&[broken]), 0, Refusal::Bitmap { entry: 0, container: 0 }),
    ] {
        for first in [0, 3, SECOND_BITMAP, END_OF_ROWS - 12] {
            assert_eq!(read(&file, bin, first, 12, 4), ((refusal.number(), 0, refusal.fault()), zeroed), "{refusal}");
        }
    }
    assert_eq!(read(&file, 0, 0, 12, 4), ((raw::ACCEPTED, 1, none), [0b1000, 0, 0xAA, 0xAA]));
    assert_eq!(read(&file, 0, SECOND_BITMAP - 8, 12, 2), ((raw::ACCEPTED, 1, none), [0, 0b1000, 0xAA, 0xAA]));
    assert_eq!(read(&file, 0, END_OF_ROWS - 12, 12, 4), ((raw::ACCEPTED, 0, none), zeroed));
    assert_eq!(read(&file, 0, END_OF_ROWS, 0, 0), ((raw::ACCEPTED, 0, none), untouched));
}

/// Field and table are as they were up to ROOM, and behind it the field's bytes are zero and the table still as it was; accepted, the table has a
/// word for each block, and what lies behind both stays.
#[test]
fn the_raw_open_leaves_what_it_may_not_write() {
    let changed = |at: usize, byte: u8| {
        let mut body = SMALL_2;
        body[at] = byte;
        body
    };
    let opened = |body: &[u8], ty: u32, field_len: usize, words: usize| {
        let (mut field, mut table) = (vec![0xAA; field_len], vec![0xAAAA_AAAA; words]);
        let answer = raw::open(body, ty, &mut field, &mut table);
        (answer, field, table)
    };
    let untouched =
        |number: u8, field_len, words| ((number, 0, 0, raw::Fault::NONE), vec![0xAA; field_len], vec![0xAAAA_AAAA; words]);
    for (body, ty, number) in [
        (&SMALL_2[..], 12, Refusal::Literal),
        (&SMALL_2, u32::MAX, Refusal::Literal),
        (&[], 12, Refusal::Literal),
        (&[], 0, Refusal::Short),
        (&SMALL_2[..61], 0, Refusal::Short),
        (&SMALL, 0, Refusal::Version),
        (&changed(9, 2), 0, Refusal::Dict),
        (&changed(6, 2), 0, Refusal::Limit),
    ] {
        // Before ROOM: there is room, or there is none in field or table.
        for (field_len, words) in [(2, 3), (0, 3), (2, 0), (0, 0)] {
            assert_eq!(opened(body, ty, field_len, words), untouched(number.number(), field_len, words), "{number}");
        }
    }
    let room = Refusal::Room.number();
    for (field_len, words) in [(0, 0), (0, 2), (0, 3), (1, 0), (1, 1), (2, 1)] {
        assert_eq!(opened(&SMALL_2, 0, field_len, words), untouched(room, field_len, words));
        // ROOM goes before what is wrong with a bitmap.
        assert_eq!(opened(&changed(57, 0xFF), 0, field_len, words), untouched(room, field_len, words));
    }
    for (body, refusal) in [
        (changed(10, 0), Refusal::Bitmap { entry: 0, container: 0 }),
        // The entry is counted through all blocks.
        (changed(54, 0), Refusal::Bitmap { entry: 2, container: 0 }),
        (changed(57, 0xFC), Refusal::Range { entry: 2 }),
        (changed(57, 0xFF), Refusal::Twice { entry: 2 }),
        (changed(4, 4), Refusal::Missing { row: 3 }),
    ] {
        let expected = ((refusal.number(), 0, 0, refusal.fault()), vec![0, 0xAA], vec![0xAAAA_AAAA; 3]);
        assert_eq!(opened(&body, 0, 2, 3), expected, "{refusal}");
    }
    for words in [2, 3, 100] {
        let mut table = vec![0xAAAA_AAAA; words];
        table[..2].copy_from_slice(&[22, 27]);
        assert_eq!(opened(&SMALL_2, 0, 2, words), ((raw::ACCEPTED, 3, 2, raw::Fault::NONE), vec![0, 0xAA], table));
    }
    // A string's entry starts at its length.
    let body = body_of(&Column::strings(&[Some("login"), Some("click")]), &Layout::version(2).with_blocks_of(1));
    let ((answer, ..), _, table) = opened(&body, types::STRING, 1, 2);
    assert_eq!((answer, table), (raw::ACCEPTED, vec![14, 14 + 4 + 5 + 4]));
}

/// The raw lookup is of any bytes. Where body, type and table are not one open's its answers are document 02's own: entries count within their
/// block, and the field is as it was up to ROOM and zero behind it.
#[test]
fn the_raw_lookup_of_bytes_that_were_not_opened() {
    let changed = |at: usize, byte: u8| {
        let mut body = SMALL_2;
        body[at] = byte;
        body
    };
    let looked_up = |body: &[u8], ty: u32, edition: u32, literal: &[u8], table: &[u32]| {
        let mut field = [0xAA; 2];
        (raw::look_up(body, ty, edition, literal, table, &mut field), field)
    };
    let refused = |refusal: Refusal, field| ((refusal.number(), raw::Record::NONE, 0, refusal.fault()), field);
    let table = [22, 27];
    for (body, ty, edition, literal, table, refusal) in [
        (&SMALL_2[..], 12, 2, &[7][..], &table[..], Refusal::Literal),
        (&SMALL_2, 0, 0, &[7], &table, Refusal::Literal),
        (&SMALL_2, 0, 3, &[7], &table, Refusal::Literal),
        (&SMALL_2, 0, 2, &[], &table, Refusal::Literal),
        (&SMALL_2, 0, 2, &[7, 9], &table, Refusal::Literal),
        // Four TINYINTs, of an INT's bytes.
        (&SMALL_2, 0, 2, &[0, 0, 0, 7], &table, Refusal::Literal),
        // The literals are read before the body.
        (&[], 0, 2, &[], &table, Refusal::Literal),
        (&[], 0, 2, &[7], &table, Refusal::Short),
        (&SMALL, 0, 2, &[7], &table, Refusal::Version),
        (&changed(9, 2), 0, 2, &[7], &table, Refusal::Dict),
        (&changed(6, 2), 0, 2, &[7], &table, Refusal::Limit),
        (&SMALL_2, 0, 2, &[7], &table[..1], Refusal::Room),
        (&SMALL_2, 0, 2, &[7], &[], Refusal::Room),
        // Positions behind the body.
        (&SMALL_2, 0, 2, &[7], &[22, 62], Refusal::Short),
        (&SMALL_2, 0, 2, &[7], &[22, u32::MAX], Refusal::Short),
        // The block that 9 stands in, at 13 behind the body offset, says that it has no entry.
        (&changed(52, 0), 0, 2, &[9], &table, Refusal::Dict),
    ] {
        assert_eq!(looked_up(body, ty, edition, literal, table), refused(refusal, [0xAA; 2]), "{refusal}");
    }
    for (body, literal, refusal) in [
        (changed(10, 0), 7, Refusal::Bitmap { entry: 0, container: 0 }),
        (changed(13, 0xFC), 7, Refusal::Range { entry: 0 }),
        // Of the second block the first entry, which Audit counts as the second.
        (changed(54, 0), 9, Refusal::Bitmap { entry: 1, container: 0 }),
        (changed(57, 0xFC), 9, Refusal::Range { entry: 1 }),
    ] {
        assert_eq!(looked_up(&body, 0, 2, &[literal], &table), refused(refusal, [0, 0xAA]), "{refusal}");
    }
    // A row that is placed twice, or never, is not noticed without an audit.
    let record = raw::Record { rows: 3, nulls: 1, deleted: 0, matched: 1 };
    assert_eq!(looked_up(&changed(57, 0xFF), 0, 2, &[9], &table), ((raw::ACCEPTED, record, 2, raw::Fault::NONE), [1, 0xAA]));
    let record = raw::Record { rows: 4, ..record };
    assert_eq!(looked_up(&changed(4, 4), 0, 2, &[9], &table), ((raw::ACCEPTED, record, 2, raw::Fault::NONE), [2, 0xAA]));
    // A field that is too short, for an opened body too.
    let mut field = [];
    let answer = raw::look_up(&SMALL_2, 0, 2, &[7], &table, &mut field);
    assert_eq!(answer, (Refusal::Room.number(), raw::Record::NONE, 0, raw::Fault::NONE));
}

#[test]
fn every_number_of_an_answer_is_a_refusal_or_named() {
    // What a refusal carries is kept, and of what it doesn't carry nothing is made.
    let all = raw::Fault { entry: 3, container: 2, row: 1 };
    for number in 0..=255 {
        let expected = match number {
            6 => raw::Fault { row: 0, ..all },
            7 | 8 => raw::Fault { entry: 3, ..raw::Fault::NONE },
            9 => raw::Fault { row: 1, ..raw::Fault::NONE },
            _ => raw::Fault::NONE,
        };
        match Refusal::from_raw(number, all) {
            Some(refusal) => {
                assert_eq!((refusal.number(), refusal.fault()), (number, expected));
                assert_eq!(Refusal::from_raw(number, refusal.fault()), Some(refusal));
            }
            None => assert!(!(1..=14).contains(&number)),
        }
    }
    assert_eq!((raw::ACCEPTED, raw::ABSENT), (0, 255));
}

#[test]
fn names_are_read_back() {
    for ty in Type::ALL {
        assert_eq!(ty.to_string().parse(), Ok(ty));
        assert_eq!(ty.name().to_lowercase().replace(' ', "-").parse(), Ok(ty));
    }
    for question in Question::ALL {
        assert_eq!(question.to_string().parse(), Ok(question));
        assert_eq!(question.name().to_lowercase().replace(' ', "_").parse(), Ok(question));
    }
    for edition in Edition::ALL {
        assert_eq!(edition.to_string().parse(), Ok(edition));
        assert_eq!(edition.name(), edition.number().to_string());
    }
    for name in ["", "0", "3", "-1", "+1", "_1", "01", "1 ", "first", "SECOND"] {
        assert_eq!(name.parse::<Edition>().unwrap_err().to_string(), format!("{name:?} is none of 1, 2"));
    }
    assert!("IS  NULL".parse::<Question>().is_err());
    assert!("".parse::<Type>().is_err());
}

#[test]
fn literals_have_the_width_of_their_type() {
    for ty in Type::ALL {
        let value = match ty {
            Type::Boolean => Value::Boolean(true),
            Type::Char | Type::VarChar | Type::String => Value::String(b"x"),
            _ => Value::Number(-1),
        };
        let literals = Literals::of(ty, [value, value]).unwrap();
        assert_eq!((literals.ty(), literals.len()), (ty, 2));
        assert_eq!(literals.as_bytes().len(), 2 * ty.width().unwrap_or(5), "{ty}");
        // The library reads them as two, of this type.
        let body = [1, 0, 0, 0, 0, 0, 0, 0, 0, 0];
        let asked = |question| ask(&body, Edition::Second, question, &literals, used(0)).map(|answer| answer.is_skip());
        assert_eq!(asked(Question::In), Ok(true));
        assert_eq!(asked(Question::Equal), Err(Error::Refused(Refusal::Literal)));
    }
}

#[test]
fn literals_that_do_not_fit_change_nothing() {
    for (ty, least, most) in [
        (Type::TinyInt, i64::from(i8::MIN), i64::from(i8::MAX)),
        (Type::SmallInt, i64::from(i16::MIN), i64::from(i16::MAX)),
        (Type::Int, i64::from(i32::MIN), i64::from(i32::MAX)),
        (Type::Date, i64::from(i32::MIN), i64::from(i32::MAX)),
        (Type::Time, i64::from(i32::MIN), i64::from(i32::MAX)),
        (Type::BigInt, i64::MIN, i64::MAX),
        (Type::Timestamp, i64::MIN, i64::MAX),
        (Type::LocalZonedTimestamp, i64::MIN, i64::MAX),
    ] {
        let mut literals = Literals::of(ty, [least, most]).unwrap();
        let before = literals.clone();
        let (below, above) = (i128::from(least) - 1, i128::from(most) + 1);
        for value in [Value::Number(below), Value::Number(above), Value::Boolean(true), Value::String(b"1")] {
            assert_eq!(literals.push(value), Err(Refusal::Literal));
        }
        assert_eq!(literals, before);
    }
    assert_eq!(Literals::of(Type::Boolean, [1]), Err(Refusal::Literal));
    assert_eq!(Literals::of(Type::String, [1]), Err(Refusal::Literal));
    assert_eq!(Literals::of(Type::BigInt, [i64::MIN, i64::MAX]).unwrap().as_bytes()[7..9], [0, 0x7F]);
}

#[test]
fn literals_of_what_a_caller_has() {
    // Numbers of every width, by value and by reference.
    let seven = [0, 7];
    macro_rules! numbers {
        ($($number:ty)*) => {$(
            let number: $number = 7;
            assert_eq!(Literals::of(Type::SmallInt, [number]).unwrap().as_bytes(), seven);
            assert_eq!(Literals::of(Type::SmallInt, &[number]).unwrap().as_bytes(), seven);
            assert_eq!(Value::from(<$number>::MAX), Value::Number(i128::try_from(<$number>::MAX).unwrap()));
            assert_eq!(Value::from(<$number>::MIN), Value::Number(i128::try_from(<$number>::MIN).unwrap()));
        )*};
    }
    numbers!(i8 i16 i32 i64 i128 isize u8 u16 u32 u64 usize);
    assert_eq!(Literals::of(Type::BigInt, [u64::MAX]), Err(Refusal::Literal));
    assert_eq!(Literals::of(Type::TinyInt, [200u8]), Err(Refusal::Literal));
    assert_eq!(Literals::of(Type::Int, 1..=3).unwrap().len(), 3);
    assert_eq!(Literals::of(Type::Int, [1, 2].iter().rev()).unwrap().len(), 2);

    let alarms = [true, false];
    assert_eq!(Literals::of(Type::Boolean, alarms.iter()).unwrap(), Literals::of(Type::Boolean, alarms).unwrap());

    // Text and bytes, however they are held.
    let stored = b"\0\0\0\x02on";
    let text = |literals: Result<Literals, Refusal>| assert_eq!(literals.unwrap().as_bytes(), stored);
    let (owned, bytes) = ("on".to_string(), b"on".to_vec());
    text(Literals::of(Type::String, ["on"]));
    text(Literals::of(Type::String, ["on"].iter()));
    text(Literals::of(Type::String, [&owned]));
    text(Literals::of(Type::String, std::slice::from_ref(&owned)));
    text(Literals::of(Type::String, &[std::borrow::Cow::from("on")]));
    text(Literals::of(Type::Char, [b"on"]));
    text(Literals::of(Type::Char, [&b"on"[..]]));
    text(Literals::of(Type::Char, [&b"on"[..]].iter()));
    text(Literals::of(Type::VarChar, [&bytes]));
    text(Literals::of(Type::VarChar, std::slice::from_ref(&bytes)));
    let mut pushed = Literals::none(Type::String);
    pushed.push(owned.as_str()).unwrap();
    assert_eq!(pushed.as_bytes(), stored);
}

#[test]
fn rows_and_ranges_are_those_of_the_bits() {
    // Rows by a rule of their own, in fields that end inside and at the ends of bytes and of words of 64 rows.
    let rules: [fn(u64) -> bool; 6] =
        [|_| true, |_| false, |row| row % 3 == 0, |row| row / 64 % 2 == 0, |row| row / 5 % 2 == 1, |row| row == 127];
    for rows in [0, 1, 7, 8, 9, 63, 64, 65, 127, 128, 129, 200, 320, 1_000] {
        for rule in rules {
            let expected: Vec<u64> = (0..rows).filter(|row| rule(*row)).collect();
            let field = field_of(rows, &expected);
            assert_eq!(field.count(), expected.len() as u64);
            assert_eq!(field.iter().collect::<Vec<_>>(), expected);
            assert_eq!((&field).into_iter().collect::<Vec<_>>(), expected);
            assert!((0..rows + 70).all(|row| field.contains(row) == (row < rows && rule(row))));
            let ranges: Vec<_> = field.ranges().collect();
            assert_eq!(ranges.iter().cloned().flatten().collect::<Vec<_>>(), expected);
            assert!(ranges.windows(2).all(|pair| pair[0].end() + 1 < *pair[1].start()));
        }
    }
}

/// A field with these rows, from a deletion file that lists them.
fn field_of(rows: u64, set: &[u64]) -> RowField {
    let mut bin = vec![0x5E, 0x43, 0xF2, 0xD0, 0x3A, 0x30, 0, 0];
    if set.is_empty() {
        bin.extend([0; 4]);
    } else {
        bin.extend([1, 0, 0, 0, 0, 0]);
        bin.extend((set.len() as u16 - 1).to_le_bytes());
        bin.extend([16, 0, 0, 0]);
        bin.extend(set.iter().flat_map(|row| (*row as u16).to_le_bytes()));
    }
    let mut file = vec![1];
    file.extend((bin.len() as u32).to_be_bytes());
    file.extend(&bin);
    let crc = !bin.iter().fold(u32::MAX, |crc, byte| {
        (0..8).fold(crc ^ u32::from(*byte), |crc, _| if crc & 1 == 1 { (crc >> 1) ^ 0xEDB8_8320 } else { crc >> 1 })
    });
    file.extend(crc.to_be_bytes());
    read_deletions(&file, 0, used(rows)).unwrap().into_field()
}

#[test]
fn all_of_sets_no_spare_bit() {
    for rows in 0..200 {
        let field = RowField::all_of(rows).unwrap();
        assert_eq!((field.rows(), field.count(), field.as_bytes().len() as u64), (rows, rows, rows.div_ceil(8)));
        assert!(field.ranges().eq((rows > 0).then(|| 0..=rows - 1)));
    }
}

#[test]
fn reset_leaves_no_row_of_before() {
    for (before, after) in [(1_000, 3), (3, 1_000), (8, 8), (5, 0), (0, 5)] {
        let mut field = used(before);
        field.reset(after).unwrap();
        assert_eq!(field, RowField::for_rows(after).unwrap());
        assert_eq!(field.reset(poddurance::LIMIT + 1), Err(Refusal::Limit));
        assert_eq!(field.rows(), after);
    }
}

#[test]
fn a_field_shows_its_rows() {
    let field = read_deletions(&DELETIONS, 0, used(6)).unwrap().into_field();
    assert_eq!(format!("{field:?}"), "RowField for 6 rows {0..=0, 2..=2, 5..=5}");
}
