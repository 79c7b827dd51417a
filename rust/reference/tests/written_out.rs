//! The files that document 01 writes out, and what document 02 says of them.

use reference::reader::{
    ask, ask_file, audit, locate, look_up, open, read_deletions, read_window, subtract, subtract_record, NO_FAULT,
};
use reference::record::Record;
use reference::scan::{scan, scan_without};
use reference::types::*;
use reference::writer::{
    bin_32, bin_64, bin_64_traced, bitmap, body, body_of, deletion_file, file_of_bins, index_file, index_file_traced,
    indexed_bitmaps, BitmapForm, Column, ContainerForm, Content, FileLayout, Index, IndexedBitmap, IndexedColumn, Layout,
};

fn hex(text: &str) -> Vec<u8> {
    text.split_whitespace().map(|byte| u8::from_str_radix(byte, 16).unwrap()).collect()
}

const HEAD: &str = "00 05 4E 4E D0 1A 35 AE 00 00 00 01 00 00 00 2F 00 00 00 01 00 01 73 00 00 00 01 00 06 62 69 74 \
    6D 61 70 00 00 00 2F 00 00 00 18 00 00 00 00";
const VERSION_1: &str = "01 00 00 00 03 00 00 00 02 01 FF FF FF FD 07 FF FF FF FF 09 FF FF FF FE";
const VERSION_2: &str = "02 00 00 00 03 00 00 00 02 01 FF FF FF FD FF FF FF FF 00 00 00 02 07 00 00 00 00 09 00 00 00 \
    0D 00 00 00 1A 00 00 00 01 07 FF FF FF FF FF FF FF FF 00 00 00 01 09 FF FF FF FE FF FF FF FF";

/// What a question is answered with before deletions are subtracted.
fn asked(rows: u64, nulls: u64, matched: u64) -> Record {
    Record { rows, nulls, deleted: 0, matched }
}

/// TINYINT column s = 7, 9, null.
fn small_column() -> Column {
    Column::new(TINYINT, vec![Some(vec![7]), Some(vec![9]), None])
}

#[test]
fn small_file_is_found_and_written() {
    let body = hex(VERSION_1);
    let file = [hex(HEAD), body.clone()].concat();
    assert_eq!(file.len(), 71);
    assert_eq!(locate(&[], &file, b"s", b"bitmap"), (0, 47, 24));
    assert_eq!(locate(&file, &[], b"s", b"bitmap"), (0, 47, 24));
    assert_eq!(locate(&[], &file, b"t", b"bitmap"), (255, 0, 0));
    assert_eq!(locate(&[], &file, b"s", b"bsi"), (255, 0, 0));
    assert_eq!(locate(&[], &[], b"s", b"bitmap"), (1, 0, 0));
    assert_eq!(locate(&[], &file[..23], b"s", b"bitmap"), (4, 0, 0));
    assert_eq!(index_file(&[("s", "bitmap", &body)]), file);
    assert_eq!(body_of(&small_column(), &Layout::version(1)), body);
}

/// The small file's head with names in place of `s` and `bitmap`, as they are stored; and its body.
fn small_file(column: &[u8], kind: &[u8]) -> Vec<u8> {
    let small = hex(HEAD);
    let length = |name: &[u8]| (name.len() as u16).to_be_bytes();
    let head_length = (small.len() - "s".len() - "bitmap".len() + column.len() + kind.len()) as u32;
    let start = head_length.to_be_bytes();
    [&small[..12], &start, &small[16..20], &length(column), column, &small[23..27], &length(kind), kind, &start, &small[39..]]
        .concat()
        .into_iter()
        .chain(hex(VERSION_1))
        .collect()
}

/// A name in standard UTF-8 and as files have it.
const NAMES: [(&str, &str); 8] = [
    ("s", "73"),
    ("", ""),
    ("\0", "C0 80"),
    ("é", "C3 A9"),
    ("水", "E6 B0 B4"),
    ("🔥", "ED A0 BD ED B4 A5"),
    ("\u{10FFFF}", "ED AF BF ED BF BF"),
    ("a\0🔥", "61 C0 80 ED A0 BD ED B4 A5"),
];

#[test]
fn names_are_compared_and_written_in_modified_form() {
    let body = hex(VERSION_1);
    for (name, stored) in NAMES {
        let stored = hex(stored);
        // The body stands right behind the head.
        let start = |file: &[u8]| (file.len() - body.len()) as u64;
        let file = small_file(&stored, b"bitmap");
        assert_eq!(index_file(&[(name, "bitmap", &body)]), file);
        assert_eq!(locate(&[], &file, name.as_bytes(), b"bitmap"), (0, start(&file), 24), "{name:?}");
        let file = small_file(b"s", &stored);
        assert_eq!(index_file(&[("s", name, &body)]), file);
        assert_eq!(locate(&file, &[], b"s", name.as_bytes()), (0, start(&file), 24), "{name:?}");
        // A caller's modified form is no standard UTF-8 where the two differ.
        if stored != name.as_bytes() {
            assert_eq!(locate(&[], &file, b"s", &stored), (11, 0, 0), "{name:?}");
            let unlisted = small_file(b"s", name.as_bytes());
            assert_eq!(locate(&[], &unlisted, b"s", name.as_bytes()), (255, 0, 0), "{name:?}");
        }
    }
}

/// Stored names that no name has in modified form are no fault and no second listing.
#[test]
fn improper_stored_names() {
    let file = |columns: &[&str], kinds: &[&str]| {
        let index = |kind: &str| Index { kind: hex(kind), content: Content::Body(hex(VERSION_1)) };
        let columns: Vec<IndexedColumn> = columns
            .iter()
            .map(|name| IndexedColumn { name: hex(name), indexes: kinds.iter().map(|kind| index(kind)).collect() })
            .collect();
        index_file_traced(&columns, &FileLayout::default()).bytes
    };
    let fire = "ED A0 BD ED B4 A5";
    // Four bytes, the surrogates swapped, each alone, one cut, one more byte, and no UTF-8 of any kind.
    let improper =
        ["F0 9F 94 A5", "ED B4 A5 ED A0 BD", "ED A0 BD", "ED B4 A5", "ED A0 BD ED B4", "ED A0 BD ED B4 A5 00", "FF FE", "00"];
    let asked = |file: &[u8]| locate(&[], file, "🔥".as_bytes(), "🔥".as_bytes()).0;
    assert_eq!(asked(&file(&improper, &[fire])), 255);
    assert_eq!(asked(&file(&[fire], &improper)), 255);
    assert_eq!(asked(&file(&[&improper[..], &[fire]].concat(), &[&[fire], &improper[..]].concat())), 0);
    assert_eq!(asked(&file(&[fire, "F0 9F 94 A5", fire], &[])), 4);
    assert_eq!(asked(&file(&[fire], &[fire, "F0 9F 94 A5", fire])), 4);
    // A raw zero, beside the one in two bytes.
    let asked = |file: &[u8]| locate(&[], file, b"\0", b"\0").0;
    assert_eq!(asked(&file(&["00"], &["C0 80"])), 255);
    assert_eq!(asked(&file(&["C0 80"], &["00"])), 255);
    assert_eq!(asked(&file(&["00", "C0 80", "00"], &["C0 80", "00"])), 0);
}

/// A name that isn't standard UTF-8 is LITERAL before the file is looked at.
#[test]
fn asked_names_that_are_no_utf_8() {
    let file = [hex(HEAD), hex(VERSION_1)].concat();
    let [mut wrong_magic, mut wrong_version] = [(); 2].map(|()| file.clone());
    (wrong_magic[0], wrong_version[11]) = (1, 2);
    for (file, answer) in [(&file[..], 0), (&[], 1), (&file[..15], 1), (&wrong_magic, 2), (&wrong_version, 3), (&file[..46], 4)] {
        assert_eq!(locate(&[], file, b"s", b"bitmap").0, answer);
    }
    for name in [
        "C0 80",
        "C1 BF",
        "E0 9F BF",
        "F0 8F BF BF",
        "ED A0 80",
        "ED BF BF",
        "ED A0 BD ED B4 A5",
        "F4 90 80 80",
        "F5 80 80 80",
        "FF",
        "80",
        "73 BF",
        "C3",
        "E6 B0",
        "F0 9F 94",
        "C3 73",
    ] {
        let name = hex(name);
        for file in [&file[..], &[], &file[..15], &wrong_magic, &wrong_version, &file[..46]] {
            assert_eq!(locate(&[], file, &name, b"bitmap"), (11, 0, 0), "{name:X?}");
            assert_eq!(locate(file, &[], b"s", &name), (11, 0, 0), "{name:X?}");
            // The kind of a column that isn't listed, and both.
            assert_eq!(locate(&[], file, b"t", &name), (11, 0, 0), "{name:X?}");
            assert_eq!(locate(&[], file, &name, &name), (11, 0, 0), "{name:X?}");
        }
        let mut field = [0xAA];
        let found = ask_file(&[], &file, &name, b"bitmap", TINYINT, SECOND_EDITION, EQUAL, &[7], &mut field);
        assert_eq!((found, field), ((11, Record::NONE, NO_FAULT), [0xAA]));
    }
}

/// 65,535 bytes are counted in modified form.
#[test]
fn the_longest_names() {
    for (name, answer) in [
        ("n".repeat(65_535), 0),
        ("n".repeat(65_536), 11),
        ("\0".repeat(32_767), 0),
        ("\0".repeat(32_767) + "n", 0),
        ("\0".repeat(32_768), 11),
        ("é".repeat(32_767) + "n", 0),
        ("é".repeat(32_768), 11),
        ("水".repeat(21_845), 0),
        ("水".repeat(21_845) + "n", 11),
        ("🔥".repeat(10_922) + "nnn", 0),
        ("🔥".repeat(10_922) + "nnnn", 11),
        ("🔥".repeat(10_923), 11),
    ] {
        let file = match answer {
            0 => index_file(&[(&name, &name, &[])]),
            _ => Vec::new(),
        };
        assert_eq!(locate(&[], &file, name.as_bytes(), name.as_bytes()).0, answer);
        let (of_column, of_kind) = (locate(&[], &file, name.as_bytes(), b"s").0, locate(&[], &file, b"s", name.as_bytes()).0);
        assert_eq!((of_column, of_kind), if answer == 0 { (255, 255) } else { (11, 11) });
    }
}

#[test]
fn small_version_2_is_written() {
    let layout = Layout::version(2).with_blocks_of(1);
    assert_eq!(body_of(&small_column(), &layout), hex(VERSION_2));
}

#[test]
fn small_questions() {
    for body in [hex(VERSION_1), hex(VERSION_2)] {
        let mut field = [0xAA, 0xBB];
        assert_eq!(audit(&body, TINYINT, &mut field), (0, 3, NO_FAULT));
        assert_eq!(field, [0x00, 0xBB]);
        // The question, its literals, and the field's byte and the matched rows in either edition.
        type Case<'a> = (u32, &'a [u8], [(u8, u64); 2]);
        let cases: [Case; 10] = [
            (EQUAL, &[7], [(0x01, 1), (0x01, 1)]),
            (NOT_EQUAL, &[7], [(0x06, 2), (0x02, 1)]),
            (EQUAL, &[8], [(0x00, 0), (0x00, 0)]),
            (NOT_EQUAL, &[8], [(0x07, 3), (0x03, 2)]),
            (IN, &[9, 7, 9], [(0x03, 2), (0x03, 2)]),
            (NOT_IN, &[9, 7, 9], [(0x04, 1), (0x00, 0)]),
            (IN, &[], [(0x00, 0), (0x00, 0)]),
            (NOT_IN, &[], [(0x07, 3), (0x03, 2)]),
            (IS_NULL, &[], [(0x04, 1), (0x04, 1)]),
            (IS_NOT_NULL, &[], [(0x03, 2), (0x03, 2)]),
        ];
        for (question, literals, chosen) in cases {
            let values: Vec<[u8; 1]> = literals.iter().map(|value| [*value]).collect();
            for (edition, (bits, matched)) in EDITIONS.into_iter().zip(chosen) {
                // Row 2 is null whatever is asked.
                let record = asked(3, 1, matched);
                let mut field = [0xAA, 0xBB];
                assert_eq!(ask(&body, TINYINT, edition, question, literals, &mut field), (0, record, NO_FAULT));
                assert_eq!(field, [bits, 0xBB], "question {question} of {literals:?} in edition {edition}");
                assert_eq!(scan(&small_column(), edition, question, &values), (vec![bits], record));
            }
        }
        let mut none = [];
        assert_eq!(audit(&body, TINYINT, &mut none), (10, 0, NO_FAULT));
        assert_eq!(ask(&body, TINYINT, FIRST_EDITION, EQUAL, &[7], &mut none), (10, Record::NONE, NO_FAULT));
    }
}

/// Rows of null alone: the second edition skips them wherever the first keeps them for not being listed.
#[test]
fn nulls_alone() {
    let column = Column::new(TINYINT, vec![None; 3]);
    for version in [1, 2] {
        let body = body_of(&column, &Layout::version(version));
        for (question, values, chosen) in [
            (NOT_IN, &[][..], [(0x07, 3), (0x00, 0)]),
            (NOT_IN, &[[7], [9]], [(0x07, 3), (0x00, 0)]),
            (NOT_EQUAL, &[[7]], [(0x07, 3), (0x00, 0)]),
            (EQUAL, &[[7]], [(0x00, 0), (0x00, 0)]),
            (IS_NULL, &[], [(0x07, 3), (0x07, 3)]),
            (IS_NOT_NULL, &[], [(0x00, 0), (0x00, 0)]),
        ] {
            for (edition, (bits, matched)) in EDITIONS.into_iter().zip(chosen) {
                let record = asked(3, 3, matched);
                let mut field = [0xAA];
                let found = ask(&body, TINYINT, edition, question, &literals(TINYINT, values), &mut field);
                assert_eq!(found, (0, record, NO_FAULT));
                assert_eq!(field, [bits], "question {question} of {values:?} in edition {edition}");
                assert_eq!(scan(&column, edition, question, values), (vec![bits], record));
            }
        }
    }
}

/// Any edition but 1 and 2 is LITERAL for each question, before the literals, the body and the field are looked at.
#[test]
fn unknown_editions() {
    let body = hex(VERSION_1);
    let file = [hex(HEAD), body.clone()].concat();
    let mut field = [0xAA];
    for edition in [0, 3, 255, 256 + 1, 256 + 2, 1 << 31, (1 << 31) + 1, u32::MAX] {
        // One that fits, none, one too many, one over the number of literals.
        for literals in [vec![7], vec![], vec![7; 2], vec![7; 1_025]] {
            for question in 0..=IS_NOT_NULL + 1 {
                for body in [&body[..], &[], &[3]] {
                    for field in [&mut field[..], &mut []] {
                        let found = ask(body, TINYINT, edition, question, &literals, field);
                        assert_eq!(found, (11, Record::NONE, NO_FAULT), "question {question} in edition {edition}");
                    }
                }
                let mut of_file =
                    |file: &[u8]| ask_file(&[], file, b"s", b"bitmap", TINYINT, edition, question, &literals, &mut field);
                assert_eq!(of_file(&file), (11, Record::NONE, NO_FAULT));
                // Without a body the question isn't looked at.
                assert_eq!(of_file(&[]), (1, Record::NONE, NO_FAULT));
            }
        }
    }
    assert_eq!(field, [0xAA]);
}

#[test]
fn small_bitmaps() {
    let array = hex("3A 30 00 00 01 00 00 00 00 00 02 00 10 00 00 00 00 00 02 00 05 00");
    let run = hex("3B 30 00 00 01 00 00 03 00 01 00 01 00 03 00");
    assert_eq!(bitmap(&[0, 2, 5], &BitmapForm::WithoutRuns), array);
    let runs = ContainerForm::Runs { cuts: Vec::new() };
    assert_eq!(bitmap(&[1, 2, 3, 4], &BitmapForm::WithRuns(vec![runs])), run);
    // Three runs of one row each take more bytes than an array of three.
    assert_eq!(bitmap(&[0, 2, 5], &BitmapForm::Smallest), bitmap(&[0, 2, 5], &BitmapForm::WithoutRuns));

    let file = deletion_file(&[array, run]);
    let mut field = [0xFF, 0xFF];
    assert_eq!(read_deletions(&file, 0, 6, &mut field), (0, 3, NO_FAULT));
    assert_eq!(field, [0x25, 0xFF]);
    assert_eq!(read_deletions(&file, 1, 6, &mut field), (0, 4, NO_FAULT));
    assert_eq!(field, [0x1E, 0xFF]);
    assert_eq!(read_deletions(&file, 1, 4, &mut field), (7, 0, NO_FAULT));
    assert_eq!(field, [0x00, 0xFF]);
    assert_eq!(read_deletions(&file, 2, 6, &mut field), (14, 0, NO_FAULT));
    assert_eq!(read_deletions(&[], 0, 6, &mut field), (1, 0, NO_FAULT));
}

#[test]
fn single_rows() {
    let body = hex("01 00 00 00 01 00 00 00 01 00 07 FF FF FF FF");
    let mut field = [0xFF];
    assert_eq!(ask(&body, TINYINT, FIRST_EDITION, EQUAL, &[7], &mut field), (0, asked(1, 0, 1), NO_FAULT));
    assert_eq!(field, [0x01]);
    let body = hex("01 00 00 00 01 00 00 00 01 00 07 80 00 00 00");
    assert_eq!(audit(&body, TINYINT, &mut field), (7, 0, [1, 0, 0]));
    assert_eq!(field, [0x00]);
}

#[test]
fn events() {
    let cells = ["login", "click", "login", "purchase", "click", "login"];
    let column = Column::strings(&cells.map(Some));
    for version in [1, 2] {
        let body = body_of(&column, &Layout::version(version));
        // Without null rows the editions agree.
        for edition in EDITIONS {
            let mut field = [0xFF];
            let listed = literals(STRING, &["login", "purchase"]);
            assert_eq!(ask(&body, STRING, edition, IN, &listed, &mut field), (0, asked(6, 0, 4), NO_FAULT));
            assert_eq!(field, [0b10_1101]);
            let listed = literals(STRING, &["login"]);
            assert_eq!(ask(&body, STRING, edition, NOT_IN, &listed, &mut field), (0, asked(6, 0, 3), NO_FAULT));
            assert_eq!(field, [0b01_1010]);
        }
    }
}

#[test]
fn zero_rows() {
    for version in [1, 2] {
        let body = body_of(&Column::new(INT, Vec::new()), &Layout::version(version));
        let mut field = [0x5A];
        assert_eq!(audit(&body, INT, &mut field), (0, 0, NO_FAULT));
        for edition in EDITIONS {
            assert_eq!(ask(&body, INT, edition, NOT_IN, &[], &mut field), (0, asked(0, 0, 0), NO_FAULT));
        }
        assert_eq!(field, [0x5A]);
    }
}

#[test]
fn array_up_to_4096_rows() {
    let rows: Vec<u32> = (0..4096).map(|row| 2 * row).collect();
    let stored = bitmap(&rows, &BitmapForm::WithoutRuns);
    assert_eq!(stored.len(), 16 + 2 * 4096);
    let mut field = [0; 1025];
    let file = deletion_file(&[stored]);
    assert_eq!(read_deletions(&file, 0, 8193, &mut field), (0, 4096, NO_FAULT));

    let rows: Vec<u32> = (0..4097).map(|row| 2 * row).collect();
    let stored = bitmap(&rows, &BitmapForm::WithoutRuns);
    assert_eq!(stored.len(), 16 + 8192);
    let file = deletion_file(&[stored]);
    assert_eq!(read_deletions(&file, 0, 8193, &mut field), (0, 4097, NO_FAULT));

    // 4,097 rows as an array: the header's cardinality promises bits.
    let mut stored = hex("3A 30 00 00 01 00 00 00 00 00 00 10 10 00 00 00");
    stored.extend(rows.iter().flat_map(|row| (*row as u16).to_le_bytes()));
    let file = deletion_file(&[stored]);
    assert_eq!(read_deletions(&file, 0, 8193, &mut field), (6, 0, NO_FAULT));
}

#[test]
fn subtraction() {
    let mut first = [0xFF, 0xFF, 0x77];
    assert_eq!(subtract(&mut first, &[0x0F, 0xFF], 12), (0, 4, 8));
    assert_eq!(first, [0xF0, 0xF0, 0x77]);
    assert_eq!(subtract(&mut first, &[0xFF], 12), (10, 0, 0));
    assert_eq!(subtract(&mut first, &[0xFF; 2], 1 << 31), (12, 0, 0));
    assert_eq!(first, [0xF0, 0xF0, 0x77]);
}

/// ABSENT and a refusal of Locate have no counts.
#[test]
fn records_of_the_small_file() {
    let file = [hex(HEAD), hex(VERSION_1)].concat();
    let of_file = |file: &[u8], column: &[u8], field: &mut [u8]| {
        ask_file(&[], file, column, b"bitmap", TINYINT, SECOND_EDITION, NOT_EQUAL, &[7], field)
    };
    let mut field = [0xAA];
    assert_eq!(of_file(&file, b"t", &mut field), (255, Record::NONE, NO_FAULT));
    assert_eq!(of_file(&file[..70], b"s", &mut field), (4, Record::NONE, NO_FAULT));
    assert_eq!(of_file(&file, b"s", &mut []), (10, Record::NONE, NO_FAULT));
    assert_eq!(field, [0xAA]);
    assert_eq!(of_file(&file, b"s", &mut field), (0, asked(3, 1, 1), NO_FAULT));
    assert_eq!(field, [0x02]);
}

/// The events without the rows of the small bitmap, which are login's.
#[test]
fn deletions_of_the_events() {
    let cells = ["login", "click", "login", "purchase", "click", "login"];
    let column = Column::strings(&cells.map(Some));
    let body = body_of(&column, &Layout::version(1));
    let bin = hex("3A 30 00 00 01 00 00 00 00 00 02 00 10 00 00 00 00 00 02 00 05 00");
    let file = deletion_file(&[bin]);
    let mut deleted = [0xFF];
    assert_eq!(read_deletions(&file, 0, 6, &mut deleted), (0, 3, NO_FAULT));
    for (question, values, left, matched, removed) in [
        (EQUAL, &["login"][..], 0x00, 0, 3),
        (NOT_EQUAL, &["login"], 0b01_1010, 3, 0),
        (IN, &["login", "purchase"], 0b00_1000, 1, 3),
        (IS_NULL, &[], 0x00, 0, 0),
        (IS_NOT_NULL, &[], 0b01_1010, 3, 3),
    ] {
        let mut field = [0xFF];
        let (answer, given, _) = ask(&body, STRING, SECOND_EDITION, question, &literals(STRING, values), &mut field);
        assert_eq!((answer, given), (0, asked(6, 0, matched + removed)));
        let record = Record { rows: 6, nulls: 0, deleted: 3, matched };
        assert_eq!(subtract_record(&mut field, &deleted, given), (0, record, removed));
        assert_eq!(field, [left]);
        assert_eq!(scan_without(&[0, 2, 5], &column, SECOND_EDITION, question, values), (vec![left], record));
        // Once more: nothing is left to remove, and deleted counts the same rows.
        assert_eq!(subtract_record(&mut field, &deleted, record), (0, record, 0));
    }
}

#[test]
fn subtraction_with_a_record() {
    // Twelve rows: the upper half of the second byte, and the third, stand for none.
    let given = Record { rows: 12, nulls: 5, deleted: 0, matched: 6 };
    let mut first = [0x3C, 0x53, 0x77];
    let second = [0x0F, 0xFA, 0xFF];
    // Of the second field's rows 0 to 3, 9 and 11 the first has 2, 3 and 9.
    let record = Record { deleted: 6, matched: 3, ..given };
    assert_eq!(subtract_record(&mut first, &second, given), (0, record, 3));
    assert_eq!(first, [0x30, 0x51, 0x77]);
    // Row 8 alone: deleted counts this field's rows and not those of the one before.
    let after = Record { deleted: 1, matched: 2, ..given };
    assert_eq!(subtract_record(&mut first, &[0x00, 0x01], record), (0, after, 1));
    assert_eq!(first, [0x30, 0x50, 0x77]);
    // Row count and null rows come back, the others are counted, whatever they were.
    for number in [0, 1, 7, u64::MAX] {
        let given = Record { rows: 12, nulls: number, deleted: number, matched: number };
        let record = Record { rows: 12, nulls: number, deleted: 0, matched: 2 };
        assert_eq!(subtract_record(&mut first, &[0x00, 0xF0], given), (0, record, 0));
        assert_eq!(first, [0x30, 0x50, 0x77]);
    }
    let none = Record { rows: 0, ..given };
    assert_eq!(subtract_record(&mut [], &[], none), (0, Record { deleted: 0, matched: 0, ..none }, 0));
}

/// LIMIT, then ROOM of either field: no record, and the field as it was.
#[test]
fn refused_subtraction_with_a_record() {
    let mut field = [0xF0, 0xF0];
    let of = |rows: u64| Record { rows, nulls: 1, deleted: 2, matched: 3 };
    for rows in [1 << 31, 1 << 32, u64::MAX] {
        assert_eq!(subtract_record(&mut field, &[0xFF; 2], of(rows)), (12, Record::NONE, 0));
        assert_eq!(subtract_record(&mut [], &[], of(rows)), (12, Record::NONE, 0));
    }
    for rows in [17, 24, (1 << 31) - 1] {
        assert_eq!(subtract_record(&mut field, &[0xFF; 2], of(rows)), (10, Record::NONE, 0));
    }
    assert_eq!(subtract_record(&mut field, &[0xFF], of(9)), (10, Record::NONE, 0));
    assert_eq!(subtract_record(&mut field[..1], &[0xFF; 2], of(9)), (10, Record::NONE, 0));
    assert_eq!(field, [0xF0, 0xF0]);
}

/// The small body with one byte changed: the entry, the container, the row.
#[test]
fn faults_of_the_small_body() {
    for (at, byte, answer, fault) in [
        (4, 4, 9, [0, 0, 3]),
        (4, 2, 7, [0, 0, 0]),
        (10, 0, 6, [0, 0, 0]),
        (15, 0, 6, [1, 0, 0]),
        (18, 0xFC, 7, [1, 0, 0]),
        (18, 0xFD, 8, [1, 0, 0]),
        (20, 0, 6, [2, 0, 0]),
        (23, 0xFC, 7, [2, 0, 0]),
        (23, 0xFF, 8, [2, 0, 0]),
        (19, 7, 5, NO_FAULT),
    ] {
        let mut body = hex(VERSION_1);
        body[at] = byte;
        assert_eq!(audit(&body, TINYINT, &mut [0]), (answer, 0, fault), "byte {at}");
        for edition in EDITIONS {
            let found = ask(&body, TINYINT, edition, NOT_EQUAL, &[7], &mut [0]);
            assert_eq!(found, (answer, Record::NONE, fault), "byte {at}");
        }
    }
}

/// Rows 5 and 65,542 as two arrays without offsets, changed, cut and made longer: the container.
#[test]
fn faults_of_two_containers() {
    let sound = "3B 30 01 00 00 00 00 00 00 01 00 00 00 05 00 06 00";
    for (text, container) in [
        ("", 0),
        ("3B 30 01", 0),
        ("3C 30 01 00 00 00 00 00 00 01 00 00 00 05 00 06 00", 0),
        ("3B 30 01 00 04 00 00 00 00 01 00 00 00 05 00 06 00", 0),
        ("3B 30 01 00 00 00 00 00 00 01 00 00", 0),
        ("3B 30 01 00 00 00 00 00 00 01 00 00 00", 0),
        ("3B 30 01 00 00 00 00 00 00 01 00 00 00 05", 0),
        ("3B 30 01 00 00 00 00 00 00 01 00 00 00 05 00", 1),
        ("3B 30 01 00 00 00 00 00 00 01 00 00 00 05 00 06", 1),
        ("3B 30 01 00 00 00 00 00 00 00 00 00 00 05 00 06 00", 1),
        ("3B 30 01 00 00 01 00 00 00 01 00 00 00 05 00 06 00", 1),
        ("3B 30 01 00 00 00 00 00 00 01 00 01 00 05 00 06 00", 1),
        ("3B 30 01 00 00 00 00 01 00 01 00 00 00 05 00 05 00", 0),
        ("3B 30 01 00 00 00 00 01 00 01 00 00 00 05 00 06 00", 1),
        ("3B 30 01 00 01 00 00 00 00 01 00 00 00 00 00 06 00", 0),
        ("3B 30 01 00 00 00 00 00 00 01 00 00 00 05 00 06 00 00", 2),
        ("3A 30 00 00 00 00 00 00 00", 0),
    ] {
        let file = deletion_file(&[hex(text)]);
        assert_eq!(read_deletions(&file, 0, 65_543, &mut [0; 8_193]), (6, 0, [0, container, 0]), "{text}");
    }
    let file = deletion_file(&[hex(sound)]);
    assert_eq!(read_deletions(&file, 0, 65_543, &mut [0; 8_193]), (0, 2, NO_FAULT));
    assert_eq!(read_deletions(&file, 0, 65_542, &mut [0; 8_193]), (7, 0, NO_FAULT));
}

/// Where the two entries of the small body's directory start: behind 18 bytes and the block number, and a value and an offset later.
const TABLE: [u32; 2] = [22, 27];

#[test]
fn small_body_is_opened() {
    let (body, mut field, mut table) = (hex(VERSION_2), [0xA5; 2], [99; 3]);
    assert_eq!(open(&body, TINYINT, &mut field, &mut table), (0, 3, 2, NO_FAULT));
    assert_eq!((field, table), ([0, 0xA5], [TABLE[0], TABLE[1], 99]));
    // Too short a table, and too short a field.
    let (mut field, mut table) = ([0xA5], [99; 2]);
    assert_eq!(open(&body, TINYINT, &mut field, &mut table[..1]), (10, 0, 0, NO_FAULT));
    assert_eq!(open(&body, TINYINT, &mut [], &mut table), (10, 0, 0, NO_FAULT));
    assert_eq!(open(&hex(VERSION_1), TINYINT, &mut field, &mut table), (3, 0, 0, NO_FAULT));
    assert_eq!(open(&[], TINYINT, &mut field, &mut table), (1, 0, 0, NO_FAULT));
    assert_eq!(open(&[], STRING + 1, &mut field, &mut table), (11, 0, 0, NO_FAULT));
    assert_eq!((field, table), ([0xA5], [99; 2]));
    // 9 at row 0, where 7 is: the second value is refused once there was room.
    let mut twice = body;
    let offset = twice.len() - 5;
    twice[offset] = 0xFF;
    assert_eq!(open(&twice, TINYINT, &mut field, &mut table), (8, 0, 0, [2, 0, 0]));
    assert_eq!((field, table), ([0], [99; 2]));
}

/// The directory has 7 and 9, each the only value of its block. The second is compared first.
#[test]
fn values_of_the_small_body_are_looked_up() {
    for (literal, matched, rows, compared) in
        [(6, 0, 0, 2), (7, 1, 0b001, 3), (8, 0, 0, 3), (9, 1, 0b010, 2), (10, 0, 0, 2), (0xFF, 0, 0, 2)]
    {
        for edition in EDITIONS {
            let mut field = [0xA5; 2];
            let found = look_up(&hex(VERSION_2), TINYINT, edition, &[literal], &TABLE, &mut field);
            assert_eq!(found, (0, asked(3, 1, matched), compared, NO_FAULT), "{literal}");
            assert_eq!(field, [rows, 0xA5], "{literal}");
        }
    }
}

/// What the lookup doesn't read may be wrong; what it reads is refused where it stands, the entry being that within its block.
#[test]
fn small_body_is_looked_up_without_an_audit() {
    let body = hex(VERSION_2);
    let looked_up = |body: &[u8], literals: &[u8], table: &[u32]| {
        let mut field = [0xA5; 2];
        let (answer, record, compared, fault) = look_up(body, TINYINT, FIRST_EDITION, literals, table, &mut field);
        if answer != 0 {
            assert_eq!((record, compared), (Record::NONE, 0));
        }
        (answer, field[0], fault)
    };
    let with = |at: usize, bytes: &[u8]| {
        let mut body = body.clone();
        body[at..at + bytes.len()].copy_from_slice(bytes);
        body
    };
    let untouched = |answer: u8| (answer, 0xA5, NO_FAULT);
    assert_eq!(looked_up(&body, &[7, 9], &TABLE), untouched(11));
    assert_eq!(looked_up(&body, &[], &TABLE), untouched(11));
    assert_eq!(looked_up(&hex(VERSION_1), &[7], &TABLE), untouched(3));
    assert_eq!(looked_up(&body, &[7], &TABLE[..1]), untouched(10));
    // The last entry is read first, and one behind the body is SHORT.
    assert_eq!(looked_up(&body, &[7], &[22, 58]), untouched(1));
    assert_eq!(looked_up(&body, &[7], &[22, u32::MAX]), untouched(1));
    // The body offset, 26, is at most what stands behind it.
    assert_eq!(looked_up(&with(35, &[27]), &[7], &TABLE), untouched(5));
    assert_eq!(looked_up(&with(32, &[0xFF]), &[7], &TABLE), untouched(5));
    // The entry number of the first block, which 9 isn't looked for in.
    assert_eq!(looked_up(&with(36, &[0x80]), &[7], &TABLE), untouched(5));
    assert_eq!(looked_up(&with(39, &[0]), &[7], &TABLE), untouched(5));
    assert_eq!(looked_up(&with(39, &[0]), &[9], &TABLE), (0, 0b010, NO_FAULT));
    // Row 3 of three, of null and of the second block's only entry.
    assert_eq!(looked_up(&with(13, &[0xFC]), &[8], &TABLE), (7, 0, [0, 0, 0]));
    assert_eq!(looked_up(&with(57, &[0xFC]), &[9], &TABLE), (7, 0, [1, 0, 0]));
    assert_eq!(looked_up(&with(57, &[0xFC]), &[7], &TABLE), (0, 0b001, NO_FAULT));
    // A bitmap where the body has no bytes.
    assert_eq!(looked_up(&with(54, &[0, 0, 0, 0]), &[9], &TABLE), (6, 0, [1, 0, 0]));
    // Row 2, which null has too, is no fault here.
    assert_eq!(looked_up(&with(57, &[0xFD]), &[9], &TABLE), (0, 0b100, NO_FAULT));
}

/// An entry of TINYINT takes 9 bytes, and the entry number 4.
#[test]
fn blocks_are_cut_by_bytes() {
    let groups = Column::new(TINYINT, (1..=5).map(|value| Some(vec![value])).collect()).groups();
    for (bytes, blocks) in [(0, 5), (13, 5), (21, 5), (22, 3), (30, 3), (31, 2), (40, 2), (48, 2), (49, 1), (1_000, 1)] {
        let layout = Layout::version(2).with_blocks_within(bytes, &groups);
        let (mut field, mut table) = ([0], [0; 5]);
        let found = open(&body(&groups, &layout), TINYINT, &mut field, &mut table);
        assert_eq!(found, (0, 5, blocks, NO_FAULT), "{bytes} bytes");
    }
    // Strings of 2, 8 and 1 bytes: entries of 14, 20 and 13.
    let groups = Column::strings(&[Some("aa"), Some("bbbbbbbb"), Some("c")]).groups();
    let blocks = |bytes| Layout::version(2).with_blocks_within(bytes, &groups).blocks;
    assert_eq!([17, 36, 37, 38, 50, 51].map(blocks), [vec![1, 1, 1], vec![1, 1, 1], vec![1, 2], vec![2, 1], vec![2, 1], vec![3]]);
}

/// A 64-bit bin of the small bitmaps: rows 0, 2, 5, and 2^32 + 1 to 2^32 + 4 as a run.
const BIN_64: &str = "D1 D3 39 64 02 00 00 00 00 00 00 00 \
    00 00 00 00 3A 30 00 00 01 00 00 00 00 00 02 00 10 00 00 00 00 00 02 00 05 00 \
    01 00 00 00 3B 30 00 00 01 00 00 03 00 01 00 01 00 03 00";
const SECOND_BITMAP: u64 = 1 << 32;
const ROWS_END: u64 = 1 << 63;

#[test]
fn small_bin_of_64_bits() {
    let rows: Vec<u64> = [0, 2, 5].into_iter().chain(SECOND_BITMAP + 1..=SECOND_BITMAP + 4).collect();
    assert_eq!(bin_64(&rows, &BitmapForm::Smallest), hex(BIN_64));
    let file = file_of_bins(&[hex(BIN_64), bin_32(&[0, 2, 5], &BitmapForm::WithoutRuns)]);
    for (bin, first, rows, field, deleted) in [
        (0, 0, 6, [0b10_0101, 0xAA], 3),
        (0, 0, 5, [0b101, 0xAA], 2),
        (0, 2, 3, [0b001, 0xAA], 1),
        (0, 1, 9, [0b1_0010, 0], 2),
        (0, 6, 8, [0, 0xAA], 0),
        (0, SECOND_BITMAP, 6, [0b01_1110, 0xAA], 4),
        (0, SECOND_BITMAP - 3, 8, [0b1111_0000, 0xAA], 4),
        (0, SECOND_BITMAP - 6, 16, [0b1000_0000, 0b111], 4),
        (0, SECOND_BITMAP + 3, 1, [1, 0xAA], 1),
        (0, ROWS_END - 8, 8, [0, 0xAA], 0),
        (0, ROWS_END, 0, [0xAA, 0xAA], 0),
        (0, 2, 0, [0xAA, 0xAA], 0),
        (1, 0, 6, [0b10_0101, 0xAA], 3),
        // Where the call without a window says RANGE, the rows below the end.
        (1, 0, 5, [0b101, 0xAA], 2),
        (1, 2, 6, [0b1001, 0xAA], 2),
        (1, SECOND_BITMAP, 6, [0, 0xAA], 0),
    ] {
        let mut found = [0xAA; 2];
        assert_eq!(read_window(&file, bin, first, rows, &mut found), (0, deleted, NO_FAULT), "{rows} rows from {first} on");
        assert_eq!(found, field, "{rows} rows from {first} on");
    }
    let mut field = [0xAA];
    assert_eq!(read_deletions(&file, 0, 6, &mut field), (2, 0, NO_FAULT));
    assert_eq!(field, [0]);
    assert_eq!(read_deletions(&file, 1, 5, &mut field), (7, 0, NO_FAULT));
}

/// LIMIT for the file, the length, and an end past 2^63, then ROOM: the field as it was.
#[test]
fn windows_past_a_limit() {
    let file = file_of_bins(&[hex(BIN_64)]);
    let mut field = [0xAA];
    for (first, rows, answer) in [
        (0, 1 << 31, 12),
        (0, u64::MAX, 12),
        (ROWS_END, 1, 12),
        (ROWS_END - 7, 8, 12),
        (ROWS_END + 1, 0, 12),
        (u64::MAX, 0, 12),
        (u64::MAX, 1, 12),
        (u64::MAX - 6, 8, 12),
        (0, (1 << 31) - 1, 10),
        (ROWS_END - 9, 9, 10),
    ] {
        for file in [&file[..], &[]] {
            assert_eq!(read_window(file, 0, first, rows, &mut field), (answer, 0, NO_FAULT), "{rows} rows from {first} on");
        }
    }
    assert_eq!(field, [0xAA]);
    assert_eq!(read_window(&[], 0, 0, 8, &mut field), (1, 0, NO_FAULT));
    assert_eq!(field, [0]);
}

/// Whatever is wrong behind the magic is the first container's fault; no bitmap, and bitmaps of no rows, aren't wrong.
#[test]
fn faults_of_a_bin_of_64_bits() {
    for (text, answer) in [
        ("D1 D3 39 64 00 00 00 00 00 00 00 00", 0),
        ("D1 D3 39 64 01 00 00 00 00 00 00 00 FF FF FF 7F 3A 30 00 00 00 00 00 00", 0),
        ("D1 D3 39 64 02 00 00 00 00 00 00 00 00 00 00 00 3A 30 00 00 00 00 00 00 01 00 00 00 3A 30 00 00 00 00 00 00", 0),
        ("64 39 D3 D1 00 00 00 00 00 00 00 00", 2),
        ("D0 F2 43 5E 3A 30 00 00 00 00 00 00", 2),
        ("5E 43 F2 D0 3A 30 00 00 00 00 00 00", 0),
        ("D1 D3 39 64", 6),
        ("D1 D3 39 64 00 00 00 00 00 00 00", 6),
        ("D1 D3 39 64 00 00 00 00 00 00 00 00 00", 6),
        ("D1 D3 39 64 FF FF FF FF FF FF FF FF", 6),
        ("D1 D3 39 64 01 00 00 00 00 00 00 00 00 00 00 00", 6),
        ("D1 D3 39 64 01 00 00 00 00 00 00 00 00 00 00 80 3A 30 00 00 00 00 00 00", 6),
        ("D1 D3 39 64 01 00 00 00 00 00 00 00 00 00 00 00 3A 30 00 00 00 00 00 00 00", 6),
        ("D1 D3 39 64 02 00 00 00 00 00 00 00 00 00 00 00 3A 30 00 00 00 00 00 00", 6),
        ("D1 D3 39 64 02 00 00 00 00 00 00 00 01 00 00 00 3A 30 00 00 00 00 00 00 01 00 00 00 3A 30 00 00 00 00 00 00", 6),
        ("D1 D3 39 64 02 00 00 00 00 00 00 00 01 00 00 00 3A 30 00 00 00 00 00 00 00 00 00 00 3A 30 00 00 00 00 00 00", 6),
        // The second container is broken, and the bitmap's other bytes are right.
        ("D1 D3 39 64 01 00 00 00 00 00 00 00 00 00 00 00 3B 30 01 00 00 00 00 00 00 00 00 00 00 05 00 06 00", 6),
    ] {
        let mut field = [0xAA; 2];
        assert_eq!(read_window(&file_of_bins(&[hex(text)]), 0, 3, 8, &mut field), (answer, 0, NO_FAULT), "{text}");
        assert_eq!(field, [0, 0xAA], "{text}");
    }
    let mut file = file_of_bins(&[hex(BIN_64)]);
    *file.last_mut().unwrap() ^= 1;
    assert_eq!(read_window(&file, 0, 0, 8, &mut [0]), (13, 0, NO_FAULT));
    assert_eq!(read_window(&file, 1, 0, 8, &mut [0]), (14, 0, NO_FAULT));
    // A 32-bit bin names the container.
    let second = hex("5E 43 F2 D0 3B 30 01 00 00 00 00 00 00 00 00 00 00 05 00 06 00");
    assert_eq!(read_window(&file_of_bins(&[second]), 0, 3, 8, &mut [0]), (6, 0, [0, 1, 0]));
}

#[test]
fn bitmaps_of_no_rows_between_others() {
    let mut bitmaps = indexed_bitmaps(&[5, 7 << 32, ROWS_END - 1], &BitmapForm::WithoutRuns);
    assert_eq!(bitmaps.iter().map(|bitmap| bitmap.index).collect::<Vec<_>>(), [0, 7, (1 << 31) - 1]);
    bitmaps.splice(1..1, [IndexedBitmap::empty(1), IndexedBitmap::empty(6)]);
    let file = file_of_bins(&[bin_64_traced(&bitmaps).bytes]);
    for (first, bits) in [(0, 0b10_0000), (1 << 32, 0), (7 << 32, 1), (ROWS_END - 8, 0x80)] {
        let mut field = [0xAA];
        assert_eq!(read_window(&file, 0, first, 8, &mut field), (0, u64::from(bits != 0), NO_FAULT));
        assert_eq!(field, [bits]);
    }
}
