//! Names that differ in standard and modified UTF-8, asked bytes that are no name, and stored bytes that no name has: fixed cases whose
//! answers are known.

use std::ops::RangeInclusive;

use super::*;
use reference::names::{modified, IMPROPER};
use reference::random::{EDGES, NOT_UTF8};

const ACCEPTED: u8 = 0;
const SHORT: u8 = 1;
const MAGIC: u8 = 2;
const VERSION: u8 = 3;
const HEAD: u8 = 4;
const ABSENT: u8 = 255;

/// Where the fields with which a file begins stand, magic, version and head length, and where they end.
const MAGIC_AT: usize = 0;
const VERSION_AT: usize = 8;
const HEAD_LENGTH_AT: usize = 12;
const FIRST_FIELDS: usize = 16;

/// The sign of a field whose first byte it is in.
const TOP_BIT: u8 = 0x80;

/// The body of one row.
fn seven() -> Vec<u8> {
    body_of(&Column::new(TINYINT, vec![Some(vec![7])]), &Layout::version(1))
}

/// A file of columns that all have the same kinds, names as they are stored. The asked kind of the asked column has the body of one
/// row, each other one bytes that are no body.
fn file_of(columns: &[&[u8]], kinds: &[&[u8]], asked: (&[u8], &[u8])) -> Vec<u8> {
    let index = |column: &[u8], kind: &[u8]| {
        let body = if (column, kind) == asked { seven() } else { vec![0; 3] };
        Index { kind: kind.to_vec(), content: Content::Body(body) }
    };
    let columns: Vec<IndexedColumn> = columns
        .iter()
        .map(|name| IndexedColumn { name: name.to_vec(), indexes: kinds.iter().map(|kind| index(name, kind)).collect() })
        .collect();
    index_file_traced(&columns, &FileLayout::default()).bytes
}

/// Locate and Ask of a file give this answer; found is the body of one row.
#[track_caller]
fn answers(both: &mut Comparison, at: Where, answer: u8) {
    let (located, start, length) = both.locate(at.embedded, at.file, at.column, at.kind);
    let describe = || format!("column {}, kind {} of {}", hex(at.column), hex(at.kind), hex(at.file));
    assert_eq!(located, answer, "Locate, {}", describe());
    let asked = Asked { ty: TINYINT, edition: SECOND_EDITION, question: EQUAL, literals: &[7] };
    let found = both.ask_file(at, asked, &[0xA5]);
    let expected = match answer {
        ACCEPTED => {
            assert_eq!(at.file[start as usize..][..length as usize], seven(), "the part, {}", describe());
            (ACCEPTED, Record { rows: 1, nulls: 0, deleted: 0, matched: 1 }, vec![1], NO_FAULT)
        }
        _ => (answer, Record::NONE, vec![0xA5], NO_FAULT),
    };
    assert_eq!(found, expected, "Ask file, {}", describe());
}

/// Unicode's table of well-formed byte sequences, Table 3-7.
const WELL_FORMED: [&[RangeInclusive<u8>]; 9] = [
    &[0x00..=0x7F],
    &[0xC2..=0xDF, 0x80..=0xBF],
    &[0xE0..=0xE0, 0xA0..=0xBF, 0x80..=0xBF],
    &[0xE1..=0xEC, 0x80..=0xBF, 0x80..=0xBF],
    &[0xED..=0xED, 0x80..=0x9F, 0x80..=0xBF],
    &[0xEE..=0xEF, 0x80..=0xBF, 0x80..=0xBF],
    &[0xF0..=0xF0, 0x90..=0xBF, 0x80..=0xBF, 0x80..=0xBF],
    &[0xF1..=0xF3, 0x80..=0xBF, 0x80..=0xBF, 0x80..=0xBF],
    &[0xF4..=0xF4, 0x80..=0x8F, 0x80..=0xBF, 0x80..=0xBF],
];

fn is_standard(bytes: &[u8]) -> bool {
    let begins =
        |row: &[RangeInclusive<u8>]| bytes.len() >= row.len() && row.iter().zip(bytes).all(|(range, byte)| range.contains(byte));
    bytes.is_empty() || WELL_FORMED.iter().find(|row| begins(row)).is_some_and(|row| is_standard(&bytes[row.len()..]))
}

pub fn all(both: &mut Comparison) {
    pairs_of_characters(both);
    every_character(both);
    short_byte_sequences(both);
    no_utf8(both);
    listed_improperly(both);
    one_bit_apart(both);
    longest(both);
}

/// Names of two characters each: found by their standard form alone, and in modified form alone.
fn pairs_of_characters(both: &mut Comparison) {
    for (first, second) in EDGES.into_iter().flat_map(|first| EDGES.map(|second| (first, second))) {
        let (column, kind) = (format!("{first}{second}"), second.to_string());
        let (stored_column, stored_kind) = (modified(&column), modified(&kind));
        let file = index_file(&[(&column, &kind, &seven())]);
        let (asked_column, asked_kind) = (column.as_bytes(), kind.as_bytes());
        answers(both, Where::in_file(&file, asked_column, asked_kind), ACCEPTED);
        // A caller's modified form is overlong or has surrogates, where it isn't the standard one.
        let answer = |stored: &[u8], asked: &[u8], other: u8| if stored == asked { ACCEPTED } else { other };
        let by_column = answer(&stored_column, asked_column, LITERAL);
        answers(both, Where::in_file(&file, &stored_column, asked_kind), by_column);
        let by_kind = answer(&stored_kind, asked_kind, LITERAL);
        answers(both, Where::in_file(&file, asked_column, &stored_kind), by_kind);
        // And a file's standard form is no name.
        let file = file_of(&[asked_column], &[&stored_kind], (asked_column, &stored_kind));
        let by_column = answer(&stored_column, asked_column, ABSENT);
        answers(both, Where::in_file(&file, asked_column, asked_kind), by_column);
        let file = file_of(&[&stored_column], &[asked_kind], (&stored_column, asked_kind));
        let by_kind = answer(&stored_kind, asked_kind, ABSENT);
        answers(both, Where::in_file(&file, asked_column, asked_kind), by_kind);
    }
}

/// Every character there is, many in each name.
fn every_character(both: &mut Comparison) {
    const IN_A_NAME: usize = 4_096;
    let all: Vec<char> = ('\0'..=char::MAX).collect();
    let body = seven();
    for (i, characters) in all.chunks(IN_A_NAME).enumerate() {
        let name: String = characters.iter().collect();
        let asked = if i % 2 == 0 { (&name[..], "bitmap") } else { ("s", &name[..]) };
        let file = index_file(&[(asked.0, asked.1, &body)]);
        answers(both, Where::in_file(&file, asked.0.as_bytes(), asked.1.as_bytes()), ACCEPTED);
    }
}

/// All sequences of one and two bytes, and of three and four at the edges of Unicode's table: LITERAL where they don't keep to it.
fn short_byte_sequences(both: &mut Comparison) {
    const EDGE_BYTES: [u8; 26] = [
        0x00, 0x7F, 0x80, 0x8F, 0x90, 0x9F, 0xA0, 0xBF, 0xC0, 0xC1, 0xC2, 0xDF, 0xE0, 0xE1, 0xEC, 0xED, 0xEE, 0xEF, 0xF0, 0xF1,
        0xF3, 0xF4, 0xF5, 0xF7, 0xF8, 0xFF,
    ];
    const LAST_BYTES: [u8; 4] = [0x7F, 0x80, 0xBF, 0xC0];
    let file = index_file(&[("s", "bitmap", &seven())]);
    let mut check = |name: &[u8], as_kind: bool| {
        let is_standard = is_standard(name);
        let answer = match name {
            _ if !is_standard => LITERAL,
            b"s" => ACCEPTED,
            _ => ABSENT,
        };
        assert_eq!(both.locate(&[], &file, name, b"bitmap").0, answer, "{}", hex(name));
        if as_kind {
            // No kind is called so.
            let answer = if is_standard { ABSENT } else { LITERAL };
            assert_eq!(both.locate(&[], &file, b"s", name).0, answer, "{}", hex(name));
        }
    };
    check(&[], true);
    for first in 0..=u8::MAX {
        check(&[first], true);
        (0..=u8::MAX).for_each(|second| check(&[first, second], false));
    }
    for (first, second) in EDGE_BYTES.into_iter().flat_map(|first| EDGE_BYTES.map(|second| (first, second))) {
        check(&[first, second], true);
        EDGE_BYTES.into_iter().for_each(|third| check(&[first, second, third], true));
        for third in LAST_BYTES {
            LAST_BYTES.into_iter().for_each(|fourth| check(&[first, second, third, fourth], true));
        }
    }
}

/// Whatever is wrong with the file, a name that isn't standard UTF-8 goes before it: in front of a name, inside and behind.
fn no_utf8(both: &mut Comparison) {
    let sound = index_file(&[("s", "bitmap", &seven())]);
    let changed = |at: usize| {
        let mut file = sound.clone();
        file[at] ^= TOP_BIT;
        file
    };
    let (magic, version, negative_length) = (changed(MAGIC_AT), changed(VERSION_AT), changed(HEAD_LENGTH_AT));
    let twice = file_of(&[b"s", b"s"], &[b"bitmap"], (b"s", b"bitmap"));
    let none = index_file(&[]);
    let files: [(&[u8], u8); 10] = [
        (&sound, ACCEPTED),
        (&[], SHORT),
        (&sound[..FIRST_FIELDS - 1], SHORT),
        (&magic, MAGIC),
        (&magic[..FIRST_FIELDS], MAGIC),
        (&version, VERSION),
        (&sound[..FIRST_FIELDS], HEAD),
        (&negative_length, HEAD),
        (&twice, HEAD),
        (&none, ABSENT),
    ];
    for (file, answer) in files {
        answers(both, Where::small(file), answer);
        for (wrong, around) in NOT_UTF8.into_iter().flat_map(|wrong| ["", "s", "水", "🔥\0"].map(|around| (wrong, around))) {
            let around = around.as_bytes();
            for name in [[wrong, around].concat(), [around, wrong].concat(), [around, wrong, around].concat()] {
                answers(both, Where { column: &name, ..Where::small(file) }, LITERAL);
                answers(both, Where { kind: &name, ..Where::small(file) }, LITERAL);
                // The kind of a column that isn't listed.
                answers(both, Where::in_file(file, b"t", &name), LITERAL);
                answers(both, Where::in_file(file, &name, &name), LITERAL);
            }
        }
    }
}

/// Each improper form of a name, in its place, beside it, and twice: it isn't found, isn't in the way, and is no second listing.
fn listed_improperly(both: &mut Comparison) {
    let other = b"state";
    for name in ["\0", "🔥", "\u{10000}", "\u{10FFFF}", "a\0b", "é🔥水", "\0🔥", "🔥🔥", "🔥\0🔥"] {
        let (asked, stored) = (name.as_bytes(), &modified(name)[..]);
        for improper in IMPROPER.iter().filter_map(|form| form.of(name)) {
            let (alone, beside, twice) = ([&improper[..]], [&improper[..], stored, &improper], [stored, &improper, stored]);
            for (listed, answer) in [(&alone[..], ABSENT), (&beside, ACCEPTED), (&twice, HEAD)] {
                let file = file_of(listed, &[other], (stored, other));
                answers(both, Where::in_file(&file, asked, other), answer);
                let file = file_of(&[other], listed, (other, stored));
                answers(both, Where::in_file(&file, other, asked), answer);
            }
            let file = file_of(&beside, &beside, (stored, stored));
            answers(both, Where::in_file(&file, asked, asked), ACCEPTED);
            // The asked kind in a column that isn't the asked one.
            let file = file_of(&alone, &[stored], (stored, stored));
            answers(both, Where::in_file(&file, asked, asked), ABSENT);
        }
    }
}

/// Each bit of a stored name, and of an asked one, and each cut of it.
fn one_bit_apart(both: &mut Comparison) {
    let name = "a\0é水🔥\u{10FFFF}";
    let stored = modified(name);
    let changed = |bytes: &[u8]| {
        let mut all: Vec<Vec<u8>> = (0..bytes.len()).map(|end| bytes[..end].to_vec()).collect();
        for bit in 0..8 * bytes.len() {
            let mut flipped = bytes.to_vec();
            flipped[bit / 8] ^= 1 << (bit % 8);
            all.push(flipped);
        }
        all
    };
    let asked = name.as_bytes();
    for other in changed(&stored) {
        let file = file_of(&[&other], &[&stored], (&stored, &stored));
        answers(both, Where::in_file(&file, asked, asked), ABSENT);
        let file = file_of(&[&stored], &[&other], (&stored, &stored));
        answers(both, Where::in_file(&file, asked, asked), ABSENT);
    }
    let file = file_of(&[&stored], &[&stored], (&stored, &stored));
    answers(both, Where::in_file(&file, asked, asked), ACCEPTED);
    for other in changed(asked) {
        let answer = if is_standard(&other) { ABSENT } else { LITERAL };
        answers(both, Where::in_file(&file, &other, asked), answer);
        answers(both, Where::in_file(&file, asked, &other), answer);
    }
}

/// 65,535 bytes are counted in modified form: names of each kind of character at the limit and past it.
fn longest(both: &mut Comparison) {
    const MOST: usize = 65_535;
    let body = seven();
    for (character, width) in [("n", 1), ("\0", 2), ("é", 2), ("水", 3), ("🔥", 6)] {
        let repeated = character.repeat(MOST / width);
        let most = format!("{repeated}{}", "n".repeat(MOST % width));
        let less = most.strip_suffix('n').or(most.strip_suffix(character)).expect("its last character").to_string();
        for name in [&most, &less] {
            let file = index_file(&[(name, name, &body)]);
            answers(both, Where::in_file(&file, name.as_bytes(), name.as_bytes()), ACCEPTED);
            answers(both, Where::in_file(&file, name.as_bytes(), b"bitmap"), ABSENT);
            answers(both, Where::in_file(&file, b"s", name.as_bytes()), ABSENT);
        }
        let file = index_file(&[(&most, &most, &body)]);
        // One byte more, and one character more; the file is then not looked at.
        for more in ["n", character] {
            for name in [format!("{most}{more}"), format!("{more}{most}")] {
                answers(both, Where::in_file(&file, name.as_bytes(), most.as_bytes()), LITERAL);
                answers(both, Where::in_file(&file, most.as_bytes(), name.as_bytes()), LITERAL);
                answers(both, Where::in_file(&[], name.as_bytes(), name.as_bytes()), LITERAL);
            }
        }
        // As many characters as the longest name has bytes: too many, but for those of one byte.
        let longer = character.repeat(MOST);
        answers(both, Where::in_file(&file, longer.as_bytes(), most.as_bytes()), if width == 1 { ACCEPTED } else { LITERAL });
        // Too many bytes, and the last one begins a character that is cut off.
        let cut = [longer.as_bytes(), &[0xC2]].concat();
        answers(both, Where::in_file(&file, most.as_bytes(), &cut), LITERAL);
    }
}
