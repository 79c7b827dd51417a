//! Names of columns and kinds: asked for in standard UTF-8, compared with what Java's `DataOutputStream.writeUTF` stores.
//!
//! The bytes that it stored are in tests/java/stored-names. Where there is a Java that runs source files (11 or newer), it runs
//! tests/java/Names.java, which stores the names anew, and every character besides; the test says which it was. What is stored is
//! compared with what the reference's encoder says, on which the differential test relies.

mod support;

use std::fs::{self, File};
use std::path::{Path, PathBuf};
use std::process::{Command, Stdio};
use std::str;
use std::time::Instant;

use poddurance::raw::{self, Fault, Record};
use poddurance::Refusal;
use reference::names::modified;
use reference::random::{Random, EDGES, NOT_UTF8};
use reference::writer::{index_file_traced, Content, FileLayout, Index, IndexedColumn};
use support::{hex, say, Lender};

const SHORT: u8 = 1;
const MAGIC: u8 = 2;
const VERSION: u8 = 3;
const HEAD: u8 = 4;
const LITERAL: u8 = 11;

/// The most bytes of a stored name, and of a stored character.
const MOST: usize = 65_535;
const MOST_OF_A_CHARACTER: usize = 6;

const BITMAP: &[u8] = b"bitmap";

/// TINYINT 7, 9, null.
const SMALL: [u8; 24] = [1, 0, 0, 0, 3, 0, 0, 0, 2, 1, 255, 255, 255, 253, 7, 255, 255, 255, 255, 9, 255, 255, 255, 254];

/// An index file with these columns as they are stored, each with indexes of these kinds, all of them with the small body.
fn index_file(columns: &[(&[u8], &[&[u8]])]) -> Vec<u8> {
    let index = |kind: &&[u8]| Index { kind: kind.to_vec(), content: Content::Body(SMALL.to_vec()) };
    let column =
        |(name, kinds): &(&[u8], &[&[u8]])| IndexedColumn { name: name.to_vec(), indexes: kinds.iter().map(index).collect() };
    index_file_traced(&columns.iter().map(column).collect::<Vec<_>>(), &FileLayout::default()).bytes
}

/// Where the fields with which a file begins stand, and the first column's name: behind column number and its own length.
const MAGIC_AT: usize = 0;
const VERSION_AT: usize = 8;
const HEAD_LENGTH_AT: usize = 12;
const COLUMN_NUMBER_AT: usize = 16;
const FIRST_NAME: usize = COLUMN_NUMBER_AT + 4 + 2;

/// The places of the bodies in such a file, which lie one behind another at its end.
fn place(file: &[u8], number: usize, of: usize) -> (u8, u64, u64) {
    (raw::ACCEPTED, (file.len() - (of - number) * SMALL.len()) as u64, SMALL.len() as u64)
}

/// Names of no character, of one, of two and of several, of the most bytes that can be stored, and of more.
fn names() -> Vec<String> {
    let mut names =
        ["", "state", "bitmap", "pump 🔥", "a\0b", "Füllstand 水位", "🔥\0🔥\0é", "\\xF0", "c0 80"].map(String::from).to_vec();
    names.extend(EDGES.map(String::from));
    names.extend(EDGES.iter().flat_map(|first| EDGES.map(|second| String::from_iter([*first, second]))));
    names.push(EDGES.iter().collect());
    names.push(EDGES.iter().rev().collect());
    names.extend(longest());
    names.extend(too_long());
    names
}

/// Names of characters of one, two and six bytes that take the most bytes.
fn longest() -> [String; 3] {
    ["a".repeat(MOST), "\0".repeat(MOST / 2) + "a", "\u{10000}".repeat(MOST / MOST_OF_A_CHARACTER) + "aaa"]
}

/// Names that take one byte more, and those that have one character more than fit.
fn too_long() -> Vec<String> {
    let mut names = longest().map(|name| name + "a").to_vec();
    for (character, width) in [("\0", 2), ("\u{800}", 3), ("\u{10FFFF}", MOST_OF_A_CHARACTER)] {
        names.push(character.repeat(MOST / width + 1));
    }
    names
}

/// What Java answers for one name: the stored bytes, none if it refused the name.
type Stored = Option<Vec<u8>>;

/// The names that the Java program wrote.
fn read(mut written: &[u8]) -> Vec<Stored> {
    let mut names = Vec::new();
    while let [was_stored, rest @ ..] = written {
        written = rest;
        names.push((*was_stored == 1).then(|| {
            let (length, rest) = written.split_first_chunk().expect("two bytes of length");
            let (name, rest) = rest.split_at(u16::from_be_bytes(*length).into());
            written = rest;
            name.to_vec()
        }));
    }
    names
}

fn folder() -> PathBuf {
    Path::new(env!("CARGO_MANIFEST_DIR")).join("tests/java")
}

/// What Names.java writes, with these words and this standard input, or the reason why Java doesn't run it. A Java that is missing, too
/// old or without a compiler is no failure; one that finds a fault in Names.java, or writes other bytes, is.
fn written_by_java(words: &[&str], input: Stdio) -> Result<Vec<u8>, String> {
    let ran = Command::new("java").arg(folder().join("Names.java")).args(words).stdin(input).output();
    let output = ran.map_err(|error| format!("java can't be run: {error}"))?;
    if !output.status.success() {
        let why = String::from_utf8_lossy(&output.stderr);
        assert!(!why.contains("compilation failed") && !why.contains("Exception in thread"), "tests/java/Names.java: {why}");
        return Err(format!("java doesn't run tests/java/Names.java: {}", why.trim_end()));
    }
    Ok(output.stdout)
}

/// What Java stores of these names.
fn stored_by_java(names: &[String]) -> Result<Vec<u8>, String> {
    let length = |name: &String| (name.len() as u32).to_be_bytes();
    let input: Vec<u8> = names.iter().flat_map(|name| [&length(name)[..], name.as_bytes()].concat()).collect();
    // From a file: it is more than a pipe takes while Java waits for what it writes to be read.
    let file = Path::new(env!("CARGO_TARGET_TMPDIR")).join("names-to-store");
    fs::write(&file, input).expect("the folder can be written");
    written_by_java(&[], File::open(&file).expect("it was just written").into())
}

/// The names and what Java stored of them, as the file in the repository has it.
fn names_and_stored() -> Vec<(String, Stored)> {
    let (names, stored) = (names(), read(&fs::read(folder().join("stored-names")).unwrap()));
    assert_eq!(
        names.len(),
        stored.len(),
        "the names of the test changed: 'cargo test --test java -- --ignored' stores them anew"
    );
    names.into_iter().zip(stored).collect()
}

#[test]
#[ignore = "writes tests/java/stored-names"]
fn store_names_by_java() {
    let stored = stored_by_java(&names()).unwrap_or_else(|reason| panic!("{reason}"));
    fs::write(folder().join("stored-names"), stored).unwrap();
}

#[test]
fn stored_names_are_java_s() {
    let names = names();
    match stored_by_java(&names) {
        Err(reason) => {
            say(&format!("\nskipped: names stored anew by Java; those that it stored before are compared, since {reason}"))
        }
        Ok(stored) => {
            let kept = fs::read(folder().join("stored-names")).unwrap();
            assert!(stored == kept, "Java stores other names than those in tests/java/stored-names");
            say(&format!("\n{} names stored anew by Java, the same as before", names.len()));
        }
    }
    let mut refused = 0;
    for (name, stored) in names_and_stored() {
        let expected = modified(&name);
        match stored {
            Some(stored) => assert!(stored == expected, "{:.20?} is stored in another form", name),
            None => {
                assert!(expected.len() > MOST, "{:.20?} is not stored", name);
                refused += 1;
            }
        }
    }
    assert_eq!(refused, too_long().len());
}

/// Each name is found by what Java stored of it, as column and as kind, in the file and embedded, and by nothing else. Those that Java
/// refuses are refused.
#[test]
fn each_name_finds_its_own() {
    let names = names_and_stored();
    let (mut columns, mut kinds) = (Lender::new(), Lender::new());
    let mut locate = |embedded: &[u8], file: &[u8], column: &[u8], kind: &[u8]| {
        raw::locate(embedded, file, columns.lend(column), kinds.lend(kind))
    };
    let storable: Vec<(&str, &[u8])> = names.iter().filter_map(|(name, stored)| Some((&name[..], stored.as_deref()?))).collect();
    let absent = (raw::ABSENT, 0, 0);
    let empty = &[][..];

    // All of them in one head.
    let every_stored: Vec<&[u8]> = storable.iter().map(|(_, stored)| *stored).collect();
    let every_column: Vec<(&[u8], &[&[u8]])> = every_stored.iter().map(|stored| (*stored, &[BITMAP][..])).collect();
    let (by_column, by_kind) = (index_file(&every_column), index_file(&[(b"s", &every_stored)]));
    for (number, (name, _)) in storable.iter().enumerate() {
        let name = name.as_bytes();
        for (file, column, kind) in [(&by_column, name, BITMAP), (&by_kind, b"s", name)] {
            let expected = place(file, number, storable.len());
            assert_eq!(locate(empty, file, column, kind), expected, "{:.20?}", hex(name));
            assert_eq!(locate(file, empty, column, kind), expected, "{:.20?}", hex(name));
        }
    }

    // Each two of them; asking for the long ones takes most of the time.
    for (number, (name, stored)) in storable.iter().enumerate() {
        let (by_column, by_kind) = (index_file(&[(stored, &[BITMAP])]), index_file(&[(b"s", &[stored])]));
        for (other, (asked, _)) in storable.iter().enumerate() {
            for (file, column, kind) in [(&by_column, asked.as_bytes(), BITMAP), (&by_kind, b"s", asked.as_bytes())] {
                let expected = if number == other { place(file, 0, 1) } else { absent };
                assert_eq!(locate(empty, file, column, kind), expected, "{name:.20?} asked for as {asked:.20?}");
                assert_eq!(locate(file, empty, column, kind), expected, "{name:.20?} asked for as {asked:.20?}");
            }
        }
        // From the file to the answer: IS NULL (4) of TINYINT (0) in edition 2.
        let record = Record { rows: 3, nulls: 1, deleted: 0, matched: 1 };
        for (file, column, kind) in [(&by_column, name.as_bytes(), BITMAP), (&by_kind, b"s", name.as_bytes())] {
            for (embedded, file) in [(empty, &file[..]), (file, empty)] {
                let mut field = [0xA5];
                let answer = raw::ask_file(embedded, file, column, kind, 0, 2, 4, empty, &mut field);
                assert_eq!((answer, field), ((raw::ACCEPTED, record, Fault::NONE), [0b100]), "{name:.20?}");
            }
        }
        assert_eq!(poddurance::locate(&[], &by_column, name, "bitmap"), Ok(Some(&SMALL[..])), "{name:.20?}");
        assert_eq!(poddurance::locate(&[], &by_kind, "s", name), Ok(Some(&SMALL[..])), "{name:.20?}");
    }

    for (name, _) in names.iter().filter(|(_, stored)| stored.is_none()) {
        for file in [empty, &by_column, &by_kind] {
            assert_eq!(locate(empty, file, name.as_bytes(), BITMAP), (LITERAL, 0, 0), "{name:.20?}");
            assert_eq!(locate(file, empty, b"s", name.as_bytes()), (LITERAL, 0, 0), "{name:.20?}");
            assert_eq!(poddurance::locate(&[], file, name, "bitmap"), Err(Refusal::Literal));
            assert_eq!(poddurance::locate(&[], file, "s", name), Err(Refusal::Literal));
        }
    }
}

/// All 1,112,064 characters, each as a name: found by its modified form, and by its UTF-8 where that is the same.
#[test]
fn every_character() {
    let java = written_by_java(&["characters"], Stdio::null()).map(|written| read(&written));
    let mut by_java = java.iter().flatten();
    let absent = (raw::ABSENT, 0, 0);
    // A file for each width of a name, which stands behind its length of two bytes.
    let mut files: Vec<Vec<u8>> = (0..=MOST_OF_A_CHARACTER).map(|width| index_file(&[(&vec![0; width], &[BITMAP])])).collect();
    let (mut asked, mut columns, mut count) = ([0; 4], Lender::new(), 0);
    for character in '\0'..=char::MAX {
        let name = character.encode_utf8(&mut asked);
        let stored = modified(name);
        if java.is_ok() {
            let by_java = by_java.next().and_then(Option::as_ref);
            assert_eq!(by_java, Some(&stored), "{character:?} is stored by Java in another form");
        }
        let name = columns.lend(name.as_bytes());
        let file = &mut files[stored.len()];
        file[FIRST_NAME..][..stored.len()].copy_from_slice(&stored);
        assert_eq!(raw::locate(&[], file, name, BITMAP), place(file, 0, 1), "{character:?}");
        let next = char::from_u32(u32::from(character) + 1).unwrap_or('a');
        assert_eq!(raw::locate(&[], file, next.encode_utf8(&mut [0; 4]).as_bytes(), BITMAP), absent, "{character:?}");
        if name != stored {
            assert!(character == '\0' || character > '\u{FFFF}');
            // What UTF-8 has in its place is improper in a file.
            let file = &mut files[name.len()];
            file[FIRST_NAME..][..name.len()].copy_from_slice(name);
            assert_eq!(raw::locate(&[], file, name, BITMAP), absent, "{character:?}");
        }
        count += 1;
    }
    assert_eq!((count, by_java.next()), (1_112_064, None));
    match java {
        Ok(_) => say(&format!("\n{count} characters found by what Java stores of them")),
        Err(reason) => say(&format!("\n{count} characters found; skipped: what Java stores of them, since {reason}")),
    }
}

#[test]
fn names_that_are_not_utf_8_are_refused_before_the_file() {
    let sound = index_file(&[(b"s", &[BITMAP]), (&modified("🔥"), &[BITMAP])]);
    let changed = |at: usize| {
        let mut file = sound.clone();
        file[at] ^= 0x40;
        file
    };
    let files = [
        (sound.clone(), raw::ACCEPTED),
        (vec![], SHORT),
        (vec![0], SHORT),
        (sound[..COLUMN_NUMBER_AT - 1].to_vec(), SHORT),
        (changed(MAGIC_AT), MAGIC),
        (changed(VERSION_AT), VERSION),
        (sound[..FIRST_NAME].to_vec(), HEAD),
        (changed(HEAD_LENGTH_AT), HEAD),
    ];
    for (file, answer) in &files {
        assert_eq!(raw::locate(&[], file, b"s", BITMAP).0, *answer);
    }
    let (mut names, mut others) = (Lender::new(), Lender::new());
    for fault in NOT_UTF8 {
        // Alone, before other characters and behind them.
        for (before, behind) in [("", ""), ("", "a"), ("", "🔥"), ("s", ""), ("🔥\0", ""), ("ab", "cd")] {
            let bad = [before.as_bytes(), fault, behind.as_bytes()].concat();
            assert!(str::from_utf8(&bad).is_err(), "{}", hex(&bad));
            let bad = names.lend(&bad);
            for (file, _) in &files {
                // Both names are read, also where the column is not listed.
                for (embedded, file) in [(&[][..], &file[..]), (file, &[]), (file, &sound)] {
                    for column in ["s", "t", "🔥", ""] {
                        let good = others.lend(column.as_bytes());
                        assert_eq!(raw::locate(embedded, file, good, bad), (LITERAL, 0, 0), "{}", hex(bad));
                    }
                    assert_eq!(raw::locate(embedded, file, bad, others.lend(BITMAP)), (LITERAL, 0, 0), "{}", hex(bad));
                    assert_eq!(raw::locate(embedded, file, bad, bad), (LITERAL, 0, 0), "{}", hex(bad));
                    // There is no type, edition or question 99, which would be LITERAL too, behind the file's head.
                    for (ty, edition, question) in [(0, 2, 4), (99, 99, 99)] {
                        for (column, kind) in [(&b"s"[..], &*bad), (&*bad, BITMAP)] {
                            let mut field = [0xA5];
                            let answer = raw::ask_file(embedded, file, column, kind, ty, edition, question, &[], &mut field);
                            assert_eq!((answer, field), ((LITERAL, Record::NONE, Fault::NONE), [0xA5]), "{}", hex(bad));
                        }
                    }
                }
            }
        }
    }
}

/// Exactly what Rust's own reader of UTF-8 refuses is LITERAL, as column and as kind: of all names of one and two bytes, and of longer ones
/// of bytes at which UTF-8 changes.
#[test]
fn what_is_utf_8() {
    let (mut columns, mut kinds) = (Lender::new(), Lender::new());
    let (mut read, mut refused) = (0u64, 0u64);
    let mut check = |name: &[u8]| {
        let expected = if str::from_utf8(name).is_ok() { SHORT } else { LITERAL };
        // Without a file a good name is SHORT.
        assert_eq!(raw::locate(&[], &[], columns.lend(name), BITMAP).0, expected, "{}", hex(name));
        assert_eq!(raw::locate(&[], &[], b"s", kinds.lend(name)).0, expected, "{}", hex(name));
        read += 1;
        refused += u64::from(expected == LITERAL);
    };
    // What goes on with a character and what doesn't, on both sides of each bound.
    let bounds = [
        0x00, 0x41, 0x7F, 0x80, 0x81, 0x8E, 0x8F, 0x90, 0x91, 0x9E, 0x9F, 0xA0, 0xA1, 0xAF, 0xB0, 0xBE, 0xBF, 0xC0, 0xC1, 0xC2,
        0xDF, 0xE0, 0xED, 0xEF, 0xF0, 0xF4, 0xF5, 0xFF,
    ];
    let few = [0x00, 0x7F, 0x80, 0x8F, 0x90, 0x9F, 0xA0, 0xBF, 0xC0, 0xC2, 0xFF];
    check(&[]);
    for first in 0..=255 {
        check(&[first]);
        for second in 0..=255 {
            check(&[first, second]);
            for third in bounds {
                check(&[first, second, third]);
            }
        }
        for second in bounds {
            for third in few {
                for fourth in few {
                    check(&[first, second, third, fourth]);
                    check(&[b'a', first, second, third, fourth, b'a']);
                }
            }
        }
    }
    // Characters in a row, some with a byte changed, left out or added.
    let random = &mut Random::new(5);
    for _ in 0..200_000 {
        let mut name = Vec::new();
        for _ in 0..random.between(0, 12) {
            name.extend(random.pick(&EDGES).to_string().into_bytes());
        }
        let at = random.below(name.len() + 1);
        match random.below(4) {
            0 if at < name.len() => name[at] = *random.pick(&bounds),
            1 if at < name.len() => drop(name.remove(at)),
            2 => name.insert(at, *random.pick(&bounds)),
            _ => {}
        }
        check(&name);
    }
    assert!(refused > 1_000_000 && read - refused > 100_000, "{refused} of {read} names refused");
}

/// The count is of modified bytes: names of each width at the limit and one byte, or one character, over it.
#[test]
fn the_longest_names() {
    let sound = index_file(&[(b"s", &[BITMAP])]);
    let mut columns = Lender::new();
    for character in EDGES {
        let width = modified(&character.to_string()).len();
        let most = MOST / width;
        for count in [most - 1, most] {
            // Filled up in front, behind and on both sides.
            let rest = MOST - count * width;
            for before in [0, rest / 2, rest] {
                let name = |more: usize| {
                    let (front, back) = ("a".repeat(before), "a".repeat(rest - before + more));
                    front + &character.to_string().repeat(count) + &back
                };
                let (fits, too_long) = (name(0), name(1));
                let stored = modified(&fits);
                assert_eq!(stored.len(), MOST);
                let file = index_file(&[(&stored, &[&stored])]);
                assert_eq!(raw::locate(&[], &file, columns.lend(fits.as_bytes()), fits.as_bytes()), place(&file, 0, 1));
                assert_eq!(raw::locate(&[], &sound, fits.as_bytes(), BITMAP), (raw::ABSENT, 0, 0));
                assert_eq!(raw::locate(&[], &sound, b"s", fits.as_bytes()), (raw::ABSENT, 0, 0));
                assert_eq!(raw::locate(&[], &[], fits.as_bytes(), fits.as_bytes()), (SHORT, 0, 0));
                for file in [&sound, &file, &vec![]] {
                    assert_eq!(raw::locate(&[], file, columns.lend(too_long.as_bytes()), BITMAP), (LITERAL, 0, 0));
                    assert_eq!(raw::locate(&[], file, b"s", columns.lend(too_long.as_bytes())), (LITERAL, 0, 0));
                }
                // The form is tested to the end.
                let mut cut = fits.into_bytes();
                *cut.last_mut().unwrap() = 0xC3;
                assert_eq!(raw::locate(&[], &sound, columns.lend(&cut), BITMAP), (LITERAL, 0, 0));
            }
        }
        let one_more = character.to_string().repeat(most + 1);
        assert_eq!(raw::locate(&[], &sound, one_more.as_bytes(), BITMAP), (LITERAL, 0, 0));
    }
}

/// Stored names that are not modified UTF-8 match nothing, are no second listing of what they may be meant for, and are no fault.
#[test]
fn improper_stored_names() {
    let improper: [&[u8]; 16] = [
        b"\0",
        b"s\0",
        b"\0s",
        // Fire in UTF-8, and U+10000.
        b"\xF0\x9F\x94\xA5",
        b"\xF0\x90\x80\x80",
        // Halves of a pair, a pair in the wrong order, and a cut one.
        b"\xED\xA0\xBD",
        b"\xED\xB4\xA5",
        b"\xED\xB4\xA5\xED\xA0\xBD",
        b"\xED\xA0\xBD\xED\xB4",
        b"\xED\xA0\xBDs",
        // Overlong, and garbage.
        b"\xC1\xB3",
        b"\xE0\x80\x80",
        b"\xC0",
        b"\x80",
        b"\xFF\xFE",
        b"s\xFF",
    ];
    let meant = ["\0", "s\0", "\0s", "s", "🔥", "\u{10000}", "\u{FFFD}", ""];
    let absent = (raw::ABSENT, 0, 0);
    for stored in improper {
        let (by_column, by_kind) = (index_file(&[(stored, &[BITMAP])]), index_file(&[(b"c", &[stored])]));
        for asked in meant.iter().map(|name| name.as_bytes()).chain(names().iter().take(200).map(|name| name.as_bytes())) {
            assert_eq!(raw::locate(&[], &by_column, asked, BITMAP), absent, "{} {}", hex(stored), hex(asked));
            assert_eq!(raw::locate(&[], &by_kind, b"c", asked), absent, "{} {}", hex(stored), hex(asked));
        }
        // The bytes themselves are absent or, where they are not UTF-8, refused.
        let itself = if str::from_utf8(stored).is_ok() { raw::ABSENT } else { LITERAL };
        assert_eq!(raw::locate(&[], &by_column, stored, BITMAP), (itself, 0, 0), "{}", hex(stored));
        assert_eq!(raw::locate(&[], &by_kind, b"c", stored), (itself, 0, 0), "{}", hex(stored));
    }

    // A proper name among all the improper ones, each of them twice.
    for asked in meant {
        let proper = &modified(asked)[..];
        for at in [0, 1, 16, 32] {
            let mut listed = [improper, improper].concat();
            listed.insert(at, proper);
            let columns: Vec<(&[u8], &[&[u8]])> = listed.iter().map(|name| (*name, &[BITMAP][..])).collect();
            let (by_column, by_kind) = (index_file(&columns), index_file(&[(b"c", &listed)]));
            for (file, column, kind) in [(&by_column, asked.as_bytes(), BITMAP), (&by_kind, b"c", asked.as_bytes())] {
                assert_eq!(raw::locate(&[], file, column, kind), place(file, at, listed.len()), "{asked:?}");
                assert_eq!(raw::locate(file, &[], column, kind), place(file, at, listed.len()), "{asked:?}");
            }
            // A second time the proper one is HEAD, but for who asks for another.
            listed.push(proper);
            let columns: Vec<(&[u8], &[&[u8]])> = listed.iter().map(|name| (*name, &[BITMAP][..])).collect();
            let (by_column, by_kind) = (index_file(&columns), index_file(&[(b"c", &listed)]));
            assert_eq!(raw::locate(&[], &by_column, asked.as_bytes(), BITMAP), (HEAD, 0, 0), "{asked:?}");
            assert_eq!(raw::locate(&[], &by_kind, b"c", asked.as_bytes()), (HEAD, 0, 0), "{asked:?}");
            assert_eq!(raw::locate(&[], &by_column, b"other", BITMAP), absent, "{asked:?}");
        }
    }
}

/// How long Locate takes goes by the sum of the bytes of file and names, and not by their product: among very many short names the longest
/// are found absent about as fast as a short one. If each stored name were compared with all of the asked one, that would take thousands
/// of times as long.
#[test]
fn long_names_in_a_long_head() {
    const LISTED: usize = 200_000;
    const RUNS: usize = 9;
    const MOST_TIMES: u32 = 50;
    let stored = b"b".to_vec();
    let columns = vec![IndexedColumn { name: stored.clone(), indexes: vec![] }; LISTED];
    let indexes = vec![Index { kind: stored, content: Content::At { start: 0, length: 0 } }; LISTED];
    let file = |columns: &[IndexedColumn]| index_file_traced(columns, &FileLayout::default()).bytes;
    let (by_column, by_kind) = (file(&columns), file(&[IndexedColumn { name: b"s".to_vec(), indexes }]));

    // The shortest of several runs: other work on the machine can only lengthen them.
    let time = |file: &[u8], column: &[u8], kind: &[u8]| {
        let run = |_| {
            let start = Instant::now();
            assert_eq!(raw::locate(&[], file, column, kind), (raw::ABSENT, 0, 0));
            start.elapsed()
        };
        (0..RUNS).map(run).min().expect("there are runs")
    };
    let times = |name: &str| [time(&by_column, name.as_bytes(), BITMAP), time(&by_kind, b"s", name.as_bytes())];
    let short = times("a");
    // Each begins with the stored name, and has characters of one, two or six bytes behind it.
    for (character, width) in [("b", 1), ("\0", 2), ("🔥", MOST_OF_A_CHARACTER)] {
        let long = times(&format!("b{}", character.repeat((MOST - 1) / width)));
        for (what, long, short) in [("column", long[0], short[0]), ("kind", long[1], short[1])] {
            assert!(long <= MOST_TIMES * short, "a {what} of many {character:?}: {long:?}, and a short one: {short:?}");
        }
    }
}
