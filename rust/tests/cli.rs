//! The command line, run as a user runs it on files written here.

use std::ffi::OsStr;
use std::fs::{self, File};
use std::io::Write;
use std::path::{Path, PathBuf};
use std::process::{Command, Output, Stdio};
use std::sync::atomic::{AtomicUsize, Ordering};

/// A folder of its own for each test, removed with it.
struct Folder(PathBuf);

impl Folder {
    fn new() -> Folder {
        static NUMBER: AtomicUsize = AtomicUsize::new(0);
        let name = format!("poddurance-{}-{}", std::process::id(), NUMBER.fetch_add(1, Ordering::Relaxed));
        let path = std::env::temp_dir().join(name);
        fs::create_dir(&path).unwrap();
        Folder(path)
    }

    fn write(&self, name: &str, bytes: &[u8]) -> String {
        let path = self.0.join(name);
        fs::write(&path, bytes).unwrap();
        path.to_str().unwrap().to_string()
    }
}

impl Drop for Folder {
    fn drop(&mut self) {
        let _ = fs::remove_dir_all(&self.0);
    }
}

/// Exit status, standard output, standard error.
fn run<S: AsRef<OsStr>>(words: &[S]) -> (i32, String, String) {
    told(Command::new(env!("CARGO_BIN_EXE_poddurance")).args(words).stdin(Stdio::null()).output().unwrap())
}

fn told(output: Output) -> (i32, String, String) {
    let text = |bytes: Vec<u8>| String::from_utf8(bytes).unwrap();
    (output.status.code().unwrap(), text(output.stdout), text(output.stderr))
}

/// Runs with these bytes as standard input, and expects a status, a first line and nothing on standard error.
#[track_caller]
fn says_of_input(words: &[&str], input: &[u8], status: i32, line: &str) {
    let mut program = Command::new(env!("CARGO_BIN_EXE_poddurance"))
        .args(words)
        .stdin(Stdio::piped())
        .stdout(Stdio::piped())
        .stderr(Stdio::piped())
        .spawn()
        .unwrap();
    program.stdin.take().unwrap().write_all(input).unwrap();
    assert_eq!(told(program.wait_with_output().unwrap()), (status, format!("{line}\n"), String::new()), "{words:?}");
}

/// Runs and expects a status, a first line and nothing on standard error.
#[track_caller]
fn says<S: AsRef<OsStr> + std::fmt::Debug>(words: &[S], status: i32, line: &str) {
    assert_eq!(run(words), (status, format!("{line}\n"), String::new()), "{words:?}");
}

/// Runs and expects wrong usage, with these words on standard error and nothing on standard output.
#[track_caller]
fn complains<S: AsRef<OsStr> + std::fmt::Debug>(words: &[S], part: &str) {
    let (status, out, err) = run(words);
    assert_eq!((status, out.as_str()), (2, ""), "{words:?}");
    assert!(err.starts_with("poddurance: ") && err.contains(part), "{err}");
}

const SMALL: [u8; 24] = [1, 0, 0, 0, 3, 0, 0, 0, 2, 1, 255, 255, 255, 253, 7, 255, 255, 255, 255, 9, 255, 255, 255, 254];

/// The same as version 2, as document 01 writes it out: two blocks, of 7 and of 9.
const SMALL_2: [u8; 62] = [
    2, 0, 0, 0, 3, 0, 0, 0, 2, 1, 255, 255, 255, 253, 255, 255, 255, 255, 0, 0, 0, 2, 7, 0, 0, 0, 0, 9, 0, 0, 0, 13, 0, 0, 0, 26,
    0, 0, 0, 1, 7, 255, 255, 255, 255, 255, 255, 255, 255, 0, 0, 0, 1, 9, 255, 255, 255, 254, 255, 255, 255, 255,
];

/// An index file with one index on one column. The names are bytes as they are stored, or text that is stored as in UTF-8.
fn index_file(column: impl AsRef<[u8]>, kind: impl AsRef<[u8]>, body: &[u8]) -> Vec<u8> {
    let (column, kind) = (column.as_ref(), kind.as_ref());
    let mut entry = vec![0, column.len() as u8];
    entry.extend(column);
    entry.extend([0, 0, 0, 1, 0, kind.len() as u8]);
    entry.extend(kind);
    let head = (20 + entry.len() + 8 + 4) as u32;
    let mut file = 1_493_475_289_347_502u64.to_be_bytes().to_vec();
    for number in [1, head, 1] {
        file.extend(number.to_be_bytes());
    }
    file.extend(entry);
    for number in [head, body.len() as u32, 0] {
        file.extend(number.to_be_bytes());
    }
    file.extend(body);
    file
}

/// A bitmap of rows below 65,536 in one container of values.
fn bitmap(rows: &[u16]) -> Vec<u8> {
    let mut bytes = vec![0x3A, 0x30, 0, 0, 1, 0, 0, 0, 0, 0];
    bytes.extend((rows.len() as u16 - 1).to_le_bytes());
    bytes.extend([16, 0, 0, 0]);
    bytes.extend(rows.iter().flat_map(|row| row.to_le_bytes()));
    bytes
}

/// Document 01's login, click and purchase of 6 rows, as a STRING column.
fn events() -> Vec<u8> {
    let entries = [("login", bitmap(&[0, 2, 5])), ("click", bitmap(&[1, 4])), ("purchase", bitmap(&[3]))];
    let mut body = vec![1, 0, 0, 0, 6, 0, 0, 0, 3, 0];
    let mut offset = 0u32;
    for (value, rows) in &entries {
        body.extend((value.len() as u32).to_be_bytes());
        body.extend(value.as_bytes());
        body.extend(offset.to_be_bytes());
        offset += rows.len() as u32;
    }
    body.extend(entries.iter().flat_map(|(_, rows)| rows));
    body
}

/// The same as version 2, in two blocks: click and login, and purchase.
fn events_2() -> Vec<u8> {
    let blocks = [&[("click", bitmap(&[1, 4])), ("login", bitmap(&[0, 2, 5]))][..], &[("purchase", bitmap(&[3]))]];
    let stored = |value: &str| [&(value.len() as u32).to_be_bytes(), value.as_bytes()].concat();
    let (mut directory, mut entries, mut bitmaps) = (Vec::new(), Vec::new(), Vec::new());
    for block in blocks {
        directory.extend(stored(block[0].0));
        directory.extend((entries.len() as u32).to_be_bytes());
        entries.extend((block.len() as u32).to_be_bytes());
        for (value, rows) in block {
            entries.extend(stored(value));
            entries.extend((bitmaps.len() as u32).to_be_bytes());
            entries.extend((rows.len() as u32).to_be_bytes());
            bitmaps.extend(rows);
        }
    }
    let front = [2, 0, 0, 0, 6, 0, 0, 0, 3, 0, 0, 0, 0, 2];
    [&front[..], &directory, &(entries.len() as u32).to_be_bytes(), &entries, &bitmaps].concat()
}

/// A deletion file with these bitmaps in 32-bit bins.
fn deletion_file(bitmaps: &[Vec<u8>]) -> Vec<u8> {
    file_of_bins(&bitmaps.iter().map(|bitmap| [&1_581_511_376u32.to_be_bytes(), &bitmap[..]].concat()).collect::<Vec<_>>())
}

/// A deletion file with these bins.
fn file_of_bins(bins: &[Vec<u8>]) -> Vec<u8> {
    let mut file = vec![1];
    for bin in bins {
        file.extend((bin.len() as u32).to_be_bytes());
        file.extend(bin);
        file.extend(crc32(bin).to_be_bytes());
    }
    file
}

/// A 64-bit bin with these bitmaps, each behind its index.
fn bin_64(bitmaps: &[(u32, Vec<u8>)]) -> Vec<u8> {
    let mut bin = 1_681_511_377u32.to_le_bytes().to_vec();
    bin.extend((bitmaps.len() as u64).to_le_bytes());
    for (index, bitmap) in bitmaps {
        bin.extend(index.to_le_bytes());
        bin.extend(bitmap);
    }
    bin
}

/// Rows 0, 2, 5, 4294967296 to 4294967298 and 9223372036854775807, which is the last of all.
fn wide_bin() -> Vec<u8> {
    // The last row's container has the key 65535.
    let mut last = bitmap(&[65_535]);
    last[8..10].fill(0xFF);
    bin_64(&[(0, bitmap(&[0, 2, 5])), (1, bitmap(&[0, 1, 2])), ((1 << 31) - 1, last)])
}

/// CRC-32 by its definition, bit by bit.
fn crc32(bytes: &[u8]) -> u32 {
    !bytes.iter().fold(u32::MAX, |crc, byte| {
        (0..8).fold(crc ^ u32::from(*byte), |crc, _| if crc & 1 == 1 { (crc >> 1) ^ 0xEDB8_8320 } else { crc >> 1 })
    })
}

#[test]
fn locates() {
    let folder = Folder::new();
    let file = &folder.write("index", &index_file("s", "bitmap", &SMALL));
    says(&["locate", file, "s"], 0, "found: bitmap index on column \"s\", 24 bytes at 47");
    says(&["locate", file, "s", "bitmap"], 0, "found: bitmap index on column \"s\", 24 bytes at 47");
    says(&["locate", file, "x"], 4, "absent: no bitmap index on column \"x\"");
    says(&["locate", file, "s", "bloom-filter"], 4, "absent: no bloom-filter index on column \"s\"");
    says(&["locate", file, "s", "--json"], 0, r#"{"answer":"found","column":"s","kind":"bitmap","start":47,"length":24}"#);
    says(&["locate", file, "\"\n", "--json"], 4, r#"{"answer":"absent","column":"\"\u000a","kind":"bitmap"}"#);
}

#[test]
fn lists_columns() {
    let folder = Folder::new();
    let file = &folder.write("index", &index_file("s", "bitmap", &SMALL));
    says(&["columns", file], 0, "column \"s\": bitmap index, 24 bytes at 47");
    says(
        &["columns", file, "--json"],
        0,
        r#"{"answer":"listed","indexes":[{"column":"s","column_bytes":null,"kind":"bitmap","kind_bytes":null,"start":47,"length":24}]}"#,
    );
    // It lists what stands there, also where the library finds no sound index, and nothing of a broken head.
    let file = &folder.write("no-body", &index_file("s", "bitmap", &SMALL)[..47]);
    says(&["columns", file], 0, "column \"s\": bitmap index, 24 bytes at 47");
    says(&["locate", file, "s"], 3, "refused: HEAD (4), index file head breaks a rule");
    let file = &folder.write("cut", &index_file("s", "bitmap", &SMALL)[..46]);
    says(&["columns", file], 3, "refused: the head's length is 47, of a file of 46 bytes");
    says(
        &["columns", file, "--json"],
        3,
        r#"{"answer":"refused","file":"index","name":null,"number":null,"meaning":"the head's length is 47, of a file of 46 bytes"}"#,
    );
    let file = &folder.write("deletions", &deletion_file(&[bitmap(&[0])]));
    says(&["columns", file], 3, "refused: no index file: its magic differs");
    says_of_input(&["columns", "-"], &[], 3, "refused: no index file: its first fields take 16 bytes, and there are 0");
}

#[test]
fn names_in_a_file_do_not_control_the_terminal() {
    let folder = Folder::new();
    // Red letters, a new title for the window, and the cursor up over the line before.
    let file = &folder.write("index", &index_file("\x1B[31ms\x1B]0;title\x07", "\x1B[A\r\u{9B}A\u{202E}", &SMALL));
    says(&["columns", file], 0, r#"column "\u{1b}[31ms\u{1b}]0;title\u{7}": \u{1b}[A\r\u{9b}A\u{202e} index, 24 bytes at 66"#);
    says(
        &["columns", file, "--json"],
        0,
        r#"{"answer":"listed","indexes":[{"column":"\u001b[31ms\u001b]0;title\u0007","column_bytes":null,"kind":"\u001b[A\u000d\u009bA\u202e","kind_bytes":null,"start":66,"length":24}]}"#,
    );
    says(&["locate", file, "\x1B[A", "\u{9B}A"], 4, r#"absent: no \u{9b}A index on column "\u{1b}[A""#);
    says(&["locate", file, "\u{9B}A", "--json"], 4, r#"{"answer":"absent","column":"\u009bA","kind":"bitmap"}"#);
    complains(&["locate", "/no such folder/\x1B[A", "s"], r"can't read /no such folder/\u{1b}[A: ");
}

/// U+1F525 as Java stores it: two surrogates of three bytes each.
const FIRE: &[u8] = b"\xED\xA0\xBD\xED\xB4\xA5";

#[test]
fn names_beyond_the_plain_plane() {
    let folder = Folder::new();
    let file = &folder.write("index", &index_file(FIRE, "bitmap", &SMALL));
    says(&["columns", file], 0, "column \"🔥\": bitmap index, 24 bytes at 52");
    says(&["locate", file, "🔥"], 0, "found: bitmap index on column \"🔥\", 24 bytes at 52");
    says(&["locate", file, "🔥", "--json"], 0, r#"{"answer":"found","column":"🔥","kind":"bitmap","start":52,"length":24}"#);
    says(&["audit", file, "🔥", "TINYINT"], 0, "accepted: 3 rows, each in exactly one place");
    let ask = ["ask", file, "🔥", "TINYINT", "EQUAL", "9", "--rows"];
    says(&ask, 0, "keep: drawn from 1 of 3 rows (deletions not applied, 1 null)\nrows: 1");
    says(
        &["ask", "none", "🔥", "TINYINT", "EQUAL", "9", "--rows", "--embedded", file],
        0,
        "keep: drawn from 1 of 3 rows (deletions not applied, 1 null)\nrows: 1",
    );
    says(&["ask", file, "🔦", "TINYINT", "EQUAL", "9"], 4, "absent: no bitmap index on column \"🔦\"");
    let file = &folder.write("kind", &index_file("s", FIRE, &SMALL));
    says(&["locate", file, "s", "🔥"], 0, "found: 🔥 index on column \"s\", 24 bytes at 47");
    // The zero character can't be a word of the command line, and is shown.
    let file = &folder.write("zero", &index_file(b"a\xC0\x80b", "bitmap", &SMALL));
    says(&["columns", file], 0, r#"column "a\0b": bitmap index, 24 bytes at 50"#);
}

/// A stored name that is not modified UTF-8 is listed with its bytes and is found by no name, least of all by that which it may be meant for.
#[test]
fn improper_names_in_a_file() {
    let folder = Folder::new();
    let note = "its name is not modified UTF-8)";
    for (stored, shown, hex, meant) in [
        (&b"\xF0\x9F\x94\xA5"[..], r"\xF0\x9F\x94\xA5", "F09F94A5", "🔥"),
        (b"\xED\xA0\xBD", r"\xED\xA0\xBD", "EDA0BD", "\u{FFFD}"),
        (b"a\0", r"a\x00", "6100", "a"),
        (b"\xFF", r"\xFF", "FF", r"\xFF"),
    ] {
        let (file, at) = (&folder.write("index", &index_file(stored, "bitmap", &SMALL)), 46 + stored.len());
        let line = format!("column \"{shown}\": bitmap index, 24 bytes at {at} (the column can't be asked for: {note}");
        says(&["columns", file], 0, &line);
        let json = format!(
            r#"{{"answer":"listed","indexes":[{{"column":null,"column_bytes":"{hex}","kind":"bitmap","kind_bytes":null,"start":{at},"length":24}}]}}"#
        );
        says(&["columns", file, "--json"], 0, &json);
        says(&["locate", file, meant], 4, &format!("absent: no bitmap index on column {meant:?}"));
        let file = &folder.write("kind", &index_file("s", stored, &SMALL));
        let line = format!("column \"s\": {shown} index, 24 bytes at {} (the kind can't be asked for: {note}", 41 + stored.len());
        says(&["columns", file], 0, &line);
    }
    // A name that is spelled as those bytes are shown.
    let file = &folder.write("index", &index_file(r"\xFF", "bitmap", &SMALL));
    says(&["columns", file], 0, r#"column "\\xFF": bitmap index, 24 bytes at 50"#);
    says(&["locate", file, r"\xFF"], 0, r#"found: bitmap index on column "\\xFF", 24 bytes at 50"#);
}

/// Names that no file can store get the library's answer, whatever the file has; words that are not UTF-8 are wrong usage.
#[test]
fn names_that_cannot_be_asked_for() {
    use std::os::unix::ffi::OsStrExt;
    let folder = Folder::new();
    let sound = folder.write("index", &index_file("s", "bitmap", &SMALL));
    let (fits, too_long) = ("x".repeat(65_535), "x".repeat(65_536));
    // 10,922 characters of six bytes in modified form, and four more bytes: 43,692 bytes in UTF-8.
    let beyond = "🔥".repeat(10_922) + "xxxx";
    let of_column = "the column's name takes more than 65535 bytes in modified UTF-8";
    let of_kind = "the kind's name takes more than 65535 bytes in modified UTF-8";
    for file in [&sound, &folder.write("empty", &[]), &folder.write("magic", &[1; 99])] {
        for name in [&too_long, &beyond] {
            let refused = format!("refused: LITERAL (11), {of_column}");
            says(&["locate", file, name], 3, &refused);
            says(&["locate", file, name, name], 3, &refused);
            says(&["audit", file, name, "TINYINT"], 3, &refused);
            says(&["ask", file, name, "TINYINT", "EQUAL", "7"], 3, &refused);
            says(&["open", file, name, "TINYINT"], 3, &refused);
            says(&["lookup", file, name, "TINYINT", "7"], 3, &refused);
            // Literals that don't fit, which are LITERAL too, are read when the index is found.
            says(&["ask", file, name, "TINYINT", "EQUAL"], 3, &refused);
            says(&["locate", file, "s", name], 3, &format!("refused: LITERAL (11), {of_kind}"));
            says(&["locate", file, "x", name], 3, &format!("refused: LITERAL (11), {of_kind}"));
        }
    }
    for words in [&["locate", &sound, &too_long][..], &["ask", &sound, &too_long, "TINYINT", "EQUAL", "7"]] {
        let said = format!(r#"{{"answer":"refused","file":null,"name":"LITERAL","number":11,"meaning":"{of_column}"}}"#);
        says(&[words, &["--json"]].concat(), 3, &said);
    }
    says(&["locate", &sound, &fits], 4, &format!("absent: no bitmap index on column \"{fits}\""));
    says(&["locate", &sound, "s", &fits], 4, &format!("absent: no {fits} index on column \"s\""));

    let bad = OsStr::from_bytes(b"s\xFF");
    let [locate, audit, ask, file, s, ty] = ["locate", "audit", "ask", &sound, "s", "TINYINT"].map(OsStr::new);
    complains(&[locate, file, bad], r#"COLUMN "s\xFF" is not UTF-8"#);
    complains(&[locate, file, s, bad], r#"KIND "s\xFF" is not UTF-8"#);
    complains(&[locate, file, bad, OsStr::new("--json")], r#"COLUMN "s\xFF" is not UTF-8"#);
    complains(&[audit, file, bad, ty], r#"COLUMN "s\xFF" is not UTF-8"#);
    complains(&[ask, file, bad, ty, OsStr::new("IS-NULL")], r#"COLUMN "s\xFF" is not UTF-8"#);
    // It is said before the file is looked for.
    complains(&[locate, OsStr::new("/no such folder/f"), bad], r#"COLUMN "s\xFF" is not UTF-8"#);
}

#[test]
fn embedded_bytes_go_before_the_file() {
    let folder = Folder::new();
    let embedded = &folder.write("embedded", &index_file("s", "bitmap", &SMALL));
    let other = &folder.write("other", &index_file("state", "bitmap", &events()));
    let empty = &folder.write("empty", &[]);
    let asks = |file: &str, embedded: &str, status: i32, line: &str| {
        says(&["ask", file, "s", "TINYINT", "EQUAL", "7", "--rows", "--embedded", embedded], status, line);
    };
    let kept = "keep: drawn from 1 of 3 rows (deletions not applied, 1 null)\nrows: 0";
    for file in [other, "none", "/no such folder/f", "-"] {
        asks(file, embedded, 0, kept);
        says(&["locate", file, "s", "--embedded", embedded], 0, "found: bitmap index on column \"s\", 24 bytes at 47");
        says(&["audit", file, "s", "TINYINT", "--embedded", embedded], 0, "accepted: 3 rows, each in exactly one place");
    }
    // Where none are embedded it is the file that is looked at.
    asks(embedded, empty, 0, kept);
    asks(other, empty, 4, "absent: no bitmap index on column \"s\"");
    says(&["locate", embedded, "s", "--embedded", empty], 0, "found: bitmap index on column \"s\", 24 bytes at 47");
    complains(&["locate", "none", "s", "--embedded", empty], "can't read none: ");
    complains(&["locate", embedded, "s", "--embedded", "/no such folder/e"], "can't read /no such folder/e: ");
    // What is embedded is refused by itself, whatever the file has.
    let short = &folder.write("short", &[0]);
    asks(embedded, short, 3, "refused: SHORT (1), the bytes end inside a field that is due, outside bitmaps");
    asks(embedded, other, 4, "absent: no bitmap index on column \"s\"");
}

#[test]
fn reads_standard_input() {
    let folder = Folder::new();
    let index = index_file("s", "bitmap", &SMALL);
    let deletions = deletion_file(&[bitmap(&[0])]);
    says_of_input(&["columns", "-"], &index, 0, "column \"s\": bitmap index, 24 bytes at 47");
    says_of_input(&["locate", "-", "s"], &index, 0, "found: bitmap index on column \"s\", 24 bytes at 47");
    says_of_input(&["audit", "-", "s", "TINYINT"], &index, 0, "accepted: 3 rows, each in exactly one place");
    let ask = ["ask", "-", "s", "TINYINT", "EQUAL", "7"];
    says_of_input(&ask, &index, 0, "keep: drawn from 1 of 3 rows (deletions not applied, 1 null)");
    says_of_input(&ask, &[], 3, "refused: SHORT (1), the bytes end inside a field that is due, outside bitmaps");
    says_of_input(
        &["ask", "none", "s", "TINYINT", "EQUAL", "7", "--embedded", "-"],
        &index,
        0,
        "keep: drawn from 1 of 3 rows (deletions not applied, 1 null)",
    );
    says_of_input(&["deletions", "-", "0", "3", "--rows"], &deletions, 0, "deleted: 1 of 3 rows\nrows: 0");
    let file = folder.write("index", &index);
    says_of_input(
        &["ask", &file, "s", "TINYINT", "NOT-IN", "--edition", "1", "--deletions", "-", "--bin", "0"],
        &deletions,
        0,
        "keep: drawn from 2 of 3 rows (1 deleted, 1 null)",
    );
    // A file may be called so.
    folder.write("-", &index);
    let output = Command::new(env!("CARGO_BIN_EXE_poddurance")).args(["columns", "./-"]).current_dir(&folder.0).output().unwrap();
    assert_eq!(told(output), (0, "column \"s\": bitmap index, 24 bytes at 47\n".to_string(), String::new()));
    // Standard input that can't be read.
    let output = Command::new(env!("CARGO_BIN_EXE_poddurance")).args(ask).stdin(File::open(&folder.0).unwrap()).output().unwrap();
    let (status, out, err) = told(output);
    assert_eq!((status, out.as_str()), (2, ""));
    assert!(err.starts_with("poddurance: can't read standard input: "), "{err}");
}

/// Absent says that all rows are to be read, and skip that none is. A script that takes one for the other loses a file's rows.
#[test]
fn each_answer_has_its_exit_status() {
    let folder = Folder::new();
    let file = &folder.write("index", &index_file("s", "bitmap", &SMALL));
    let status = |column: &str, literal: &str| run(&["ask", file, column, "TINYINT", "EQUAL", literal]).0;
    assert_eq!((status("s", "7"), status("s", "8"), status("s", "x"), status("t", "7")), (0, 1, 2, 4));
    assert_eq!(run(&["ask", file, "s", "SMALLINT", "EQUAL", "7"]).0, 3);
}

#[test]
fn the_file_that_document_01_writes_out() {
    let written = [
        0, 5, 0x4E, 0x4E, 0xD0, 0x1A, 0x35, 0xAE, 0, 0, 0, 1, 0, 0, 0, 0x2F, 0, 0, 0, 1, 0, 1, 0x73, 0, 0, 0, 1, 0, 6, 0x62,
        0x69, 0x74, 0x6D, 0x61, 0x70, 0, 0, 0, 0x2F, 0, 0, 0, 0x18, 0, 0, 0, 0,
    ];
    assert_eq!(index_file("s", "bitmap", &SMALL), [&written[..], &SMALL].concat());
}

#[test]
fn audits() {
    let folder = Folder::new();
    let file = &folder.write("index", &index_file("s", "bitmap", &SMALL));
    says(&["audit", file, "s", "TINYINT"], 0, "accepted: 3 rows, each in exactly one place");
    says(&["audit", file, "s", "tinyint", "--json"], 0, r#"{"answer":"accepted","rows":3}"#);
    says(&["audit", file, "x", "TINYINT"], 4, "absent: no bitmap index on column \"x\"");
    let other = &folder.write("other", &index_file("s", "bloom-filter", &SMALL));
    says(&["audit", other, "s", "TINYINT"], 4, "absent: no bitmap index on column \"s\"");
}

#[test]
fn asks() {
    let folder = Folder::new();
    let file = &folder.write("index", &index_file("state", "bitmap", &events()));
    let ask = ["ask", file, "state", "STRING"];
    let with = |more: &[&'static str]| [&ask[..], more].concat();
    says(&with(&["EQUAL", "login"]), 0, "keep: drawn from 3 of 6 rows (deletions not applied, 0 null)");
    says(
        &with(&["IN", "login", "purchase", "--rows"]),
        0,
        "keep: drawn from 4 of 6 rows (deletions not applied, 0 null)\nrows: 0, 2-3, 5",
    );
    // No row is null, so that the editions choose the same rows.
    for edition in ["1", "2"] {
        let with = |more: &[&'static str]| [&ask[..], &["--edition", edition], more].concat();
        says(
            &with(&["NOT IN", "login", "--rows"]),
            0,
            "keep: drawn from 3 of 6 rows (deletions not applied, 0 null)\nrows: 1, 3-4",
        );
        says(&with(&["not-in", "--rows"]), 0, "keep: drawn from 6 of 6 rows (deletions not applied, 0 null)\nrows: 0-5");
        says(&with(&["not_equal", "click"]), 0, "keep: drawn from 4 of 6 rows (deletions not applied, 0 null)");
    }
    says(&with(&["in"]), 1, "skip: drawn from 0 of 6 rows (deletions not applied, 0 null)");
    says(&with(&["equal", "logout"]), 1, "skip: drawn from 0 of 6 rows (deletions not applied, 0 null)");
    says(&with(&["is-null", "--rows"]), 1, "skip: drawn from 0 of 6 rows (deletions not applied, 0 null)\nrows: none");
    says(&with(&["is-not-null"]), 0, "keep: drawn from 6 of 6 rows (deletions not applied, 0 null)");
    says(
        &with(&["equal", "login", "--json"]),
        0,
        r#"{"answer":"keep","rows":6,"nulls":0,"deleted":null,"matched":3,"removed":null}"#,
    );
    says(
        &with(&["equal", "login", "--json", "--rows"]),
        0,
        r#"{"answer":"keep","rows":6,"nulls":0,"deleted":null,"matched":3,"removed":null,"ranges":[[0,0],[2,2],[5,5]]}"#,
    );
    says(
        &with(&["equal", "logout", "--json", "--rows"]),
        1,
        r#"{"answer":"skip","rows":6,"nulls":0,"deleted":null,"matched":0,"removed":null,"ranges":[]}"#,
    );
    says(&["ask", file, "x", "STRING", "IS NULL"], 4, "absent: no bitmap index on column \"x\"");
}

/// The demo's alarms are true in rows 7, 10, 13, 16 and 23, null in rows 2, 5, 18 and 21, and false in the other 15 of 24.
#[test]
fn asks_in_both_editions() {
    let demo = Path::new(env!("CARGO_MANIFEST_DIR")).join("../demo");
    for name in ["pumps-v1.index", "pumps-v2.index"] {
        let file = demo.join(name);
        let ask = |more: &[&str], edition: &[&str], status: i32, line: &str| {
            let words = [&["ask", file.to_str().unwrap(), "alarm", "boolean"], more, edition].concat();
            says(&words, status, line);
        };
        // The null rows are the same 4, whatever is asked.
        let keeps = |more: &[&str], edition: &[&str], matched: u64, rows: &str| {
            let line = format!("keep: drawn from {matched} of 24 rows (deletions not applied, 4 null)\nrows: {rows}");
            ask(&[more, &["--rows"]].concat(), edition, 0, &line);
        };
        let skips = |more: &[&str], edition: &[&str]| {
            ask(more, edition, 1, "skip: drawn from 0 of 24 rows (deletions not applied, 4 null)");
        };
        let (first, second) = (&["--edition", "1"][..], &["--edition", "2"][..]);
        for question in ["not-equal", "not-in"] {
            keeps(&[question, "true"], first, 19, "0-6, 8-9, 11-12, 14-15, 17-22");
            keeps(&[question, "true"], second, 15, "0-1, 3-4, 6, 8-9, 11-12, 14-15, 17, 19-20, 22");
        }
        // Of no literals, and of all that there are.
        keeps(&["not-in"], first, 24, "0-23");
        keeps(&["not-in"], second, 20, "0-1, 3-4, 6-17, 19-20, 22-23");
        keeps(&["not-in", "true", "false"], first, 4, "2, 5, 18, 21");
        skips(&["not-in", "true", "false"], second);
        // The others answer the same in both, and where none is given.
        for edition in [first, second, &[]] {
            keeps(&["equal", "true"], edition, 5, "7, 10, 13, 16, 23");
            keeps(&["in", "true"], edition, 5, "7, 10, 13, 16, 23");
            skips(&["in"], edition);
            keeps(&["is-null"], edition, 4, "2, 5, 18, 21");
            keeps(&["is-not-null"], edition, 20, "0-1, 3-4, 6-17, 19-20, 22-23");
        }
        // Bin 0 of the deletions has rows 3, 13 and 20.
        let deletions = demo.join("pumps.deletions");
        let left = ["not-equal", "true", "--deletions", deletions.to_str().unwrap(), "--bin", "0", "--json"];
        ask(&left, first, 0, r#"{"answer":"keep","rows":24,"nulls":4,"deleted":3,"matched":17,"removed":2}"#);
        ask(&left, second, 0, r#"{"answer":"keep","rows":24,"nulls":4,"deleted":3,"matched":13,"removed":2}"#);
    }
}

/// A question that would choose null rows or not by its edition is not asked without one, and a number other than 1 and 2 is wrong usage.
#[test]
fn an_edition_is_never_assumed() {
    let folder = Folder::new();
    let file = &folder.write("index", &index_file("s", "bitmap", &SMALL));
    let needed = "needs --edition 1 or 2: 1 chooses null rows too, for stored dashboards; 2 chooses none";
    for question in [&["NOT EQUAL", "7"][..], &["NOT IN", "7"], &["NOT IN"]] {
        let asked = |more: &[&'static str]| [&["ask", file, "s", "TINYINT"], question, more].concat();
        complains(&asked(&[]), &format!("{} {needed}", question[0]));
        complains(&asked(&["--json"]), &format!("{} {needed}", question[0]));
        complains(&asked(&["--edition"]), "--edition needs 1 or 2");
    }
    for question in [&["NOT EQUAL", "7"][..], &["NOT IN"], &["EQUAL", "7"], &["IN"], &["IS NULL"], &["IS NOT NULL"]] {
        let asked = |more: &[&'static str]| [&["ask", file, "s", "TINYINT"], question, more].concat();
        for number in ["0", "3", "-1", "first", ""] {
            complains(&asked(&["--edition", number]), &format!("--edition {number:?} is none of 1, 2"));
        }
        complains(&asked(&["--edition", "2", "--edition", "2"]), "--edition is there twice");
    }
    for words in [
        &["columns", file][..],
        &["locate", file, "s"],
        &["audit", file, "s", "TINYINT"],
        &["open", file, "s", "TINYINT"],
        &["deletions", file, "0", "6"],
    ] {
        complains(&[words, &["--edition", "2"]].concat(), "--edition goes with ask and lookup alone");
    }
    // It is said before the file is looked for.
    complains(&["ask", "/no such folder/f", "s", "TINYINT", "NOT IN"], needed);
}

#[test]
fn an_index_of_another_row_count_than_the_data_file() {
    let folder = Folder::new();
    let file = &folder.write("index", &index_file("s", "bitmap", &SMALL));
    let (audit, ask) = (["audit", file, "s", "TINYINT"], ["ask", file, "s", "TINYINT", "EQUAL"]);
    says(&[&audit[..], &["--row-count", "3"]].concat(), 0, "accepted: 3 rows, each in exactly one place");
    says(&[&ask[..], &["7", "--row-count", "3"]].concat(), 0, "keep: drawn from 1 of 3 rows (deletions not applied, 1 null)");
    for (rows, shown) in [
        ("0", "0"),
        ("2", "2"),
        ("4", "4"),
        ("8", "8"),
        ("9", "9"),
        ("1000", "1,000"),
        ("18446744073709551615", "18,446,744,073,709,551,615"),
    ] {
        let line = &format!("refused: the index is of 3 rows, the data file has {shown}");
        says(&[&audit[..], &["--row-count", rows]].concat(), 3, line);
        says(&[&ask[..], &["7", "--row-count", rows]].concat(), 3, line);
        says(&[&ask[..], &["8", "--row-count", rows]].concat(), 3, line);
    }
    says(
        &[&ask[..], &["7", "--row-count", "1000", "--json", "--deletions", "/no such folder/f", "--bin", "0"]].concat(),
        3,
        r#"{"answer":"refused","file":"index","name":null,"number":null,"meaning":"the index is of 3 rows, the data file has 1000"}"#,
    );
    // An index that the library refuses is refused by its number, whatever it claims.
    let mut body = SMALL;
    body[4] = 4;
    let lost = &folder.write("lost", &index_file("s", "bitmap", &body));
    says(&["audit", lost, "s", "TINYINT", "--row-count", "3"], 3, "refused: MISSING (9), a row never placed: row 3");
    says(&["audit", file, "x", "TINYINT", "--row-count", "1000"], 4, "absent: no bitmap index on column \"x\"");
}

#[test]
fn asks_with_deletions() {
    let folder = Folder::new();
    let file = &folder.write("index", &index_file("state", "bitmap", &events()));
    // The third bin lists no row.
    let bins = [bitmap(&[0, 1]), bitmap(&[0, 2, 5]), vec![0x3A, 0x30, 0, 0, 0, 0, 0, 0]];
    let deletions = &folder.write("deletions", &deletion_file(&bins));
    let ask = |more: &[&str], bin: &str| {
        let words = [&["ask", file, "state", "STRING"], more, &["--deletions", deletions, "--bin", bin]].concat();
        words.into_iter().map(String::from).collect::<Vec<_>>()
    };
    // All rows of the bin are counted as deleted, chosen or not.
    says(&ask(&["EQUAL", "login"], "0"), 0, "keep: drawn from 2 of 6 rows (2 deleted, 0 null)");
    says(&ask(&["EQUAL", "login", "--rows"], "0"), 0, "keep: drawn from 2 of 6 rows (2 deleted, 0 null)\nrows: 2, 5");
    says(&ask(&["EQUAL", "login"], "1"), 1, "skip: drawn from 0 of 6 rows (3 deleted, 0 null)");
    says(&ask(&["EQUAL", "purchase"], "1"), 0, "keep: drawn from 1 of 6 rows (3 deleted, 0 null)");
    says(&ask(&["EQUAL", "logout"], "1"), 1, "skip: drawn from 0 of 6 rows (3 deleted, 0 null)");
    says(&ask(&["EQUAL", "login"], "2"), 0, "keep: drawn from 3 of 6 rows (0 deleted, 0 null)");
    says(
        &ask(&["EQUAL", "login", "--json"], "0"),
        0,
        r#"{"answer":"keep","rows":6,"nulls":0,"deleted":2,"matched":2,"removed":1}"#,
    );
    says(
        &ask(&["EQUAL", "login", "--json"], "1"),
        1,
        r#"{"answer":"skip","rows":6,"nulls":0,"deleted":3,"matched":0,"removed":3}"#,
    );
    says(
        &ask(&["EQUAL", "login", "--json"], "2"),
        0,
        r#"{"answer":"keep","rows":6,"nulls":0,"deleted":0,"matched":3,"removed":0}"#,
    );
    says(
        &ask(&["NOT IN", "--edition", "2", "--json", "--rows"], "1"),
        0,
        r#"{"answer":"keep","rows":6,"nulls":0,"deleted":3,"matched":3,"removed":3,"ranges":[[1,1],[3,4]]}"#,
    );
    // A refused deletion file is no answer, also where no row was chosen.
    for literal in ["login", "logout"] {
        says(
            &ask(&["EQUAL", literal], "3"),
            3,
            "refused: NOBIN (14), bin number not below the number of bins, in the deletion file",
        );
    }
    says(
        &ask(&["EQUAL", "login", "--json"], "3"),
        3,
        r#"{"answer":"refused","file":"deletions","name":"NOBIN","number":14,"meaning":"bin number not below the number of bins"}"#,
    );
    // A deleted row that the index doesn't have.
    let past = &folder.write("past", &deletion_file(&[bitmap(&[6])]));
    says(
        &["ask", file, "state", "STRING", "IS-NOT-NULL", "--deletions", past, "--bin", "0"],
        3,
        "refused: RANGE (7), a row at or above the row count, in the deletion file",
    );
    complains(
        &["ask", file, "state", "STRING", "IS-NULL", "--deletions", "/no such folder/d", "--bin", "0"],
        "can't read /no such folder/d: ",
    );
}

#[test]
fn opens() {
    let folder = Folder::new();
    let file = &folder.write("index", &index_file("s", "bitmap", &SMALL_2));
    says(&["open", file, "s", "TINYINT"], 0, "opened: 3 rows, each in exactly one place; 2 blocks, table of 8 bytes");
    says(&["open", file, "s", "tinyint", "--json"], 0, r#"{"answer":"opened","rows":3,"blocks":2,"table_bytes":8}"#);
    says(
        &["open", "none", "s", "TINYINT", "--embedded", file],
        0,
        "opened: 3 rows, each in exactly one place; 2 blocks, table of 8 bytes",
    );
    says(&["open", file, "x", "TINYINT"], 4, "absent: no bitmap index on column \"x\"");
    says(&["open", file, "x", "TINYINT", "--json"], 4, r#"{"answer":"absent","column":"x","kind":"bitmap"}"#);
    // Another row count than the data file's.
    says(
        &["open", file, "s", "TINYINT", "--row-count", "3"],
        0,
        "opened: 3 rows, each in exactly one place; 2 blocks, table of 8 bytes",
    );
    for command in [&["open", file, "s", "TINYINT"][..], &["lookup", file, "s", "TINYINT", "7"]] {
        let of_1000 = [command, &["--row-count", "1000"]].concat();
        says(&of_1000, 3, "refused: the index is of 3 rows, the data file has 1,000");
    }
    // No rows, and so no values and no blocks.
    let none = &folder.write("none", &index_file("s", "bitmap", &[2, 0, 0, 0, 0, 0, 0, 0, 0, 0, 0, 0, 0, 0, 0, 0, 0, 0]));
    says(&["open", none, "s", "INT"], 0, "opened: 0 rows, each in exactly one place; 0 blocks, table of 0 bytes");
    says(
        &["lookup", none, "s", "INT", "7"],
        1,
        "skip \"7\": drawn from 0 of 0 rows (deletions not applied, 0 null), compared with 0 values",
    );
}

/// Version 1 has no directory to look values up by, and the user is told what reads it.
#[test]
fn version_1_can_not_be_opened() {
    let folder = Folder::new();
    let file = &folder.write("index", &index_file("s", "bitmap", &SMALL));
    let meaning = "only an index of version 2 can be opened; ask takes version 1 too";
    for command in [&["open", file, "s", "TINYINT"][..], &["lookup", file, "s", "TINYINT", "7"]] {
        says(command, 3, &format!("refused: VERSION (3), {meaning}"));
        let json = format!(r#"{{"answer":"refused","file":"index","name":"VERSION","number":3,"meaning":"{meaning}"}}"#);
        says(&[command, &["--json"]].concat(), 3, &json);
    }
    says(&["ask", file, "s", "TINYINT", "EQUAL", "7"], 0, "keep: drawn from 1 of 3 rows (deletions not applied, 1 null)");
    // The version of the file is another one, and Locate's to refuse.
    let mut bytes = index_file("s", "bitmap", &SMALL_2);
    bytes[11] = 2;
    let file = &folder.write("file", &bytes);
    says(
        &["open", file, "s", "TINYINT"],
        3,
        "refused: VERSION (3), index file not 1; body not 1 or 2, or not 2 for open and lookup; deletion file not 1",
    );
}

/// Each literal has the line of ask's EQUAL, and the number of values that it was compared with: by document 02 the halving of two blocks
/// looks at the second one's first value, and at the first one's where the literal comes before that.
#[test]
fn looks_up() {
    let folder = Folder::new();
    let file = &folder.write("index", &index_file("state", "bitmap", &events_2()));
    says(&["audit", file, "state", "STRING"], 0, "accepted: 6 rows, each in exactly one place");
    let look_up = ["lookup", file, "state", "STRING"];
    let with = |more: &[&'static str]| [&look_up[..], more].concat();
    let claim = |matched: u64| format!("drawn from {matched} of 6 rows (deletions not applied, 0 null)");
    // Two first values, then login behind click; one first value, then purchase.
    let login = format!("keep \"login\": {}, compared with 4 values", claim(3));
    let purchase = format!("keep \"purchase\": {}, compared with 2 values", claim(1));
    // Before all: two first values. Between: two, and the two of the first block. Behind all: one, and the one of the second.
    let [before, between, behind] = [("a", 2), ("m", 4), ("z", 2)]
        .map(|(literal, compared)| format!("skip \"{literal}\": {}, compared with {compared} values", claim(0)));
    says(&with(&["login"]), 0, &login);
    says(&with(&["login", "purchase", "a"]), 0, &[&login[..], &purchase, &before].join("\n"));
    says(&with(&["m", "login", "login", "z"]), 0, &[&between[..], &login, &login, &behind].join("\n"));
    says(&with(&["a", "m", "z"]), 1, &[&before[..], &between, &behind].join("\n"));
    says(&with(&["purchase", "--edition", "1"]), 0, &purchase);
    says(&with(&["purchase", "--edition", "2"]), 0, &purchase);
    says(
        &with(&["login", "m", "purchase", "--rows"]),
        0,
        &[&login[..], "rows: 0, 2, 5", &between, "rows: none", &purchase, "rows: 3"].join("\n"),
    );
    let object = |literal: &str, answer: &str, matched: u64, compared: u64| {
        format!(
            r#"{{"literal":"{literal}","answer":"{answer}","rows":6,"nulls":0,"deleted":null,"matched":{matched},"removed":null,"compared":{compared}"#
        )
    };
    says(
        &with(&["login", "a", "--json"]),
        0,
        &format!(r#"{{"answer":"looked-up","lookups":[{}}},{}}}]}}"#, object("login", "keep", 3, 4), object("a", "skip", 0, 2)),
    );
    says(
        &with(&["a", "--json", "--rows"]),
        1,
        &format!(r#"{{"answer":"looked-up","lookups":[{},"ranges":[]}}]}}"#, object("a", "skip", 0, 2)),
    );
    says(
        &with(&["login", "--json", "--rows"]),
        0,
        &format!(r#"{{"answer":"looked-up","lookups":[{},"ranges":[[0,0],[2,2],[5,5]]}}]}}"#, object("login", "keep", 3, 4)),
    );
    says(&["lookup", file, "x", "STRING", "login", "a"], 4, "absent: no bitmap index on column \"x\"");
    // From standard input, and embedded.
    let bytes = index_file("state", "bitmap", &events_2());
    says_of_input(&["lookup", "-", "state", "STRING", "login"], &bytes, 0, &login);
    says_of_input(&["lookup", "none", "state", "STRING", "login", "--embedded", "-"], &bytes, 0, &login);
}

/// What a lookup says of a literal is what ask says of it, but for the values compared.
#[test]
fn a_lookup_says_what_ask_says() {
    let folder = Folder::new();
    let events = &folder.write("events", &index_file("c", "bitmap", &events_2()));
    let small = &folder.write("small", &index_file("c", "bitmap", &SMALL_2));
    let deletions = &folder.write("deletions", &deletion_file(&[bitmap(&[0, 2])]));
    let demo = Path::new(env!("CARGO_MANIFEST_DIR")).join("../demo/pumps-v2.index");
    let demo = demo.to_str().unwrap();
    for (file, column, ty, literals) in [
        (&events[..], "c", "STRING", &["click", "login", "purchase", "", "a", "loginn", "z"][..]),
        (small, "c", "TINYINT", &["7", "9", "8", "-7", "127"]),
        (demo, "state", "STRING", &["fault", "idle", "running", "stopped"]),
        (demo, "alarm", "BOOLEAN", &["true", "false"]),
    ] {
        for more in [
            &[][..],
            &["--rows"],
            &["--edition", "1"],
            &["--rows", "--deletions", deletions, "--bin", "0"],
            &["--rows", "--deletions", deletions, "--bin", "0", "--first", "1"],
        ] {
            let asked: Vec<(i32, String, String)> = literals
                .iter()
                .map(|literal| run(&[&["ask", file, column, ty, "EQUAL"], more, &["--", literal]].concat()))
                .collect();
            let (status, out, err) = run(&[&["lookup", file, column, ty], more, &["--"], literals].concat());
            assert_eq!((status, err.as_str()), (asked.iter().map(|(status, ..)| *status).min().unwrap(), ""));
            // The literal stands behind keep or skip, and the values compared at the line's end.
            let lines: Vec<String> = out
                .lines()
                .map(|line| match line.split_once(", compared with ") {
                    Some((line, _)) => line.replacen(&line[4..line.find(": ").unwrap()], "", 1),
                    None => line.to_string(),
                })
                .collect();
            let expected: Vec<&str> = asked.iter().flat_map(|(_, line, _)| line.lines()).collect();
            assert_eq!(lines, expected, "{file} {more:?}");
            let shown = literals.iter().filter(|literal| out.contains(&format!(" {literal:?}: drawn from ")));
            assert_eq!(shown.count(), literals.len());
        }
    }
}

#[test]
fn looks_up_with_deletions() {
    let folder = Folder::new();
    let file = &folder.write("index", &index_file("state", "bitmap", &events_2()));
    let deletions = &folder.write("deletions", &deletion_file(&[bitmap(&[0, 1]), bitmap(&[0, 2, 5])]));
    let look_up = |more: &[&str], bin: &str| {
        let words = [&["lookup", file, "state", "STRING"], more, &["--deletions", deletions, "--bin", bin]].concat();
        words.into_iter().map(String::from).collect::<Vec<_>>()
    };
    says(
        &look_up(&["login", "purchase", "--rows"], "0"),
        0,
        "keep \"login\": drawn from 2 of 6 rows (2 deleted, 0 null), compared with 4 values\nrows: 2, 5\n\
         keep \"purchase\": drawn from 1 of 6 rows (2 deleted, 0 null), compared with 2 values\nrows: 3",
    );
    // All rows of login are deleted.
    let skipped = "skip \"login\": drawn from 0 of 6 rows (3 deleted, 0 null), compared with 4 values";
    says(&look_up(&["login"], "1"), 1, skipped);
    let kept = "keep \"purchase\": drawn from 1 of 6 rows (3 deleted, 0 null), compared with 2 values";
    says(&look_up(&["login", "purchase"], "1"), 0, &format!("{skipped}\n{kept}"));
    says(
        &look_up(&["login", "--json"], "1"),
        1,
        r#"{"answer":"looked-up","lookups":[{"literal":"login","answer":"skip","rows":6,"nulls":0,"deleted":3,"matched":0,"removed":3,"compared":4}]}"#,
    );
    // A refused deletion file is no answer, also where no literal has a row.
    for literals in [&["login", "m"][..], &["m"]] {
        let line = "refused: NOBIN (14), bin number not below the number of bins, in the deletion file";
        says(&look_up(literals, "2"), 3, line);
    }
    complains(
        &["lookup", file, "state", "STRING", "login", "--deletions", "/no such folder/d", "--bin", "0"],
        "can't read /no such folder/d: ",
    );
    // Without an index, and with one that is refused, it isn't looked for.
    let absent = ["lookup", file, "x", "STRING", "login", "--deletions", "/no such folder/d", "--bin", "0"];
    says(&absent, 4, "absent: no bitmap index on column \"x\"");
}

/// Open refuses what audit refuses, in the same words, and lookup has no line for any literal then.
#[test]
fn every_refusal_of_an_index_to_open() {
    let folder = Folder::new();
    let whole = index_file("s", "bitmap", &SMALL_2);
    let changed = |at: usize, byte: u8| {
        let mut bytes = whole.clone();
        bytes[at] = byte;
        bytes
    };
    // The body starts at 47: row count 48 to 51, value number 52 to 55, has-null 56, null's offset 57 to 60, block number 65 to 68, the directory
    // 69 to 78, the body offset 79 to 82, 7 at 87 with its offset 88 to 91, 9 at 100 with its offset 101 to 104.
    for (bytes, name) in [
        (vec![], "SHORT"),
        (index_file("s", "bitmap", &SMALL_2[..61]), "SHORT"),
        (index_file("s", "bitmap", &[]), "SHORT"),
        (changed(7, 0xAF), "MAGIC"),
        (whole[..108].to_vec(), "HEAD"),
        (changed(56, 2), "DICT"),
        (changed(74, 8), "DICT"),
        (changed(82, 25), "DICT"),
        (changed(57, 0), "BITMAP"),
        (changed(101, 0), "BITMAP"),
        (changed(91, 0xFC), "RANGE"),
        (changed(104, 0xFF), "TWICE"),
        (changed(51, 4), "MISSING"),
        (changed(54, 0x11), "DICT"),
        (changed(53, 2), "LIMIT"),
        (changed(66, 2), "LIMIT"),
    ] {
        let file = &folder.write("index", &bytes);
        for more in [&[][..], &["--json"]] {
            let (status, out, err) = run(&[&["audit", file, "s", "TINYINT"], more].concat());
            assert_eq!((status, err.as_str()), (3, ""), "{name}");
            assert!(out.contains(name), "{name}: {out}");
            let line = out.trim_end();
            says(&[&["open", file, "s", "TINYINT"], more].concat(), 3, line);
            says(&[&["lookup", file, "s", "TINYINT", "7", "8"], more].concat(), 3, line);
        }
    }
    // Read as STRING the directory begins with a length over the limit.
    let file = folder.write("whole", &whole);
    says(&["open", &file, "s", "STRING"], 3, "refused: LIMIT (12), a limit is passed");
}

/// A literal that is refused leaves no line for the others, and names no file.
#[test]
fn a_literal_that_is_too_long_to_look_up() {
    let folder = Folder::new();
    let file = &folder.write("index", &index_file("state", "bitmap", &events_2()));
    let long = |length: usize, more: &[&str]| {
        let text = "x".repeat(length);
        [&["lookup", file, "state", "STRING", "login", &text], more]
            .concat()
            .iter()
            .map(|word| word.to_string())
            .collect::<Vec<_>>()
    };
    assert_eq!(run(&long(65_535, &[])).0, 0);
    says(&long(65_536, &[]), 3, "refused: LIMIT (12), a limit is passed");
    says(
        &long(65_536, &["--json"]),
        3,
        r#"{"answer":"refused","file":null,"name":"LIMIT","number":12,"meaning":"a limit is passed"}"#,
    );
    // More literals than one question may have: each is a question of its own.
    let many = [&["lookup", file, "state", "STRING"][..], &vec!["login"; 1_025]].concat();
    let (status, out, err) = run(&many);
    assert_eq!((status, out.lines().count(), err.as_str()), (0, 1_025, ""));
}

/// The sentence that document 02 wants on a graph, with commas in each count of rows of a line and in none of JSON's numbers.
#[test]
fn thousands_have_commas() {
    let folder = Folder::new();
    // So many rows from this one on, as a run in one container.
    let run = |first: u16, rows: u16| {
        let [card, first, last] = [rows - 1, first, rows - 1].map(u16::to_le_bytes);
        [&[0x3B, 0x30, 0, 0, 1, 0, 0][..], &card, &[1, 0], &first, &last].concat()
    };
    // Of 1,000 rows the first ten are null and the others 7; 30 rows are deleted, 20 of them among the chosen.
    let body = |rows: u16, nulls: u16| {
        let [high, low] = rows.to_be_bytes();
        let head = [1, 0, 0, high, low, 0, 0, 0, 1, 1, 0, 0, 0, 0, 7, 0, 0, 0, 15];
        index_file("s", "bitmap", &[&head[..], &run(0, nulls), &run(nulls, rows - nulls)].concat())
    };
    let index = &folder.write("index", &body(1_000, 10));
    let deletions = &folder.write("deletions", &deletion_file(&[run(0, 30), run(0, 2_000)]));
    let ask = ["ask", index, "s", "TINYINT", "EQUAL", "7"];
    says(&ask, 0, "keep: drawn from 990 of 1,000 rows (deletions not applied, 10 null)");
    let deleted = [&ask[..], &["--deletions", deletions, "--bin", "0"]].concat();
    says(&deleted, 0, "keep: drawn from 970 of 1,000 rows (30 deleted, 10 null)");
    says(
        &[&deleted[..], &["--json"]].concat(),
        0,
        r#"{"answer":"keep","rows":1000,"nulls":10,"deleted":30,"matched":970,"removed":20}"#,
    );

    let index = &folder.write("larger", &body(65_000, 1_500));
    let ask = ["ask", index, "s", "TINYINT", "IS-NOT-NULL", "--deletions", deletions, "--bin", "1"];
    says(&ask, 0, "keep: drawn from 63,000 of 65,000 rows (2,000 deleted, 1,500 null)");
    says(
        &[&ask[..], &["--json"]].concat(),
        0,
        r#"{"answer":"keep","rows":65000,"nulls":1500,"deleted":2000,"matched":63000,"removed":500}"#,
    );

    // The other commands that say how many rows.
    let audit = ["audit", index, "s", "TINYINT"];
    says(&audit, 0, "accepted: 65,000 rows, each in exactly one place");
    says(&[&audit[..], &["--json"]].concat(), 0, r#"{"answer":"accepted","rows":65000}"#);
    let of_another = [&audit[..], &["--row-count", "1000000"]].concat();
    says(&of_another, 3, "refused: the index is of 65,000 rows, the data file has 1,000,000");
    says(
        &[&of_another[..], &["--json"]].concat(),
        3,
        r#"{"answer":"refused","file":"index","name":null,"number":null,"meaning":"the index is of 65000 rows, the data file has 1000000"}"#,
    );
    let listed = ["deletions", deletions, "1", "65000", "--rows"];
    says(&listed, 0, "deleted: 2,000 of 65,000 rows\nrows: 0-1999");
    says(&[&listed[..], &["--json"]].concat(), 0, r#"{"answer":"deleted","count":2000,"rows":65000,"ranges":[[0,1999]]}"#);
    // A row's number has none.
    let mut lost = body(1_000, 10);
    lost[51] += 1;
    let lost = &folder.write("lost", &lost);
    says(&["audit", lost, "s", "TINYINT"], 3, "refused: MISSING (9), a row never placed: row 1000");
}

#[test]
fn reads_deletions() {
    let folder = Folder::new();
    let file = &folder.write("deletions", &deletion_file(&[bitmap(&[0, 2, 5]), vec![0x3A, 0x30, 0, 0, 0, 0, 0, 0]]));
    says(&["deletions", file, "0", "6"], 0, "deleted: 3 of 6 rows");
    says(&["deletions", file, "0", "100", "--rows"], 0, "deleted: 3 of 100 rows\nrows: 0, 2, 5");
    says(&["deletions", file, "1", "1"], 0, "deleted: 0 of 1 row");
    says(&["deletions", file, "0", "6", "--json"], 0, r#"{"answer":"deleted","count":3,"rows":6}"#);
    says(
        &["deletions", file, "0", "6", "--json", "--rows"],
        0,
        r#"{"answer":"deleted","count":3,"rows":6,"ranges":[[0,0],[2,2],[5,5]]}"#,
    );
}

/// A window has the rows from its first one on, of a 32-bit bin as of a 64-bit one, and says which. Rows outside are no fault.
#[test]
fn reads_deletions_through_a_window() {
    let folder = Folder::new();
    let narrow = &folder.write("narrow", &deletion_file(&[bitmap(&[7]), bitmap(&[0, 2, 5])]));
    let wide = &folder.write("wide", &file_of_bins(&[bin_64(&[]), wide_bin()]));
    for file in [narrow, wide] {
        let window = |rows: &str, first: &str, line: &str| {
            says(&["deletions", file, "1", rows, "--first", first, "--rows"], 0, line);
        };
        window("6", "0", "deleted: 3 of 6 rows from row 0 on\nrows: 0, 2, 5");
        window("5", "0", "deleted: 2 of 5 rows from row 0 on\nrows: 0, 2");
        window("1000", "1", "deleted: 2 of 1,000 rows from row 1 on\nrows: 2, 5");
        window("1", "5", "deleted: 1 of 1 row from row 5 on\nrows: 5");
        window("1000", "6", "deleted: 0 of 1,000 rows from row 6 on\nrows: none");
        window("0", "2", "deleted: 0 of 0 rows from row 2 on\nrows: none");
        says(&["deletions", file, "1", "6", "--first=2"], 0, "deleted: 2 of 6 rows from row 2 on");
        let object = r#"{"answer":"deleted","count":2,"rows":1000,"first":1"#;
        says(&["deletions", file, "1", "1000", "--first", "1", "--json"], 0, &format!("{object}}}"));
        let listed = format!(r#"{object},"ranges":[[2,2],[5,5]]}}"#);
        says(&["deletions", file, "1", "1000", "--first", "1", "--json", "--rows"], 0, &listed);
        says_of_input(
            &["deletions", "-", "1", "6", "--first", "2"],
            &fs::read(file).unwrap(),
            0,
            "deleted: 2 of 6 rows from row 2 on",
        );
    }
    says(&["deletions", wide, "0", "6", "--first", "0"], 0, "deleted: 0 of 6 rows from row 0 on");
    let window = |rows: &str, first: &str, line: &str| {
        says(&["deletions", wide, "1", rows, "--first", first, "--rows"], 0, line);
    };
    window("6", "4294967295", "deleted: 3 of 6 rows from row 4294967295 on\nrows: 4294967296-4294967298");
    window("2", "4294967297", "deleted: 2 of 2 rows from row 4294967297 on\nrows: 4294967297-4294967298");
    window("8", "9223372036854775800", "deleted: 1 of 8 rows from row 9223372036854775800 on\nrows: 9223372036854775807");
    window("0", "9223372036854775808", "deleted: 0 of 0 rows from row 9223372036854775808 on\nrows: none");
    says(
        &["deletions", wide, "1", "6", "--first", "4294967295", "--rows", "--json"],
        0,
        r#"{"answer":"deleted","count":3,"rows":6,"first":4294967295,"ranges":[[4294967296,4294967298]]}"#,
    );
    // Without a first row the call is the one of before, to which rows outside are a fault.
    says(&["deletions", narrow, "1", "5"], 3, "refused: RANGE (7), a row at or above the row count");
}

/// Without --first a 64-bit bin is refused, whatever else is wrong with it, and the line says what reads it. Of no other bin it says so.
#[test]
fn a_64_bit_bin_needs_a_first_row() {
    let folder = Folder::new();
    let index = &folder.write("index", &index_file("state", "bitmap", &events_2()));
    let meaning = "the bin is a 64-bit one, to be read with --first ROW";
    let differs = "index file or bin magic differs";
    let mut wrong_sum = file_of_bins(&[wide_bin()]);
    *wrong_sum.last_mut().unwrap() ^= 1;
    // The same magic in the order of bytes of a 32-bit bin's.
    let turned = [&1_681_511_377u32.to_be_bytes(), &wide_bin()[4..]].concat();
    for (bytes, bin, without, with) in [
        (file_of_bins(&[wide_bin()]), "0", meaning, None),
        (wrong_sum, "0", meaning, Some("CHECKSUM (13), bin checksum differs")),
        (
            file_of_bins(&[wide_bin()[..11].to_vec()]),
            "0",
            meaning,
            Some("BITMAP (6), place, length or form of a bitmap is wrong: container 0"),
        ),
        (file_of_bins(&[turned, wide_bin()]), "0", differs, Some("MAGIC (2), index file or bin magic differs")),
        (file_of_bins(&[b"none".to_vec(), wide_bin()]), "1", meaning, None),
    ] {
        let file = &folder.write("deletions", &bytes);
        says(&["deletions", file, bin, "6"], 3, &format!("refused: MAGIC (2), {without}"));
        let json = format!(r#"{{"answer":"refused","file":"deletions","name":"MAGIC","number":2,"meaning":"{without}"}}"#);
        says(&["deletions", file, bin, "6", "--json"], 3, &json);
        let beside = ["--deletions", file, "--bin", bin];
        for asked in [&["ask", index, "state", "STRING", "EQUAL", "login"][..], &["lookup", index, "state", "STRING", "login"]] {
            let words = [asked, &beside].concat();
            says(&words, 3, &format!("refused: MAGIC (2), {without}, in the deletion file"));
            says(&[&words[..], &["--json"]].concat(), 3, &json);
        }
        match with {
            Some(refusal) => says(&["deletions", file, bin, "6", "--first", "0"], 3, &format!("refused: {refusal}")),
            None => says(&["deletions", file, bin, "6", "--first", "0"], 0, "deleted: 3 of 6 rows from row 0 on"),
        }
    }
    // Another refusal than MAGIC has its own words.
    let file = &folder.write("deletions", &file_of_bins(&[wide_bin()]));
    says(&["deletions", file, "1", "6"], 3, "refused: NOBIN (14), bin number not below the number of bins");
    says(&["deletions", file, "0", "2147483648"], 3, "refused: LIMIT (12), a limit is passed");
}

/// Row 0 of the index is the window's first row, and rows are listed as the bin has them.
#[test]
fn asks_and_looks_up_with_deletions_through_a_window() {
    let folder = Folder::new();
    let file = &folder.write("index", &index_file("state", "bitmap", &events_2()));
    let deletions = &folder.write("deletions", &file_of_bins(&[wide_bin()]));
    // Of 6 events login is in 0, 2 and 5, click in 1 and 4, purchase in 3.
    let from = |command: &[&str], first: &str, more: &[&str]| {
        let words =
            [&command[..1], &[file, "state", "STRING"], &command[1..], &["--deletions", deletions, "--bin", "0"], more].concat();
        [&words[..], &["--first", first]].concat().into_iter().map(String::from).collect::<Vec<_>>()
    };
    let login = ["ask", "EQUAL", "login"];
    says(&from(&login, "0", &["--rows"]), 1, "skip: drawn from 0 of 6 rows from row 0 on (3 deleted, 0 null)\nrows: none");
    // The bin's rows 4294967296 to 4294967298 are the index's rows 1 to 3, and then its rows 0 to 2.
    says(
        &from(&login, "4294967295", &["--rows"]),
        0,
        "keep: drawn from 2 of 6 rows from row 4294967295 on (3 deleted, 0 null)\nrows: 4294967295, 4294967300",
    );
    says(
        &from(&login, "4294967296", &["--rows"]),
        0,
        "keep: drawn from 1 of 6 rows from row 4294967296 on (3 deleted, 0 null)\nrows: 4294967301",
    );
    says(
        &from(&login, "4294967295", &["--rows", "--json"]),
        0,
        r#"{"answer":"keep","rows":6,"nulls":0,"deleted":3,"matched":2,"removed":1,"first":4294967295,"ranges":[[4294967295,4294967295],[4294967300,4294967300]]}"#,
    );
    says(&from(&login, "6", &[]), 0, "keep: drawn from 3 of 6 rows from row 6 on (0 deleted, 0 null)");

    let both = ["lookup", "login", "click"];
    says(
        &from(&both, "4294967295", &["--rows"]),
        0,
        "keep \"login\": drawn from 2 of 6 rows from row 4294967295 on (3 deleted, 0 null), compared with 4 values\n\
         rows: 4294967295, 4294967300\n\
         keep \"click\": drawn from 1 of 6 rows from row 4294967295 on (3 deleted, 0 null), compared with 3 values\n\
         rows: 4294967299",
    );
    says(
        &from(&["lookup", "login"], "0", &["--json"]),
        1,
        r#"{"answer":"looked-up","lookups":[{"literal":"login","answer":"skip","rows":6,"nulls":0,"deleted":3,"matched":0,"removed":3,"compared":4,"first":0}]}"#,
    );
    // The window of the index's rows ends above 2^63.
    for command in [&login[..], &both] {
        says(&from(command, "9223372036854775803", &[]), 3, "refused: LIMIT (12), a limit is passed, in the deletion file");
        assert_eq!(run(&from(command, "9223372036854775802", &[])).0, 0);
    }
    // Without deletions there is no window.
    complains(&["ask", file, "state", "STRING", "EQUAL", "login", "--first", "0"], "--first goes with --deletions FILE");
    complains(&["lookup", file, "state", "STRING", "login", "--first", "0"], "--first goes with --deletions FILE");
}

#[test]
fn every_refusal_of_a_window() {
    let folder = Folder::new();
    let whole = file_of_bins(&[wide_bin()]);
    let changed = |at: usize, byte: u8| {
        let mut bytes = whole.clone();
        bytes[at] = byte;
        bytes
    };
    let bitmaps = |of: &[(u32, Vec<u8>)]| file_of_bins(&[bin_64(of)]);
    let short = "SHORT (1), the bytes end inside a field that is due, outside bitmaps";
    let broken = "BITMAP (6), place, length or form of a bitmap is wrong: container 0";
    let limit = "LIMIT (12), a limit is passed";
    for (bytes, bin, rows, first, line) in [
        (vec![], "0", "6", "0", short),
        (whole[..whole.len() - 1].to_vec(), "0", "6", "0", short),
        (changed(5, 0), "0", "6", "0", "MAGIC (2), index file or bin magic differs"),
        (
            changed(0, 2),
            "0",
            "6",
            "0",
            "VERSION (3), index file not 1; body not 1 or 2, or not 2 for open and lookup; deletion file not 1",
        ),
        (changed(9, 2), "0", "6", "0", "CHECKSUM (13), bin checksum differs"),
        (whole.clone(), "1", "6", "0", "NOBIN (14), bin number not below the number of bins"),
        // Indexes that don't rise or are too high, a bitmap that is cut, bytes left over, and faults in a second container and bitmap.
        (bitmaps(&[(1, bitmap(&[0])), (1, bitmap(&[1]))]), "0", "6", "0", broken),
        (bitmaps(&[(1 << 31, bitmap(&[0]))]), "0", "6", "0", broken),
        (bitmaps(&[(0, bitmap(&[0, 2, 5])[..21].to_vec())]), "0", "6", "0", broken),
        (file_of_bins(&[[wide_bin(), vec![0]].concat()]), "0", "6", "0", broken),
        (bitmaps(&[(0, bitmap(&[0])), (1, bitmap(&[1, 1]))]), "0", "6", "0", broken),
        // A 32-bit bin names its container.
        (
            deletion_file(&[[bitmap(&[0, 2, 5]), vec![0]].concat()]),
            "0",
            "6",
            "3",
            "BITMAP (6), place, length or form of a bitmap is wrong: container 1",
        ),
        (whole.clone(), "0", "2147483648", "0", limit),
        (whole.clone(), "0", "18446744073709551615", "18446744073709551615", limit),
        (whole.clone(), "0", "6", "9223372036854775803", limit),
        (whole.clone(), "0", "6", "18446744073709551615", limit),
        (whole.clone(), "0", "0", "9223372036854775809", limit),
    ] {
        let file = &folder.write("deletions", &bytes);
        says(&["deletions", file, bin, rows, "--first", first, "--rows"], 3, &format!("refused: {line}"));
    }
    let file = &folder.write("deletions", &bitmaps(&[(1 << 31, bitmap(&[0]))]));
    says(
        &["deletions", file, "0", "6", "--first", "0", "--json"],
        3,
        r#"{"answer":"refused","file":"deletions","name":"BITMAP","number":6,"meaning":"place, length or form of a bitmap is wrong","entry":0,"container":0}"#,
    );
}

#[test]
fn every_refusal_of_an_index() {
    let folder = Folder::new();
    let whole = index_file("s", "bitmap", &SMALL);
    let changed = |at: usize, byte: u8| {
        let mut bytes = whole.clone();
        bytes[at] = byte;
        bytes
    };
    // The body starts at 47: its version, row count 48 to 51, value number 52 to 55, null's offset 57 to 60, the entries from 61.
    for (bytes, line) in [
        (vec![], "SHORT (1), the bytes end inside a field that is due, outside bitmaps"),
        (index_file("s", "bitmap", &SMALL[..23]), "SHORT (1), the bytes end inside a field that is due, outside bitmaps"),
        (changed(7, 0xAF), "MAGIC (2), index file or bin magic differs"),
        (changed(11, 2), "VERSION (3), index file not 1; body not 1 or 2, or not 2 for open and lookup; deletion file not 1"),
        (changed(47, 3), "VERSION (3), index file not 1; body not 1 or 2, or not 2 for open and lookup; deletion file not 1"),
        (whole[..70].to_vec(), "HEAD (4), index file head breaks a rule"),
        (changed(66, 7), "DICT (5), dictionary breaks a rule"),
        (changed(57, 0), "BITMAP (6), place, length or form of a bitmap is wrong: entry 0, container 0"),
        (changed(67, 0), "BITMAP (6), place, length or form of a bitmap is wrong: entry 2, container 0"),
        (changed(65, 0xFC), "RANGE (7), a row at or above the row count: entry 1"),
        (changed(70, 0xFC), "RANGE (7), a row at or above the row count: entry 2"),
        (changed(70, 0xFF), "TWICE (8), a row already placed: entry 2"),
        (changed(51, 4), "MISSING (9), a row never placed: row 3"),
        (changed(54, 0x11), "LIMIT (12), a limit is passed"),
    ] {
        let file = &folder.write("index", &bytes);
        let refused = &format!("refused: {line}");
        says(&["audit", file, "s", "TINYINT"], 3, refused);
        says(&["ask", file, "s", "TINYINT", "EQUAL", "7"], 3, refused);
        says(&["ask", file, "s", "TINYINT", "EQUAL", "7", "--rows"], 3, refused);
    }
    let file = &folder.write("index", &whole[..70]);
    says(&["locate", file, "s"], 3, "refused: HEAD (4), index file head breaks a rule");
    says(
        &["locate", file, "s", "--json"],
        3,
        r#"{"answer":"refused","file":"index","name":"HEAD","number":4,"meaning":"index file head breaks a rule"}"#,
    );
    // Where the cause is stands in keys of its own, only those that the refusal carries.
    for (at, byte, said) in [
        (67, 0, r#""name":"BITMAP","number":6,"meaning":"place, length or form of a bitmap is wrong","entry":2,"container":0"#),
        (70, 0xFC, r#""name":"RANGE","number":7,"meaning":"a row at or above the row count","entry":2"#),
        (70, 0xFF, r#""name":"TWICE","number":8,"meaning":"a row already placed","entry":2"#),
        (51, 4, r#""name":"MISSING","number":9,"meaning":"a row never placed","row":3"#),
    ] {
        let file = &folder.write("index", &changed(at, byte));
        let line = &format!(r#"{{"answer":"refused","file":"index",{said}}}"#);
        says(&["audit", file, "s", "TINYINT", "--json"], 3, line);
        says(&["ask", file, "s", "TINYINT", "IS-NULL", "--json"], 3, line);
    }
}

/// A value in two containers, of which the second is cut off: the line and the JSON of an index and of deletions name it.
#[test]
fn a_second_container_that_is_cut_off() {
    let folder = Folder::new();
    // Rows 5 and 65,542 as two arrays.
    let cut = [0x3B, 0x30, 1, 0, 0, 0, 0, 0, 0, 1, 0, 0, 0, 5, 0, 6];
    // TINYINT 7 at that bitmap, and no row is null.
    let body = [&[1, 0, 1, 0, 7, 0, 0, 0, 1, 1, 0, 0, 0, 16, 7, 0, 0, 0, 0][..], &cut].concat();
    // Null's bitmap would stand behind the end; with an offset of -1 it is row 0.
    let sound_null = [&body[..10], &[255; 4], &body[14..]].concat();
    let [index, null_too] =
        [("index", &sound_null), ("null", &body)].map(|(name, body)| folder.write(name, &index_file("s", "bitmap", body)));
    says(
        &["audit", &index, "s", "TINYINT"],
        3,
        "refused: BITMAP (6), place, length or form of a bitmap is wrong: entry 1, container 1",
    );
    says(
        &["audit", &null_too, "s", "TINYINT"],
        3,
        "refused: BITMAP (6), place, length or form of a bitmap is wrong: entry 0, container 0",
    );

    let deletions = &folder.write("deletions", &deletion_file(&[cut.to_vec()]));
    says(
        &["deletions", deletions, "0", "70000"],
        3,
        "refused: BITMAP (6), place, length or form of a bitmap is wrong: container 1",
    );
    let said = r#"{"answer":"refused","file":"deletions","name":"BITMAP","number":6,"meaning":"place, length or form of a bitmap is wrong","entry":0,"container":1}"#;
    says(&["deletions", deletions, "0", "70000", "--json"], 3, said);
    let events = &folder.write("events", &index_file("state", "bitmap", &events()));
    let beside = ["ask", events, "state", "STRING", "IS-NOT-NULL", "--deletions", deletions, "--bin", "0"];
    says(&beside, 3, "refused: BITMAP (6), place, length or form of a bitmap is wrong, in the deletion file: container 1");
    says(&[&beside[..], &["--json"]].concat(), 3, said);
}

#[test]
fn every_refusal_of_literals() {
    let folder = Folder::new();
    let file = &folder.write("index", &index_file("s", "bitmap", &SMALL));
    let misfit = "refused: LITERAL (11), literals don't fit question and type";
    says(&["ask", file, "s", "TINYINT", "EQUAL"], 3, misfit);
    says(&["ask", file, "s", "TINYINT", "EQUAL", "7", "9"], 3, misfit);
    says(&["ask", file, "s", "TINYINT", "IS NULL", "7"], 3, misfit);
    for edition in ["1", "2"] {
        says(&["ask", file, "s", "TINYINT", "NOT EQUAL", "--edition", edition], 3, misfit);
        says(&["ask", file, "s", "TINYINT", "NOT EQUAL", "7", "9", "--edition", edition], 3, misfit);
        says(&["ask", file, "s", "TINYINT", "IS NULL", "7", "--edition", edition], 3, misfit);
    }
    says(
        &["ask", file, "s", "TINYINT", "EQUAL", "--json"],
        3,
        r#"{"answer":"refused","file":null,"name":"LITERAL","number":11,"meaning":"literals don't fit question and type"}"#,
    );

    let many = |number: usize| [&["ask", file, "s", "TINYINT", "IN"][..], &vec!["7"; number]].concat();
    says(&many(1_024), 0, "keep: drawn from 1 of 3 rows (deletions not applied, 1 null)");
    says(&many(1_025), 3, "refused: LIMIT (12), a limit is passed");
    says(
        &[many(1_025), vec!["--json"]].concat(),
        3,
        r#"{"answer":"refused","file":null,"name":"LIMIT","number":12,"meaning":"a limit is passed"}"#,
    );

    // Literals are read before the body, and the head of the file before them.
    let damaged = |at: usize, byte: u8| {
        let mut bytes = index_file("s", "bitmap", &SMALL);
        bytes[at] = byte;
        folder.write("damaged", &bytes)
    };
    let mut line = many(1_025);
    let twice = damaged(70, 0xFF);
    line[1] = &twice;
    says(&line, 3, "refused: LIMIT (12), a limit is passed");
    says(&["ask", &twice, "s", "TINYINT", "EQUAL"], 3, misfit);
    let magic = damaged(0, 1);
    line[1] = &magic;
    says(&line, 3, "refused: MAGIC (2), index file or bin magic differs");
    says(&["ask", &magic, "s", "TINYINT", "EQUAL"], 3, "refused: MAGIC (2), index file or bin magic differs");
    says(&["ask", file, "x", "TINYINT", "EQUAL"], 4, "absent: no bitmap index on column \"x\"");
    // The same numbers, of the body and not of the literals.
    let limit = damaged(54, 0x11);
    says(
        &["ask", &limit, "s", "TINYINT", "EQUAL", "7", "--json"],
        3,
        r#"{"answer":"refused","file":"index","name":"LIMIT","number":12,"meaning":"a limit is passed"}"#,
    );
    let empty = folder.write("empty", &index_file("s", "bitmap", &[]));
    says(
        &["ask", &empty, "s", "TINYINT", "EQUAL", "7", "--json"],
        3,
        r#"{"answer":"refused","file":"index","name":"SHORT","number":1,"meaning":"the bytes end inside a field that is due, outside bitmaps"}"#,
    );

    let strings = &folder.write("strings", &index_file("state", "bitmap", &events()));
    let long = |length: usize| ["ask", strings, "state", "STRING", "EQUAL", &"x".repeat(length)].map(String::from);
    says(&long(65_535), 1, "skip: drawn from 0 of 6 rows (deletions not applied, 0 null)");
    says(&long(65_536), 3, "refused: LIMIT (12), a limit is passed");
}

#[test]
fn every_refusal_of_deletions() {
    let folder = Folder::new();
    let whole = deletion_file(&[bitmap(&[0, 2, 5])]);
    let changed = |at: usize, byte: u8| {
        let mut bytes = whole.clone();
        bytes[at] = byte;
        bytes
    };
    for (bytes, bin, rows, line) in [
        (vec![], "0", "6", "SHORT (1), the bytes end inside a field that is due, outside bitmaps"),
        (whole[..34].to_vec(), "0", "6", "SHORT (1), the bytes end inside a field that is due, outside bitmaps"),
        (changed(5, 0), "0", "6", "MAGIC (2), index file or bin magic differs"),
        (
            changed(0, 2),
            "0",
            "6",
            "VERSION (3), index file not 1; body not 1 or 2, or not 2 for open and lookup; deletion file not 1",
        ),
        (deletion_file(&[vec![0; 8]]), "0", "6", "BITMAP (6), place, length or form of a bitmap is wrong: container 0"),
        (
            deletion_file(&[[bitmap(&[0, 2, 5]), vec![0]].concat()]),
            "0",
            "6",
            "BITMAP (6), place, length or form of a bitmap is wrong: container 1",
        ),
        (whole.clone(), "0", "5", "RANGE (7), a row at or above the row count"),
        (whole.clone(), "0", "2147483648", "LIMIT (12), a limit is passed"),
        (changed(34, 0), "0", "6", "CHECKSUM (13), bin checksum differs"),
        (whole.clone(), "1", "6", "NOBIN (14), bin number not below the number of bins"),
        (whole.clone(), "18446744073709551615", "6", "NOBIN (14), bin number not below the number of bins"),
    ] {
        let file = &folder.write("deletions", &bytes);
        says(&["deletions", file, bin, rows, "--rows"], 3, &format!("refused: {line}"));
    }
}

#[test]
fn literals_of_every_type() {
    let folder = Folder::new();
    let day = 19_723i32.to_be_bytes();
    let time = 36_060_250i32.to_be_bytes();
    let millis = 1_704_103_200_250i64.to_be_bytes();
    let micros = 1_704_103_200_250_001i64.to_be_bytes();
    for (ty, stored, literals) in [
        ("TINYINT", &[0xFD][..], &[&["-3"][..]][..]),
        ("BOOLEAN", &[1], &[&["true"], &["TRUE"]]),
        ("SMALLINT", &[0xFF, 0xFD], &[&["-3"], &["--", "-3"]]),
        ("INT", &[0, 0, 0, 7], &[&["7"], &["+7"]]),
        ("DATE", &day, &[&["2024-01-01"], &["19723", "--stored"]]),
        ("TIME", &time, &[&["10:01:00.25"], &["10:01:00.250"], &["36060250", "--stored"]]),
        ("BIGINT", &[0x80, 0, 0, 0, 0, 0, 0, 0], &[&["-9223372036854775808"]]),
        ("TIMESTAMP", &millis, &[&["2024-01-01T10:00:00.25", "--millis"], &["2024-01-01 10:00:00.250", "--millis"]]),
        ("TIMESTAMP", &millis, &[&["1704103200250", "--stored"]]),
        ("TIMESTAMP", &micros, &[&["2024-01-01T10:00:00.250001", "--micros"], &["1704103200250001", "--stored"]]),
        ("LOCAL ZONED TIMESTAMP", &millis, &[&["2024-01-01T10:00:00.25Z", "--millis"], &["2024-01-01T10:00:00.25", "--millis"]]),
        ("local-zoned-timestamp", &micros, &[&["2024-01-01T10:00:00.250001Z", "--micros"]]),
        ("CHAR", b"\0\0\0\x02-3", &[&["-3"]]),
        ("VARCHAR", b"\0\0\0\0", &[&[""]]),
        ("STRING", b"\0\0\0\x06--rows", &[&["--", "--rows"]]),
    ] {
        // Two rows: the value, and null.
        let mut body = vec![1, 0, 0, 0, 2, 0, 0, 0, 1, 1, 255, 255, 255, 254];
        body.extend(stored);
        body.extend([255, 255, 255, 255]);
        let file = &folder.write("index", &index_file("c", "bitmap", &body));
        for literal in literals {
            says(
                &[&["--rows", "ask", file, "c", ty, "EQUAL"], *literal].concat(),
                0,
                "keep: drawn from 1 of 2 rows (deletions not applied, 1 null)\nrows: 0",
            );
            let not_equal = |edition| [&["--rows", "--edition", edition, "ask", file, "c", ty, "NOT EQUAL"], *literal].concat();
            says(&not_equal("1"), 0, "keep: drawn from 1 of 2 rows (deletions not applied, 1 null)\nrows: 1");
            says(&not_equal("2"), 1, "skip: drawn from 0 of 2 rows (deletions not applied, 1 null)\nrows: none");
        }
    }
}

#[test]
fn wrong_usage() {
    let folder = Folder::new();
    let file = &folder.write("index", &index_file("s", "bitmap", &SMALL));
    complains::<&str>(&[], "a command: columns, locate, audit, ask, open, lookup or deletions is missing");
    complains(&["lookup", file, "s", "TINYINT"], "LITERAL is missing");
    complains(&["lookup", file, "s", "TINYINT", "7", "EQUAL"], "\"EQUAL\" is no TINYINT");
    complains(&["lookup", file, "s", "TIMESTAMP", "2024-01-01T10:00:00"], "needs --millis or --micros");
    complains(&["open", file, "s", "TINYINT", "7"], "\"7\" is one word too many");
    complains(&["ask", file, "s", "TINYINT", "EQUAL", "7", "--no-audit"], "\"--no-audit\" is no option");
    complains(&["audit", file, "s", "TINYINT", "--of", "3"], "\"--of\" is no option");
    complains(&["locate", "-", "s", "--embedded", "-"], "standard input can be read once, and - is there twice");
    complains(&["find", file], "\"find\" is no command");
    complains(&["locate", file], "COLUMN is missing");
    complains(&["audit", file, "s", "DECIMAL"], "TYPE \"DECIMAL\" is none of TINYINT, ");
    complains(&["ask", file, "s", "TINYINT", "LIKE"], "QUESTION \"LIKE\" is none of EQUAL, ");
    complains(&["ask", file, "s", "TINYINT", "EQUAL", "300"], "\"300\" is no TINYINT: it takes whole numbers from -128 to 127");
    complains(&["ask", file, "s", "BOOLEAN", "EQUAL", "yes"], "\"yes\" is no BOOLEAN: it takes true and false");
    complains(&["ask", file, "s", "DATE", "EQUAL", "2023-02-29"], "that month has no day 29");
    complains(&["ask", file, "s", "TIME", "EQUAL", "10:01:00.0005"], "the fraction .0005 is finer than milliseconds");
    complains(&["ask", file, "s", "TIMESTAMP", "EQUAL", "2024-01-01T10:00:00.0005", "--millis"], "finer than milliseconds");
    complains(&["ask", file, "s", "TIMESTAMP", "EQUAL", "2024-01-01T10:00:00.0000005", "--micros"], "finer than microseconds");
    complains(&["ask", file, "s", "TINYINT", "EQUAL", "7", "--deletions", file], "--deletions needs --bin N");
    // In the wrong unit, or as a number that isn't the stored one, a literal would be found nowhere and the data file skipped.
    for ty in ["TIMESTAMP", "LOCAL ZONED TIMESTAMP"] {
        complains(
            &["ask", file, "s", ty, "EQUAL", "2024-01-01T10:00:00"],
            &format!(
                "\"2024-01-01T10:00:00\" needs --millis or --micros: \
                 a {ty} column of precision up to 3 stores milliseconds, above 3 microseconds"
            ),
        );
        complains(&["ask", file, "s", ty, "EQUAL", "1704103200250", "--millis"], "a timestamp is written 2024-01-31T10:01:00");
    }
    complains(
        &["ask", file, "s", "DATE", "EQUAL", "20240101"],
        "\"20240101\" is no DATE: a date is written 2024-01-31; for the stored number give --stored",
    );
    complains(&["ask", file, "s", "TIME", "EQUAL", "100100"], "\"100100\" is no TIME: a time of day is written 10:01:00");
    complains(&["locate", file, "s", "--row"], "\"--row\" is no option");
    complains(&["deletions", file, "0", "many"], "ROWS \"many\" is no whole number");
    complains(&["deletions", file, "0", "6", "--first"], "--first needs ROW");
    complains(&["deletions", file, "0", "6", "--first", "-1"], "--first \"-1\" is no whole number");
    complains(&["deletions", file, "0", "6", "--first", "1e3"], "--first \"1e3\" is no whole number");
    complains(&["audit", file, "s", "TINYINT", "--first", "0"], "--first goes with ask, lookup and deletions alone");
    // Nothing is asked of a file before all words are read.
    complains(&["ask", "/no such folder/f", "s", "TINYINT", "EQUAL", "x"], "\"x\" is no TINYINT");
}

#[test]
fn files_that_cannot_be_read() {
    let folder = Folder::new();
    let missing = &folder.0.join("missing").to_str().unwrap().to_string();
    complains(&["locate", missing, "s"], &format!("can't read {missing}: "));
    complains(&["audit", missing, "s", "INT"], &format!("can't read {missing}: "));
    complains(&["deletions", missing, "0", "6"], &format!("can't read {missing}: "));
    complains(&["locate", folder.0.to_str().unwrap(), "s"], "can't read ");
}

#[test]
fn a_file_name_that_is_no_utf_8() {
    use std::os::unix::ffi::OsStrExt;
    let folder = Folder::new();
    let file = folder.0.join(OsStr::from_bytes(b"\xFFindex"));
    fs::write(&file, index_file("s", "bitmap", &SMALL)).unwrap();
    says(
        &["audit".as_ref(), file.as_os_str(), "s".as_ref(), "TINYINT".as_ref()],
        0,
        "accepted: 3 rows, each in exactly one place",
    );
}

#[test]
fn help_and_version() {
    for words in [&["--help"][..], &["ask", "--help"], &["help"], &["-h"], &["audit", "-h"]] {
        let (status, out, err) = run(words);
        assert_eq!((status, err.as_str()), (0, ""));
        assert!(out.contains("poddurance ask FILE COLUMN TYPE QUESTION [LITERAL..] [--edition 1|2]\n"));
        assert!(out.contains("poddurance open FILE COLUMN TYPE [--row-count ROWS] [--embedded FILE]\n"));
        assert!(out.contains("poddurance lookup FILE COLUMN TYPE LITERAL.. [--edition 1|2]\n"));
        assert!(out.contains("poddurance deletions FILE BIN ROWS [--first ROW]\n"));
        // What each edition does with null rows.
        assert!(out.contains("1: they choose null rows too") && out.contains("2: they choose no null row"));
        // What can't be asked for, and how names are shown.
        let sentences = out.split_whitespace().collect::<Vec<_>>().join(" ");
        for sentence in [
            "A name over 65535 bytes in it, which no file can store, is refused: LITERAL (11).",
            "One that is not UTF-8 is wrong usage, also with --json.",
            "One that has the zero character can't be a word",
            "with \\ escapes for double quotes, backslashes and what doesn't show by itself,",
            "The name itself is in --json.",
            "An index of version 1 is refused: VERSION (3); ask takes both",
            "A literal that no row has is a skip. If anything is refused no literal is answered",
            "A 64-bit bin needs --first: without it the bin is refused, MAGIC (2), and the line says so",
            "row 0 of the index, or of ROWS, is row ROW of the bin.",
            "Rows that the bin lists outside the window are no fault; without --first one at or above the row count is refused: RANGE (7).",
        ] {
            assert!(sentences.contains(sentence), "{sentence}");
        }
        // The one reader that isn't proved says so.
        assert!(out.contains("A plain reader lists them, which\n             is not proved"));
        assert!(out.lines().all(|line| line.len() <= 120 && !line.ends_with(' ')));
    }
    says(&["--version"], 0, concat!("poddurance ", env!("CARGO_PKG_VERSION")));
}

#[test]
fn an_answer_that_cannot_be_written_is_none() {
    if !Path::new("/dev/full").exists() {
        return;
    }
    let folder = Folder::new();
    let file = folder.write("index", &index_file("s", "bitmap", &SMALL));
    let output = Command::new(env!("CARGO_BIN_EXE_poddurance"))
        .args(["ask", &file, "s", "TINYINT", "EQUAL", "7"])
        .stdout(File::options().write(true).open("/dev/full").unwrap())
        .output()
        .unwrap();
    assert_eq!(output.status.code(), Some(2));
    assert!(String::from_utf8(output.stderr).unwrap().contains("can't write the answer"));
}

#[test]
fn a_closed_pipe_is_no_answer() {
    let folder = Folder::new();
    // Every second of 65,536 rows, as bits: more text than a pipe holds, so that the program can't be done before it is closed.
    let mut bits = vec![0x3A, 0x30, 0, 0, 1, 0, 0, 0, 0, 0, 0xFF, 0x7F, 16, 0, 0, 0];
    bits.extend([0x55; 8192]);
    let file = folder.write("deletions", &deletion_file(&[bits]));
    let mut program = Command::new(env!("CARGO_BIN_EXE_poddurance"))
        .args(["deletions", &file, "0", "65536", "--rows"])
        .stdout(Stdio::piped())
        .stderr(Stdio::piped())
        .spawn()
        .unwrap();
    drop(program.stdout.take());
    let output = program.wait_with_output().unwrap();
    assert_eq!(output.status.code(), Some(2));
    assert!(String::from_utf8(output.stderr).unwrap().contains("can't write the answer"));
}

#[test]
#[ignore = "reads 2 GiB of zeros into memory"]
fn a_file_over_the_limit() {
    let folder = Folder::new();
    let path = folder.0.join("large");
    // A file of zeros that takes no room on the disk; at the limit it is read, and its magic differs.
    let file = File::create(&path).unwrap();
    let words = ["locate", path.to_str().unwrap(), "s"];
    file.set_len(2_147_483_647).unwrap();
    says(&words, 3, "refused: MAGIC (2), index file or bin magic differs");
    for length in [1 << 31, 1 << 40] {
        file.set_len(length).unwrap();
        says(&words, 3, "refused: LIMIT (12), a limit is passed");
    }
}
