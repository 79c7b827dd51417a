//! What is said, as a line or as JSON, and the exit status that goes with it.

use std::io::{self, Write};

use poddurance::{Record, Refusal, RowField};

use crate::columns::Column;
use crate::commas::with_commas;
use crate::modified::{decoded, pieces, Piece};

/// What came out. Its numbers are the library's answers or the user's own, but for those of `columns`; a field is for the list of its
/// rows alone, to which the first row of a window is added.
#[derive(Debug)]
pub enum Outcome {
    /// What the head of an index file lists.
    Listed { columns: Vec<Column> },
    /// Why it can't be listed.
    NotListed { reason: String },
    /// Locate found the index.
    Found { column: String, kind: String, start: u64, length: u64 },
    /// There is no such index.
    Absent { column: String, kind: String },
    /// Audit accepted.
    Accepted { rows: u64 },
    /// Ask answered, and Subtract removed so many rows if there was a deletion file. Without one the record's deleted rows are 0 and say
    /// nothing of the data file's. The field's row 0 is the first row of the window that the deletions were read through, if they were.
    Answered { record: Record, removed: Option<u64>, first: Option<u64>, field: RowField },
    /// Open accepted: how many rows and blocks, and the bytes of the table that it filled.
    Opened { rows: u64, blocks: u64, table_bytes: usize },
    /// Every literal was looked up in an index that was opened once.
    LookedUp { lookups: Vec<Lookup> },
    /// The deletions were read: how many rows, of how many, and from which row on if through a window.
    Deleted { count: u64, rows: u64, first: Option<u64>, field: RowField },
    /// The library refused something.
    Refused { refusal: Refusal, part: Part },
    /// The index is accepted, but it is not of the data file's row count.
    RowsDiffer { index_rows: u64, data_rows: u64 },
}

/// What one literal of a lookup was answered. Record, removed rows and first row are as in an answer to a question.
#[derive(Debug)]
pub struct Lookup {
    /// As the user wrote it.
    pub literal: String,
    pub record: Record,
    pub removed: Option<u64>,
    pub first: Option<u64>,
    /// How many values it was compared with.
    pub compared: u64,
    /// Where they are to be listed.
    pub rows: Option<RowField>,
}

/// What a refusal is about.
#[derive(Clone, Copy, Debug, PartialEq, Eq)]
pub enum Part {
    /// The column's name, whatever the file has. It is UTF-8, being a word of the command line, and so it is too long.
    Column,
    /// The kind's name, likewise.
    Kind,
    /// The literals, whatever the file has.
    Literals,
    Index,
    /// The index that was to be opened. VERSION is then of its body, since its head was read before.
    IndexToOpen,
    /// The deletion file. Beside an index that was accepted the line says so, since the user named two files. `needs_window` tells of a 64-bit bin
    /// that was read without a window.
    Deletions {
        beside_index: bool,
        needs_window: bool,
    },
}

impl Part {
    /// What a refusal says of it: the library's words, but for LITERAL, VERSION and MAGIC, which have several causes, the one that it was.
    fn meaning(self, refusal: Refusal) -> &'static str {
        match self {
            Part::Column => "the column's name takes more than 65535 bytes in modified UTF-8",
            Part::Kind => "the kind's name takes more than 65535 bytes in modified UTF-8",
            Part::Literals if refusal == Refusal::Literal => "literals don't fit question and type",
            // A person who has version 1 is told what reads it.
            Part::IndexToOpen if refusal == Refusal::Version => {
                "only an index of version 2 can be opened; ask takes version 1 too"
            }
            // And who has a 64-bit bin.
            Part::Deletions { needs_window: true, .. } => "the bin is a 64-bit one, to be read with --first ROW",
            Part::Literals | Part::Index | Part::IndexToOpen | Part::Deletions { .. } => refusal.meaning(),
        }
    }
}

impl Outcome {
    pub fn exit_status(&self) -> u8 {
        match self {
            Outcome::Listed { .. } | Outcome::Found { .. } | Outcome::Accepted { .. } => 0,
            Outcome::Opened { .. } | Outcome::Deleted { .. } => 0,
            Outcome::Answered { record, .. } => u8::from(record.is_skip()),
            // The data file needn't be read where no literal has a row in it.
            Outcome::LookedUp { lookups } => u8::from(lookups.iter().all(|lookup| lookup.record.is_skip())),
            Outcome::Refused { .. } | Outcome::RowsDiffer { .. } | Outcome::NotListed { .. } => 3,
            // Not that of skip: with skip no row is to be read, and without an index all are.
            Outcome::Absent { .. } => 4,
        }
    }

    /// One line, and with `list` a second one that lists the rows; of `columns` a line for each index, of `lookup` one or two for each literal.
    pub fn write_text(&self, list: bool, out: &mut impl Write) -> io::Result<()> {
        match self {
            Outcome::Listed { columns } => list_columns(columns, out),
            Outcome::NotListed { reason } => writeln!(out, "refused: {reason}"),
            Outcome::Found { column, kind, start, length } => {
                let kind = kind.escape_debug();
                writeln!(out, "found: {kind} index on column {column:?}, {length} {} at {start}", plural(*length, "byte"))
            }
            Outcome::Absent { column, kind } => {
                writeln!(out, "absent: no {} index on column {column:?}", kind.escape_debug())
            }
            Outcome::Accepted { rows } => writeln!(out, "accepted: {}, each in exactly one place", counted(*rows, "row")),
            Outcome::Answered { record, removed, first, field } => {
                writeln!(out, "{}: {}", answer(record), claim(record, *removed, *first))?;
                list_rows(field, *first, list, out)
            }
            Outcome::Opened { rows, blocks, table_bytes } => {
                let (rows, blocks) = (counted(*rows, "row"), counted(*blocks, "block"));
                writeln!(out, "opened: {rows}, each in exactly one place; {blocks}, table of {table_bytes} bytes")
            }
            Outcome::LookedUp { lookups } => {
                for Lookup { literal, record, removed, first, compared, rows } in lookups {
                    let (claim, values) = (claim(record, *removed, *first), counted(*compared, "value"));
                    writeln!(out, "{} {literal:?}: {claim}, compared with {values}", answer(record))?;
                    if let Some(rows) = rows {
                        list_rows(rows, *first, list, out)?;
                    }
                }
                Ok(())
            }
            Outcome::Deleted { count, rows, first, field } => {
                writeln!(out, "deleted: {} of {}{}", with_commas(*count), counted(*rows, "row"), from_row(*first))?;
                list_rows(field, *first, list, out)
            }
            Outcome::Refused { refusal, part } => {
                write!(out, "refused: {} ({}), {}", refusal.name(), refusal.number(), part.meaning(*refusal))?;
                if let Part::Deletions { beside_index: true, .. } = part {
                    write!(out, ", in the deletion file")?;
                }
                let in_bin = matches!(part, Part::Deletions { .. });
                // A bin has no entries, and the 0 in their place would be taken for null's.
                let carried = refusal.carried().filter(|(name, _)| !in_bin || *name != "entry");
                let carried: Vec<String> = carried.map(|(name, number)| format!("{name} {number}")).collect();
                writeln!(out, "{}{}", if carried.is_empty() { "" } else { ": " }, carried.join(", "))
            }
            Outcome::RowsDiffer { index_rows, data_rows } => {
                writeln!(out, "refused: {}", difference(*index_rows, *data_rows, with_commas))
            }
        }
    }

    /// One object on one line. Its keys go by `answer` and the options that were given, those of a refusal by its `name` too, and don't change
    /// with the other values.
    pub fn write_json(&self, list: bool, out: &mut impl Write) -> io::Result<()> {
        match self {
            Outcome::Listed { columns } => json_columns(columns, out)?,
            // Document 01 has neither a name nor a number for it.
            Outcome::NotListed { reason } => json_refused(reason, out)?,
            Outcome::Found { column, kind, start, length } => {
                let (column, kind) = (quoted(column), quoted(kind));
                write!(out, r#"{{"answer":"found","column":{column},"kind":{kind},"start":{start},"length":{length}"#)?;
            }
            Outcome::Absent { column, kind } => {
                write!(out, r#"{{"answer":"absent","column":{},"kind":{}"#, quoted(column), quoted(kind))?;
            }
            Outcome::Accepted { rows } => write!(out, r#"{{"answer":"accepted","rows":{rows}"#)?,
            Outcome::Answered { record, removed, first, field } => {
                write!(out, "{{{}{}", json_answer(record, *removed), json_first(*first))?;
                json_rows(field, *first, list, out)?;
            }
            Outcome::Opened { rows, blocks, table_bytes } => {
                write!(out, r#"{{"answer":"opened","rows":{rows},"blocks":{blocks},"table_bytes":{table_bytes}"#)?;
            }
            Outcome::LookedUp { lookups } => {
                write!(out, r#"{{"answer":"looked-up","lookups":["#)?;
                let mut between = "";
                for Lookup { literal, record, removed, first, compared, rows } in lookups {
                    let (literal, answer) = (quoted(literal), json_answer(record, *removed));
                    write!(out, r#"{between}{{"literal":{literal},{answer},"compared":{compared}{}"#, json_first(*first))?;
                    if let Some(rows) = rows {
                        json_rows(rows, *first, list, out)?;
                    }
                    write!(out, "}}")?;
                    between = ",";
                }
                write!(out, "]")?;
            }
            Outcome::Deleted { count, rows, first, field } => {
                write!(out, r#"{{"answer":"deleted","count":{count},"rows":{rows}{}"#, json_first(*first))?;
                json_rows(field, *first, list, out)?;
            }
            Outcome::Refused { refusal, part } => {
                let file = match part {
                    Part::Column | Part::Kind | Part::Literals => "null",
                    Part::Index | Part::IndexToOpen => r#""index""#,
                    Part::Deletions { .. } => r#""deletions""#,
                };
                let (name, number, meaning) = (refusal.name(), refusal.number(), quoted(part.meaning(*refusal)));
                write!(out, r#"{{"answer":"refused","file":{file},"name":"{name}","number":{number},"meaning":{meaning}"#)?;
                for (key, number) in refusal.carried() {
                    write!(out, r#","{key}":{number}"#)?;
                }
            }
            // Nor for this.
            Outcome::RowsDiffer { index_rows, data_rows } => {
                json_refused(&difference(*index_rows, *data_rows, |number| number.to_string()), out)?;
            }
        }
        writeln!(out, "}}")
    }
}

fn answer(record: &Record) -> &'static str {
    if record.is_skip() {
        "skip"
    } else {
        "keep"
    }
}

/// What a graph may claim of an answer. Without deletions it doesn't say how many rows are deleted.
fn claim(record: &Record, removed: Option<u64>, first: Option<u64>) -> String {
    let deleted = match removed {
        Some(_) => format!("{} deleted", with_commas(record.deleted())),
        None => "deletions not applied".to_string(),
    };
    format!("{record}{} ({deleted}, {} null)", from_row(first), with_commas(record.nulls()))
}

/// Which rows those of a window are, behind their number.
fn from_row(first: Option<u64>) -> String {
    first.map_or(String::new(), |first| format!(" from row {first} on"))
}

fn json_first(first: Option<u64>) -> String {
    first.map_or(String::new(), |first| format!(r#","first":{first}"#))
}

/// The same, as the keys of an object.
fn json_answer(record: &Record, removed: Option<u64>) -> String {
    let (answer, rows, nulls, matched) = (answer(record), record.rows(), record.nulls(), record.matched());
    let (deleted, removed) = match removed {
        Some(removed) => (record.deleted().to_string(), removed.to_string()),
        None => ("null".to_string(), "null".to_string()),
    };
    format!(r#""answer":"{answer}","rows":{rows},"nulls":{nulls},"deleted":{deleted},"matched":{matched},"removed":{removed}"#)
}

/// A person reads the numbers with commas, and a program without.
fn difference(index_rows: u64, data_rows: u64, written: fn(u64) -> String) -> String {
    let (index, data) = (written(index_rows), written(data_rows));
    format!("the index is of {index} {}, the data file has {data}", plural(index_rows, "row"))
}

/// How many of a thing, with commas as in a record's sentence.
fn counted(number: u64, thing: &str) -> String {
    format!("{} {}", with_commas(number), plural(number, thing))
}

/// The word, with an s where there isn't one alone.
fn plural(number: u64, thing: &str) -> String {
    format!("{thing}{}", if number == 1 { "" } else { "s" })
}

/// The rows that are set, of a window as the rows that they stand for.
fn ranges(field: &RowField, first: Option<u64>) -> impl Iterator<Item = (u64, u64)> + '_ {
    // An accepted window ends by 2^63, and so no row is too large for a number.
    let shift = first.unwrap_or(0);
    field.ranges().map(move |range| (shift + range.start(), shift + range.end()))
}

fn list_rows(field: &RowField, first: Option<u64>, list: bool, out: &mut impl Write) -> io::Result<()> {
    if !list {
        return Ok(());
    }
    write!(out, "rows: ")?;
    let mut between = "";
    for (first, last) in ranges(field, first) {
        write!(out, "{between}{first}")?;
        if last > first {
            write!(out, "-{last}")?;
        }
        between = ", ";
    }
    writeln!(out, "{}", if between.is_empty() { "none" } else { "" })
}

fn json_rows(field: &RowField, first: Option<u64>, list: bool, out: &mut impl Write) -> io::Result<()> {
    if !list {
        return Ok(());
    }
    write!(out, r#","ranges":["#)?;
    let mut between = "";
    for (first, last) in ranges(field, first) {
        write!(out, "{between}[{first},{last}]")?;
        between = ",";
    }
    write!(out, "]")
}

/// A line for each index, and for a column without one.
fn list_columns(columns: &[Column], out: &mut impl Write) -> io::Result<()> {
    if columns.is_empty() {
        writeln!(out, "no column")?;
    }
    for Column { name, indexes } in columns {
        let column = shown(name);
        if indexes.is_empty() {
            let improper = decoded(name).map_or(COLUMN_NOT_ASKED_FOR, |_| "");
            writeln!(out, "column \"{column}\": no index{improper}")?;
        }
        for index in indexes {
            let (kind, length, start) = (shown(&index.kind), index.length, index.start);
            let bytes = if length == 1 { "byte" } else { "bytes" };
            let improper = match (decoded(name), decoded(&index.kind)) {
                (Some(_), Some(_)) => "",
                (None, Some(_)) => COLUMN_NOT_ASKED_FOR,
                (Some(_), None) => " (the kind can't be asked for: its name is not modified UTF-8)",
                (None, None) => " (neither can be asked for: neither name is modified UTF-8)",
            };
            writeln!(out, "column \"{column}\": {kind} index, {length} {bytes} at {start}{improper}")?;
        }
    }
    Ok(())
}

const COLUMN_NOT_ASKED_FOR: &str = " (the column can't be asked for: its name is not modified UTF-8)";

fn json_columns(columns: &[Column], out: &mut impl Write) -> io::Result<()> {
    write!(out, r#"{{"answer":"listed","indexes":["#)?;
    let mut between = "";
    for Column { name, indexes } in columns {
        let column = json_name("column", name);
        if indexes.is_empty() {
            write!(out, r#"{between}{{{column},"kind":null,"kind_bytes":null,"start":null,"length":null}}"#)?;
            between = ",";
        }
        for index in indexes {
            let kind = json_name("kind", &index.kind);
            let (start, length) = (index.start, index.length);
            write!(out, r#"{between}{{{column},{kind},"start":{start},"length":{length}}}"#)?;
            between = ",";
        }
    }
    write!(out, "]")
}

/// A stored name, and its bytes where they are no name's. One of the two is null.
fn json_name(key: &str, stored: &[u8]) -> String {
    let (name, bytes) = match decoded(stored) {
        Some(name) => (quoted(&name), "null".to_string()),
        None => {
            let hex: String = stored.iter().map(|byte| format!("{byte:02X}")).collect();
            ("null".to_string(), quoted(&hex))
        }
    };
    format!(r#""{key}":{name},"{key}_bytes":{bytes}"#)
}

fn json_refused(meaning: &str, out: &mut impl Write) -> io::Result<()> {
    let meaning = quoted(meaning);
    write!(out, r#"{{"answer":"refused","file":"index","name":null,"number":null,"meaning":{meaning}"#)
}

/// A stored name, modified UTF-8 or not, with escapes for double quotes, backslashes and all that doesn't show by itself: what a file calls
/// its columns can't move the cursor or change the colours of a terminal, and names that differ don't look alike for a character that isn't
/// seen. `\xFF` stands for a byte of no character and for nothing else: a backslash of the name is doubled.
fn shown(stored: &[u8]) -> String {
    let mut text = String::new();
    for piece in pieces(stored) {
        match piece {
            Piece::Character(character) => escape(character, &mut text),
            Piece::Improper(byte) => text.push_str(&escaped_byte(byte)),
        }
    }
    text
}

/// A file's path, UTF-8 or not, escaped in the same way.
pub fn escaped(path: &[u8]) -> String {
    let mut text = String::new();
    for chunk in path.utf8_chunks() {
        chunk.valid().chars().for_each(|character| escape(character, &mut text));
        text.extend(chunk.invalid().iter().map(|byte| escaped_byte(*byte)));
    }
    text
}

fn escape(character: char, text: &mut String) {
    match character {
        '\'' => text.push(character),
        _ => text.extend(character.escape_debug()),
    }
}

fn escaped_byte(byte: u8) -> String {
    format!("\\x{byte:02X}")
}

/// A JSON string. What doesn't print as itself is escaped, though JSON forbids a part of it alone, since it may go to a terminal.
fn quoted(text: &str) -> String {
    let mut json = String::from("\"");
    for character in text.chars() {
        match character {
            '"' => json.push_str("\\\""),
            '\\' => json.push_str("\\\\"),
            '\'' => json.push(character),
            _ if character.escape_debug().eq([character]) => json.push(character),
            _ => {
                for unit in character.encode_utf16(&mut [0; 2]) {
                    json.push_str(&format!("\\u{unit:04x}"));
                }
            }
        }
    }
    json.push('"');
    json
}

#[cfg(test)]
mod tests {
    use super::*;
    use std::collections::BTreeSet;

    use crate::columns::Index;
    use poddurance::{ask, open, subtract_record, Edition, Literals, Question, Type};

    fn text(outcome: &Outcome, rows: bool) -> String {
        let mut out = Vec::new();
        outcome.write_text(rows, &mut out).unwrap();
        String::from_utf8(out).unwrap()
    }

    fn json(outcome: &Outcome, rows: bool) -> String {
        let mut out = Vec::new();
        outcome.write_json(rows, &mut out).unwrap();
        String::from_utf8(out).unwrap()
    }

    /// Rows 0, 2 and 5 of 6.
    fn three() -> RowField {
        let file = [
            1, 0, 0, 0, 26, 0x5E, 0x43, 0xF2, 0xD0, 0x3A, 0x30, 0, 0, 1, 0, 0, 0, 0, 0, 2, 0, 0x10, 0, 0, 0, 0, 0, 2, 0, 5, 0,
            0x80, 0x72, 0x25, 0x2B,
        ];
        poddurance::read_deletions(&file, 0, RowField::for_rows(6).unwrap()).unwrap().into_field()
    }

    /// The answer of a column of 6 rows, 0 to 4 and null, to the question which of them are these values, without the deleted rows if
    /// there are any.
    fn answered(values: &[i8], deleted: Option<RowField>) -> Outcome {
        let mut body = vec![1, 0, 0, 0, 6, 0, 0, 0, 5, 1, 255, 255, 255, 250];
        body.extend((0..5).flat_map(|row| [row, 255, 255, 255, 255 - row]));
        let values = Literals::of(Type::TinyInt, values).unwrap();
        let answer = ask(&body, Edition::Second, Question::In, &values, RowField::for_rows(6).unwrap()).unwrap();
        let (mut field, record) = answer.into_parts();
        match deleted {
            Some(deleted) => {
                let subtracted = subtract_record(&mut field, &deleted, record).unwrap();
                Outcome::Answered { record: subtracted.record, removed: Some(subtracted.removed), first: None, field }
            }
            None => Outcome::Answered { record, removed: None, first: None, field },
        }
    }

    /// The same answer where the deletions were read from this row on.
    fn from_on(mut outcome: Outcome, row: u64) -> Outcome {
        match &mut outcome {
            Outcome::Answered { first, .. } | Outcome::Deleted { first, .. } => *first = Some(row),
            Outcome::LookedUp { lookups } => lookups.iter_mut().for_each(|lookup| lookup.first = Some(row)),
            other => panic!("{other:?}"),
        }
        outcome
    }

    #[test]
    fn answers() {
        let keep = answered(&[1, 3, 4], None);
        assert_eq!(keep.exit_status(), 0);
        assert_eq!(text(&keep, false), "keep: drawn from 3 of 6 rows (deletions not applied, 1 null)\n");
        assert_eq!(text(&keep, true), "keep: drawn from 3 of 6 rows (deletions not applied, 1 null)\nrows: 1, 3-4\n");
        assert_eq!(
            json(&keep, false),
            "{\"answer\":\"keep\",\"rows\":6,\"nulls\":1,\"deleted\":null,\"matched\":3,\"removed\":null}\n"
        );

        // Of the deleted rows 0, 2 and 5 the first is chosen.
        let keep = answered(&[0, 1, 3, 4], Some(three()));
        assert_eq!(keep.exit_status(), 0);
        assert_eq!(text(&keep, true), "keep: drawn from 3 of 6 rows (3 deleted, 1 null)\nrows: 1, 3-4\n");
        assert_eq!(
            json(&keep, true),
            "{\"answer\":\"keep\",\"rows\":6,\"nulls\":1,\"deleted\":3,\"matched\":3,\"removed\":1,\"ranges\":[[1,1],[3,4]]}\n"
        );

        let skip = answered(&[], None);
        assert_eq!(skip.exit_status(), 1);
        assert_eq!(text(&skip, false), "skip: drawn from 0 of 6 rows (deletions not applied, 1 null)\n");
        assert_eq!(
            json(&skip, true),
            "{\"answer\":\"skip\",\"rows\":6,\"nulls\":1,\"deleted\":null,\"matched\":0,\"removed\":null,\"ranges\":[]}\n"
        );

        // Only what deletions leave decides.
        let skip = answered(&[0, 2], Some(three()));
        assert_eq!(skip.exit_status(), 1);
        assert_eq!(text(&skip, true), "skip: drawn from 0 of 6 rows (3 deleted, 1 null)\nrows: none\n");
        assert_eq!(
            json(&skip, false),
            "{\"answer\":\"skip\",\"rows\":6,\"nulls\":1,\"deleted\":3,\"matched\":0,\"removed\":2}\n"
        );
    }

    /// Deletions that list no row were applied all the same, and without any nothing is said of how many rows are deleted.
    #[test]
    fn no_deletions_are_not_0_deleted_rows() {
        let applied = answered(&[1], Some(RowField::for_rows(6).unwrap()));
        assert_eq!(text(&applied, false), "keep: drawn from 1 of 6 rows (0 deleted, 1 null)\n");
        assert!(json(&applied, false).contains(r#","deleted":0,"matched":1,"removed":0}"#));
        let not_applied = answered(&[1], None);
        assert_eq!(text(&not_applied, false), "keep: drawn from 1 of 6 rows (deletions not applied, 1 null)\n");
        assert!(json(&not_applied, false).contains(r#","deleted":null,"matched":1,"removed":null}"#));
    }

    /// An index opened and looked up in.
    fn looked_up(values: &[i8], deleted: Option<RowField>, list: bool) -> Outcome {
        // Version 2, one block: 0 to 4 in the rows of that number, and null in row 5.
        let mut body = vec![2, 0, 0, 0, 6, 0, 0, 0, 5, 1, 255, 255, 255, 250, 255, 255, 255, 255, 0, 0, 0, 1];
        body.extend([0, 0, 0, 0, 0, 0, 0, 0, 49, 0, 0, 0, 5]);
        body.extend((0..5).flat_map(|row| [row, 255, 255, 255, 255 - row, 255, 255, 255, 255]));
        let (opened, mut field) = open(&body, Type::TinyInt, RowField::for_rows(6).unwrap()).unwrap();
        let mut lookups = Vec::new();
        for value in values {
            let literal = Literals::of(Type::TinyInt, [value]).unwrap();
            let found = opened.look_up(Edition::Second, &literal, field).unwrap();
            let (mut rows, mut record) = found.answer.into_parts();
            let mut removed = None;
            if let Some(deleted) = &deleted {
                let subtracted = subtract_record(&mut rows, deleted, record).unwrap();
                (record, removed) = (subtracted.record, Some(subtracted.removed));
            }
            let listed = list.then(|| rows.clone());
            let (literal, compared) = (value.to_string(), found.compared);
            lookups.push(Lookup { literal, record, removed, first: None, compared, rows: listed });
            field = rows;
        }
        Outcome::LookedUp { lookups }
    }

    /// A literal is compared with the first value of the one block, and with the values of the block up to its own.
    #[test]
    fn lookups() {
        let both = looked_up(&[3, 5], None, false);
        assert_eq!(both.exit_status(), 0);
        assert_eq!(
            text(&both, false),
            "keep \"3\": drawn from 1 of 6 rows (deletions not applied, 1 null), compared with 5 values\n\
             skip \"5\": drawn from 0 of 6 rows (deletions not applied, 1 null), compared with 6 values\n"
        );
        assert_eq!(
            json(&both, false),
            "{\"answer\":\"looked-up\",\"lookups\":[\
             {\"literal\":\"3\",\"answer\":\"keep\",\"rows\":6,\"nulls\":1,\"deleted\":null,\"matched\":1,\"removed\":null,\"compared\":5},\
             {\"literal\":\"5\",\"answer\":\"skip\",\"rows\":6,\"nulls\":1,\"deleted\":null,\"matched\":0,\"removed\":null,\"compared\":6}]}\n"
        );
        // With the rows 0, 2 and 5 deleted, which leave none of the value 0.
        let deleted = looked_up(&[0, 1], Some(three()), true);
        assert_eq!(deleted.exit_status(), 0);
        assert_eq!(
            text(&deleted, true),
            "skip \"0\": drawn from 0 of 6 rows (3 deleted, 1 null), compared with 2 values\nrows: none\n\
             keep \"1\": drawn from 1 of 6 rows (3 deleted, 1 null), compared with 3 values\nrows: 1\n"
        );
        assert_eq!(
            json(&deleted, true),
            "{\"answer\":\"looked-up\",\"lookups\":[\
             {\"literal\":\"0\",\"answer\":\"skip\",\"rows\":6,\"nulls\":1,\"deleted\":3,\"matched\":0,\"removed\":1,\"compared\":2,\
             \"ranges\":[]},\
             {\"literal\":\"1\",\"answer\":\"keep\",\"rows\":6,\"nulls\":1,\"deleted\":3,\"matched\":1,\"removed\":0,\"compared\":3,\
             \"ranges\":[[1,1]]}]}\n"
        );
        // The data file is skipped where it would be for each literal. One before the block's first value is compared with that alone.
        let none = looked_up(&[-1, 5], None, false);
        assert_eq!(none.exit_status(), 1);
        assert!(text(&none, false).starts_with("skip \"-1\": ") && text(&none, false).contains(", compared with 1 value\n"));
        assert_eq!(looked_up(&[0], Some(three()), false).exit_status(), 1);
    }

    /// What the user wrote can't move the cursor either.
    #[test]
    fn literals_are_shown_with_escapes() {
        let Outcome::LookedUp { mut lookups } = looked_up(&[0], None, false) else { panic!() };
        lookups[0].literal = "a \"b\" \x1B[A".to_string();
        let outcome = Outcome::LookedUp { lookups };
        assert!(text(&outcome, false).starts_with(r#"keep "a \"b\" \u{1b}[A": "#));
        assert!(json(&outcome, false).contains(r#""literal":"a \"b\" \u001b[A","#));
    }

    #[test]
    fn opening() {
        let opened = Outcome::Opened { rows: 86_400, blocks: 1_000, table_bytes: 4_000 };
        assert_eq!(opened.exit_status(), 0);
        assert_eq!(text(&opened, false), "opened: 86,400 rows, each in exactly one place; 1,000 blocks, table of 4000 bytes\n");
        assert_eq!(json(&opened, false), "{\"answer\":\"opened\",\"rows\":86400,\"blocks\":1000,\"table_bytes\":4000}\n");
        let one = Outcome::Opened { rows: 1, blocks: 1, table_bytes: 4 };
        assert_eq!(text(&one, false), "opened: 1 row, each in exactly one place; 1 block, table of 4 bytes\n");

        // VERSION says what can be opened; all else is as of other indexes.
        let refused = |refusal| Outcome::Refused { refusal, part: Part::IndexToOpen };
        let version = refused(Refusal::Version);
        let meaning = "only an index of version 2 can be opened; ask takes version 1 too";
        assert_eq!((text(&version, false), version.exit_status()), (format!("refused: VERSION (3), {meaning}\n"), 3));
        assert_eq!(
            json(&version, false),
            format!(
                "{{\"answer\":\"refused\",\"file\":\"index\",\"name\":\"VERSION\",\"number\":3,\"meaning\":\"{meaning}\"}}\n"
            )
        );
        for refusal in Refusal::ALL.into_iter().filter(|refusal| *refusal != Refusal::Version) {
            let index = Outcome::Refused { refusal, part: Part::Index };
            assert_eq!(text(&refused(refusal), false), text(&index, false));
            assert_eq!(json(&refused(refusal), false), json(&index, false));
        }
    }

    #[test]
    fn deletions() {
        let some = Outcome::Deleted { count: 3, rows: 6, first: None, field: three() };
        assert_eq!(some.exit_status(), 0);
        assert_eq!(text(&some, true), "deleted: 3 of 6 rows\nrows: 0, 2, 5\n");
        assert_eq!(json(&some, true), "{\"answer\":\"deleted\",\"count\":3,\"rows\":6,\"ranges\":[[0,0],[2,2],[5,5]]}\n");
        let none = Outcome::Deleted { count: 0, rows: 1, first: None, field: RowField::for_rows(1).unwrap() };
        assert_eq!(none.exit_status(), 0);
        assert_eq!(text(&none, true), "deleted: 0 of 1 row\nrows: none\n");
    }

    /// The line says from which row on, and rows are listed as those of the data file. Nothing else changes.
    #[test]
    fn windows() {
        let deleted = |rows, field, first| Outcome::Deleted { count: 3, rows, first: Some(first), field };
        let some = deleted(6, three(), 4_294_967_295);
        assert_eq!(some.exit_status(), 0);
        assert_eq!(text(&some, false), "deleted: 3 of 6 rows from row 4294967295 on\n");
        assert_eq!(text(&some, true), "deleted: 3 of 6 rows from row 4294967295 on\nrows: 4294967295, 4294967297, 4294967300\n");
        assert_eq!(json(&some, false), "{\"answer\":\"deleted\",\"count\":3,\"rows\":6,\"first\":4294967295}\n");
        assert_eq!(
            json(&some, true),
            "{\"answer\":\"deleted\",\"count\":3,\"rows\":6,\"first\":4294967295,\
             \"ranges\":[[4294967295,4294967295],[4294967297,4294967297],[4294967300,4294967300]]}\n"
        );
        // From 0 on is said too.
        assert_eq!(text(&deleted(6, three(), 0), true), "deleted: 3 of 6 rows from row 0 on\nrows: 0, 2, 5\n");
        // Up to the last row of all.
        let last = deleted(3, RowField::all_of(3).unwrap(), (1 << 63) - 3);
        assert!(text(&last, true).ends_with("\nrows: 9223372036854775805-9223372036854775807\n"));
        let none = Outcome::Deleted { count: 0, rows: 0, first: Some(1 << 63), field: RowField::for_rows(0).unwrap() };
        assert_eq!(text(&none, true), "deleted: 0 of 0 rows from row 9223372036854775808 on\nrows: none\n");

        let keep = from_on(answered(&[0, 1, 3, 4], Some(three())), 1_000);
        assert_eq!(keep.exit_status(), 0);
        assert_eq!(
            text(&keep, true),
            "keep: drawn from 3 of 6 rows from row 1000 on (3 deleted, 1 null)\nrows: 1001, 1003-1004\n"
        );
        assert_eq!(
            json(&keep, true),
            "{\"answer\":\"keep\",\"rows\":6,\"nulls\":1,\"deleted\":3,\"matched\":3,\"removed\":1,\"first\":1000,\
             \"ranges\":[[1001,1001],[1003,1004]]}\n"
        );
        let skip = from_on(answered(&[0, 2], Some(three())), 1_000);
        assert_eq!(skip.exit_status(), 1);
        assert_eq!(text(&skip, true), "skip: drawn from 0 of 6 rows from row 1000 on (3 deleted, 1 null)\nrows: none\n");

        let both = from_on(looked_up(&[0, 1], Some(three()), true), 1_000);
        assert_eq!(
            text(&both, true),
            "skip \"0\": drawn from 0 of 6 rows from row 1000 on (3 deleted, 1 null), compared with 2 values\nrows: none\n\
             keep \"1\": drawn from 1 of 6 rows from row 1000 on (3 deleted, 1 null), compared with 3 values\nrows: 1001\n"
        );
        assert_eq!(
            json(&both, true),
            "{\"answer\":\"looked-up\",\"lookups\":[\
             {\"literal\":\"0\",\"answer\":\"skip\",\"rows\":6,\"nulls\":1,\"deleted\":3,\"matched\":0,\"removed\":1,\"compared\":2,\
             \"first\":1000,\"ranges\":[]},\
             {\"literal\":\"1\",\"answer\":\"keep\",\"rows\":6,\"nulls\":1,\"deleted\":3,\"matched\":1,\"removed\":0,\"compared\":3,\
             \"first\":1000,\"ranges\":[[1001,1001]]}]}\n"
        );
    }

    /// A 64-bit bin without a window says what reads it; all else is as of other deletions.
    #[test]
    fn bins_that_need_a_window() {
        let refused = |refusal, beside_index, needs_window| Outcome::Refused {
            refusal,
            part: Part::Deletions { beside_index, needs_window },
        };
        let meaning = "the bin is a 64-bit one, to be read with --first ROW";
        for (beside_index, behind) in [(false, ""), (true, ", in the deletion file")] {
            let outcome = refused(Refusal::Magic, beside_index, true);
            assert_eq!(outcome.exit_status(), 3);
            assert_eq!(text(&outcome, true), format!("refused: MAGIC (2), {meaning}{behind}\n"));
            let rest = format!(r#""file":"deletions","name":"MAGIC","number":2,"meaning":"{meaning}""#);
            assert_eq!(json(&outcome, true), format!("{{\"answer\":\"refused\",{rest}}}\n"));
            let other = refused(Refusal::Magic, beside_index, false);
            assert_eq!(text(&other, true), format!("refused: MAGIC (2), index file or bin magic differs{behind}\n"));
        }
    }

    #[test]
    fn places() {
        let name = || "a \"b\"".to_string();
        let found = Outcome::Found { column: name(), kind: "bitmap".to_string(), start: 47, length: 1 };
        assert_eq!(found.exit_status(), 0);
        assert_eq!(text(&found, false), "found: bitmap index on column \"a \\\"b\\\"\", 1 byte at 47\n");
        assert_eq!(
            json(&found, false),
            "{\"answer\":\"found\",\"column\":\"a \\\"b\\\"\",\"kind\":\"bitmap\",\"start\":47,\"length\":1}\n"
        );
        let absent = Outcome::Absent { column: "x\n".to_string(), kind: "bitmap".to_string() };
        assert_eq!(absent.exit_status(), 4);
        assert_eq!(text(&absent, false), "absent: no bitmap index on column \"x\\n\"\n");
        assert_eq!(json(&absent, false), "{\"answer\":\"absent\",\"column\":\"x\\u000a\",\"kind\":\"bitmap\"}\n");
    }

    #[test]
    fn lists() {
        let index = |kind: &[u8], start, length| Index { kind: kind.to_vec(), start, length };
        let columns = vec![
            Column { name: b"state".to_vec(), indexes: vec![index(b"bitmap", 47, 24), index(b"bsi", 71, 1)] },
            Column { name: b"".to_vec(), indexes: vec![] },
            Column { name: b"\x1B[31m\"'\\".to_vec(), indexes: vec![index(b"\xC2\x9B\xC3\xA4\n", -1, i32::MIN)] },
            // Fire, and zero between letters.
            Column { name: b"\xED\xA0\xBD\xED\xB4\xA5".to_vec(), indexes: vec![index(b"b\xC0\x80b", 0, 0)] },
        ];
        let listed = Outcome::Listed { columns };
        assert_eq!(listed.exit_status(), 0);
        assert_eq!(
            text(&listed, false),
            "column \"state\": bitmap index, 24 bytes at 47\n\
             column \"state\": bsi index, 1 byte at 71\n\
             column \"\": no index\n\
             column \"\\u{1b}[31m\\\"'\\\\\": \\u{9b}ä\\n index, -2147483648 bytes at -1\n\
             column \"🔥\": b\\0b index, 0 bytes at 0\n"
        );
        assert_eq!(
            json(&listed, false),
            "{\"answer\":\"listed\",\"indexes\":[\
             {\"column\":\"state\",\"column_bytes\":null,\"kind\":\"bitmap\",\"kind_bytes\":null,\"start\":47,\"length\":24},\
             {\"column\":\"state\",\"column_bytes\":null,\"kind\":\"bsi\",\"kind_bytes\":null,\"start\":71,\"length\":1},\
             {\"column\":\"\",\"column_bytes\":null,\"kind\":null,\"kind_bytes\":null,\"start\":null,\"length\":null},\
             {\"column\":\"\\u001b[31m\\\"'\\\\\",\"column_bytes\":null,\"kind\":\"\\u009bä\\u000a\",\"kind_bytes\":null,\
             \"start\":-1,\"length\":-2147483648},\
             {\"column\":\"🔥\",\"column_bytes\":null,\"kind\":\"b\\u0000b\",\"kind_bytes\":null,\"start\":0,\"length\":0}]}\n"
        );
        let none = Outcome::Listed { columns: vec![] };
        assert_eq!((text(&none, false).as_str(), none.exit_status()), ("no column\n", 0));
        assert_eq!(json(&none, false), "{\"answer\":\"listed\",\"indexes\":[]}\n");

        let refused = Outcome::NotListed { reason: "no index file".to_string() };
        assert_eq!((text(&refused, false).as_str(), refused.exit_status()), ("refused: no index file\n", 3));
        assert_eq!(
            json(&refused, false),
            "{\"answer\":\"refused\",\"file\":\"index\",\"name\":null,\"number\":null,\"meaning\":\"no index file\"}\n"
        );
    }

    /// A name that is not modified UTF-8 is shown with its bytes, and is said to be none that can be asked for.
    #[test]
    fn improper_names() {
        let lines = |column: &[u8], kinds: &[&[u8]]| {
            let indexes = kinds.iter().map(|kind| Index { kind: kind.to_vec(), start: 47, length: 24 }).collect();
            let listed = Outcome::Listed { columns: vec![Column { name: column.to_vec(), indexes }] };
            (text(&listed, false), json(&listed, false))
        };
        let column = "(the column can't be asked for: its name is not modified UTF-8)";
        let kind = "(the kind can't be asked for: its name is not modified UTF-8)";
        let both = "(neither can be asked for: neither name is modified UTF-8)";
        let index = "index, 24 bytes at 47";
        // Fire as in UTF-8.
        let (text, json) = lines(b"a\xF0\x9F\x94\xA5", &[b"bitmap", b"b\0"]);
        assert_eq!(
            text,
            format!("column \"a\\xF0\\x9F\\x94\\xA5\": bitmap {index} {column}\ncolumn \"a\\xF0\\x9F\\x94\\xA5\": b\\x00 {index} {both}\n")
        );
        assert_eq!(
            json,
            "{\"answer\":\"listed\",\"indexes\":[\
             {\"column\":null,\"column_bytes\":\"61F09F94A5\",\"kind\":\"bitmap\",\"kind_bytes\":null,\"start\":47,\"length\":24},\
             {\"column\":null,\"column_bytes\":\"61F09F94A5\",\"kind\":null,\"kind_bytes\":\"6200\",\"start\":47,\"length\":24}]}\n"
        );
        // Half a pair of surrogates.
        assert_eq!(lines(b"s", &[b"\xED\xA0\xBD"]).0, format!("column \"s\": \\xED\\xA0\\xBD {index} {kind}\n"));
        let (text, json) = lines(b"\xFF", &[]);
        assert_eq!(text, format!("column \"\\xFF\": no index {column}\n"));
        assert_eq!(
            json,
            "{\"answer\":\"listed\",\"indexes\":[{\"column\":null,\"column_bytes\":\"FF\",\"kind\":null,\"kind_bytes\":null,\"start\":null,\"length\":null}]}\n"
        );
        // A name that is spelled as those bytes are shown can be asked for.
        let (text, json) = lines(b"a\\xF0\\x9F\\x94\\xA5", &[b"bitmap"]);
        assert_eq!(text, format!("column \"a\\\\xF0\\\\x9F\\\\x94\\\\xA5\": bitmap {index}\n"));
        assert!(json.contains(r#""column":"a\\xF0\\x9F\\x94\\xA5","column_bytes":null"#), "{json}");
    }

    /// Escaped are double quotes, backslashes and what doesn't show by itself, here a mark that goes over another character, a space of
    /// another width, and what has no width. The object has the name itself.
    #[test]
    fn names_that_look_alike() {
        for (name, shown_as, object) in [
            ("a \"b\" 'c' \\", r#"a \"b\" 'c' \\"#, r#""a \"b\" 'c' \\""#),
            ("\u{E9}", "\u{E9}", "\"\u{E9}\""),
            ("e\u{301}", r"e\u{301}", r#""e\u0301""#),
            ("a\u{A0}b", r"a\u{a0}b", r#""a\u00a0b""#),
            ("ab\u{200B}", r"ab\u{200b}", r#""ab\u200b""#),
        ] {
            assert_eq!(shown(name.as_bytes()), shown_as);
            assert_eq!(json_name("column", name.as_bytes()), format!(r#""column":{object},"column_bytes":null"#));
        }
    }

    /// From the text of a name its bytes can be had again, so that no two names have the same.
    #[test]
    fn each_name_has_a_text_of_its_own() {
        let mut names: Vec<Vec<u8>> = vec![Vec::new()];
        let parts: [&[u8]; 14] = [
            b"a",
            b"\\",
            b"x",
            b"0",
            b"\"",
            b"'",
            b"u{0}",
            b"\0",
            b"\xC0\x80",
            b"\xC0",
            b"\x80",
            b"\xED\xA0\xBD",
            b"\xED\xB4\xA5",
            b"\xF0",
        ];
        for from in [0, 1, 15] {
            let longer: Vec<_> = names[from..].iter().flat_map(|name| parts.map(|part| [name, part].concat())).collect();
            names.extend(longer);
        }
        let names: BTreeSet<Vec<u8>> = names.into_iter().collect();
        assert!(names.len() > 2_000);
        let texts: BTreeSet<String> = names.iter().map(|name| shown(name)).collect();
        assert_eq!(texts.len(), names.len());
        let objects: BTreeSet<String> = names.iter().map(|name| json_name("column", name)).collect();
        assert_eq!(objects.len(), names.len());
    }

    #[test]
    fn no_name_of_a_file_controls_the_terminal() {
        // Each byte, and characters that are cut, that turn the direction of the text or that don't show.
        let each: Vec<u8> = (0..=255).collect();
        for name in [&each[..], "\u{202E}\u{2066}\u{200B}\u{FEFF}\u{85}\u{9B}31m".as_bytes(), b"\xF0\x9F\x98", b"\xED\xA0\x80"] {
            let columns = vec![Column { name: name.to_vec(), indexes: vec![Index { kind: name.to_vec(), start: 0, length: 0 }] }];
            let listed = Outcome::Listed { columns };
            for said in [text(&listed, false), json(&listed, false)] {
                let line = said.strip_suffix('\n').unwrap();
                let prints = |character: char| "\"'\\".contains(character) || character.escape_debug().eq([character]);
                assert!(line.chars().all(prints), "{line}");
            }
        }
    }

    #[test]
    fn accepted_and_refused() {
        let accepted = Outcome::Accepted { rows: 3 };
        assert_eq!(accepted.exit_status(), 0);
        assert_eq!(text(&accepted, false), "accepted: 3 rows, each in exactly one place\n");
        assert_eq!(json(&accepted, false), "{\"answer\":\"accepted\",\"rows\":3}\n");

        let refused = |part| Outcome::Refused { refusal: Refusal::Limit, part };
        for (part, behind, file) in [
            (Part::Literals, "", "null"),
            (Part::Index, "", "\"index\""),
            (DELETIONS, "", "\"deletions\""),
            (DELETIONS_BESIDE_INDEX, ", in the deletion file", "\"deletions\""),
        ] {
            assert_eq!(refused(part).exit_status(), 3);
            assert_eq!(text(&refused(part), true), format!("refused: LIMIT (12), a limit is passed{behind}\n"));
            let rest = r#""name":"LIMIT","number":12,"meaning":"a limit is passed""#;
            assert_eq!(json(&refused(part), true), format!("{{\"answer\":\"refused\",\"file\":{file},{rest}}}\n"));
        }
    }

    /// LITERAL of a name tells of the name and not of literals, and the other way round.
    #[test]
    fn literals_that_do_not_fit_and_names_that_are_too_long() {
        let refused = Outcome::Refused { refusal: Refusal::Literal, part: Part::Literals };
        let meaning = "literals don't fit question and type";
        assert_eq!(refused.exit_status(), 3);
        assert_eq!(text(&refused, false), format!("refused: LITERAL (11), {meaning}\n"));
        assert!(json(&refused, false).ends_with(&format!("\"meaning\":\"{meaning}\"}}\n")));
        for (part, whose) in [(Part::Column, "column"), (Part::Kind, "kind")] {
            let refused = Outcome::Refused { refusal: Refusal::Literal, part };
            let meaning = format!("the {whose}'s name takes more than 65535 bytes in modified UTF-8");
            assert_eq!(refused.exit_status(), 3);
            assert_eq!(text(&refused, false), format!("refused: LITERAL (11), {meaning}\n"));
            let rest = format!(r#""file":null,"name":"LITERAL","number":11,"meaning":"{meaning}""#);
            assert_eq!(json(&refused, false), format!("{{\"answer\":\"refused\",{rest}}}\n"));
        }
    }

    /// What each refusal says of where its cause is: in the line of an index, of deletions and of deletions beside an index, and in JSON.
    #[test]
    fn where_the_cause_is() {
        let bitmap = Refusal::Bitmap { entry: 3, container: 1 };
        let of_a_bin = Refusal::Bitmap { entry: 0, container: 1 };
        for (refusal, part, line, keys) in [
            (
                bitmap,
                Part::Index,
                "place, length or form of a bitmap is wrong: entry 3, container 1",
                r#","entry":3,"container":1"#,
            ),
            (of_a_bin, DELETIONS, "place, length or form of a bitmap is wrong: container 1", r#","entry":0,"container":1"#),
            (
                of_a_bin,
                DELETIONS_BESIDE_INDEX,
                "place, length or form of a bitmap is wrong, in the deletion file: container 1",
                r#","entry":0,"container":1"#,
            ),
            (Refusal::Range { entry: 2 }, Part::Index, "a row at or above the row count: entry 2", r#","entry":2"#),
            (Refusal::Range { entry: 0 }, Part::Index, "a row at or above the row count: entry 0", r#","entry":0"#),
            (Refusal::Range { entry: 0 }, DELETIONS, "a row at or above the row count", r#","entry":0"#),
            (
                Refusal::Range { entry: 0 },
                DELETIONS_BESIDE_INDEX,
                "a row at or above the row count, in the deletion file",
                r#","entry":0"#,
            ),
            (Refusal::Twice { entry: 2 }, Part::Index, "a row already placed: entry 2", r#","entry":2"#),
            (Refusal::Missing { row: 16 }, Part::Index, "a row never placed: row 16", r#","row":16"#),
            (Refusal::Dict, Part::Index, "dictionary breaks a rule", ""),
        ] {
            let (name, number, meaning) = (refusal.name(), refusal.number(), quoted(refusal.meaning()));
            let refused = Outcome::Refused { refusal, part };
            assert_eq!(text(&refused, false), format!("refused: {name} ({number}), {line}\n"));
            let said = json(&refused, false);
            assert!(said.ends_with(&format!("\"number\":{number},\"meaning\":{meaning}{keys}}}\n")), "{said}");
        }
    }

    #[test]
    fn rows_that_differ() {
        let differ = Outcome::RowsDiffer { index_rows: 3, data_rows: 1000 };
        assert_eq!(differ.exit_status(), 3);
        assert_eq!(text(&differ, true), "refused: the index is of 3 rows, the data file has 1,000\n");
        assert_eq!(
            json(&differ, true),
            "{\"answer\":\"refused\",\"file\":\"index\",\"name\":null,\"number\":null,\
             \"meaning\":\"the index is of 3 rows, the data file has 1000\"}\n"
        );
        let one = Outcome::RowsDiffer { index_rows: 1, data_rows: 0 };
        assert_eq!(text(&one, false), "refused: the index is of 1 row, the data file has 0\n");
    }

    /// Counts of rows have them in a line, and nothing else has: no row's number, no entry, no container, no byte, and nothing in JSON.
    #[test]
    fn thousands_have_commas() {
        let accepted = Outcome::Accepted { rows: 86_400 };
        assert_eq!(text(&accepted, false), "accepted: 86,400 rows, each in exactly one place\n");
        assert_eq!(json(&accepted, false), "{\"answer\":\"accepted\",\"rows\":86400}\n");

        let deleted = Outcome::Deleted { count: 1_000, rows: 1_000_000, first: None, field: RowField::all_of(1_001).unwrap() };
        assert_eq!(text(&deleted, true), "deleted: 1,000 of 1,000,000 rows\nrows: 0-1000\n");
        assert_eq!(json(&deleted, true), "{\"answer\":\"deleted\",\"count\":1000,\"rows\":1000000,\"ranges\":[[0,1000]]}\n");
        let deleted = from_on(deleted, 1_000);
        assert_eq!(text(&deleted, true), "deleted: 1,000 of 1,000,000 rows from row 1000 on\nrows: 1000-2000\n");

        let differ = Outcome::RowsDiffer { index_rows: 65_536, data_rows: u64::MAX };
        assert_eq!(text(&differ, false), "refused: the index is of 65,536 rows, the data file has 18,446,744,073,709,551,615\n");
        assert!(json(&differ, false).contains("\"the index is of 65536 rows, the data file has 18446744073709551615\""));

        for (refusal, cause) in [
            (Refusal::Missing { row: 65_536 }, "row 65536"),
            (Refusal::Twice { entry: 1_000 }, "entry 1000"),
            (Refusal::Bitmap { entry: 4_096, container: 32_767 }, "entry 4096, container 32767"),
        ] {
            let said = text(&Outcome::Refused { refusal, part: Part::Index }, false);
            assert!(said.ends_with(&format!(": {cause}\n")), "{said}");
        }
        let found = Outcome::Found { column: "s".to_string(), kind: "bitmap".to_string(), start: 1_000, length: 65_536 };
        assert_eq!(text(&found, false), "found: bitmap index on column \"s\", 65536 bytes at 1000\n");
    }

    const DELETIONS: Part = Part::Deletions { beside_index: false, needs_window: false };
    const DELETIONS_BESIDE_INDEX: Part = Part::Deletions { beside_index: true, needs_window: false };

    /// The keys of an object without text values that hold `":`.
    fn keys(line: &str) -> Vec<&str> {
        line.match_indices("\":").filter_map(|(at, _)| line[..at].rsplit('"').next()).collect()
    }

    #[test]
    fn help_has_the_keys() {
        let name = || "s".to_string();
        let refused = |part| Outcome::Refused { refusal: Refusal::Limit, part };
        for outcome in [
            Outcome::Found { column: name(), kind: name(), start: 47, length: 1 },
            Outcome::Absent { column: name(), kind: name() },
            Outcome::Accepted { rows: 3 },
            answered(&[1], None),
            answered(&[1], Some(three())),
            answered(&[0], None),
            answered(&[0], Some(three())),
            answered(&[], None),
            Outcome::Opened { rows: 3, blocks: 2, table_bytes: 8 },
            looked_up(&[1], None, false),
            looked_up(&[1], Some(three()), false),
            Outcome::Listed { columns: vec![Column { name: b"s".to_vec(), indexes: vec![] }] },
            Outcome::NotListed { reason: "no".to_string() },
            Outcome::Deleted { count: 3, rows: 6, first: None, field: three() },
            refused(Part::Index),
            refused(Part::Literals),
            refused(Part::Column),
            Outcome::RowsDiffer { index_rows: 3, data_rows: 1000 },
        ] {
            let json = json(&outcome, false);
            let start = &json[..json.find(',').unwrap()];
            let behind = include_str!("help.txt").split_once(start).expect("every answer has its object").1;
            let object = format!("{start}{}", behind.split_once("}\n").expect("it ends with a line").0);
            assert_eq!(keys(&object), keys(&json), "{start}");
        }
        // Those that an option adds stand in a sentence of their own, in their order.
        let help = include_str!("help.txt").split_whitespace().collect::<Vec<_>>().join(" ");
        let sentence = help.split(". ").find(|sentence| sentence.starts_with("With --first keep, skip and deleted"));
        let added = keys(sentence.expect("the help has the sentence"));
        for outcome in [answered(&[1], Some(three())), Outcome::Deleted { count: 3, rows: 6, first: None, field: three() }] {
            let without = json(&outcome, false);
            let with = json(&from_on(outcome, 7), true);
            assert_eq!(keys(&with), [&keys(&without)[..], &added].concat());
        }
        // The keys that a refusal has besides stand behind its name, in a sentence of their own.
        let sentence = help.split(". ").find(|sentence| sentence.starts_with("A refusal that says where its cause is"));
        let (_, listed) = sentence.and_then(|sentence| sentence.split_once(": ")).expect("the help has the sentence");
        let listed: Vec<(&str, Vec<&str>)> = listed
            .split("; ")
            .flat_map(|part| {
                let (names, keys) = part.split_at(part.find(" \"").expect("keys behind names"));
                let keys: Vec<&str> = keys.split('"').skip(1).step_by(2).collect();
                names.split(" and ").map(move |name| (name, keys.clone())).collect::<Vec<_>>()
            })
            .collect();
        let carrying = Refusal::ALL.into_iter().map(|refusal| (refusal.name(), refusal.carried().map(|(key, _)| key).collect()));
        assert_eq!(listed, carrying.filter(|(_, keys): &(_, Vec<&str>)| !keys.is_empty()).collect::<Vec<_>>());
    }

    #[test]
    fn strings_in_json() {
        assert_eq!(quoted("plain"), r#""plain""#);
        assert_eq!(quoted("a\"b\\c\n\0ä\u{7F}😀"), "\"a\\\"b\\\\c\\u000a\\u0000ä\\u007f😀\"");
        assert_eq!(quoted("it's\t\u{9B}\u{202E}\u{FFFD}"), "\"it's\\u0009\\u009b\\u202e\u{FFFD}\"");
        // Beyond 65,535 in two halves, as JSON wants it.
        assert_eq!(quoted("\u{E0001}"), r#""\udb40\udc01""#);
    }
}
