//! The files of `demo/` are what the example `make_demo` makes, and its README tells the truth about them.

#[path = "../examples/demo_files/mod.rs"]
mod demo_files;
mod support;

use std::collections::BTreeSet;
use std::fs;
use std::path::{Path, PathBuf};
use std::process::Command;

use demo_files::{alarm, burner, calibrated_rows, day, files, state};
use demo_files::{BURNER, CALIBRATED, DAY, DAY_STATES, DELETED, DELETED_ELSEWHERE, PRESSURE_DAYS, PRESSURE_RATE, SAMPLES};
use poddurance::raw::{self, Fault, Record};
use poddurance::{ask_file, audit, read_deletions, read_window, subtract_record};
use poddurance::{Edition, Error, Literals, Question, Refusal, RowField, Type};
use reference::scan::{scan, scan_without};
use reference::types;
use reference::writer::Column;
use support::shown;

fn root() -> PathBuf {
    Path::new(env!("CARGO_MANIFEST_DIR")).join("..")
}

fn readme() -> String {
    fs::read_to_string(root().join("demo/README.md")).unwrap()
}

/// The bytes of a demo file in the repository.
fn demo(name: &str) -> Vec<u8> {
    fs::read(root().join("demo").join(name)).unwrap()
}

#[test]
fn files_are_as_made() {
    let mut names = BTreeSet::from(["README.md".to_string()]);
    for (name, bytes) in files() {
        assert!(demo(name) == bytes, "demo/{name} is not what the example make_demo makes");
        names.insert(name.to_string());
    }
    let there = fs::read_dir(root().join("demo")).unwrap().map(|entry| entry.unwrap().file_name().into_string().unwrap());
    assert_eq!(there.collect::<BTreeSet<_>>(), names);
}

#[test]
fn commands_answer_as_shown() {
    let (shown, others) = shown(&readme());
    assert_eq!(others, [""; 0], "output without a command");
    let statuses: Vec<i32> = shown.iter().map(|one| one.check(&root())).collect();
    // A reader of the README that finds nothing would pass too.
    assert_eq!(statuses, [0, 0, 0, 0, 0, 0, 0, 0, 1, 4, 3, 3, 3, 3, 0, 0, 0, 3, 3, 0, 0, 0, 3, 0, 0, 0, 0]);
    // Where none is shown it is 0.
    assert!(shown.iter().zip(statuses).all(|(one, status)| one.status.unwrap_or(0) == status));
}

#[test]
fn table_has_the_samples() {
    let readme = readme();
    let lines: Vec<&str> = readme.lines().filter(|line| line.starts_with("| 10:")).collect();
    let expected: Vec<String> = SAMPLES
        .iter()
        .enumerate()
        .map(|(minute, samples)| {
            let cells: String = samples
                .iter()
                .map(|(state, alarm)| format!(" {state}, {} |", alarm.map_or("null".to_string(), |on| on.to_string())))
                .collect();
            format!("| 10:{minute:02} | {}-{} |{cells}", 3 * minute, 3 * minute + 2)
        })
        .collect();
    assert_eq!(lines, expected);
}

/// The body of a column's index in a demo file.
fn body(name: &str, column: &str) -> Vec<u8> {
    poddurance::locate(&[], &demo(name), column, "bitmap").unwrap().expect("the column has an index").to_vec()
}

fn audited(name: &str, column: &str, ty: u32) -> (u8, u64, Fault) {
    raw::audit(&body(name, column), ty, &mut [0; 3])
}

/// The numbers that the library should answer where the reference has these.
fn record(expected: reference::record::Record) -> Record {
    let reference::record::Record { rows, nulls, deleted, matched } = expected;
    Record { rows, nulls, deleted, matched }
}

/// Every question about one value, and about null, is answered in both editions as a scan of the samples answers it, and EQUAL of an opened
/// body too.
#[test]
fn sound_files_answer_as_a_scan() {
    fn check(name: &str, column: &str, cells: &Column, values: &[&[u8]]) {
        let body = body(name, column);
        let one = values.iter().map(std::slice::from_ref);
        let about_one = one.flat_map(|value| [types::EQUAL, types::NOT_EQUAL, types::IN, types::NOT_IN].map(|q| (q, value)));
        let about_null = [types::IS_NULL, types::IS_NOT_NULL].map(|question| (question, &values[..0]));
        let questions = about_one.chain(about_null);
        for (edition, (question, values)) in questions.flat_map(|question| types::EDITIONS.map(|edition| (edition, question))) {
            let literals = types::literals(cells.ty, values);
            let (expected, counted) = scan(cells, edition, question, values);
            let expected = ((raw::ACCEPTED, record(counted), Fault::NONE), expected);
            let mut field = vec![0xA5; cells.cells.len().div_ceil(8)];
            let answer = raw::ask(&body, cells.ty, edition, question, &literals, &mut field);
            assert_eq!((answer, field.clone()), expected, "{name} {column} {edition} {question} {values:?}");
            if question == types::EQUAL && body[0] == 2 {
                let (mut table, rows) = ([0], cells.cells.len() as u64);
                assert_eq!(raw::open(&body, cells.ty, &mut field, &mut table), (raw::ACCEPTED, rows, 1, Fault::NONE));
                field.fill(0xA5);
                let (answer, record, _, fault) = raw::look_up(&body, cells.ty, edition, &literals, &table, &mut field);
                assert_eq!(((answer, record, fault), field.clone()), expected, "{name} {column} {edition} {values:?}");
            }
            // From the file, and with the same bytes embedded in a manifest.
            let file = demo(name);
            for (embedded, file) in [(&[][..], &file[..]), (&file, &[])] {
                field.fill(0xA5);
                let (column, kind) = (column.as_bytes(), b"bitmap");
                let answer = raw::ask_file(embedded, file, column, kind, cells.ty, edition, question, &literals, &mut field);
                assert_eq!((answer, field.clone()), expected, "{name} {edition} {question} {values:?}");
            }
        }
    }
    for name in ["pumps-v1.index", "pumps-v2.index"] {
        check(name, "state", &state(), &[b"running", b"idle", b"fault", b"stopped"]);
        check(name, "alarm", &alarm(), &[&[0], &[1]]);
    }
    check("burner.index", "🔥", &burner(), &[&[0], &[1]]);
}

/// The README's sentence on the burner has its samples.
#[test]
fn sentence_has_the_burner() {
    let samples = BURNER.map(|lit| lit.map_or("null".to_string(), |lit| lit.to_string())).join(", ");
    let readme = readme().split_whitespace().collect::<Vec<_>>().join(" ");
    assert!(readme.contains(&format!("its {} rows are {samples}", BURNER.len())), "{samples}");
}

#[test]
fn damaged_files_are_refused() {
    // Row 16 is lost; and the third state, running, has it after fault.
    for (name, refusal) in
        [("pumps-row-lost.index", Refusal::Missing { row: 16 }), ("pumps-row-doubled.index", Refusal::Twice { entry: 3 })]
    {
        assert_eq!(audited(name, "state", types::STRING), (refusal.number(), 0, refusal.fault()), "{name}");
        assert_eq!(audited(name, "alarm", types::BOOLEAN), (raw::ACCEPTED, 24, Fault::NONE), "{name}");

        // Opened, that of version 2 is refused alike, and the table is as it was; that of version 1 can't be.
        let body = body(name, "state");
        let expected = if body[0] == 2 { refusal } else { Refusal::Version };
        let mut table = [7];
        let opened = raw::open(&body, types::STRING, &mut [0; 3], &mut table);
        assert_eq!((opened, table), ((expected.number(), 0, 0, expected.fault()), [7]), "{name}");

        let fault = types::literals(types::STRING, &["fault"]);
        let asked = |column: &[u8], field: &mut [u8]| {
            let (ty, edition, question) = (types::STRING, types::SECOND_EDITION, types::EQUAL);
            raw::ask_file(&[], &demo(name), column, b"bitmap", ty, edition, question, &fault, field)
        };
        // Whichever value is asked for, and with no row in the field; where there is no index the field is as it was.
        let mut field = [0xA5; 4];
        assert_eq!(asked(b"state", &mut field), (refusal.number(), Record::NONE, refusal.fault()), "{name}");
        assert_eq!(field, [0, 0, 0, 0xA5], "{name}");
        let mut field = [0xA5; 4];
        assert_eq!(asked(b"pressure", &mut field), (raw::ABSENT, Record::NONE, Fault::NONE), "{name}");
        assert_eq!(field, [0xA5; 4], "{name}");
    }
}

/// One bit of the second bitmap's second container is all that is wrong with the day.
#[test]
fn the_broken_day_is_sound_but_for_one_bit() {
    let (broken, sound) = (body("day-broken.index", "state"), day().bytes);
    let field = || RowField::for_rows(DAY.into()).unwrap();
    let audited = audit(&sound, Type::String, field());
    assert_eq!(audited.map(|audited| audited.rows()), Ok(DAY.into()));
    let changed: u32 = sound.iter().zip(&broken).map(|(one, other)| (one ^ other).count_ones()).sum();
    assert_eq!((sound.len(), changed), (broken.len(), 1));
    // The states' rows lie in two containers each, and it is the second state in stored order.
    let container = |second: u32| second >> 16;
    for (state, seconds) in DAY_STATES {
        let (first, last) = (&seconds[0], &seconds[seconds.len() - 1]);
        assert_eq!((container(first.start), container(last.end - 1)), (0, 1), "{state}");
    }
    assert_eq!(DAY_STATES.map(|(state, _)| state), ["fault", "idle", "running"]);
    assert_eq!(audit(&broken, Type::String, field()), Err(Error::Refused(Refusal::Bitmap { entry: 2, container: 1 })));
}

#[test]
fn deletions_are_as_described() {
    let deletions = |bin, rows| {
        let field = RowField::for_rows(rows)?;
        read_deletions(&demo("pumps.deletions"), bin, field).map(|deleted| deleted.field().iter().collect::<Vec<_>>())
    };
    assert_eq!(deletions(0, 24), Ok(DELETED.map(u64::from).to_vec()));
    assert_eq!(deletions(1, 40), Ok(DELETED_ELSEWHERE.map(u64::from).to_vec()));
    // The other data file's bin is not taken for this one's.
    assert_eq!(deletions(1, 24), Err(Refusal::Range { entry: 0 }));
    assert_eq!(deletions(2, 24), Err(Refusal::NoBin));
}

/// The first bin is the other file's, and the second has three seconds of the pressure, in the second of which rows pass 2^32.
#[test]
fn deletions_in_64_bit_bins_are_as_described() {
    let file = demo("pumps-64.deletions");
    let window = |bin, first, rows| {
        let deleted = read_window(&file, bin, first, RowField::for_rows(rows)?)?;
        Ok(deleted.field().iter().map(|row| first + row).collect::<Vec<_>>())
    };
    assert_eq!(window(0, 0, 24), Ok(DELETED.map(u64::from).to_vec()));
    for bin in [0, 1] {
        assert_eq!(read_deletions(&file, bin, RowField::for_rows(24).unwrap()), Err(Refusal::Magic));
    }
    assert_eq!(window(2, 0, 24), Err(Refusal::NoBin));

    // A day at a time.
    let day = PRESSURE_RATE * u64::from(DAY);
    let rows: Vec<u64> = (0..PRESSURE_DAYS).flat_map(|number| window(1, number * day, day).unwrap()).collect();
    assert_eq!(rows, calibrated_rows());
    assert_eq!(rows.len(), 3_000);
    let [_, passing, last] = CALIBRATED.map(|second| PRESSURE_RATE * second..PRESSURE_RATE * (second + 1));
    assert!(passing.contains(&(1 << 32)) && passing.start < 1 << 32);
    assert_eq!(last.end, PRESSURE_DAYS * day);

    // What the README says of them.
    let readme = readme().replace(',', "").split_whitespace().collect::<Vec<_>>().join(" ");
    let shown = format!("{PRESSURE_RATE} samples in each second of {PRESSURE_DAYS} days which are {} rows", PRESSURE_DAYS * day);
    assert!(readme.contains(&shown), "{shown}");
    let (days, seconds) = (CALIBRATED[1] / u64::from(DAY), CALIBRATED[1] % u64::from(DAY));
    let shown = format!("{days} days and {} hours after the first", seconds / 3_600);
    assert!(readme.contains(&shown), "{shown}");
    assert!(readme.contains(&format!("--first {}", days * day)));
}

/// What `ask` prints of the demo: its exit status and the line.
fn line(name: &str, words: &[&str], more: &[&str]) -> (i32, String) {
    let file = root().join("demo").join(name);
    let mut command = Command::new(env!("CARGO_BIN_EXE_poddurance"));
    let ran = command.arg("ask").arg(file).args(words).args(more).current_dir(root()).output().unwrap();
    assert_eq!(String::from_utf8(ran.stderr).unwrap(), "");
    (ran.status.code().unwrap(), String::from_utf8(ran.stdout).unwrap())
}

/// With deletions, of a 32-bit bin and of a 64-bit one, and without, the command line's line, its JSON and the record's own sentence have
/// the numbers of the proved calls, and these are the scan's.
#[test]
fn lines_have_the_numbers_of_the_calls() {
    let fault = Literals::of(Type::String, ["fault"]).unwrap();
    let stopped = Literals::of(Type::String, ["stopped"]).unwrap();
    let on = Literals::of(Type::Boolean, [true]).unwrap();
    let none = Literals::none(Type::Boolean);
    let scanned = |cells: &Column, deleted: &[u32], edition: Edition, question: Question, value: &[&[u8]]| {
        record(scan_without(deleted, cells, edition.number(), question.number(), value).1)
    };
    for name in ["pumps-v1.index", "pumps-v2.index"] {
        for (cells, column, edition, question, literals, values, words) in [
            (state(), "state", Edition::Second, Question::Equal, &fault, &[&b"fault"[..]][..], "state string equal fault"),
            (state(), "state", Edition::Second, Question::Equal, &stopped, &[b"stopped"], "state string equal stopped"),
            (alarm(), "alarm", Edition::First, Question::NotEqual, &on, &[&[1]], "alarm boolean not-equal true --edition 1"),
            (alarm(), "alarm", Edition::Second, Question::NotEqual, &on, &[&[1]], "alarm boolean not-equal true --edition 2"),
            (alarm(), "alarm", Edition::Second, Question::IsNull, &none, &[], "alarm boolean is-null"),
            (alarm(), "alarm", Edition::Second, Question::IsNotNull, &none, &[], "alarm boolean is-not-null"),
        ] {
            let words: Vec<&str> = words.split(' ').collect();
            let (index, deletions) = (demo(name), demo("pumps.deletions"));

            // The calls of the archive.
            let (mut first, mut second) = ([0xA5; 3], [0xA5; 3]);
            let (column_bytes, kind, ty) = (column.as_bytes(), b"bitmap", literals.ty().number());
            let (edition_number, question_number, bytes) = (edition.number(), question.number(), literals.as_bytes());
            let asked = raw::ask_file(&[], &index, column_bytes, kind, ty, edition_number, question_number, bytes, &mut first);
            let expected = scanned(&cells, &[], edition, question, values);
            assert_eq!(asked, (raw::ACCEPTED, expected, Fault::NONE), "{words:?}");
            assert_eq!(raw::read_deletions(&deletions, 0, expected.rows, &mut second), (raw::ACCEPTED, 3, Fault::NONE));
            let (answer, left, removed) = raw::subtract_record(&mut first, &second, expected);
            assert_eq!((answer, left), (raw::ACCEPTED, scanned(&cells, &DELETED, edition, question, values)), "{words:?}");
            assert_eq!(left.matched + removed, expected.matched, "{words:?}");

            // The record as a type, and its sentence.
            let field = || RowField::for_rows(24).unwrap();
            let answer = ask_file(&[], &index, column, "bitmap", edition, question, literals, field()).unwrap().unwrap();
            let (mut rows, record) = answer.clone().into_parts();
            let deleted = read_deletions(&deletions, 0, field()).unwrap();
            let after = subtract_record(&mut rows, deleted.field(), record).unwrap();
            assert_eq!((rows.as_bytes(), after.removed), (&first[..], removed), "{words:?}");

            // The command line.
            let with_deletions = ["--deletions", "demo/pumps.deletions", "--bin", "0"];
            // The same rows in a 64-bit bin, from row 0 on.
            let with_window = ["--deletions", "demo/pumps-64.deletions", "--bin", "0", "--first", "0"];
            for (said, numbers, more, deleted, removed, from, first) in [
                (answer.record(), expected, &[][..], None, None, "", ""),
                (&after.record, left, &with_deletions, Some(left.deleted), Some(removed), "", ""),
                (&after.record, left, &with_window, Some(left.deleted), Some(removed), " from row 0 on", ",\"first\":0"),
            ] {
                let Record { rows, nulls, matched, .. } = numbers;
                assert_eq!((said.rows(), said.nulls(), said.deleted(), said.matched()), (rows, nulls, numbers.deleted, matched));
                assert_eq!(said.to_string(), format!("drawn from {matched} of {rows} rows"));

                let (status, answer) = if matched == 0 { (1, "skip") } else { (0, "keep") };
                let applied = deleted.map_or("deletions not applied".to_string(), |number| format!("{number} deleted"));
                let expected = format!("{answer}: {said}{from} ({applied}, {nulls} null)\n");
                assert_eq!(line(name, &words, more), (status, expected), "{words:?} {more:?}");

                let [deleted, removed] = [deleted, removed].map(|number| number.map_or("null".to_string(), |n| n.to_string()));
                let expected = format!(
                    "{{\"answer\":\"{answer}\",\"rows\":{rows},\"nulls\":{nulls},\"deleted\":{deleted},\"matched\":{matched},\
                     \"removed\":{removed}{first}}}\n"
                );
                assert_eq!(line(name, &words, &[more, &["--json"]].concat()), (status, expected), "{words:?} {more:?}");
            }
        }
    }
    // The two that README shows.
    let words = ["state", "string", "equal", "fault"];
    let (_, without) = line("pumps-v2.index", &words, &[]);
    assert_eq!(without, "keep: drawn from 3 of 24 rows (deletions not applied, 0 null)\n");
    let (_, with) = line("pumps-v2.index", &words, &["--deletions", "demo/pumps.deletions", "--bin", "0"]);
    assert_eq!(with, "keep: drawn from 2 of 24 rows (3 deleted, 0 null)\n");
}
