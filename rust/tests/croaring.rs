//! Bitmaps that CRoaring writes are read here, and bitmaps written here are read by CRoaring: those of 32 bits by its C functions, those of 64
//! bits by its C++ class Roaring64Map, whose portable form is a 64-bit bin's from the number of bitmaps on.
//!
//! Needs a C and a C++ compiler and CRoaring with its headers (Debian: libroaring-dev); without them a test says that it is
//! skipped.

mod support;

use std::fs::{self, File};
use std::path::{Path, PathBuf};
use std::process::{Command, Stdio};

use poddurance::raw::{self, Fault, Record};
use reference::random::{self, Random};
use reference::types::{EQUAL, FIRST_EDITION, INT, IS_NULL, NOT_EQUAL, SECOND_EDITION};
use reference::writer::{bin_32, bin_64_traced, bitmap, deletion_file, file_of_bins, BitmapForm};
use support::{say, Lender};

const SEED: u64 = 7_401;
const ROW_SETS: usize = 400;
const ROW_SETS_64: usize = 400;

/// What stands before the number of bitmaps in a 64-bit bin: its magic.
const MAGIC_64: [u8; 4] = [0xD1, 0xD3, 0x39, 0x64];

/// A program with CRoaring, and what it takes to compile it.
struct Source {
    /// In tests/.
    file: &'static str,
    header: &'static str,
    compiler: &'static str,
    missing_compiler: &'static str,
}

const SOURCE_32: Source =
    Source { file: "croaring.c", header: "roaring/roaring.h", compiler: "cc", missing_compiler: "there is no C compiler 'cc'" };
const SOURCE_64: Source = Source {
    file: "croaring64.cpp",
    header: "roaring/roaring64map.hh",
    compiler: "c++",
    missing_compiler: "there is no C++ compiler 'c++'",
};

impl Source {
    /// Compiles it, or gives the reason why CRoaring isn't there.
    fn compile(&self, folder: &Path) -> Result<PathBuf, &'static str> {
        let source = Path::new(env!("CARGO_MANIFEST_DIR")).join("tests").join(self.file);
        let program = folder.join(source.file_stem().expect("a file name"));
        let probe = folder.join(format!("probe-{}", self.file));
        fs::write(&probe, format!("#include <{}>\nint main(void) {{ return 0; }}\n", self.header))
            .expect("the folder can be written");
        let compile = |source: &Path, program: &Path| {
            Command::new(self.compiler)
                .arg("-O1")
                .arg("-o")
                .arg(program)
                .arg(source)
                .arg("-lroaring")
                .stderr(Stdio::piped())
                .output()
        };
        match compile(&probe, &folder.join(format!("probe-{}.out", self.file))) {
            Err(_) => return Err(self.missing_compiler),
            Ok(output) if !output.status.success() => return Err("CRoaring isn't installed (Debian: libroaring-dev)"),
            Ok(_) => {}
        }
        let output = compile(&source, &program).expect("the compiler ran before");
        assert!(output.status.success(), "tests/{} doesn't compile: {}", self.file, String::from_utf8_lossy(&output.stderr));
        Ok(program)
    }
}

/// Answers of the program, read in turn.
struct Answers {
    bytes: Vec<u8>,
    at: usize,
}

impl Answers {
    /// Runs the program on all requests.
    fn of(program: &Path, requests: &[u8]) -> Answers {
        let mut file = program.as_os_str().to_owned();
        file.push("-requests");
        fs::write(&file, requests).expect("the folder can be written");
        let input = File::open(&file).expect("it was just written");
        let output = Command::new(program).stdin(input).stderr(Stdio::inherit()).output().expect("the program runs");
        assert!(output.status.success(), "the program with CRoaring failed");
        Answers { bytes: output.stdout, at: 0 }
    }

    fn take(&mut self, count: usize) -> &[u8] {
        let from = self.at;
        self.at += count;
        &self.bytes[from..self.at]
    }

    fn number(&mut self) -> u32 {
        u32::from_ne_bytes(self.take(4).try_into().expect("4 bytes"))
    }

    fn rows(&mut self) -> Vec<u32> {
        let number = self.number();
        (0..number).map(|_| self.number()).collect()
    }

    fn number_64(&mut self) -> u64 {
        u64::from_ne_bytes(self.take(8).try_into().expect("8 bytes"))
    }

    fn rows_64(&mut self) -> Vec<u64> {
        let number = self.number_64();
        (0..number).map(|_| self.number_64()).collect()
    }
}

fn put(requests: &mut Vec<u8>, numbers: &[u32]) {
    requests.extend(numbers.iter().flat_map(|number| number.to_ne_bytes()));
}

/// Rows and a row count past the last of them.
fn row_set(random: &mut Random) -> (Vec<u32>, u32) {
    let mut count = random::row_count(random) as u32;
    let mut rows = random::row_set(random, count);
    if random.percent(20) {
        // The same shape over containers that are far apart.
        let step = random.between(1, 7) as u32;
        for row in &mut rows {
            *row += (((*row >> 9) * step) << 16) & 0x003F_0000;
        }
        rows.sort_unstable();
        rows.dedup();
        count = rows.last().map_or(count, |last| last + 1);
    }
    (rows, count + random.below(9) as u32)
}

fn field_of(rows: &[u32], count: u32) -> Vec<u8> {
    let mut field = vec![0; count.div_ceil(8) as usize];
    for row in rows {
        field[*row as usize / 8] |= 1 << (row % 8);
    }
    field
}

/// A body of version 1 or 2 with these bitmaps for null and for the value 5.
fn body_with(version: u8, rows: u32, null: &[u8], value: &[u8]) -> Vec<u8> {
    let mut body = vec![version];
    let int = |number: usize| (number as u32).to_be_bytes();
    body.extend(rows.to_be_bytes());
    body.extend([0, 0, 0, 1, 1]);
    body.extend(int(0));
    if version == 2 {
        body.extend(int(null.len()));
        // One block at 0 whose first value is 5; the bitmaps follow its 16 bytes.
        body.extend([int(1), int(5), int(0), int(16)].concat());
        body.extend([int(1), int(5), int(null.len()), int(value.len())].concat());
    } else {
        body.extend([int(5), int(null.len())].concat());
    }
    [&body[..], null, value].concat()
}

#[test]
fn bitmaps_of_croaring_and_ours() {
    let folder = Path::new(env!("CARGO_TARGET_TMPDIR"));
    let program = match SOURCE_32.compile(folder) {
        Ok(program) => program,
        Err(reason) => return say(&format!("\nSKIPPED: bitmaps of CRoaring weren't compared, since {reason}")),
    };

    let random = &mut Random::new(SEED);
    let sets: Vec<(Vec<u32>, u32)> = (0..ROW_SETS).map(|_| row_set(random)).collect();
    let others: Vec<Vec<u32>> = sets
        .iter()
        .map(|(rows, count)| {
            let field = field_of(rows, *count);
            (0..*count).filter(|row| field[*row as usize / 8] >> (row % 8) & 1 == 0).collect()
        })
        .collect();

    let mut requests = Vec::new();
    let mut ours = 0;
    for ((rows, _), others) in sets.iter().zip(&others) {
        for optimise in [0, 1] {
            for rows in [rows, others] {
                put(&mut requests, &[0, optimise, rows.len() as u32]);
                put(&mut requests, rows);
            }
        }
        for _ in 0..3 {
            let form = random::bitmap_form(random, rows);
            let bytes = bitmap(rows, &form);
            put(&mut requests, &[1, bytes.len() as u32]);
            requests.extend(&bytes);
            ours += 1;
        }
    }
    let mut answers = Answers::of(&program, &requests);

    let (mut lender, mut field_lender) = (Lender::new(), Lender::new());
    let (mut read, mut with_runs) = (0, 0);
    for ((rows, count), others) in sets.iter().zip(&others) {
        let expected = field_of(rows, *count);
        let expected_others = field_of(others, *count);
        let none = field_of(&[], *count);
        let all: Vec<u8> = expected.iter().zip(&expected_others).map(|(rows, others)| rows | others).collect();
        let (number, others_number) = (rows.len() as u64, others.len() as u64);
        for _ in 0..2 {
            let size = answers.number() as usize;
            let value = answers.take(size).to_vec();
            let size = answers.number() as usize;
            let null = answers.take(size).to_vec();
            read += 2;
            with_runs += [&value, &null].into_iter().filter(|bitmap| bitmap[0] == 0x3B).count();

            let file = deletion_file(&[null.clone(), value.clone()]);
            let field = field_lender.lend(&vec![0xA5; expected.len()]);
            assert_eq!(raw::read_deletions(lender.lend(&file), 1, u64::from(*count), field), (0, number, Fault::NONE));
            assert!(*field == expected, "rows of CRoaring's bitmap read from a deletion file differ");
            assert_eq!(raw::read_deletions(lender.lend(&file), 0, u64::from(*count), field), (0, others_number, Fault::NONE));
            assert!(*field == expected_others, "rows of CRoaring's bitmap read from a deletion file differ");

            for version in [1, 2] {
                let body = body_with(version, *count, &null, &value);
                // The other rows are null's, which the second edition drops from NOT EQUAL.
                for (edition, question, literals, expected, matched) in [
                    (FIRST_EDITION, EQUAL, &[0, 0, 0, 5][..], &expected, number),
                    (SECOND_EDITION, EQUAL, &[0, 0, 0, 5], &expected, number),
                    (FIRST_EDITION, NOT_EQUAL, &[0, 0, 0, 5], &expected_others, others_number),
                    (SECOND_EDITION, NOT_EQUAL, &[0, 0, 0, 5], &none, 0),
                    (FIRST_EDITION, NOT_EQUAL, &[0, 0, 0, 6], &all, u64::from(*count)),
                    (SECOND_EDITION, NOT_EQUAL, &[0, 0, 0, 6], &expected, number),
                    (FIRST_EDITION, IS_NULL, &[], &expected_others, others_number),
                    (SECOND_EDITION, IS_NULL, &[], &expected_others, others_number),
                ] {
                    let field = field_lender.lend(&vec![0xA5; expected.len()]);
                    let record = Record { rows: u64::from(*count), nulls: others_number, deleted: 0, matched };
                    assert_eq!(raw::ask(lender.lend(&body), INT, edition, question, literals, field), (0, record, Fault::NONE));
                    assert!(field == *expected, "rows of CRoaring's bitmap read from an index differ");
                }
            }
        }
        for _ in 0..3 {
            assert_eq!(answers.number(), 1, "CRoaring can't read a bitmap written here");
            assert!(answers.rows() == *rows, "CRoaring reads other rows from a bitmap written here");
        }
    }
    assert_eq!(answers.at, answers.bytes.len());
    assert!(with_runs > 0 && with_runs < read, "CRoaring wrote bitmaps of one kind alone");
    say(&format!(
        "\n{read} bitmaps of CRoaring ({with_runs} with runs) read from deletion files and indexes, {ours} of ours read by CRoaring; seed {SEED}"
    ));
}

fn put_64(requests: &mut Vec<u8>, numbers: &[u64]) {
    requests.extend(numbers.iter().flat_map(|number| number.to_ne_bytes()));
}

/// Sets of rows near 2^32, 2^33 and 2^63: those that are drawn, and fixed ones of many rows, in which a bitmap ends in an array, bits or runs.
fn row_sets_64(random: &mut Random) -> Vec<Vec<u64>> {
    const AROUND: u64 = 70_000;
    let mut sets: Vec<Vec<u64>> = (0..ROW_SETS_64).map(|_| random::rows_64(random)).collect();
    for edge in [1 << 32, 1 << 33, (1 << 63) - AROUND] {
        let around = edge - AROUND..edge + AROUND;
        sets.push(around.clone().step_by(97).collect());
        sets.push(around.clone().filter(|row| row % 5 < 2).collect());
        sets.push(around.clone().filter(|row| row % 1_000 < 700).collect());
        sets.push(around.collect());
    }
    sets
}

/// Windows over each of the bitmaps' and containers' edges that the rows lie about, and others.
fn windows(random: &mut Random, rows: &[u64]) -> Vec<(u64, u64)> {
    let mut windows: Vec<(u64, u64)> = (0..6).map(|_| random::window(random, rows)).collect();
    if let (Some(first), Some(last)) = (rows.first(), rows.last()) {
        windows.extend([(*first, 1), (*last, 1), (first + 1, 100), (last.saturating_sub(99), 99)]);
        windows.extend((last - first < 1_000_000).then_some((*first, last - first + 1)));
    }
    windows.retain(|(first, rows)| first + rows <= 1 << 63);
    windows
}

#[test]
fn bitmaps_of_roaring64map_and_ours() {
    let folder = Path::new(env!("CARGO_TARGET_TMPDIR"));
    let program = match SOURCE_64.compile(folder) {
        Ok(program) => program,
        Err(reason) => return say(&format!("\nSKIPPED: bitmaps of CRoaring's Roaring64Map weren't compared, since {reason}")),
    };

    let random = &mut Random::new(SEED);
    let sets = row_sets_64(random);
    // As it reads a bitmap, Roaring64Map takes the size that it would write itself for the bitmap's, so that only its own forms can be read.
    let forms = [BitmapForm::WithoutRuns, BitmapForm::Smallest];
    let mut requests = Vec::new();
    for rows in &sets {
        for optimise in [0, 1] {
            put_64(&mut requests, &[0, optimise, rows.len() as u64]);
            put_64(&mut requests, rows);
        }
        for form in &forms {
            let mut bitmaps = random::bitmaps_of(random, rows);
            bitmaps.iter_mut().for_each(|bitmap| bitmap.form = form.clone());
            let bin = bin_64_traced(&bitmaps).bytes;
            let content = bin.strip_prefix(&MAGIC_64).expect("the magic comes first");
            put_64(&mut requests, &[1, content.len() as u64]);
            requests.extend(content);
        }
    }
    let mut answers = Answers::of(&program, &requests);

    let (mut lender, mut field_lender) = (Lender::new(), Lender::new());
    let (mut read, mut with_rows, mut ours) = (0, 0, 0);
    let mut sizes = [0; 2];
    for rows in &sets {
        for size_of in &mut sizes {
            let size = answers.number_64() as usize;
            *size_of += size;
            let bin = [&MAGIC_64[..], answers.take(size)].concat();
            // Between two others, so that its place in the file is found.
            let other = bin_32(&[3], &BitmapForm::WithoutRuns);
            let file = file_of_bins(&[other.clone(), bin, other]);
            for (first, length) in windows(random, rows) {
                let inside = rows.partition_point(|row| *row < first)..rows.partition_point(|row| *row < first + length);
                let mut expected = vec![0; length.div_ceil(8) as usize];
                for row in rows[inside.clone()].iter().map(|row| row - first) {
                    expected[(row / 8) as usize] |= 1 << (row % 8);
                }
                let field = field_lender.lend(&vec![0xA5; expected.len()]);
                let found = raw::read_window(lender.lend(&file), 1, first, length, field);
                assert_eq!(found, (0, inside.len() as u64, Fault::NONE), "{length} rows from {first} on");
                assert!(*field == expected, "rows of Roaring64Map's bitmap read from {first} on differ");
                read += 1;
                with_rows += usize::from(!inside.is_empty());
            }
        }
        for _ in &forms {
            assert_eq!(answers.number_64(), 1, "Roaring64Map can't read a bin written here");
            assert!(answers.rows_64() == *rows, "Roaring64Map reads other rows from a bin written here");
            ours += 1;
        }
    }
    assert_eq!(answers.at, answers.bytes.len());
    assert!(sizes[1] < sizes[0], "Roaring64Map wrote no runs");
    assert!(3 * with_rows > read, "most windows have no rows");
    say(&format!(
        "\n{} bitmaps of CRoaring's Roaring64Map read through {read} windows, {ours} of ours read by Roaring64Map; seed {SEED}",
        2 * sets.len()
    ));
}
