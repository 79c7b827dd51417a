//! How long the library takes to mark a run of rows, beside a loop that tests and sets bit by bit: `cargo bench -p benchmark_loops`.
//!
//! Each call is timed by itself on a cleared field, all calls of a line in turn and in changing order. Clearing the field is not timed.
//! The clock of some machines ticks in 10 ns only, so the mean of the middle half of all times counts, less the same mean of timing
//! nothing. Before that, answers and fields are compared.
//!
//! The whole table is measured PODDURANCE_RUNS times, three unless that is set, and each line shows the times whose ratio is the median.
//! It ends with an error if the ratio of the run of 65,536 rows is above the one that is asked for.
//!
//! Without cargo's `--bench`, as in `cargo test -p benchmark_loops`, or with PODDURANCE_QUICK set, each call is timed a few times only,
//! once over, and no ratio is an error.

#[path = "../../benches/timing/mod.rs"]
mod timing;

use std::hint::black_box;
use std::iter::once;
use std::ops::Range;
use std::process::ExitCode;
use std::time::{Duration, Instant};

use benchmark_loops::{mark_bits, mark_run};
use poddurance::raw::{self, Fault};
use reference::random::Random;
use reference::writer::{bitmap, deletion_file, BitmapForm, ContainerForm};
use timing::{grouped, median_by, print_machine, shown, time, Effort, Patience};

/// How often the table is measured unless PODDURANCE_RUNS says.
const USUAL_RUNS: usize = 3;
/// The rows of one Roaring container, for which each field is.
const ROWS: u64 = 65_536;
const FIELD_BYTES: usize = ROWS as usize / 8;
/// What Ticket 3 asks for in the run of 65,536 rows: at most a quarter of the time of the loop that goes bit by bit.
const MOST_RATIO: f64 = 0.25;
/// Rows that a run leaves out at both ends of the field, so that it begins and ends inside a byte.
const LEFT_OUT: u64 = 3;
const SHORT_RUNS: usize = 1_000;
/// The most rows of a short run.
const SHORT: usize = 20;

fn main() -> ExitCode {
    let Effort { quick, patience, runs: repeats } = Effort::asked(USUAL_RUNS);
    let mut random = Random::new(1);
    let long = Line::new(format!("{} rows", grouped(ROWS as usize)), once(0..ROWS));
    let (first, end) = (LEFT_OUT, ROWS - LEFT_OUT);
    let inside = Line::new(format!("rows {first} to {}", grouped(end as usize - 1)), once(first..end));
    let short = Line::new(format!("{} runs of 1 to {SHORT} rows", grouped(SHORT_RUNS)), short_runs(&mut random));
    let lines = [long, inside, short];

    print_machine(repeats);
    print_cells("run", ["run marker", "bit by bit", "ratio", "memset", "marker/memset", "Read deletions"].map(str::to_string));
    print_cells("---", ["--:"; 6].map(str::to_string));
    let [ratio, ..] = table(&lines, &patience, repeats, &mut random);
    print!("{LEGEND}");

    // A ratio that isn't above 0 is no measurement.
    let fast_enough = ratio > 0.0 && ratio <= MOST_RATIO;
    if !quick && !fast_enough {
        eprintln!("{}: the ratio is {ratio:.4}, and at most {MOST_RATIO} is asked for", lines[0].what);
        return ExitCode::FAILURE;
    }
    ExitCode::SUCCESS
}

/// Measures all lines so often, and prints each the last time. The ratio of each line.
fn table<const N: usize>(lines: &[Line; N], patience: &Patience, repeats: usize, random: &mut Random) -> [f64; N] {
    lines.iter().for_each(compare);
    let mut measured = [(); N].map(|_| Vec::new());
    for repeat in 1..=repeats {
        for (line, times) in lines.iter().zip(&mut measured) {
            times.push(measure(line, patience, random));
            if repeat == repeats {
                print_line(line, median_by(times, Times::ratio));
            }
        }
    }
    measured.map(|times| median_by(&times, Times::ratio).ratio())
}

const LEGEND: &str = "
Mean of the middle half of all times, less that of timing nothing, each call on a cleared field of 8,192 bytes. run marker: the library's, whole
bytes at a time. bit by bit: a loop of the same compiler that tests and sets each row. ratio: run marker / bit by bit; if the table is measured
several times, each line shows the times whose ratio is the median. memset: of the bytes that the run's rows lie in. Read deletions: the library's
whole call, of a deletion file with these runs. 1,000 runs: at random places, not overlapping, marked one after the other with a call each.
";

// Inputs

/// A line of the table: runs of rows, rising, that are marked one after the other, and a deletion file whose only bin lists them.
struct Line {
    what: String,
    runs: Vec<Range<u64>>,
    file: Vec<u8>,
}

impl Line {
    fn new(what: String, runs: impl IntoIterator<Item = Range<u64>>) -> Line {
        let runs: Vec<Range<u64>> = runs.into_iter().collect();
        let rows: Vec<u32> = runs.iter().cloned().flatten().map(|row| row as u32).collect();
        // Runs that touch stay two.
        let cuts = runs.iter().map(|run| run.start as u16).collect();
        let as_runs = BitmapForm::WithRuns(vec![ContainerForm::Runs { cuts }]);
        Line { what, runs, file: deletion_file(&[bitmap(&rows, &as_runs)]) }
    }

    /// The bytes that the rows of a single run lie in; several have gaps.
    fn bytes(&self) -> Option<Range<usize>> {
        match &self.runs[..] {
            [run] => Some(run.start as usize / 8..run.end.div_ceil(8) as usize),
            _ => None,
        }
    }

    /// Marks the runs by one of the loops. Whether a row was set already.
    #[inline(always)]
    fn mark(&self, mark: impl Fn(&mut [u8], Range<u64>) -> bool, field: &mut [u8]) -> bool {
        self.runs.iter().fold(false, |seen, run| mark(field, run.clone()) | seen)
    }
}

/// Short runs at random places, none of which overlap.
fn short_runs(random: &mut Random) -> Vec<Range<u64>> {
    let mut taken = [false; ROWS as usize];
    let mut runs = Vec::new();
    while runs.len() < SHORT_RUNS {
        let length = random.between(1, SHORT);
        let first = random.below(ROWS as usize - length + 1);
        let rows = &mut taken[first..first + length];
        if !rows.contains(&true) {
            rows.fill(true);
            runs.push(first as u64..(first + length) as u64);
        }
    }
    runs.sort_by_key(|run| run.start);
    runs
}

/// Both loops find the rows clear, then set, and leave the field that Read deletions does.
fn compare(line: &Line) {
    let mut deleted = [0xAA; FIELD_BYTES];
    let rows: u64 = line.runs.iter().map(|run| run.end - run.start).sum();
    let answer = raw::read_deletions(&line.file, 0, ROWS, &mut deleted);
    assert_eq!(answer, (raw::ACCEPTED, rows, Fault::NONE), "{}: Read deletions", line.what);
    let marked = |name: &str, mark: fn(&mut [u8], Range<u64>) -> bool| {
        let mut field = [0; FIELD_BYTES];
        assert!(!line.mark(mark, &mut field), "{}, {name}: a row was set in a cleared field", line.what);
        assert!(field == deleted, "{}, {name}: the field differs from that of Read deletions", line.what);
        assert!(line.mark(mark, &mut field), "{}, {name}: no row was set, the second time", line.what);
        field
    };
    let [by_run, by_bits] = [marked("run marker", mark_run), marked("bit by bit", mark_bits)];
    assert!(by_run == by_bits && by_bits == deleted, "{}: the fields differ, the second time", line.what);
}

// Measuring

/// What is timed in a line.
#[derive(Clone, Copy)]
enum Call {
    Marker,
    Bits,
    Memset,
    ReadDeletions,
    Nothing,
}

const CALLS: [Call; 5] = [Call::Marker, Call::Bits, Call::Memset, Call::ReadDeletions, Call::Nothing];

/// What the calls of a line take, in nanoseconds.
#[derive(Clone, Copy)]
struct Times {
    marker: f64,
    bits: f64,
    memset: Option<f64>,
    read_deletions: f64,
}

impl Times {
    fn ratio(&self) -> f64 {
        self.marker / self.bits
    }
}

fn measure(line: &Line, patience: &Patience, random: &mut Random) -> Times {
    // One field for all, so that it lies alike for each.
    let mut field = vec![0; FIELD_BYTES];
    let mut times: [Vec<Duration>; CALLS.len()] = Default::default();
    let mut order = CALLS;

    let started = Instant::now();
    while patience.lasts(times[0].len(), started) {
        // So that no call always follows the same other one.
        random.shuffle(&mut order);
        for call in order {
            black_box(&mut field[..]).fill(0);
            let field = &mut field[..];
            times[call as usize].push(match call {
                Call::Marker => time(|| line.mark(mark_run, black_box(field))),
                Call::Bits => time(|| line.mark(mark_bits, black_box(field))),
                Call::Memset => {
                    // Of several runs it has no bytes, and isn't shown.
                    let bytes = line.bytes().unwrap_or_default();
                    time(|| black_box(&mut field[bytes]).fill(0xFF))
                }
                Call::ReadDeletions => time(|| raw::read_deletions(black_box(&line.file), 0, ROWS, black_box(field))),
                Call::Nothing => time(|| black_box(field).len()),
            });
        }
    }

    let [marker, bits, memset, read_deletions, nothing] = times.map(middle_mean);
    Times {
        marker: marker - nothing,
        bits: bits - nothing,
        memset: line.bytes().map(|_| memset - nothing),
        read_deletions: read_deletions - nothing,
    }
}

/// The mean of the middle half, in nanoseconds.
fn middle_mean(mut times: Vec<Duration>) -> f64 {
    times.sort_unstable();
    let quarter = times.len() / 4;
    let middle = &times[quarter..times.len() - quarter];
    middle.iter().sum::<Duration>().as_nanos() as f64 / middle.len() as f64
}

// Printing

fn print_line(line: &Line, times: Times) {
    let Times { marker, bits, memset, read_deletions } = times;
    let to_memset = memset.map(|memset| format!("{:.2}", marker / memset));
    let [memset, to_memset] = [memset.map(rounded), to_memset].map(Option::unwrap_or_default);
    let ratio = format!("{:.4}", times.ratio());
    print_cells(&line.what, [rounded(marker), rounded(bits), ratio, memset, to_memset, rounded(read_deletions)]);
}

/// A time in whole nanoseconds; with few samples it may come out as less than nothing.
fn rounded(nanoseconds: f64) -> String {
    shown(Duration::from_nanos(nanoseconds.max(0.0).round() as u64))
}

fn print_cells(what: &str, numbers: [String; 6]) {
    let [marker, bits, ratio, memset, to_memset, read_deletions] = numbers;
    println!("| {what:<26} | {marker:>10} | {bits:>10} | {ratio:>6} | {memset:>9} | {to_memset:>13} | {read_deletions:>14} |");
}
