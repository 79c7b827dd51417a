//! How long the library takes beside the plain Rust reader of `docs/src`: `cargo bench --bench plain`.
//!
//! Both are given the same bytes and the same field, dirty, which each of them clears within the call. One call of each is timed in turn, in
//! changing order. Dirtying the field is not timed. What counts is the median of all times, less that of timing nothing: the shortest calls
//! take about a µs, and what the clock takes would make two readers look more alike than they are. Timing many calls at once would do
//! without, but needs a dirty field for each of them, and so many don't stay in the nearest cache.
//!
//! Before that both readers and the reference reader are compared: answers, counts, faults, fields and tables, and what lies behind these.
//!
//! The table is measured PODDURANCE_RUNS times, five unless that is set. Each line shows the run whose ratio is the median, and the least and
//! the greatest ratio of all runs. If the median of a line that Ticket 12 names is above the limit, an error behind the table names it.
//!
//! Without cargo's `--bench`, as in `cargo test --bench plain`, or with PODDURANCE_QUICK set, there are fewer strings, each call is timed a
//! few times only, in one run, and no ratio is an error.
//!
//! `benches/instructions` counts the instructions of both. For it `--lines` prints the lines of the table with their numbers, and
//! `--calls LINE READER NUMBER` makes so many calls of one reader, `library` or `plain`, and times nothing.

#![forbid(unsafe_code)]

mod inputs;
mod timing;

use std::env;
use std::hint::black_box;
use std::process::ExitCode;
use std::time::{Duration, Instant};

use inputs::{
    bits, field_size, one_run, open_strings, pumps, scattered, Column, Opened, COLUMNS_SEED, EDITION, LITERALS, LOOK_UP_SEED,
};
use plain_reader::Question;
use poddurance::raw::{self, Fault};
use reference::random::Random;
use reference::reader;
use reference::types;
use timing::{grouped, median_by, print_machine, shown, time, Effort, Patience};

/// What Ticket 12 asks for: at most so many times the plain reader's time, in each line that it names.
const LIMIT: f64 = 1.5;
/// What is aimed at. A line above it is marked, and is no error.
const AIM: f64 = 1.0;
/// How often the table is measured unless PODDURANCE_RUNS says.
const USUAL_RUNS: usize = 5;
/// Distinct strings that are looked up, and so many if quick.
const STRINGS: usize = 10_000;
const QUICK_STRINGS: usize = 1_000;
/// What no row of the three columns has.
const NOT_THERE: [&[u8]; 2] = [b"broken", b"stopped"];
/// What a field is dirty with.
const DIRT: u8 = 0xAA;
/// What a table is dirty with.
const TABLE_DIRT: u32 = 0xAAAA_AAAA;
/// So many bytes or words are lent behind a field or a table.
const BEHIND: usize = 8;

fn main() -> ExitCode {
    let words: Vec<String> = env::args().skip(1).collect();
    match words.iter().map(String::as_str).collect::<Vec<_>>()[..] {
        ["--lines", ..] => print_lines(),
        ["--calls", line, reader, number, ..] => call_only(line, reader, number),
        _ => return measure_all(),
    }
    ExitCode::SUCCESS
}

/// Measures all lines in each run, prints them, and judges them unless it is to be quick.
fn measure_all() -> ExitCode {
    let Effort { quick, patience, runs } = Effort::asked(USUAL_RUNS);
    let inputs = Inputs::new(if quick { QUICK_STRINGS } else { STRINGS });
    let lines = inputs.lines();
    lines.iter().for_each(Line::compare);

    print_machine(runs);
    print_cells(["asked by", "input", "call", "library", "plain Rust", "ratio", "least", "greatest", "above"]);
    print_cells(["---", "---", "---", "--:", "--:", "--:", "--:", "--:", "--:"]);
    let mut measured: Vec<Vec<Times>> = lines.iter().map(|_| Vec::new()).collect();
    for _ in 0..runs {
        for (line, times) in lines.iter().zip(&mut measured) {
            times.push(line.measure(&patience));
        }
    }
    for (line, times) in lines.iter().zip(&measured) {
        line.print(times);
    }
    print!("{LEGEND}");

    // A ratio that isn't above 0 is no measurement.
    let is_slow = |ratio: f64| !(ratio > 0.0 && ratio <= LIMIT);
    let ratios = measured.iter().map(|times| median_by(times, Times::ratio).ratio());
    let slow: Vec<(&Line, f64)> = lines.iter().zip(ratios).filter(|(line, ratio)| line.named && is_slow(*ratio)).collect();
    if quick {
        println!("\nA few calls were timed, to see that everything runs: no ratio is judged.");
        return ExitCode::SUCCESS;
    }
    if slow.is_empty() {
        return ExitCode::SUCCESS;
    }
    for (Line { what, call, .. }, ratio) in slow {
        eprintln!("{what}, {call}: the ratio is {ratio:.2}, and at most {LIMIT} is asked for");
    }
    ExitCode::FAILURE
}

const LEGEND: &str = "
Median times less that of timing nothing, calls of both in turn on the same field, which is dirty before and cleared by each call. ratio: the
library's time / the plain reader's; each line shows the run whose ratio is the median, and the least and the greatest ratio of all runs.
above: 1.0, which is aimed at, or 1.5, if the ratio is above that. 1.5 is the limit of the seven lines that Ticket 12 names; the others are shown
beside them.
All have 65,536 rows. one run: all rows have one value. bits: each row has one of two values at random. 4,000 scattered: these rows at random
have a value, in an array, the others are null, in bits. Ask EQUAL has one literal, a value of the column; Ask IN so many, this one and others
that no row has. strings: version 2, each row has one of so many names of 10 bytes at random, as many in a block as fit into 16 KiB, or all in
one; opened once, then 101 literals are looked up in turn, evenly spread over the values, or each between two values.
";

// Lines

/// What all lines read.
struct Inputs {
    columns: [(&'static str, Column); 3],
    /// The literals of IN, few and many, for each column.
    lists: [[Vec<u8>; 2]; 3],
    /// The strings in blocks of 16 KiB, and all in one block.
    opened: [Opened; 2],
}

impl Inputs {
    fn new(strings: usize) -> Inputs {
        let mut random = Random::new(COLUMNS_SEED);
        let columns = [("one run", one_run()), ("bits", bits(&mut random)), ("4,000 scattered", scattered(&mut random))];
        let with = |column: &Column, others: &[u8]| [&column.one, others].concat();
        let lists = columns.each_ref().map(|(_, column)| {
            [
                with(column, &types::literals(column.ty, &NOT_THERE)),
                with(column, &types::literals(column.ty, &pumps(LITERALS - 1))),
            ]
        });
        let [one_block, cut, _] = open_strings(&mut Random::new(LOOK_UP_SEED), strings);
        Inputs { columns, lists, opened: [cut, one_block] }
    }

    /// Those that Ticket 12 names first.
    fn lines(&self) -> Vec<Line<'_>> {
        let [cut, one_block] = &self.opened;
        let (mut named, mut others) = (Vec::new(), Vec::new());
        for ((name, column), [few, many]) in self.columns.iter().zip(&self.lists) {
            named.push(Line::ask("Ask EQUAL", name, column, types::EQUAL, &column.one));
            named.push(Line::ask(&format!("Ask IN, {}", NOT_THERE.len() + 1), name, column, types::IN, few));
            others.push(Line::ask(&format!("Ask IN, {}", grouped(LITERALS)), name, column, types::IN, many));
        }
        let [present, absent] = Line::look_ups(cut);
        named.push(present);
        others.extend([Line::opened("Open", cut, vec![Call::Open { opened: cut }]), absent]);
        others.extend(Line::look_ups(one_block));

        let named = named.into_iter().map(|line| Line { named: true, ..line });
        named.chain(others).collect()
    }
}

/// A line of the table: calls that are made in turn, and for how many rows the field is.
struct Line<'a> {
    /// Whether Ticket 12 names it.
    named: bool,
    what: String,
    call: String,
    rows: u32,
    calls: Vec<Call<'a>>,
}

impl<'a> Line<'a> {
    fn ask(call: &str, what: &str, column: &'a Column, question: u32, literals: &'a [u8]) -> Line<'a> {
        let calls = vec![Call::Ask { column, question, literals }];
        Line { named: false, what: what.to_string(), call: call.to_string(), rows: column.rows, calls }
    }

    fn opened(call: &str, opened: &Opened, calls: Vec<Call<'a>>) -> Line<'a> {
        let what = format!("{}, blocks: {}", opened.name, opened.blocks);
        Line { named: false, what, call: call.to_string(), rows: opened.rows, calls }
    }

    /// Of present literals, and of absent ones.
    fn look_ups(opened: &'a Opened) -> [Line<'a>; 2] {
        opened.literals.each_ref().map(|(which, literals)| {
            let calls = literals.iter().map(|literals| Call::LookUp { opened, literals }).collect();
            Line::opened(&format!("Look up, {which}"), opened, calls)
        })
    }
}

/// A call that all readers are given.
enum Call<'a> {
    Ask { column: &'a Column, question: u32, literals: &'a [u8] },
    Open { opened: &'a Opened },
    LookUp { opened: &'a Opened, literals: &'a [u8] },
}

/// The answer; rows, null, deleted and matched rows; the blocks, which Open says, or values compared, which Look up says; and the fault.
type Answer = (u8, [u64; 4], u64, [u64; 3]);

/// What is lent to a call.
struct Lent {
    field: Vec<u8>,
    table: Vec<u32>,
}

impl Lent {
    fn new(line: &Line) -> Lent {
        let words = |call: &Call| match call {
            Call::Open { opened } => opened.table.len(),
            Call::Ask { .. } | Call::LookUp { .. } => 0,
        };
        let words = line.calls.iter().map(words).max().unwrap_or(0);
        Lent { field: vec![DIRT; field_size(line.rows) + BEHIND], table: vec![TABLE_DIRT; words + BEHIND] }
    }

    fn dirty(&mut self) {
        self.field.fill(DIRT);
        self.table.fill(TABLE_DIRT);
    }
}

impl Call<'_> {
    fn library(&self, Lent { field, table }: &mut Lent) -> Answer {
        let counts = |record: raw::Record| [record.rows, record.nulls, record.deleted, record.matched];
        let place = |Fault { entry, container, row }| [entry, container, row];
        match *self {
            Call::Ask { column: Column { body, ty, .. }, question, literals } => {
                let (answer, record, fault) = raw::ask(body, *ty, EDITION, question, literals, field);
                (answer, counts(record), 0, place(fault))
            }
            Call::Open { opened: Opened { body, ty, .. } } => {
                let (answer, rows, blocks, fault) = raw::open(body, *ty, field, table);
                (answer, [rows, 0, 0, 0], blocks, place(fault))
            }
            Call::LookUp { opened: Opened { body, ty, table, .. }, literals } => {
                let (answer, record, compared, fault) = raw::look_up(body, *ty, EDITION, literals, table, field);
                (answer, counts(record), compared, place(fault))
            }
        }
    }

    fn plain(&self, Lent { field, table }: &mut Lent) -> Answer {
        let counts = |record: plain_reader::Record| [record.rows, record.nulls, record.deleted, record.matched];
        let answer = match *self {
            Call::Ask { column: Column { body, ty, .. }, question, literals } => {
                let question = if question == types::IN { Question::In } else { Question::Equal };
                plain_reader::ask(body, *ty, question, literals, field).map(|record| (counts(record), 0))
            }
            Call::Open { opened: Opened { body, ty, .. } } => {
                plain_reader::open(body, *ty, field, table).map(|(rows, blocks)| ([rows, 0, 0, 0], blocks))
            }
            Call::LookUp { opened: Opened { body, ty, table, .. }, literals } => {
                plain_reader::look_up(body, *ty, literals, table, field).map(|(record, compared)| (counts(record), compared))
            }
        };
        match answer {
            Ok((counts, number)) => (raw::ACCEPTED, counts, number, [0; 3]),
            Err(refusal) => (refusal.number(), [0; 4], 0, refusal.fault()),
        }
    }

    fn reference(&self, Lent { field, table }: &mut Lent) -> Answer {
        let counts = |record: reference::record::Record| [record.rows, record.nulls, record.deleted, record.matched];
        match *self {
            Call::Ask { column: Column { body, ty, .. }, question, literals } => {
                let (answer, record, fault) = reader::ask(body, *ty, EDITION, question, literals, field);
                (answer, counts(record), 0, fault)
            }
            Call::Open { opened: Opened { body, ty, .. } } => {
                let (answer, rows, blocks, fault) = reader::open(body, *ty, field, table);
                (answer, [rows, 0, 0, 0], blocks, fault)
            }
            Call::LookUp { opened: Opened { body, ty, table, .. }, literals } => {
                let (answer, record, compared, fault) = reader::look_up(body, *ty, EDITION, literals, table, field);
                (answer, counts(record), compared, fault)
            }
        }
    }
}

// Comparing

impl<'a> Line<'a> {
    /// All readers accept each call, with the same answer, field and table, and write nothing behind these. Only what is absent has no row.
    fn compare(&self) {
        let Line { what, call: name, .. } = self;
        for call in &self.calls {
            let answered = |reader: fn(&Call<'a>, &mut Lent) -> Answer| {
                let mut lent = Lent::new(self);
                (reader(call, &mut lent), lent)
            };
            let [library, plain, reference] = [Call::library, Call::plain, Call::reference].map(answered);
            for (reader, (answer, lent)) in [("library", &library), ("plain reader", &plain)] {
                assert_eq!(*answer, reference.0, "{what}, {name}, {reader}: not the reference reader's answer");
                assert!(lent.field == reference.1.field, "{what}, {name}, {reader}: not the reference reader's field");
                assert!(lent.table == reference.1.table, "{what}, {name}, {reader}: not the reference reader's table");
            }

            let ((answer, [rows, _, _, matched], number, _), Lent { field, table }) = reference;
            assert_eq!((answer, rows), (raw::ACCEPTED, self.rows.into()), "{what}, {name}: refused");
            assert_eq!(field[field_size(self.rows)..], [DIRT; BEHIND], "{what}, {name}: written behind the field");
            match call {
                Call::Ask { .. } => assert_ne!(matched, 0, "{what}, {name}: no row matches"),
                Call::Open { opened } => {
                    let expected = [&opened.table[..], &[TABLE_DIRT; BEHIND]].concat();
                    assert_eq!((number, table), (opened.table.len() as u64, expected), "{what}, {name}: another table");
                }
                Call::LookUp { opened, literals } => {
                    let [(_, present), _] = &opened.literals;
                    let is_present = present.iter().any(|one| one == literals);
                    assert_eq!(matched > 0, is_present, "{what}, {name}: rows found");
                    assert_ne!(number, 0, "{what}, {name}: nothing compared");
                }
            }
        }
    }
}

// Measuring

/// The medians of one run, less that of timing nothing.
#[derive(Clone, Copy)]
struct Times {
    library: Duration,
    plain: Duration,
}

impl Times {
    fn ratio(&self) -> f64 {
        self.library.as_secs_f64() / self.plain.as_secs_f64()
    }
}

impl Line<'_> {
    fn measure(&self, patience: &Patience) -> Times {
        // One field for both, so that neither has one that lies better.
        let mut lent = Lent::new(self);
        let (mut library, mut plain, mut nothing) = (Vec::new(), Vec::new(), Vec::new());
        let started = Instant::now();
        while patience.lasts(library.len(), started) {
            let call = &self.calls[library.len() % self.calls.len()];
            // Neither is always the one that finds the caches as the other left them.
            let library_first = library.len() % 2 == 0;
            for library_now in [library_first, !library_first] {
                lent.dirty();
                if library_now {
                    library.push(time(|| call.library(black_box(&mut lent))));
                } else {
                    plain.push(time(|| call.plain(black_box(&mut lent))));
                }
            }
            nothing.push(time(|| ()));
        }
        let median = |times: &[Duration]| median_by(times, Duration::as_secs_f64);
        let [library, plain] = [library, plain].map(|times| median(&times).saturating_sub(median(&nothing)));
        Times { library, plain }
    }
}

// Printing

impl Line<'_> {
    /// The run whose ratio is the median, and the least and the greatest ratio.
    fn print(&self, runs: &[Times]) {
        let times = median_by(runs, Times::ratio);
        let ratio = times.ratio();
        let least = runs.iter().map(Times::ratio).fold(ratio, f64::min);
        let greatest = runs.iter().map(Times::ratio).fold(ratio, f64::max);
        let [shown_ratio, least, greatest] = [ratio, least, greatest].map(|ratio| format!("{ratio:.2}"));
        let mark = match ratio {
            _ if ratio > LIMIT => format!("{LIMIT:.1}"),
            _ if ratio > AIM => format!("{AIM:.1}"),
            _ => String::new(),
        };
        let named = if self.named { "Ticket 12" } else { "" };
        let [library, plain] = [times.library, times.plain].map(shown);
        print_cells([named, &self.what, &self.call, &library, &plain, &shown_ratio, &least, &greatest, &mark]);
    }
}

fn print_cells(cells: [&str; 9]) {
    let [named, what, call, library, plain, ratio, least, greatest, mark] = cells;
    println!(
        "| {named:<9} | {what:<30} | {call:<16} | {library:>9} | {plain:>10} | {ratio:>5} | {least:>5} | {greatest:>8} | {mark:>5} |"
    );
}

// Without times

/// Prints number, input and call of each line, with tabs between them.
fn print_lines() {
    for (number, Line { what, call, .. }) in (1..).zip(Inputs::new(STRINGS).lines()) {
        println!("{number}\t{what}\t{call}");
    }
}

/// Makes calls of one reader alone, as `--calls` has it.
fn call_only(line: &str, reader: &str, number: &str) {
    let inputs = Inputs::new(STRINGS);
    let lines = inputs.lines();
    let line: usize = line.parse().expect("the number of a line");
    let line = line.checked_sub(1).and_then(|line| lines.get(line)).expect("the number of a line");
    let number = number.parse().expect("a number of calls");
    let mut lent = Lent::new(line);
    match reader {
        "library" => counted(line, number, |call| call.library(black_box(&mut lent))),
        "plain" => counted(line, number, |call| call.plain(black_box(&mut lent))),
        _ => panic!("a reader is library or plain"),
    }
}

/// Nothing but the calls: `benches/instructions` counts from where this is entered to where it is left, and knows it by its name.
#[inline(never)]
fn counted(line: &Line, number: usize, mut reader: impl FnMut(&Call) -> Answer) {
    for call in line.calls.iter().cycle().take(number) {
        black_box(reader(call));
    }
}
