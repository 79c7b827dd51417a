//! How long the library's calls take beside those of the reference reader: `cargo bench --bench speed`.
//!
//! Both are given the same bytes and a cleared field, one call at a time and in changing order, and the median of all times counts.
//! Clearing the field is not timed. Before that, answers, counts and fields of both are compared.
//!
//! A second table has lookups in opened bodies, of many literals in turn, beside Ask's EQUAL of the same literals and beside the lookup of the
//! plain Rust reader of `docs/src`, which the benchmark `plain` is about. A third has deletions read through windows.
//!
//! Each table is measured PODDURANCE_RUNS times, three unless that is set, and each line shows the run whose ratio is the median.
//! Then calls on more and more rows are timed for the plot `docs/speed.svg`.
//!
//! Without cargo's `--bench`, as in `cargo test --benches`, or with PODDURANCE_QUICK set, inputs are smaller, each call is timed a few
//! times only, in one run, and no plot is written, to see that everything runs.

mod inputs;
mod plot;
#[path = "../examples/svg/mod.rs"]
mod svg;
mod timing;

use std::fs;
use std::hint::black_box;
use std::path::Path;
use std::slice;
use std::time::{Duration, Instant};

use inputs::{
    at_random, bits, field_size, one_run, open_in_blocks, open_strings, pumps, scattered, shuffled_rows, Column, Opened,
    COLUMNS_SEED, CONTAINER, EDITION, LITERALS, LOOK_UP_SEED,
};
use poddurance::raw;
use reference::random::Random;
use reference::reader;
use reference::record::Record;
use reference::types;
use reference::writer::{bin_32, bin_64, file_of_bins, index_file, BitmapForm, ContainerForm, Groups, Layout};
use timing::{grouped, median_by, print_machine, shown, time, Effort, Patience};

/// How often the tables are measured unless PODDURANCE_RUNS says.
const USUAL_RUNS: usize = 3;
/// The entries of a block in version 2.
const BLOCK: usize = 500;
/// The kind of the indexes in a head.
const KIND: &str = "bitmap";

/// How large the inputs are.
struct Sizes {
    /// Distinct values in version 1.
    one: usize,
    /// Distinct strings in version 2.
    two: usize,
    /// Distinct numbers in version 2 to look up.
    numbers: usize,
    /// Columns in a head.
    columns: usize,
    /// Rows of the large inputs.
    rows: u32,
    /// Rows of the inputs for the plot.
    plotted: &'static [u32],
}

const FULL: Sizes = Sizes {
    one: 4_096,
    two: 10_000,
    numbers: CONTAINER as usize,
    columns: 1_000,
    rows: 10_000_000,
    // Two points for each power of ten, equally far from each other on a logarithmic axis.
    plotted: &[10_000, 31_623, 100_000, 316_228, 1_000_000, 3_162_278, 10_000_000],
};
const QUICK: Sizes =
    Sizes { one: 1_000, two: 1_000, numbers: 4_096, columns: 1_000, rows: 1_000_000, plotted: &[10_000, 100_000] };

fn main() {
    let Effort { quick, patience, runs } = Effort::asked(USUAL_RUNS);
    let sizes = if quick { QUICK } else { FULL };

    print_machine(runs);
    print_cells("input", "call", ["library", "reference", "ratio", "library/memcpy", "reference/memcpy"].map(str::to_string));
    print_cells("---", "---", ["--:"; 5].map(str::to_string));
    table(&sizes, &patience, runs);
    print!("{LEGEND}");
    look_up_table(&sizes, &patience, runs);
    print!("{LOOK_UP_LEGEND}");
    window_table(&sizes, &patience, runs);
    print!("{WINDOW_LEGEND}");

    let picture = against_rows(&sizes, &patience);
    if !quick {
        let path = Path::new(env!("CARGO_MANIFEST_DIR")).join("../docs/speed.svg");
        fs::write(path, picture).expect("docs/speed.svg can be written");
    }
}

/// Measures all lines in each run, and prints each in the last.
fn table(sizes: &Sizes, patience: &Patience, runs: usize) {
    let mut random = Random::new(COLUMNS_SEED);
    let large = sizes.rows;
    let rows = format!("{} rows", grouped(large as usize));
    let of = |number: usize, what: &str| format!("{} {what}", grouped(number));
    let inputs = [
        Input::from(one_run()).called("65,536 rows, one run"),
        Input::from(bits(&mut random)).called("65,536 rows, bits"),
        Input::from(scattered(&mut random)).called("65,536 rows, 4,000 scattered"),
        spread(&mut random, types::STRING, pumps(sizes.two), 2).called(&of(sizes.two, "strings, version 2")),
        spread(&mut random, types::STRING, pumps(sizes.one), 1).called(&of(sizes.one, "strings, version 1")),
        spread(&mut random, types::INT, ints(sizes.one), 1).called(&of(sizes.one, "INT, version 1")),
        one_each(&mut random).called("65,536 BIGINT, version 2"),
        many_rows(&mut random, large).called(&format!("{rows}, 100 values")),
    ];
    let mut lines: Vec<Line> = inputs.iter().flat_map(Input::lines).collect();

    let (file, deleted) = deletions(&mut random, large);
    let read = Call::ReadDeletions { file: &file, rows: large };
    lines.push(Line { what: rows.clone(), call: read, rows: large, copied: Some(file.len()) });
    let first = random.bytes(deleted.len());
    let subtract = Call::Subtract { first: &first, second: &deleted, rows: large };
    lines.push(Line { what: rows, call: subtract, rows: large, copied: Some(first.len()) });

    let head = head(sizes.columns);
    let column = sensor(sizes.columns - 2);
    let locate = Call::Locate { file: &head, column: &column };
    lines.push(Line { what: of(sizes.columns, "columns"), call: locate, rows: 0, copied: None });

    measure_lines(&lines, patience, runs, |line, cells| print_cells(&line.what, line.call.name(), cells));
}

/// Measures all lines in each run, and prints each in the last.
fn measure_lines<'a>(lines: &[Line<'a>], patience: &Patience, runs: usize, print: impl Fn(&Line<'a>, [String; 5])) {
    lines.iter().for_each(Line::compare);
    let mut measured: Vec<Vec<Times>> = lines.iter().map(|_| Vec::new()).collect();
    for run in 1..=runs {
        for (line, times) in lines.iter().zip(&mut measured) {
            times.push(line.measure(patience));
            if run == runs {
                print(line, cells(median_by(times, Times::ratio)));
            }
        }
    }
}

const LEGEND: &str = "
Median times. ratio: library's time / reference reader's; of several runs, each line shows the one whose ratio is the median. /memcpy: share of
memcpy's speed, that is, the time of a memcpy of as many bytes as the body or file has (Subtract: as the first field has) / the reader's time.
one run: all rows have one value. bits: each row has one of two values at random. 4,000 scattered: these rows at random have a value, in an
array, the others are null, in bits. strings: 65,536 rows, each with one of so many names of 10 bytes at random. INT: the same with numbers.
BIGINT: 65,536 rows, each with a number of its own, in blocks of 500. Ask EQUAL has one literal, Ask IN 1,024, evenly spread over the values.
100 values: INT, each row with one at random, in arrays. Read deletions: each row is deleted with a chance of 1 in 10, in bits.
Subtract: these rows from a field with each row set with a chance of 1 in 2. columns: an index file whose head lists so many, each with one
index; Locate asks for the last but one.
";

/// Times calls on more and more rows, and draws them.
fn against_rows(sizes: &Sizes, patience: &Patience) -> String {
    let mut random = Random::new(2);
    let inputs: Vec<Input> = sizes.plotted.iter().map(|rows| many_rows(&mut random, *rows)).collect();
    let calls: [fn(&Input) -> Line; 2] = [Input::audit, Input::ask_equal];
    let series = calls.map(|call| {
        let lines: Vec<Line> = inputs.iter().map(call).collect();
        let points = lines.iter().map(|line| {
            line.compare();
            let Times { library, other, .. } = line.measure(patience);
            plot::Point { rows: line.rows, library, reference: other }
        });
        plot::Series { call: lines[0].call.name(), points: points.collect() }
    });
    plot::svg("INT column of 100 values", &series)
}

// Inputs

/// A column, and what else is asked of it.
struct Input {
    name: String,
    column: Column,
    /// The literals of IN, if it is asked.
    many: Option<Vec<u8>>,
    /// Whether the body is so large that copying it takes a time worth comparing with.
    large: bool,
}

impl From<Column> for Input {
    fn from(column: Column) -> Input {
        Input { name: String::new(), column, many: None, large: false }
    }
}

impl Input {
    fn called(self, name: &str) -> Input {
        Input { name: name.to_string(), ..self }
    }

    fn lines(&self) -> Vec<Line<'_>> {
        let mut lines = vec![self.audit(), self.ask_equal()];
        lines.extend(self.many.iter().map(|literals| self.ask(types::IN, literals)));
        lines
    }

    fn audit(&self) -> Line<'_> {
        self.line(Call::Audit { body: &self.column.body, ty: self.column.ty })
    }

    fn ask_equal(&self) -> Line<'_> {
        self.ask(types::EQUAL, &self.column.one)
    }

    fn ask<'a>(&'a self, question: u32, literals: &'a [u8]) -> Line<'a> {
        self.line(Call::Ask { body: &self.column.body, ty: self.column.ty, question, literals })
    }

    fn line<'a>(&self, call: Call<'a>) -> Line<'a> {
        let Column { body, rows, .. } = &self.column;
        Line { what: self.name.clone(), call, rows: *rows, copied: self.large.then_some(body.len()) }
    }
}

/// Numbers of type INT, rising.
fn ints(number: usize) -> Vec<Vec<u8>> {
    (0..number as i32).map(|i| i.to_be_bytes().to_vec()).collect()
}

/// Values with few rows each; one of a single row has no bitmap.
fn spread(random: &mut Random, ty: u32, values: Vec<Vec<u8>>, version: u8) -> Input {
    let number = values.len();
    let many: Vec<&[u8]> = (0..LITERALS).map(|i| &values[i * number / LITERALS][..]).collect();
    let many = types::literals(ty, &many);
    let values = at_random(random, values, CONTAINER);
    let groups = Groups { ty, rows: CONTAINER, nulls: Vec::new(), values };
    let column = Column::new(&groups, &Layout::version(version).with_blocks_of(BLOCK), number / 2);
    Input { many: Some(many), ..column.into() }
}

/// As many values as rows, none of which has a bitmap.
fn one_each(random: &mut Random) -> Input {
    let values = (0i64..).zip(shuffled_rows(random)).map(|(number, row)| (number.to_be_bytes().to_vec(), vec![row]));
    let groups = Groups { ty: types::BIGINT, rows: CONTAINER, nulls: Vec::new(), values: values.collect() };
    Column::new(&groups, &Layout::version(2).with_blocks_of(BLOCK), CONTAINER as usize / 2).into()
}

fn many_rows(random: &mut Random, rows: u32) -> Input {
    let values = at_random(random, ints(100), rows);
    let groups = Groups { ty: types::INT, rows, nulls: Vec::new(), values };
    Input { large: true, ..Column::new(&groups, &Layout::version(2), 42).into() }
}

/// A deletion file with one bin, and its rows as a field.
fn deletions(random: &mut Random, rows: u32) -> (Vec<u8>, Vec<u8>) {
    let deleted = at_a_chance(random, rows, 10);
    let mut field = vec![0; field_size(rows)];
    for row in &deleted {
        field[*row as usize / 8] |= 1 << (row % 8);
    }
    (file_of_bins(&[bin_32(&deleted, &BitmapForm::WithoutRuns)]), field)
}

/// Each row with a chance of so many in 100.
fn at_a_chance(random: &mut Random, rows: u32, percent: usize) -> Vec<u32> {
    (0..rows).filter(|_| random.percent(percent)).collect()
}

/// Rows in runs of 1 to 100, with gaps of 1 to 200 between them.
fn in_runs(random: &mut Random, rows: u32) -> Vec<u32> {
    let mut all = Vec::new();
    let mut next = 0;
    while next < rows {
        let end = rows.min(next + random.between(1, 100) as u32);
        all.extend(next..end);
        next = end + random.between(1, 200) as u32;
    }
    all
}

fn sensor(number: usize) -> String {
    format!("sensor-{number:04}")
}

/// An index file of so many columns. Locate looks at the head alone, so that the bodies may be anything.
fn head(columns: usize) -> Vec<u8> {
    let names: Vec<String> = (0..columns).map(sensor).collect();
    let indexes: Vec<(&str, &str, &[u8])> = names.iter().map(|name| (&name[..], KIND, name.as_bytes())).collect();
    index_file(&indexes)
}

// Calls

/// A call that both readers are given.
enum Call<'a> {
    Locate { file: &'a [u8], column: &'a str },
    Audit { body: &'a [u8], ty: u32 },
    Ask { body: &'a [u8], ty: u32, question: u32, literals: &'a [u8] },
    LookUp { body: &'a [u8], ty: u32, literals: &'a [u8], table: &'a [u32] },
    ReadDeletions { file: &'a [u8], rows: u32 },
    ReadWindow { file: &'a [u8], first: u32, rows: u32 },
    Subtract { first: &'a [u8], second: &'a [u8], rows: u32 },
}

/// The answer and up to four counts, or start and length; and how many values were compared, which Look up says.
type Answer = (u8, [u64; 4], u64);

impl Call<'_> {
    fn name(&self) -> &'static str {
        match self {
            Call::Locate { .. } => "Locate",
            Call::Audit { .. } => "Audit",
            Call::Ask { question: types::IN, .. } => "Ask IN",
            Call::Ask { .. } => "Ask EQUAL",
            Call::LookUp { .. } => "Look up",
            Call::ReadDeletions { .. } => "Read deletions",
            Call::ReadWindow { .. } => "Read window",
            Call::Subtract { .. } => "Subtract",
        }
    }

    /// Makes the field what the call starts from.
    fn ready(&self, field: &mut [u8]) {
        match self {
            Call::Subtract { first, .. } => field[..first.len()].copy_from_slice(first),
            _ => field.fill(0),
        }
    }

    fn library(&self, field: &mut [u8]) -> Answer {
        let one = |(answer, count, _)| (answer, [count, 0, 0, 0], 0);
        let two = |(answer, first, second)| (answer, [first, second, 0, 0], 0);
        let counts = |record: raw::Record| [record.matched, record.rows, record.nulls, record.deleted];
        let four = |(answer, record, _)| (answer, counts(record), 0);
        let five = |(answer, record, compared, _)| (answer, counts(record), compared);
        match *self {
            Call::Locate { file, column } => two(raw::locate(&[], file, column.as_bytes(), KIND.as_bytes())),
            Call::Audit { body, ty } => one(raw::audit(body, ty, field)),
            Call::Ask { body, ty, question, literals } => four(raw::ask(body, ty, EDITION, question, literals, field)),
            Call::LookUp { body, ty, literals, table } => five(raw::look_up(body, ty, EDITION, literals, table, field)),
            Call::ReadDeletions { file, rows } => one(raw::read_deletions(file, 0, rows.into(), field)),
            Call::ReadWindow { file, first, rows } => one(raw::read_window(file, 0, first.into(), rows.into(), field)),
            Call::Subtract { second, rows, .. } => two(raw::subtract(field, second, rows.into())),
        }
    }

    fn reference(&self, field: &mut [u8]) -> Answer {
        let one = |(answer, count, _)| (answer, [count, 0, 0, 0], 0);
        let two = |(answer, first, second)| (answer, [first, second, 0, 0], 0);
        let counts = |record: Record| [record.matched, record.rows, record.nulls, record.deleted];
        let four = |(answer, record, _)| (answer, counts(record), 0);
        let five = |(answer, record, compared, _)| (answer, counts(record), compared);
        match *self {
            Call::Locate { file, column } => two(reader::locate(&[], file, column.as_bytes(), KIND.as_bytes())),
            Call::Audit { body, ty } => one(reader::audit(body, ty, field)),
            Call::Ask { body, ty, question, literals } => four(reader::ask(body, ty, EDITION, question, literals, field)),
            Call::LookUp { body, ty, literals, table } => five(reader::look_up(body, ty, EDITION, literals, table, field)),
            Call::ReadDeletions { file, rows } => one(reader::read_deletions(file, 0, rows.into(), field)),
            Call::ReadWindow { file, first, rows } => one(reader::read_window(file, 0, first.into(), rows.into(), field)),
            Call::Subtract { second, rows, .. } => two(reader::subtract(field, second, rows.into())),
        }
    }

    /// The plain reader's call, of those that it is measured with.
    fn plain(&self, field: &mut [u8]) -> Answer {
        let Call::LookUp { body, ty, literals, table } = *self else { unreachable!("all of them are lookups") };
        match plain_reader::look_up(body, ty, literals, table, field) {
            Ok((record, compared)) => (raw::ACCEPTED, [record.matched, record.rows, record.nulls, record.deleted], compared),
            Err(refusal) => (refusal.number(), [0; 4], 0),
        }
    }
}

/// A line of the table: a call, how many rows its field is for, and how many bytes memcpy is given, if it is timed too.
struct Line<'a> {
    what: String,
    call: Call<'a>,
    rows: u32,
    copied: Option<usize>,
}

impl Line<'_> {
    /// Both readers accept, with the same counts, of which the first isn't 0.
    fn compare(&self) {
        let (answer, _) = self.call.compare(Call::reference, self.rows);
        assert_ne!(answer.1[0], 0, "{}: no row to count", self.call.name());
    }

    fn measure(&self, patience: &Patience) -> Times {
        measure(slice::from_ref(&self.call), Call::reference, self.rows, self.copied, patience)
    }
}

impl Call<'_> {
    /// The library and the other reader accept, with the same counts, the same field and nothing written behind it. Their answer and the
    /// field.
    fn compare(&self, other: impl Fn(&Self, &mut [u8]) -> Answer, rows: u32) -> (Answer, Vec<u8>) {
        let size = field_size(rows);
        let lent = || {
            let mut buffer = vec![0xAA; size + 8];
            if let Call::Subtract { .. } = self {
                self.ready(&mut buffer);
            }
            buffer
        };
        let (mut ours, mut theirs) = (lent(), lent());
        let (answer, expected) = (self.library(&mut ours), other(self, &mut theirs));
        assert_eq!(answer, expected, "{}: the answers differ", self.name());
        assert_eq!(answer.0, raw::ACCEPTED, "{}: refused", self.name());
        assert!(ours == theirs, "{}: the fields differ", self.name());
        assert_eq!(ours[size..], [0xAA; 8], "{}: written behind the field", self.name());
        ours.truncate(size);
        (answer, ours)
    }
}

// Lookups

/// Measures all lookups in each run, and prints them in the last.
fn look_up_table(sizes: &Sizes, patience: &Patience, runs: usize) {
    let mut random = Random::new(LOOK_UP_SEED);
    let strings = open_strings(&mut random, sizes.two);
    // Even numbers, between which there are others.
    let numbers = (0..sizes.numbers as i64).map(|i| (2 * i).to_be_bytes().to_vec()).collect();
    let mut rows = shuffled_rows(&mut random).into_iter();
    let numbers: Vec<(Vec<u8>, Vec<u32>)> = in_turn(numbers, &mut rows);
    let name = format!("{} BIGINT", grouped(sizes.numbers));
    let numbers = open_in_blocks(&name, types::BIGINT, numbers, |value| {
        // The number behind an even one.
        let (last, others) = value.split_last().expect("8 bytes");
        [others, &[last + 1]].concat()
    });
    let opened: Vec<Opened> = strings.into_iter().chain(numbers).collect();

    opened.iter().for_each(Opened::compare);
    let measured: Vec<LookUpTimes> = (0..runs).flat_map(|_| opened.iter().flat_map(|opened| opened.measure(patience))).collect();
    print_look_up(
        "input",
        "blocks",
        "literals",
        ["Ask EQUAL", "look up", "plain Rust", "ratio", "Ask/look up"].map(str::to_string),
    );
    print_look_up("---", "---", "---", ["--:"; 5].map(str::to_string));
    let lines = opened.iter().flat_map(|opened| opened.literals.iter().map(move |(literals, _)| (opened, *literals)));
    let number = measured.len() / runs;
    for (i, (opened, literals)) in lines.enumerate() {
        let of_line: Vec<LookUpTimes> = measured.iter().skip(i).step_by(number).copied().collect();
        let LookUpTimes { ask, times } = median_by(&of_line, |one| one.times.ratio());
        let faster = ask.as_secs_f64() / times.library.as_secs_f64();
        let numbers =
            [shown(ask), shown(times.library), shown(times.other), format!("{:.2}", times.ratio()), format!("{faster:.0}")];
        print_look_up(&opened.name, opened.blocks, literals, numbers);
    }
}

const LOOK_UP_LEGEND: &str = "
Median times of look up in bodies of version 2 that were opened once, and of the library's Ask EQUAL with the same literals; plain Rust: the same
lookup by the reader of docs/src. ratio: the library's lookup / this one. Ask/look up: how often a lookup fits into an Ask. 65,536 rows. strings: each
row has one of so many names of 10 bytes at random. BIGINT: so many numbers in turn, of 65,536 each row its own, in no order. blocks: all entries
in one; as many as fit into 16 KiB; one entry in each. literals: 101 in turn, evenly spread over the values, or each between two values.
";

/// Rows in turn to each of the values.
fn in_turn(values: Vec<Vec<u8>>, rows: &mut dyn Iterator<Item = u32>) -> Vec<(Vec<u8>, Vec<u32>)> {
    let number = values.len();
    let mut values: Vec<(Vec<u8>, Vec<u32>)> = values.into_iter().map(|value| (value, Vec::new())).collect();
    for (i, row) in rows.enumerate() {
        values[i % number].1.push(row);
    }
    for (_, rows) in &mut values {
        rows.sort_unstable();
    }
    values
}

impl Opened {
    fn look_ups<'a>(&'a self, literals: &'a [Vec<u8>]) -> Vec<Call<'a>> {
        let Opened { body, ty, table, .. } = self;
        literals.iter().map(|literals| Call::LookUp { body, ty: *ty, literals, table }).collect()
    }

    fn asks<'a>(&'a self, literals: &'a [Vec<u8>]) -> Vec<Call<'a>> {
        let Opened { body, ty, .. } = self;
        literals.iter().map(|literals| Call::Ask { body, ty: *ty, question: types::EQUAL, literals }).collect()
    }

    /// All readers open alike, and look up alike, as they answer EQUAL; what is present is found, and what is absent is not.
    fn compare(&self) {
        let (mut field, mut table) = (vec![0; field_size(self.rows)], vec![0; self.table.len()]);
        let blocks = self.table.len() as u64;
        assert_eq!(reader::open(&self.body, self.ty, &mut field, &mut table), (0, self.rows.into(), blocks, reader::NO_FAULT));
        assert!(table == self.table, "{} in {}: the tables differ", self.name, self.blocks);
        table.fill(0);
        let opened = plain_reader::open(&self.body, self.ty, &mut field, &mut table).ok();
        assert_eq!(
            opened,
            Some((self.rows.into(), blocks)),
            "{} in {}: the plain reader opens otherwise",
            self.name,
            self.blocks
        );
        assert!(table == self.table, "{} in {}: the plain reader's table differs", self.name, self.blocks);
        for (is_present, (_, literals)) in [true, false].into_iter().zip(&self.literals) {
            for (look_up, ask) in self.look_ups(literals).iter().zip(self.asks(literals)) {
                let ((answer, counts, compared), field) = look_up.compare(Call::reference, self.rows);
                look_up.compare(Call::plain, self.rows);
                let asked = ask.compare(Call::reference, self.rows);
                assert!(((answer, counts, 0), field) == asked, "{} in {}: Ask and Look up differ", self.name, self.blocks);
                assert_eq!(counts[0] > 0, is_present, "{} in {}: rows found", self.name, self.blocks);
                assert_ne!(compared, 0, "{} in {}: nothing compared", self.name, self.blocks);
            }
        }
    }

    /// The times of present literals, and of absent ones.
    fn measure(&self, patience: &Patience) -> [LookUpTimes; 2] {
        [0, 1].map(|i| {
            let (_, literals) = &self.literals[i];
            let times = measure(&self.look_ups(literals), Call::plain, self.rows, None, patience);
            LookUpTimes { ask: measure_library(&self.asks(literals), self.rows, patience), times }
        })
    }
}

/// The medians of one run: of lookups, and of the library's Ask.
#[derive(Clone, Copy)]
struct LookUpTimes {
    ask: Duration,
    times: Times,
}

// Windows

/// A window that begins inside a byte: so many rows behind one that doesn't.
const INSIDE_A_BYTE: u32 = 3;

/// Measures reading through windows in each run, and prints it in the last.
fn window_table(sizes: &Sizes, patience: &Patience, runs: usize) {
    let mut random = Random::new(4);
    let rows = sizes.rows;
    let wide = |rows: &[u32], form: &BitmapForm| bin_64(&rows.iter().copied().map(u64::from).collect::<Vec<_>>(), form);
    let as_runs = BitmapForm::WithRuns(vec![ContainerForm::Runs { cuts: Vec::new() }; rows.div_ceil(CONTAINER) as usize]);
    let in_bits = at_a_chance(&mut random, rows, 10);
    let in_arrays = at_a_chance(&mut random, rows, 1);
    let bins = [
        ("32-bit, bits", bin_32(&in_bits, &BitmapForm::WithoutRuns)),
        ("64-bit, bits", wide(&in_bits, &BitmapForm::WithoutRuns)),
        ("64-bit, arrays", wide(&in_arrays, &BitmapForm::WithoutRuns)),
        ("64-bit, runs", wide(&in_runs(&mut random, rows), &as_runs)),
    ]
    .map(|(name, bin)| (name, file_of_bins(&[bin])));
    let windows = [(0, rows), (INSIDE_A_BYTE, rows), (rows / 2 + INSIDE_A_BYTE, CONTAINER)];

    let mut lines = Vec::new();
    for (name, file) in &bins {
        for (first, rows) in windows {
            let call = Call::ReadWindow { file, first, rows };
            lines.push(Line { what: name.to_string(), call, rows, copied: Some(file.len()) });
        }
    }
    println!();
    print_window("bin", "window", ["library", "reference", "ratio", "library/memcpy", "reference/memcpy"].map(str::to_string));
    print_window("---", "---", ["--:"; 5].map(str::to_string));
    measure_lines(&lines, patience, runs, |line, cells| {
        let Call::ReadWindow { first, rows, .. } = line.call else { unreachable!("all of them are windows") };
        let window = format!("{} rows from {}", grouped(rows as usize), grouped(first as usize));
        print_window(&line.what, &window, cells);
    });
}

const WINDOW_LEGEND: &str = "
Median times of reading deletions through a window, so many rows from a row on; ratio and /memcpy as in the first table. The bin lists rows up to the
end of the first window, and is checked as a whole, whatever the window. bits: each row is deleted with a chance of 1 in 10. arrays: 1 in 100.
runs: runs of 1 to 100 rows, with gaps of 1 to 200.
";

// Measuring

/// The medians of one run.
#[derive(Clone, Copy)]
struct Times {
    library: Duration,
    /// Of the reader beside it.
    other: Duration,
    memcpy: Option<Duration>,
}

impl Times {
    fn ratio(&self) -> f64 {
        self.library.as_secs_f64() / self.other.as_secs_f64()
    }
}

/// Times the calls of the library and of the other reader in turn.
fn measure<'a>(
    calls: &[Call<'a>],
    other: impl Fn(&Call<'a>, &mut [u8]) -> Answer,
    rows: u32,
    copied: Option<usize>,
    patience: &Patience,
) -> Times {
    let (mut ours, mut theirs) = (vec![0; field_size(rows)], vec![0; field_size(rows)]);
    let mut copy = copied.map(|bytes| (vec![1u8; bytes], vec![0u8; bytes]));
    let (mut library, mut others, mut memcpy) = (Vec::new(), Vec::new(), Vec::new());

    let started = Instant::now();
    while patience.lasts(library.len(), started) {
        let call = &calls[library.len() % calls.len()];
        // Neither is always the one that finds the caches as the other left them.
        let library_first = library.len() % 2 == 0;
        for library_now in [library_first, !library_first] {
            if library_now {
                call.ready(&mut ours);
                library.push(time(|| call.library(black_box(&mut ours))));
            } else {
                call.ready(&mut theirs);
                others.push(time(|| other(call, black_box(&mut theirs))));
            }
        }
        if let Some((from, to)) = &mut copy {
            memcpy.push(time(|| black_box(&mut to[..]).copy_from_slice(black_box(from))));
        }
    }
    Times { library: median(library), other: median(others), memcpy: copied.map(|_| median(memcpy)) }
}

/// Times the library's calls in turn.
fn measure_library(calls: &[Call], rows: u32, patience: &Patience) -> Duration {
    let mut field = vec![0; field_size(rows)];
    let mut times = Vec::new();
    let started = Instant::now();
    while patience.lasts(times.len(), started) {
        let call = &calls[times.len() % calls.len()];
        call.ready(&mut field);
        times.push(time(|| call.library(black_box(&mut field))));
    }
    median(times)
}

fn median(mut times: Vec<Duration>) -> Duration {
    times.sort_unstable();
    times[times.len() / 2]
}

// Printing

/// What a line shows of its times.
fn cells(times: Times) -> [String; 5] {
    let Times { library, other, memcpy } = times;
    let share = |one: Duration| memcpy.map(|memcpy| format!("{:.1} %", 100.0 * memcpy.as_secs_f64() / one.as_secs_f64()));
    let [of_library, of_other] = [library, other].map(|one| share(one).unwrap_or_default());
    [shown(library), shown(other), format!("{:.2}", times.ratio()), of_library, of_other]
}

fn print_cells(what: &str, call: &str, numbers: [String; 5]) {
    let [library, reference, ratio, of_library, of_reference] = numbers;
    println!("| {what:<28} | {call:<14} | {library:>9} | {reference:>9} | {ratio:>7} | {of_library:>14} | {of_reference:>16} |");
}

fn print_look_up(what: &str, blocks: &str, literals: &str, numbers: [String; 5]) {
    let [ask, library, plain, ratio, faster] = numbers;
    println!("| {what:<14} | {blocks:<9} | {literals:<8} | {ask:>9} | {library:>9} | {plain:>10} | {ratio:>5} | {faster:>11} |");
}

fn print_window(what: &str, window: &str, numbers: [String; 5]) {
    let [library, reference, ratio, of_library, of_reference] = numbers;
    println!(
        "| {what:<14} | {window:<30} | {library:>9} | {reference:>9} | {ratio:>7} | {of_library:>14} | {of_reference:>16} |"
    );
}
