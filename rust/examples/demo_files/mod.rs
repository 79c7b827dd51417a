//! The files of `demo/`, made from the telemetry of four data files: three pumps for eight minutes, one pump for a day, a burner, and the
//! pressure at a pump. The example `make_demo` writes them, and the test `demo` compares them with those in the repository.

use std::ops::Range;

use reference::types;
use reference::writer::{bin_64, bitmap, body, body_of, body_traced, deletion_file, file_of_bins, index_file};
use reference::writer::{BitmapForm, Column, Groups, Layout, Traced};

/// State and alarm of a pump at one time; an alarm that the pump didn't report is null.
pub type Sample = (&'static str, Option<bool>);

const OFF: Option<bool> = Some(false);
const ON: Option<bool> = Some(true);

/// A line per minute, a sample per pump: rows 0 to 2 are the first minute, and so on.
pub const SAMPLES: [[Sample; 3]; 8] = [
    [("running", OFF), ("running", OFF), ("idle", None)],
    [("running", OFF), ("running", OFF), ("idle", None)],
    [("running", OFF), ("running", ON), ("running", OFF)],
    [("running", OFF), ("fault", ON), ("running", OFF)],
    [("running", OFF), ("fault", ON), ("running", OFF)],
    [("running", OFF), ("fault", ON), ("running", OFF)],
    [("running", None), ("idle", OFF), ("running", OFF)],
    [("running", None), ("idle", OFF), ("running", ON)],
];

/// The rows that bin 0 of both deletion files lists, those of the data file of the samples.
pub const DELETED: [u32; 3] = [3, 13, 20];

/// The rows of bin 1 of the file with 32-bit bins, which is of another data file, with 40 rows.
pub const DELETED_ELSEWHERE: [u32; 2] = [7, 31];

/// How often in a second the pressure at a pump is sampled.
pub const PRESSURE_RATE: u64 = 1_000;

/// For how many days. The samples are more than 32 bits can number.
pub const PRESSURE_DAYS: u64 = 58;

/// The seconds in which the gauge was calibrated. Their samples are the rows of bin 1 of the file with 64-bit bins. In the second one the rows
/// pass 2^32, the last one is the last of all.
pub const CALIBRATED: [u64; 3] = [0, 4_294_967, PRESSURE_DAYS * DAY as u64 - 1];

/// The rows of that bin.
pub fn calibrated_rows() -> Vec<u64> {
    CALIBRATED.iter().flat_map(|second| PRESSURE_RATE * second..PRESSURE_RATE * (second + 1)).collect()
}

/// A sample of the state `fault`, which the damaged files have lost or doubled.
const FAULT_ROW: u32 = 16;

/// Whether the burner is lit, a sample a minute; null where it didn't report.
pub const BURNER: [Option<bool>; 8] = [OFF, OFF, ON, ON, None, ON, ON, OFF];

/// The seconds of a day: one sample each, of one pump, and more than the 65,536 rows of a container.
pub const DAY: u32 = 86_400;

/// The states of that pump in stored order, and when it is in each. All of them have rows in both containers.
pub const DAY_STATES: [(&str, &[Range<u32>]); 3] = [
    ("fault", &[at(10, 3)..at(10, 6), at(19, 30)..at(19, 35)]),
    ("idle", &[0..at(6, 0), at(20, 0)..DAY]),
    ("running", &[at(6, 0)..at(10, 3), at(10, 6)..at(19, 30), at(19, 35)..at(20, 0)]),
];

/// The second of the day at which a minute begins.
const fn at(hour: u32, minute: u32) -> u32 {
    60 * (60 * hour + minute)
}

/// The column `state`, a STRING.
pub fn state() -> Column {
    let cells: Vec<Option<&str>> = SAMPLES.iter().flatten().map(|(state, _)| Some(*state)).collect();
    Column::strings(&cells)
}

/// The column `alarm`, a BOOLEAN.
pub fn alarm() -> Column {
    let cells = SAMPLES.iter().flatten().map(|(_, alarm)| alarm.map(|on| vec![u8::from(on)])).collect();
    Column::new(types::BOOLEAN, cells)
}

/// The burner's column, a BOOLEAN.
pub fn burner() -> Column {
    Column::new(types::BOOLEAN, BURNER.iter().map(|lit| lit.map(|lit| vec![u8::from(lit)])).collect())
}

/// Each file's name and bytes.
pub fn files() -> Vec<(&'static str, Vec<u8>)> {
    let (states, alarms) = (state().groups(), alarm().groups());
    let deletions = [bitmap(&DELETED, &BitmapForm::Smallest), bitmap(&DELETED_ELSEWHERE, &BitmapForm::Smallest)];
    let wide_bins = [&DELETED.map(u64::from)[..], &calibrated_rows()].map(|rows| bin_64(rows, &BitmapForm::Smallest));
    vec![
        ("pumps-v1.index", pumps(&states, &alarms, 1)),
        ("pumps-v2.index", pumps(&states, &alarms, 2)),
        ("pumps-row-lost.index", pumps(&row_lost(states.clone()), &alarms, 1)),
        ("pumps-row-doubled.index", pumps(&row_doubled(states), &alarms, 2)),
        ("day-broken.index", index_file(&[("state", "bitmap", &broken(day()))])),
        ("burner.index", index_file(&[("🔥", "bitmap", &body_of(&burner(), &smallest(2)))])),
        ("pumps.deletions", deletion_file(&deletions)),
        ("pumps-64.deletions", file_of_bins(&wide_bins)),
    ]
}

fn pumps(states: &Groups, alarms: &Groups, version: u8) -> Vec<u8> {
    let layout = smallest(version);
    index_file(&[("state", "bitmap", &body(states, &layout)), ("alarm", "bitmap", &body(alarms, &layout))])
}

/// The layout of all bodies: each bitmap in its smallest form.
fn smallest(version: u8) -> Layout {
    Layout::version(version).with_form(BitmapForm::Smallest)
}

/// The writer adds the last `fault` sample to no bitmap. All lengths and cardinalities are those of what is there.
fn row_lost(mut states: Groups) -> Groups {
    rows_of(&mut states, "fault").retain(|row| *row != FAULT_ROW);
    states
}

/// The writer adds one sample twice, as `fault` and as `running`.
fn row_doubled(mut states: Groups) -> Groups {
    let running = rows_of(&mut states, "running");
    running.push(FAULT_ROW);
    running.sort_unstable();
    states
}

/// The body of the day, version 2, two blocks.
pub fn day() -> Traced {
    let rows = |seconds: &[Range<u32>]| seconds.iter().cloned().flatten().collect();
    let values = DAY_STATES.iter().map(|(state, seconds)| (state.as_bytes().to_vec(), rows(seconds))).collect();
    let groups = Groups { ty: types::STRING, rows: DAY, nulls: Vec::new(), values };
    body_traced(&groups, &smallest(2).with_blocks_of(2))
}

/// The lowest bit of the last run of `idle` flips: the run, in the second container, has a row less than the container's header says.
fn broken(mut day: Traced) -> Vec<u8> {
    // Two containers of runs for each state, in stored order.
    let runs = day.fields.iter().filter(|field| field.name == "runs").nth(3).expect("the second container of the second state");
    // A run is its start and its length less 1, two bytes each.
    day.bytes[runs.at + runs.width - 2] ^= 1;
    day.bytes
}

fn rows_of<'a>(states: &'a mut Groups, state: &str) -> &'a mut Vec<u32> {
    let entry = states.values.iter_mut().find(|(value, _)| value == state.as_bytes());
    &mut entry.expect("the state is among the samples").1
}
