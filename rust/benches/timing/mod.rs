//! What the benchmarks share: how much is asked of them, timing a call, and how a time, a number and the machine are shown.

use std::env;
use std::fs;
use std::hint::black_box;
use std::process::Command;
use std::thread;
use std::time::{Duration, Instant};

/// How much is asked of a benchmark.
pub struct Effort {
    /// Only to see that everything runs: without cargo's `--bench`, as in `cargo test --benches`, or with PODDURANCE_QUICK set.
    pub quick: bool,
    pub patience: Patience,
    /// How often the whole table is measured: PODDURANCE_RUNS times if that is set.
    pub runs: usize,
}

impl Effort {
    /// With so many runs unless PODDURANCE_RUNS is set; one if quick.
    pub fn asked(usual_runs: usize) -> Effort {
        let quick = !env::args().any(|word| word == "--bench") || env::var_os("PODDURANCE_QUICK").is_some();
        let (patience, usual_runs) = match quick {
            true => (Patience { least: 3, most: 3, time: Duration::ZERO }, 1),
            false => (Patience { least: 15, most: 10_001, time: Duration::from_secs(2) }, usual_runs),
        };
        let runs = match env::var("PODDURANCE_RUNS") {
            Ok(runs) => runs.parse().ok().filter(|runs| *runs > 0).expect("PODDURANCE_RUNS is a number of runs"),
            Err(_) => usual_runs,
        };
        Effort { quick, patience, runs }
    }
}

/// How often to time a call: until the time is up, but within these numbers.
pub struct Patience {
    least: usize,
    most: usize,
    time: Duration,
}

impl Patience {
    /// Whether to time a call again that was timed so often, the first time at `started`.
    pub fn lasts(&self, timed: usize, started: Instant) -> bool {
        timed < self.least || timed < self.most && started.elapsed() < self.time
    }
}

pub fn time<R>(call: impl FnOnce() -> R) -> Duration {
    let started = Instant::now();
    let result = call();
    let taken = started.elapsed();
    black_box(result);
    taken
}

/// The one whose ratio, or whatever number counts, is the median.
pub fn median_by<T: Copy>(times: &[T], ratio: impl Fn(&T) -> f64) -> T {
    let mut times = times.to_vec();
    times.sort_by(|one, other| ratio(one).total_cmp(&ratio(other)));
    times[times.len() / 2]
}

pub fn shown(time: Duration) -> String {
    let nanoseconds = time.as_nanos() as f64;
    match nanoseconds {
        ..1e3 => format!("{nanoseconds} ns"),
        ..1e6 => format!("{:.2} µs", nanoseconds / 1e3),
        _ => format!("{:.2} ms", nanoseconds / 1e6),
    }
}

/// A number with a comma before each three digits.
pub fn grouped(number: usize) -> String {
    match number {
        0..1_000 => number.to_string(),
        _ => format!("{},{:03}", grouped(number / 1_000), number % 1_000),
    }
}

pub fn print_machine(runs: usize) {
    let unknown = || "unknown".to_string();
    let processors = fs::read_to_string("/proc/cpuinfo").unwrap_or_default();
    let model = processors.lines().find_map(|line| line.strip_prefix("model name")?.split_once(": "));
    let model = model.map_or_else(unknown, |(_, model)| model.to_string());
    let cores = thread::available_parallelism().map_or_else(|_| unknown(), |cores| cores.to_string());
    let rustc = Command::new("rustc").arg("--version").output().ok().and_then(|output| String::from_utf8(output.stdout).ok());
    let rustc = rustc.map_or_else(unknown, |text| text.trim().to_string());
    let load = fs::read_to_string("/proc/loadavg").ok().and_then(|text| text.split(' ').next().map(str::to_string));
    println!("{model}, {cores} cores, {rustc}, load {} at the start, measurements: {runs}\n", load.unwrap_or_else(unknown));
}
