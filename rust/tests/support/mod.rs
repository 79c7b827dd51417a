//! Buffers that end exactly at their length, the table of answers, and the commands that a text shows.

// Each test file takes what it needs.
#![allow(dead_code)]

use std::ffi::c_void;
use std::ptr;

mod c {
    use std::ffi::{c_int, c_long, c_void};

    extern "C" {
        pub fn mmap(at: *mut c_void, length: usize, access: c_int, flags: c_int, file: c_int, offset: c_long) -> *mut c_void;
        pub fn mprotect(at: *mut c_void, length: usize, access: c_int) -> c_int;
        pub fn munmap(at: *mut c_void, length: usize) -> c_int;
    }

    // As <sys/mman.h> has them on x86-64 Linux.
    pub const PROT_NONE: c_int = 0;
    pub const PROT_READ: c_int = 1;
    pub const PROT_WRITE: c_int = 2;
    pub const MAP_PRIVATE: c_int = 0x02;
    pub const MAP_ANONYMOUS: c_int = 0x20;
    pub const MAP_NORESERVE: c_int = 0x4000;
}

/// The size of a guard, a multiple of every page size in use.
const GUARD: usize = 65536;

/// Memory between two guards that may be neither read nor written: touching them ends the test program.
struct Mapping {
    /// The first guard; the second follows the usable bytes.
    start: *mut u8,
    usable: usize,
}

impl Mapping {
    /// At least `length` usable bytes, all 0, that take memory only where they are written.
    fn new(length: usize) -> Mapping {
        let usable = length.next_multiple_of(GUARD).max(GUARD);
        let total = usable + 2 * GUARD;
        let flags = c::MAP_PRIVATE | c::MAP_ANONYMOUS | c::MAP_NORESERVE;
        // SAFETY: a new anonymous mapping at a place of the system's choice touches no memory in use.
        let start = unsafe { c::mmap(ptr::null_mut(), total, c::PROT_NONE, flags, -1, 0) };
        assert_ne!(start as isize, -1, "no memory for a buffer of {length} bytes");
        let start = start.cast::<u8>();
        // SAFETY: the range lies within the mapping just made, which nothing else uses.
        let done = unsafe { c::mprotect(start.add(GUARD).cast::<c_void>(), usable, c::PROT_READ | c::PROT_WRITE) };
        assert_eq!(done, 0, "can't open the memory between the guards");
        Mapping { start, usable }
    }

    /// This one if it has as many usable bytes, else another in its place.
    fn at_least(&mut self, length: usize) -> &mut Mapping {
        if self.usable < length {
            *self = Mapping::new(length);
        }
        self
    }

    /// The last `length` usable bytes, which end at a guard, or the first, which begin at one.
    fn part(&mut self, length: usize, at_end: bool) -> &mut [u8] {
        assert!(length <= self.usable);
        let from = GUARD + if at_end { self.usable - length } else { 0 };
        // SAFETY: the range lies between the guards, is readable, writable and initialised (to 0 by the system), and is
        // borrowed from this mapping for as long as the slice lives.
        unsafe { std::slice::from_raw_parts_mut(self.start.add(from), length) }
    }
}

impl Drop for Mapping {
    fn drop(&mut self) {
        // SAFETY: exactly the mapping made in `new`; slices of it are borrowed from `self` and so are gone.
        let done = unsafe { c::munmap(self.start.cast::<c_void>(), self.usable + 2 * GUARD) };
        assert_eq!(done, 0, "can't give back the memory of a buffer");
    }
}

/// Lends one buffer at a time, of exactly the asked length.
pub struct Lender {
    memory: Memory,
}

enum Memory {
    /// Next to a guard, at the end and at the beginning in turn; the side is that of the buffer lent last.
    Guarded { mapping: Mapping, at_end: bool },
    /// In a heap block of exactly the length, for valgrind; words in one of their own, which is aligned for them.
    Heap { block: Box<[u8]>, words: Box<[u32]> },
}

/// The bytes of a word of a table.
const WORD: usize = size_of::<u32>();

impl Lender {
    /// Guarded unless the environment variable PODDURANCE_HEAP is set.
    pub fn new() -> Lender {
        if std::env::var_os("PODDURANCE_HEAP").is_some() {
            Lender { memory: Memory::Heap { block: Box::default(), words: Box::default() } }
        } else {
            Lender::guarded()
        }
    }

    /// Guarded always, for buffers too large for the heap.
    pub fn guarded() -> Lender {
        Lender { memory: Memory::Guarded { mapping: Mapping::new(0), at_end: false } }
    }

    /// A buffer with these bytes.
    pub fn lend(&mut self, bytes: &[u8]) -> &mut [u8] {
        let buffer = self.lend_anything(bytes.len());
        buffer.copy_from_slice(bytes);
        buffer
    }

    /// A buffer of that length with whatever is there. A new one is 0 and, guarded, takes no memory until it is written.
    pub fn lend_anything(&mut self, length: usize) -> &mut [u8] {
        match &mut self.memory {
            Memory::Heap { block, .. } => {
                *block = vec![0; length].into_boxed_slice();
                block
            }
            Memory::Guarded { mapping, at_end } => {
                *at_end = !*at_end;
                mapping.at_least(length).part(length, *at_end)
            }
        }
    }

    /// A table with these words.
    pub fn lend_words(&mut self, words: &[u32]) -> &mut [u32] {
        let table = self.lend_any_words(words.len());
        table.copy_from_slice(words);
        table
    }

    /// As [`Lender::lend_anything`], a table of that many words.
    pub fn lend_any_words(&mut self, number: usize) -> &mut [u32] {
        match &mut self.memory {
            Memory::Heap { words, .. } => {
                *words = vec![0; number].into_boxed_slice();
                words
            }
            Memory::Guarded { mapping, at_end } => {
                *at_end = !*at_end;
                let length = WORD * number;
                // SAFETY: each four bytes are a word, whatever they hold.
                let (before, words, behind) = unsafe { mapping.at_least(length).part(length, *at_end).align_to_mut() };
                // Guards begin and end at multiples of a word's size.
                assert!(before.is_empty() && behind.is_empty(), "a table isn't aligned");
                words
            }
        }
    }

    /// The next buffer lies at the end, or at the beginning, whatever was lent before.
    pub fn place_next(&mut self, next_at_end: bool) {
        if let Memory::Guarded { at_end, .. } = &mut self.memory {
            *at_end = !next_at_end;
        }
    }
}

/// The names of the calls, in the order of the table.
pub const CALLS: [&str; 10] =
    ["Locate", "Audit", "Ask", "Ask file", "Open", "Look up", "Read deletions", "Read window", "Subtract", "Subtract record"];

/// The names of the answers by their number.
pub const ANSWERS: [&str; 15] = [
    "accepted", "SHORT", "MAGIC", "VERSION", "HEAD", "DICT", "BITMAP", "RANGE", "TWICE", "MISSING", "ROOM", "LITERAL", "LIMIT",
    "CHECKSUM", "NOBIN",
];

/// How often each call gave each answer.
pub struct Tally {
    counts: [[u64; 256]; CALLS.len()],
}

impl Tally {
    pub fn new() -> Tally {
        Tally { counts: [[0; 256]; CALLS.len()] }
    }

    pub fn add(&mut self, call: usize, answer: u8) {
        self.counts[call][usize::from(answer)] += 1;
    }

    pub fn of(&self, call: usize, answer: u8) -> u64 {
        self.counts[call][usize::from(answer)]
    }

    pub fn calls(&self) -> u64 {
        self.counts.iter().flatten().sum()
    }

    pub fn accepted(&self) -> u64 {
        self.counts.iter().map(|counts| counts[0]).sum()
    }

    /// The table as text, a line per answer that occurred.
    pub fn table(&self) -> String {
        let mut text = format!("{:>14}", "answer");
        for call in CALLS {
            text += &format!("{call:>16}");
        }
        text += "\n";
        for answer in 0..=255u8 {
            if self.counts.iter().all(|counts| counts[usize::from(answer)] == 0) {
                continue;
            }
            let name = match answer {
                255 => "ABSENT",
                _ => ANSWERS.get(usize::from(answer)).copied().unwrap_or("?"),
            };
            text += &format!("{answer:>4}{name:>10}");
            for call in 0..CALLS.len() {
                text += &format!("{:>16}", self.of(call, answer));
            }
            text += "\n";
        }
        text += &format!("{:>14}", "all");
        for counts in &self.counts {
            text += &format!("{:>16}", counts.iter().sum::<u64>());
        }
        text + "\n"
    }
}

/// A number from the environment, decimal or hexadecimal with 0x.
pub fn number_from_environment(name: &str) -> Option<u64> {
    let text = std::env::var(name).ok()?;
    let number = match text.strip_prefix("0x") {
        Some(digits) => u64::from_str_radix(digits, 16),
        None => text.parse(),
    };
    Some(number.unwrap_or_else(|_| panic!("{name} is no number: {text}")))
}

pub fn hex(bytes: &[u8]) -> String {
    bytes.iter().map(|byte| format!("{byte:02X}")).collect()
}

/// A line on standard error, also from a test that passes.
pub fn say(text: &str) {
    use std::io::Write;
    // The printing macros would be kept back by the test program; a line that can't be written is no failure.
    let _ = writeln!(std::io::stderr(), "{text}");
}

/// A command that a text shows, and what it says of it.
#[derive(Debug)]
pub struct Shown {
    pub words: Vec<String>,
    pub output: String,
    /// The exit status, where it is shown.
    pub status: Option<i32>,
}

/// How the command line is called in the repository's top folder.
const PROGRAMS: [&str; 2] = ["rust/target/release/poddurance ", "cargo run --release --manifest-path rust/Cargo.toml -- "];

/// The calls of the command line that a text shows: indented, with or without `$` before, and with their output below. Behind
/// `; echo $?` the last line is the exit status. What else is indented is handed back too.
pub fn shown(text: &str) -> (Vec<Shown>, Vec<String>) {
    let (mut shown, mut others): (Vec<Shown>, Vec<String>) = Default::default();
    let (mut within, mut with_status, mut fenced) = (false, false, false);
    for line in text.lines() {
        fenced ^= line.starts_with("```");
        let Some(indented) = line.strip_prefix("    ").filter(|_| !fenced) else {
            within = false;
            continue;
        };
        let bare = indented.strip_prefix("$ ").unwrap_or(indented);
        if let Some(call) = PROGRAMS.iter().find_map(|program| bare.strip_prefix(program)) {
            let alone = call.strip_suffix("; echo $?");
            with_status = alone.is_some();
            let words = alone.unwrap_or(call).split(' ').map(str::to_string).collect();
            shown.push(Shown { words, output: String::new(), status: None });
            within = true;
            continue;
        }
        match (shown.last_mut().filter(|_| within), indented.parse()) {
            (Some(last), Ok(status)) if with_status => last.status = Some(status),
            (Some(last), _) => last.output += &format!("{indented}\n"),
            (None, _) => others.push(indented.to_string()),
        }
    }
    (shown, others)
}

impl Shown {
    /// Runs it in the repository's top folder and compares what it prints. Its exit status.
    #[track_caller]
    pub fn check(&self, root: &std::path::Path) -> i32 {
        use std::process::{Command, Stdio};
        let program = env!("CARGO_BIN_EXE_poddurance");
        let ran = Command::new(program).args(&self.words).current_dir(root).stdin(Stdio::null()).output().unwrap();
        let said = (String::from_utf8(ran.stdout).unwrap(), String::from_utf8(ran.stderr).unwrap());
        assert_eq!(said, (self.output.clone(), String::new()), "{:?}", self.words);
        let status = ran.status.code().unwrap();
        assert_eq!(self.status.unwrap_or(status), status, "{:?}", self.words);
        status
    }
}
