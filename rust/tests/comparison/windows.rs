//! What reading through a window promises of every file, told from the library's answer and its inputs alone, without the reference reader;
//! and the kinds of its answers, counted.

use reference::reader::{Fault, ACCEPTED, NO_FAULT};

use super::kinds::add;

const SHORT: u8 = 1;
const MAGIC: u8 = 2;
const VERSION: u8 = 3;
const BITMAP: u8 = 6;
const ROOM: u8 = 10;
const LIMIT: u8 = 12;
const CHECKSUM: u8 = 13;
const NO_BIN: u8 = 14;

/// The most rows of a window, and the end of all rows.
const MAX: u64 = 2_147_483_647;
const ROWS_END: u64 = 1 << 63;
const CONTAINER_ROWS: u64 = 1 << 16;
const BITMAP_ROWS: u64 = 1 << 32;

/// The magics of 32-bit and of 64-bit bins as they are stored.
const MAGIC_32: [u8; 4] = [0x5E, 0x43, 0xF2, 0xD0];
const MAGIC_64: [u8; 4] = [0xD1, 0xD3, 0x39, 0x64];

/// What a window was read from, and what was said and left.
pub struct Windowed<'a> {
    pub file: &'a [u8],
    pub bin: u64,
    pub first: u64,
    pub rows: u64,
    /// The field before and after.
    pub before: &'a [u8],
    pub after: &'a [u8],
    pub answer: u8,
    pub deleted: u64,
    pub fault: Fault,
}

impl Windowed<'_> {
    /// The asked bin, where the sizes lead to it.
    fn bin(&self) -> Option<&[u8]> {
        let mut rest = self.file.get(1..)?;
        let mut number = 0;
        loop {
            let (size, behind) = rest.split_first_chunk()?;
            let (bin, behind) = behind.split_at_checked(u32::from_be_bytes(*size) as usize)?;
            if number == self.bin {
                return Some(bin);
            }
            number += 1;
            rest = behind.get(4..)?;
        }
    }

    fn has_magic(&self, magic: [u8; 4]) -> bool {
        self.bin().is_some_and(|bin| bin.starts_with(&magic))
    }

    fn has_reversed(&self, mut magic: [u8; 4]) -> bool {
        magic.reverse();
        self.has_magic(magic)
    }

    /// The row behind the window, if there is room for it and all others among rows.
    fn end(&self) -> Option<u64> {
        self.first.checked_add(self.rows).filter(|end| *end <= ROWS_END && self.rows <= MAX)
    }

    /// What the answer breaks of what is promised for any input, if it breaks anything.
    pub fn broken_promise(&self) -> Option<&'static str> {
        let demand = |holds: bool, what: &'static str| (!holds).then_some(what);
        let size = self.rows.div_ceil(8) as usize;
        let has_room = self.before.len() >= size;
        let may_be_read = self.end().is_some() && has_room;
        let nothing_said = self.deleted == 0 && self.fault == NO_FAULT;
        match self.answer {
            LIMIT => {
                let past = self.end().is_none() || self.file.len() as u64 > MAX;
                return demand(
                    past && nothing_said && self.after == self.before,
                    "LIMIT within all limits, or that changes the field",
                );
            }
            ROOM => {
                let short = self.end().is_some() && !has_room;
                return demand(
                    short && nothing_said && self.after == self.before,
                    "ROOM where there is room, or that changes the field",
                );
            }
            _ if !may_be_read => return Some("a window past a limit, or without room, is read"),
            _ => {}
        }
        let (field, behind) = self.after.split_at(size);
        if behind != &self.before[size..] {
            return Some("bytes behind the field are changed");
        }
        if self.answer == ACCEPTED {
            let ones: u64 = field.iter().map(|byte| u64::from(byte.count_ones())).sum();
            let spare = match (self.rows % 8, field.last()) {
                (1.., Some(last)) => *last >> (self.rows % 8),
                _ => 0,
            };
            return demand(
                ones == self.deleted && spare == 0 && self.fault == NO_FAULT,
                "a count that isn't the field's, or spare bits",
            );
        }
        if field.iter().any(|byte| *byte != 0) || self.deleted != 0 {
            return Some("a refusal that leaves the field other than zero, or counts");
        }
        match self.answer {
            BITMAP => {
                let [entry, container, row] = self.fault;
                let may_name = container == 0 || self.has_magic(MAGIC_32);
                demand(entry == 0 && row == 0 && may_name, "BITMAP carries what it doesn't")
            }
            SHORT | MAGIC | VERSION | CHECKSUM | NO_BIN => demand(self.fault == NO_FAULT, "a refusal carries what it doesn't"),
            _ => Some("a refusal that reading through a window can't give"),
        }
    }

    fn accepted(&self, magic: [u8; 4]) -> bool {
        self.answer == ACCEPTED && self.has_magic(magic)
    }

    /// Accepted with some rows, and whether so many of them are in one part.
    fn within(&self, rows: u64) -> Option<bool> {
        let last = self.end()?.checked_sub(1)?;
        (self.answer == ACCEPTED && self.rows > 0).then_some(self.first / rows == last / rows)
    }

    /// Begins, and ends, inside a part of so many rows.
    fn cuts(&self, rows: u64) -> [bool; 2] {
        let end = self.end().filter(|_| self.answer == ACCEPTED && self.deleted > 0);
        [self.first, end.unwrap_or(0)].map(|at| end.is_some() && at % rows != 0)
    }
}

/// A name and what it stands for.
type OfWindow = (&'static str, fn(&Windowed) -> bool);

const OF_WINDOW: [OfWindow; 35] = [
    ("32-bit bin", |it| it.accepted(MAGIC_32) && it.deleted > 0),
    ("64-bit bin", |it| it.accepted(MAGIC_64) && it.deleted > 0),
    ("32-bit bin, no row deleted", |it| it.accepted(MAGIC_32) && it.rows > 0 && it.deleted == 0),
    ("64-bit bin, no row deleted", |it| it.accepted(MAGIC_64) && it.rows > 0 && it.deleted == 0),
    ("64-bit bin, all rows deleted", |it| it.accepted(MAGIC_64) && it.rows > 8 && it.deleted == it.rows),
    ("64-bit bin of no bitmaps", |it| it.accepted(MAGIC_64) && it.bin().is_some_and(|bin| bin.len() == 12)),
    ("no rows", |it| it.answer == ACCEPTED && it.rows == 0),
    ("no rows from 2^63 on", |it| it.answer == ACCEPTED && it.first == ROWS_END),
    ("up to 2^63", |it| it.answer == ACCEPTED && it.deleted > 0 && it.end() == Some(ROWS_END)),
    ("from row 0", |it| it.answer == ACCEPTED && it.deleted > 0 && it.first == 0),
    ("from inside a byte", |it| it.cuts(8)[0]),
    ("to inside a byte", |it| it.cuts(8)[1]),
    ("from inside a container", |it| it.cuts(CONTAINER_ROWS)[0]),
    ("to inside a container", |it| it.cuts(CONTAINER_ROWS)[1]),
    ("from inside a bitmap", |it| it.cuts(BITMAP_ROWS)[0]),
    ("to inside a bitmap", |it| it.cuts(BITMAP_ROWS)[1]),
    ("in one container", |it| it.deleted > 0 && it.within(CONTAINER_ROWS) == Some(true)),
    ("over containers", |it| it.deleted > 0 && it.within(CONTAINER_ROWS) == Some(false)),
    ("over bitmaps", |it| it.deleted > 0 && it.within(BITMAP_ROWS) == Some(false)),
    ("a 32-bit bin far behind its rows", |it| it.accepted(MAGIC_32) && it.first > BITMAP_ROWS),
    ("LIMIT, length", |it| it.answer == LIMIT && it.rows > MAX),
    ("LIMIT, one row too long", |it| it.answer == LIMIT && it.rows == MAX + 1),
    ("LIMIT, one row past 2^63", |it| it.answer == LIMIT && it.first.checked_add(it.rows) == Some(ROWS_END + 1)),
    ("LIMIT, end past 64 bits", |it| it.answer == LIMIT && it.rows <= MAX && it.first.checked_add(it.rows).is_none()),
    ("LIMIT, no room", |it| it.answer == LIMIT && (it.before.len() as u64) < it.rows.div_ceil(8)),
    ("ROOM, one byte", |it| it.answer == ROOM && it.before.len() as u64 + 1 == it.rows.div_ceil(8)),
    ("bytes behind", |it| it.answer == ACCEPTED && it.before.len() as u64 > it.rows.div_ceil(8)),
    ("MAGIC, 64-bit big-endian", |it| it.answer == MAGIC && it.has_reversed(MAGIC_64)),
    ("MAGIC, 32-bit little-endian", |it| it.answer == MAGIC && it.has_reversed(MAGIC_32)),
    ("CHECKSUM, 32-bit bin", |it| it.answer == CHECKSUM && it.has_magic(MAGIC_32)),
    ("CHECKSUM, 64-bit bin", |it| it.answer == CHECKSUM && it.has_magic(MAGIC_64)),
    ("BITMAP, 32-bit bin, container 0", |it| it.answer == BITMAP && it.has_magic(MAGIC_32) && it.fault[1] == 0),
    ("BITMAP, 32-bit bin, another container", |it| it.answer == BITMAP && it.has_magic(MAGIC_32) && it.fault[1] > 0),
    ("BITMAP, 64-bit bin", |it| it.answer == BITMAP && it.has_magic(MAGIC_64)),
    ("BITMAP, no rows", |it| it.answer == BITMAP && it.rows == 0),
];

/// How often each kind occurred.
pub struct WindowKinds([u64; OF_WINDOW.len()]);

impl WindowKinds {
    pub fn new() -> WindowKinds {
        WindowKinds([0; OF_WINDOW.len()])
    }

    pub fn add(&mut self, windowed: &Windowed) {
        add(&mut self.0, OF_WINDOW.map(|(_, is)| is(windowed)));
    }

    pub fn all(&self) -> Vec<(&'static str, u64)> {
        OF_WINDOW.iter().zip(self.0).map(|((name, _), count)| (*name, count)).collect()
    }
}
