//! Which entry, container and row a refusal names. Bitmaps of 1, 3, 4, 5 and 20 containers of mixed forms are damaged in each container in each
//! way, cut at each byte and followed by bytes that are left over, as entries of bodies of both versions and in deletion bins; bodies of
//! version 2 are opened, and looked up in by the table that they had when they were sound; bins are read through windows too, and a 64-bit bin names
//! the first container whatever is wrong. Library and reference reader are compared, and what they name is held against what the damage itself
//! says, so that a mistake of both is found too.

mod comparison;
mod support;

use std::ops::Range;

use comparison::{Answered, Asked, Comparison, Found, Opened, Where};
use reference::reader::{Fault, NO_FAULT};
use reference::record::Record;
use reference::types::{EQUAL, FIRST_EDITION, INT, NOT_EQUAL, SECOND_EDITION, TINYINT};
use reference::writer::{
    bin_64_traced, bitmap, bitmap_traced, body, body_traced, deletion_file, file_of_bins, index_file, BitmapForm, ContainerForm,
    Groups, IndexedBitmap, Layout, Length, Place,
};
use support::say;

const ACCEPTED: u8 = 0;
const BITMAP: u8 = 6;
const RANGE: u8 = 7;
const TWICE: u8 = 8;
const MISSING: u8 = 9;

/// The rows of one container.
const CONTAINER: u32 = 65_536;

/// One container; too few for offsets in a bitmap with run flags, just as many as have them, more; and more than a byte of flags is for.
const COUNTS: [usize; 5] = [1, 3, 4, 5, 20];

/// How many calls the tests that make most of them compare at least. With those of the test `differential` they are the README's
/// about 1,400,000.
const CUT_CALLS: u64 = 320_000;
const LEFT_OVER_CALLS: u64 = 78_000;
const DAMAGE_CALLS: u64 = 45_000;
const OUTSIDE_CALLS: u64 = 40_000;

// Sound bitmaps

#[derive(Clone, Copy, Debug, PartialEq, Eq)]
enum Form {
    Array,
    Runs,
    Bits,
}

impl Form {
    /// The rows of a container of this form, as ranges. An array begins with 0, the number of no runs; arrays and runs end with the last
    /// row of all, so that nothing can come behind it; bits begin with all ones and end with zeros.
    fn rows(self) -> &'static [Range<u32>] {
        match self {
            Form::Array => &[0..1, 3..4, 10..12, 65_535..65_536],
            Form::Runs => &[5..10, 20..5_101, 65_000..65_536],
            Form::Bits => &[0..4_990, 5_000..5_010],
        }
    }
}

/// The forms of a bitmap's containers, and whether it has the cookie with run flags.
fn shapes() -> Vec<(Vec<Form>, bool)> {
    let mut shapes = Vec::new();
    for count in COUNTS {
        // Each form stands at each place once; twenty containers have few bits, which are long.
        for shift in 0..if count < 20 { 3 } else { 1 } {
            let form = |i: usize| match i {
                _ if count < 20 => [Form::Array, Form::Runs, Form::Bits][(i + shift) % 3],
                2 | 9 | 19 => Form::Bits,
                _ => [Form::Array, Form::Runs][i % 2],
            };
            let forms: Vec<Form> = (0..count).map(form).collect();
            let without_runs = forms.iter().map(|form| if *form == Form::Runs { Form::Array } else { *form }).collect();
            shapes.extend([(forms, true), (without_runs, false)]);
        }
    }
    shapes
}

/// A sound bitmap, and where its parts stand in its bytes.
struct Sound {
    forms: Vec<Form>,
    rows: Vec<u32>,
    stored: BitmapForm,
    bytes: Vec<u8>,
    flags: Option<Range<usize>>,
    keys: Vec<usize>,
    cardinalities: Vec<usize>,
    /// None where the bitmap stores no offsets.
    offsets: Option<Vec<usize>>,
    containers: Vec<Range<usize>>,
}

impl Sound {
    fn new(forms: Vec<Form>, with_flags: bool) -> Sound {
        let of_container = |(key, form): (u32, &Form)| {
            form.rows().iter().cloned().flatten().map(move |low| key * CONTAINER + low).collect::<Vec<_>>()
        };
        let rows: Vec<u32> = (0..).zip(&forms).flat_map(of_container).collect();
        let stored = match with_flags {
            false => BitmapForm::WithoutRuns,
            true => BitmapForm::WithRuns(forms.iter().map(|form| container_form(*form)).collect()),
        };
        let traced = bitmap_traced(&rows, &stored);
        let places = |name: &str| -> Vec<usize> {
            traced.fields.iter().filter(|field| field.name == name).map(|field| field.at).collect()
        };
        let ends = traced.fields.iter().filter(|field| ["runs", "array", "bits"].contains(&field.name));
        let ends: Vec<usize> = ends.map(|field| field.at + field.width).collect();
        let first =
            traced.fields.iter().find(|field| ["run number", "array", "bits"].contains(&field.name)).expect("a container");
        let starts = std::iter::once(first.at).chain(ends.iter().copied());
        let offsets = Some(places("container offset")).filter(|offsets| !offsets.is_empty());
        let flags = traced.fields.iter().find(|field| field.name == "run flags");
        let sound = Sound {
            flags: flags.map(|field| field.at..field.at + field.width),
            keys: places("key"),
            cardinalities: places("cardinality"),
            offsets,
            containers: starts.zip(ends.iter().copied()).map(|(start, end)| start..end).collect(),
            forms,
            rows,
            stored,
            bytes: traced.bytes,
        };
        // What the writer was asked for is what stands there.
        let count = sound.count();
        assert_eq!((sound.keys.len(), sound.cardinalities.len(), sound.containers.len()), (count, count, count));
        assert_eq!(sound.offsets.is_some(), !with_flags || count >= 4);
        assert_eq!(sound.flags.is_some(), with_flags);
        assert_eq!(sound.containers[count - 1].end, sound.bytes.len());
        sound
    }

    fn count(&self) -> usize {
        self.forms.len()
    }

    /// As many rows as have keys.
    fn row_count(&self) -> u32 {
        self.count() as u32 * CONTAINER
    }

    fn pair(&self, at: usize) -> u16 {
        u16::from_le_bytes([self.bytes[at], self.bytes[at + 1]])
    }

    /// The container that a cut leaves without all of its bytes: the first, where it isn't even reached.
    fn cut_at(&self, length: usize) -> usize {
        assert!(length < self.bytes.len());
        self.containers.iter().position(|bytes| length < bytes.end).expect("the last container ends with the bytes")
    }

    fn describe(&self) -> String {
        format!("{} containers {:?}", if self.flags.is_some() { "flagged" } else { "plain" }, self.forms)
    }
}

fn container_form(form: Form) -> ContainerForm {
    match form {
        Form::Runs => ContainerForm::Runs { cuts: Vec::new() },
        Form::Array | Form::Bits => ContainerForm::Values,
    }
}

// Damage

/// Bytes that are put in the place of others.
#[derive(Clone, Debug)]
struct Damage {
    what: String,
    puts: Vec<(usize, Vec<u8>)>,
}

impl Damage {
    fn new(what: &str, at: usize, bytes: &[u8]) -> Damage {
        Damage { what: what.to_string(), puts: vec![(at, bytes.to_vec())] }
    }

    /// To bytes in which the bitmap begins at `base`.
    fn apply(&self, bytes: &mut [u8], base: usize) {
        for (at, put) in &self.puts {
            bytes[base + at..][..put.len()].copy_from_slice(put);
        }
    }
}

/// The one kind of damage that is done to another container than the wrong one.
const KEY_BEFORE: &str = "key of the one before raised to this";

/// Each kind of damage that makes container number `i` wrong, the ones before it being right.
fn damage_of(sound: &Sound, i: usize) -> Vec<Damage> {
    let mut all = Vec::new();
    let mut pair = |what: &str, at: usize, number: u16| all.push(Damage::new(what, at, &number.to_le_bytes()));
    let (key, cardinality, bytes) = (sound.keys[i], sound.cardinalities[i], &sound.containers[i]);
    if i > 0 {
        pair("key that of the one before", key, sound.pair(sound.keys[i - 1]));
        // Of two keys that don't rise the later is wrong, whichever was changed.
        pair(KEY_BEFORE, sound.keys[i - 1], sound.pair(key));
    }
    if i > 1 {
        pair("key 0", key, 0);
    }

    // No container here is full.
    pair("cardinality of all", cardinality, u16::MAX);
    let less_one = sound.pair(cardinality);
    pair("cardinality one more", cardinality, less_one + 1);
    let (start, last) = (bytes.start, bytes.end - 2);
    match sound.forms[i] {
        // One row fewer makes an array shorter and is no fault of its own.
        Form::Array => {
            pair("second value as the first", start + 2, sound.pair(start));
            pair("last value 0", last, 0);
        }
        Form::Runs => {
            pair("cardinality one less", cardinality, less_one - 1);
            let runs = sound.pair(start);
            pair("no runs", start, 0);
            pair("a run less", start, runs - 1);
            pair("a run more", start, runs + 1);
            // Rows 5 to 9, 20 to 5,100 and 65,000 to 65,535.
            pair("first run longer", start + 4, sound.pair(start + 4) + 1);
            pair("second run from the end of the first", start + 6, 9);
            pair("second run before the first", start + 6, 0);
            pair("last run from one row later", last - 2, sound.pair(last - 2) + 1);
            pair("last run longer", last, sound.pair(last) + 1);
        }
        Form::Bits => {
            pair("cardinality one less", cardinality, less_one - 1);
            // An array of 4,096 rows has as many bytes, and the ones at their start are values that don't rise.
            pair("cardinality of the longest array", cardinality, 4_095);
            pair("a bit less", start, 0xFFFE);
            pair("a bit more", last, 0x8000);
        }
    }
    if let Some(offsets) = &sound.offsets {
        let stands = bytes.start as u32;
        for offset in [stands + 1, stands - 1, 0, u32::MAX, stands | 1 << 31] {
            all.push(Damage::new(&format!("offset {offset}"), offsets[i], &offset.to_le_bytes()));
        }
    }
    if let Some(flags) = &sound.flags {
        let at = flags.start + i / 8;
        all.push(Damage::new("flag", at, &[sound.bytes[at] ^ 1 << (i % 8)]));
    }
    all
}

/// Damage before the containers: of cookie, count and flags.
fn damage_in_front(sound: &Sound) -> Vec<Damage> {
    let mut all = vec![Damage::new("no cookie", 0, &[0]), Damage::new("another cookie", 0, &[0x3C])];
    // With another count that is allowed, something else is read as the first container's offset or bytes, or a flag is spare.
    let count = sound.count() as u32;
    for (what, count) in
        [("count one more", count + 1), ("count one less", count - 1)].into_iter().filter(|(_, count)| *count > 0)
    {
        all.push(match sound.flags {
            Some(_) => Damage::new(what, 2, &(count as u16 - 1).to_le_bytes()),
            None => Damage::new(what, 4, &count.to_le_bytes()),
        });
    }
    match &sound.flags {
        Some(flags) => {
            let last = flags.end - 1;
            let used = sound.count() % 8;
            let spare = (used..8).filter(|_| used > 0);
            all.extend(spare.map(|bit| Damage::new(&format!("spare flag {bit}"), last, &[sound.bytes[last] | 1 << bit])));
        }
        None => {
            all.push(Damage::new("upper half of the cookie", 2, &[1]));
            all.push(Damage::new("count over 65,536", 4, &65_537u32.to_le_bytes()));
            all.push(Damage::new("the highest count", 4, &u32::MAX.to_le_bytes()));
        }
    }
    all
}

// Bodies

/// The values of a body are 1 to this many.
const VALUES: usize = 5;
const BLOCK: usize = 2;

/// A body of five values, and null if it is to have one, with a sound bitmap as its last bytes. The rows that the bitmap doesn't have are
/// those of another entry, so that the body is sound too.
struct Host {
    entry: usize,
    /// The entry of all other rows.
    owner: usize,
    bytes: Vec<u8>,
    /// Where the bitmap begins.
    base: usize,
    offset: usize,
    /// The place of the bitmap's length, in version 2.
    length: Option<usize>,
    /// Where the entries of the directory start, in version 2.
    table: Option<Vec<u32>>,
    /// How many rows each value has.
    rows: Vec<u64>,
    field: Vec<u8>,
}

#[derive(Clone, Copy, Debug)]
struct Kind {
    version: u8,
    /// Whose bitmap it is: 0 for null's, else a value's.
    entry: usize,
    has_null: bool,
    /// The stored length, in version 2.
    length: Length,
}

const fn kind(version: u8, entry: usize, has_null: bool, length: Length) -> Kind {
    Kind { version, entry, has_null, length }
}

/// Null's entry and values in each of three blocks, with null and without.
const KINDS: [Kind; 10] = [
    kind(1, 0, true, Length::Open),
    kind(1, 1, false, Length::Open),
    kind(1, 3, true, Length::Open),
    kind(1, 5, false, Length::Open),
    kind(2, 0, true, Length::Exact),
    kind(2, 1, true, Length::Open),
    kind(2, 1, false, Length::Exact),
    kind(2, 3, false, Length::Open),
    kind(2, 4, true, Length::Exact),
    kind(2, 5, false, Length::Exact),
];

impl Host {
    fn new(sound: &Sound, kind: Kind) -> Host {
        let Kind { version, entry, has_null, length } = kind;
        let rows = sound.row_count();
        let mut is_set = vec![false; rows as usize];
        for row in &sound.rows {
            is_set[*row as usize] = true;
        }
        let others: Vec<u32> = (0..rows).filter(|row| !is_set[*row as usize]).collect();
        // In turn before and behind the entry.
        let owner = (entry + 3) % VALUES + 1;
        let mut of: Vec<Vec<u32>> = vec![Vec::new(); VALUES + 1];
        of[entry] = sound.rows.clone();
        of[owner] = others;
        let row_numbers = of[1..].iter().map(|rows| rows.len() as u64).collect();
        let mut of = of.into_iter();
        let nulls = of.next().expect("null's rows come first");
        let values = (1..).map(|value| vec![value]).zip(of).collect();
        let groups = Groups { ty: TINYINT, rows, nulls, values };

        let mut layout = Layout::version(version).with_blocks_of(BLOCK);
        layout.always_null = has_null;
        layout.places = vec![Place { form: BitmapForm::Smallest, length, ..Place::default() }; VALUES + 1];
        layout.places[entry].form = sound.stored.clone();
        layout.bitmap_order = (0..=VALUES).filter(|other| *other != entry).chain([entry]).collect();
        let traced = body_traced(&groups, &layout);
        let base = traced.bytes.len() - sound.bytes.len();
        assert_eq!(traced.bytes[base..], sound.bytes, "the bitmap is the last");
        let number = if has_null { entry } else { entry - 1 };
        let place = |name: &str| traced.fields.iter().filter(|field| field.name == name).nth(number).map(|field| field.at);
        // A value of one byte stands right before its block's offset.
        let entries = traced.fields.iter().filter(|field| field.name == "block offset").map(|field| field.at as u32 - 1);
        Host {
            entry,
            owner,
            base,
            offset: place("bitmap offset").expect("an offset for each entry"),
            length: place("bitmap length"),
            table: (version == 2).then(|| entries.collect()),
            rows: row_numbers,
            field: vec![0xA5; rows as usize / 8 + 1],
            bytes: traced.bytes,
        }
    }

    /// The body with another length of the bitmap.
    fn with_length(&self, length: i32) -> Vec<u8> {
        let mut bytes = self.bytes.clone();
        let at = self.length.expect("version 2");
        bytes[at..at + 4].copy_from_slice(&length.to_be_bytes());
        bytes
    }

    fn damaged(&self, damage: &[&Damage]) -> Vec<u8> {
        let mut bytes = self.bytes.clone();
        for one in damage {
            one.apply(&mut bytes, self.base);
        }
        bytes
    }

    /// The field behind a refusal, or after an audit.
    fn cleared(&self) -> Vec<u8> {
        let mut field = vec![0; self.field.len()];
        field[self.field.len() - 1] = 0xA5;
        field
    }
}

/// Audit refuses the body, naming this container of the entry.
#[track_caller]
fn broken(both: &mut Comparison, host: &Host, body: &[u8], container: usize, what: impl Fn() -> String) {
    let expected = refused(BITMAP, host.cleared(), [host.entry as u64, container as u64, 0]);
    let found = both.audit(body, TINYINT, &host.field);
    assert!(found == expected, "entry {}: {}: {:?} instead of container {container}", host.entry, what(), (found.0, found.3));
}

/// Edition and question of what is asked of a body that is refused: where the editions agree, and where they differ.
const QUESTIONS: [(u32, u32); 2] = [(FIRST_EDITION, EQUAL), (SECOND_EDITION, NOT_EQUAL)];

/// Ask, and Ask of a file, say what Audit says.
#[track_caller]
fn asked_too(both: &mut Comparison, host: &Host, body: &[u8]) {
    let refused = without_record(both.audit(body, TINYINT, &host.field));
    let file = index_file(&[("s", "bitmap", body)]);
    for (edition, question) in QUESTIONS {
        let asked = both.ask(body, TINYINT, edition, question, &[1], &host.field);
        let same = Asked { ty: TINYINT, edition, question, literals: &[1] };
        let asked_of_file = both.ask_file(Where::small(&file), same, &host.field);
        assert!(asked == refused && asked_of_file == refused, "question {question} in edition {edition}");
    }
    if let Some(table) = &host.table {
        looked_up_too(both, host, table, body, refused);
    }
}

/// Open says what Audit says, and leaves its table alone. So does a lookup of the value whose bitmap is broken, and where it is null's of each
/// value, the entry counted within its block; other values are answered.
#[track_caller]
fn looked_up_too(both: &mut Comparison, host: &Host, table: &[u32], body: &[u8], refused: Answered) {
    let (answer, record, field, [entry, container, row]) = refused;
    let untouched = vec![0xA5; table.len()];
    let opened = both.open(body, TINYINT, &host.field, &untouched);
    let fault = [entry, container, row];
    let expected = Opened { answer, rows: 0, blocks: 0, fault, field: field.clone(), table: untouched };
    assert!(opened == expected, "Open: {:?}", (opened.answer, opened.fault));

    let within_block = if host.entry == 0 { 0 } else { (host.entry - 1) % BLOCK + 1 };
    let broken = (answer, record, field, [within_block as u64, container, row]);
    for value in [host.entry.max(1), host.owner.max(1), host.entry % VALUES + 1] {
        let (found, _) = both.look_up(body, TINYINT, SECOND_EDITION, &[value as u8], table, &host.field);
        if host.entry == 0 || host.entry == value {
            assert!(found == broken, "value {value}: {:?} instead of {:?}", (found.0, found.3), (answer, broken.3));
        } else {
            let matched = host.rows[value - 1];
            assert_eq!((found.0, found.1.matched, found.3), (ACCEPTED, matched, NO_FAULT), "value {value}");
        }
    }
}

/// Read deletions refuses the only bin of a file, naming this container and no entry; and so does each window, whether it has rows of that
/// container or not. In a 64-bit bin the same bitmap is broken too, and the first container is named.
#[track_caller]
fn broken_bin(both: &mut Comparison, sound: &Sound, bitmap: Vec<u8>, container: usize, what: impl Fn() -> String) {
    let rows = sound.row_count();
    let wide = file_of_bins(&[bin_64_of(&bitmap)]);
    let narrow = deletion_file(&[bitmap]);
    let found = both.read_deletions(&narrow, 0, rows.into(), &vec![0xA5; rows as usize / 8]);
    let expected = refused(BITMAP, vec![0; rows as usize / 8], [0, container as u64, 0]);
    assert!(found == expected, "a bin: {}: {:?} instead of container {container}", what(), (found.0, found.3));

    for base in [0, u64::from(INDEX) << 32] {
        let first = base + u64::from(CONTAINER) * container as u64 + WINDOW_FROM;
        let field = [0xA5; WINDOW.div_ceil(8) as usize];
        let named = refused(BITMAP, vec![0; field.len()], [0, container as u64, 0]);
        let found = both.read_window(&narrow, 0, first, WINDOW, &field);
        assert!(found == named, "a window: {}: {:?} instead of container {container}", what(), (found.0, found.3));
        let found = both.read_window(&wide, 0, first, WINDOW, &field);
        let named = refused(BITMAP, vec![0; field.len()], NO_FAULT);
        assert!(found == named, "a 64-bit bin: {}: {:?} instead of container 0", what(), (found.0, found.3));
    }
}

/// The rows of a window that begins inside a byte and a container.
const WINDOW: u64 = 21;
const WINDOW_FROM: u64 = 4_987;

/// The index of a bitmap in a 64-bit bin that isn't its first.
const INDEX: u32 = 3;

/// A 64-bit bin of a bitmap of no rows and of this one.
fn bin_64_of(bitmap: &[u8]) -> Vec<u8> {
    let none = [0, INDEX].map(IndexedBitmap::empty);
    let mut bin = bin_64_traced(&none).bytes;
    // In the place of the second, which is the last.
    bin.truncate(bin.len() - bitmap_traced(&none[1].lows, &none[1].form).bytes.len());
    bin.extend(bitmap);
    bin
}

/// The rows of a sound bitmap in a window, as a 32-bit bin and a 64-bit one have them.
fn windows_of(both: &mut Comparison, sound: &Sound) {
    let narrow = deletion_file(std::slice::from_ref(&sound.bytes));
    let wide = file_of_bins(&[bin_64_of(&sound.bytes)]);
    for i in 0..=sound.count() as u64 {
        // From and to the edge of a container, over it, and inside of the container.
        let edge = i * u64::from(CONTAINER);
        for (first, end) in [
            (edge, edge + 30),
            (edge.saturating_sub(30), edge),
            (edge.saturating_sub(9), edge + 17),
            (edge + 4_987, edge + 5_008),
        ] {
            let rows = end - first;
            let size = rows.div_ceil(8) as usize;
            let mut expected = vec![0; size];
            let inside = sound.rows.iter().map(|row| u64::from(*row)).filter(|row| (first..end).contains(row));
            let mut count = 0;
            for row in inside.map(|row| row - first) {
                expected[(row / 8) as usize] |= 1 << (row % 8);
                count += 1;
            }
            let expected = (ACCEPTED, count, expected, NO_FAULT);
            let field = vec![0xA5; size];
            assert_eq!(both.read_window(&narrow, 0, first, rows, &field), expected, "{rows} rows from {first} on");
            let first = first + (u64::from(INDEX) << 32);
            assert_eq!(both.read_window(&wide, 0, first, rows, &field), expected, "{rows} rows from {first} on");
        }
    }
}

fn refused(answer: u8, field: Vec<u8>, fault: Fault) -> Found {
    (answer, 0, field, fault)
}

/// An audit's refusal as that of a question, which has no counts either.
#[track_caller]
fn without_record((answer, rows, field, fault): Found) -> Answered {
    assert!(answer != ACCEPTED && rows == 0, "Audit doesn't refuse");
    (answer, Record::NONE, field, fault)
}

/// Checks with each of the sound bitmaps, and answers how many calls were compared.
fn each_sound(mut check: impl FnMut(&mut Comparison, &Sound)) -> u64 {
    let mut both = Comparison::new();
    for (forms, with_flags) in shapes() {
        check(&mut both, &Sound::new(forms, with_flags));
    }
    let calls = both.tally.calls();
    say(&format!("\n{calls} calls of library and reference reader agree on what is broken"));
    calls
}

#[test]
fn sound_bitmaps_are_accepted() {
    each_sound(|both, sound| {
        for kind in KINDS {
            let host = Host::new(sound, kind);
            let found = both.audit(&host.bytes, TINYINT, &host.field);
            let expected = (ACCEPTED, sound.row_count().into(), host.cleared(), NO_FAULT);
            assert!(found == expected, "{} in {kind:?}: {:?}", sound.describe(), (found.0, found.3));
            let Some(table) = &host.table else {
                continue;
            };
            let opened = both.open(&host.bytes, TINYINT, &host.field, &vec![0xA5; table.len()]);
            assert!((opened.answer, opened.rows, opened.field, opened.fault) == expected, "Open of {}", sound.describe());
            assert_eq!(opened.table, *table);
            for value in 1..=VALUES {
                let (found, _) = both.look_up(&host.bytes, TINYINT, SECOND_EDITION, &[value as u8], table, &host.field);
                let asked = both.ask(&host.bytes, TINYINT, SECOND_EDITION, EQUAL, &[value as u8], &host.field);
                assert!(found == asked && found.1.matched == host.rows[value - 1], "{value} in {}", sound.describe());
            }
        }
        let rows = sound.row_count();
        let file = deletion_file(std::slice::from_ref(&sound.bytes));
        let found = both.read_deletions(&file, 0, rows.into(), &vec![0; rows as usize / 8]);
        assert_eq!((found.0, found.1, found.3), (ACCEPTED, sound.rows.len() as u64, NO_FAULT));
        // A row count that ends before the last row, which is in the last container.
        let last = *sound.rows.last().expect("rows");
        let field = vec![0; rows as usize / 8];
        let found = both.read_deletions(&file, 0, last.into(), &field);
        assert_eq!((found.0, found.1, found.3), (RANGE, 0, NO_FAULT));
        // A window has the others.
        let found = both.read_window(&file, 0, 0, last.into(), &field);
        assert_eq!((found.0, found.1, found.3), (ACCEPTED, sound.rows.len() as u64 - 1, NO_FAULT));
        windows_of(both, sound);
    });
}

#[test]
fn each_kind_of_damage_in_each_container() {
    let calls = each_sound(|both, sound| {
        let hosts = KINDS.map(|kind| Host::new(sound, kind));
        for i in 0..sound.count() {
            for (number, damage) in damage_of(sound, i).iter().enumerate() {
                let what = || format!("container {i} of {}: {}", sound.describe(), damage.what);
                for (k, host) in hosts.iter().enumerate() {
                    let body = host.damaged(&[damage]);
                    broken(both, host, &body, i, what);
                    if k % 5 == number % 5 {
                        asked_too(both, host, &body);
                    }
                }
                let mut alone = sound.bytes.clone();
                damage.apply(&mut alone, 0);
                broken_bin(both, sound, alone, i, what);
            }
        }
    });
    assert!(calls >= DAMAGE_CALLS, "{calls} calls");
}

/// The lowest container is named, whatever is wrong with a higher one; and what is wrong in front goes before all.
#[test]
fn the_lowest_of_two_is_named() {
    each_sound(|both, sound| {
        let hosts = [KINDS[2], KINDS[9]].map(|kind| Host::new(sound, kind));
        let all: Vec<Vec<Damage>> = (0..sound.count()).map(|i| damage_of(sound, i)).collect();
        for i in 0..sound.count() {
            for j in i + 1..sound.count() {
                for (number, lower) in all[i].iter().enumerate() {
                    // Each kind below with another one above, which leaves the lower container's key as it is.
                    let above: Vec<&Damage> = all[j].iter().filter(|damage| damage.what != KEY_BEFORE).collect();
                    let higher = above[(number + j) % above.len()];
                    let host = &hosts[(i + j) % 2];
                    // The lower one last: what it puts stays.
                    let body = host.damaged(&[higher, lower]);
                    broken(both, host, &body, i, || {
                        format!("{} of {i} and {} of {j}, {}", lower.what, higher.what, sound.describe())
                    });
                }
            }
        }
        for front in damage_in_front(sound) {
            for host in &hosts {
                broken(both, host, &host.damaged(&[&front]), 0, || format!("{}: {}", sound.describe(), front.what));
                for (i, damage) in all.iter().enumerate() {
                    let body = host.damaged(&[&damage[i % damage.len()], &front]);
                    broken(both, host, &body, 0, || format!("{}: {} and container {i}", sound.describe(), front.what));
                }
            }
            let mut alone = sound.bytes.clone();
            front.apply(&mut alone, 0);
            broken_bin(both, sound, alone, 0, || format!("{}: {}", sound.describe(), front.what));
        }
    });
}

/// A shorter array is no fault of its container: the next one doesn't stand where it should, or bytes are left over, or the rows are wrong.
#[test]
fn a_container_declared_as_a_shorter_array() {
    each_sound(|both, sound| {
        let hosts = KINDS.map(|kind| (kind, Host::new(sound, kind)));
        for i in 0..sound.count() {
            let at = sound.cardinalities[i];
            let less_one = match sound.forms[i] {
                Form::Array => sound.pair(at) - 1,
                Form::Bits => 0,
                Form::Runs => continue,
            };
            let damage = Damage::new("a shorter array", at, &less_one.to_le_bytes());
            let what = || format!("container {i} as an array of {} rows, {}", less_one + 1, sound.describe());
            for (kind, host) in &hosts {
                let body = host.damaged(&[&damage]);
                if i + 1 < sound.count() || kind.length == Length::Exact {
                    // The next container, which is past the last one if bytes are left over.
                    broken(both, host, &body, i + 1, what);
                } else {
                    let (answer, fault) = match sound.forms[i] {
                        // The first two bytes of bits, all ones, are the container's last row, which is another entry's.
                        Form::Bits => (TWICE, [host.entry.max(host.owner) as u64, 0, 0]),
                        // The last row of an array is that row too.
                        _ => (MISSING, [0, 0, u64::from(i as u32 * CONTAINER + 65_535)]),
                    };
                    let found = both.audit(&body, TINYINT, &host.field);
                    assert!(found == refused(answer, host.cleared(), fault), "{}: {:?}", what(), (found.0, found.3));
                }
            }
            let mut alone = sound.bytes.clone();
            damage.apply(&mut alone, 0);
            broken_bin(both, sound, alone, i + 1, what);
        }
    });
}

/// The form of a whole bitmap goes before its rows: a broken container is named, and not that a lower one has a row at or above the row
/// count.
#[test]
fn a_broken_container_goes_before_rows_past_the_end() {
    each_sound(|both, sound| {
        for i in 1..sound.count() {
            // From the second row of all on, and from the second row of the container before on.
            for rows in [1, (i as u32 - 1) * CONTAINER + 1] {
                let field = vec![0xA5; rows.div_ceil(8) as usize];
                let groups = Groups { ty: TINYINT, rows, nulls: Vec::new(), values: vec![(vec![1], sound.rows.clone())] };
                let bodies = [1, 2].map(|version| body(&groups, &Layout::version(version).with_form(sound.stored.clone())));
                let audit = |both: &mut Comparison, body: &[u8]| {
                    let found = both.audit(body, TINYINT, &field);
                    (found.0, found.3)
                };
                let read = |both: &mut Comparison, bitmap: &[u8]| {
                    let file = deletion_file(&[bitmap.to_vec()]);
                    let found = both.read_deletions(&file, 0, rows.into(), &field);
                    let through_window = both.read_window(&file, 0, 0, rows.into(), &field);
                    [(found.0, found.3), (through_window.0, through_window.3)]
                };
                for body in &bodies {
                    assert_eq!(audit(both, body), (RANGE, [1, 0, 0]));
                }
                // Rows behind a window are no fault, and a container behind it is tested all the same.
                assert_eq!(read(both, &sound.bytes), [(RANGE, NO_FAULT), (ACCEPTED, NO_FAULT)]);
                for damage in damage_of(sound, i) {
                    let what = || format!("container {i} of {} for {rows} rows: {}", sound.describe(), damage.what);
                    for body in &bodies {
                        let mut damaged = body.clone();
                        damage.apply(&mut damaged, body.len() - sound.bytes.len());
                        assert_eq!(audit(both, &damaged), (BITMAP, [1, i as u64, 0]), "{}", what());
                    }
                    let mut alone = sound.bytes.clone();
                    damage.apply(&mut alone, 0);
                    assert_eq!(read(both, &alone), [(BITMAP, [0, i as u64, 0]); 2], "a bin: {}", what());
                }
            }
        }
    });
}

/// Every cut: by the end of the body, by the length, by the end of the bin. The container that loses bytes is named.
#[test]
fn every_cut() {
    let calls = each_sound(|both, sound| {
        let [ended, ended_2, by_length, exact] = [KINDS[2], KINDS[7], KINDS[9], KINDS[8]].map(|kind| Host::new(sound, kind));
        for length in 0..sound.bytes.len() {
            let container = sound.cut_at(length);
            let what = || format!("{} cut at {length}", sound.describe());
            // Outside of bits, at their edges and here and there inside in every way; else in two ways in turn.
            let inside_bits = sound
                .forms
                .iter()
                .zip(&sound.containers)
                .any(|(form, bytes)| *form == Form::Bits && length >= bytes.start + 3 && length + 3 < bytes.end);
            let everywhere = !inside_bits || length % 499 == 0;
            if everywhere || length % 2 == 0 {
                broken(both, &ended, &ended.bytes[..ended.base + length], container, what);
            }
            if everywhere || length % 2 == 1 {
                broken(both, &by_length, &by_length.with_length(length as i32), container, what);
            }
            if everywhere {
                broken(both, &ended_2, &ended_2.bytes[..ended_2.base + length], container, what);
                broken_bin(both, sound, sound.bytes[..length].to_vec(), container, what);
                // The bytes end before the length does: it is past the body, and no container is looked at.
                broken(both, &exact, &exact.bytes[..exact.base + length], 0, what);
                asked_too(both, &ended, &ended.bytes[..ended.base + length]);
                asked_too(both, &by_length, &by_length.with_length(length as i32));
            }
        }
    });
    assert!(calls >= CUT_CALLS, "{calls} calls");
}

/// A cut and damage: what is behind the cut isn't there to be wrong, and what is before it goes first.
#[test]
fn cuts_and_damage() {
    each_sound(|both, sound| {
        let host = Host::new(sound, KINDS[9]);
        for i in 0..sound.count() {
            for (j, bytes) in sound.containers.iter().enumerate() {
                let all = damage_of(sound, i);
                // Damage that lengthens an array into bytes behind a cut is as wrong.
                let damage = &all[j % all.len()];
                let mut body = host.with_length((bytes.end - 1) as i32);
                damage.apply(&mut body, host.base);
                broken(both, &host, &body, i.min(j), || format!("{} of {i}, cut in {j}, {}", damage.what, sound.describe()));
            }
        }
    });
}

/// Bytes left over name the number of containers, if nothing else is wrong.
#[test]
fn bytes_left_over() {
    let calls = each_sound(|both, sound| {
        let size = sound.bytes.len() as i32;
        let fills: [&dyn Fn(usize) -> Vec<u8>; 3] =
            [&|more| vec![0; more], &|more| vec![0xFF; more], &|more| sound.bytes.iter().copied().cycle().take(more).collect()];
        let hosts = KINDS.map(|kind| (kind, Host::new(sound, kind)));
        for (fill, more) in fills.iter().flat_map(|fill| [1, 2, 3, 4, 8, 100, 8_192].map(|more| (fill, more))) {
            let left_over = fill(more);
            let what = || format!("{more} bytes behind {}", sound.describe());
            for (kind, host) in &hosts {
                let longer = |bytes: &[u8]| [bytes, &left_over].concat();
                if kind.version == 2 {
                    let body = longer(&host.with_length(size + more as i32));
                    broken(both, host, &body, sound.count(), what);
                    asked_too(both, host, &body);
                    // Other faults go first.
                    let i = more % sound.count();
                    for damage in damage_of(sound, i) {
                        let mut damaged = body.clone();
                        damage.apply(&mut damaged, host.base);
                        broken(both, host, &damaged, i, || format!("{} of {i} and {}", damage.what, what()));
                    }
                }
                // Where the length is the bitmap's own, or isn't told, they are bytes that no bitmap uses.
                let found = both.audit(&longer(&host.bytes), TINYINT, &host.field);
                assert_eq!((found.0, found.3), (ACCEPTED, NO_FAULT), "{}", what());
            }
            broken_bin(both, sound, [&sound.bytes[..], &left_over].concat(), sound.count(), what);
        }
    });
    assert!(calls >= LEFT_OVER_CALLS, "{calls} calls");
}

/// Lengths below -1 and past the body, and places outside of it, name the first container, whatever stands there.
#[test]
fn lengths_and_places_outside() {
    let calls = each_sound(|both, sound| {
        let size = sound.bytes.len() as i32;
        let all: Vec<Vec<Damage>> = (0..sound.count()).map(|i| damage_of(sound, i)).collect();
        for kind in KINDS {
            let host = Host::new(sound, kind);
            let mut wrong = Vec::new();
            if kind.version == 2 {
                for length in [-2, -3, -4, -5, -size, i32::MIN + 1, i32::MIN, size + 1, size + 2, size + 100, 1 << 16, i32::MAX] {
                    wrong.push((format!("length {length}"), host.with_length(length)));
                }
            }
            // The region ends with the bitmap.
            let offset = i32::from_be_bytes(host.bytes[host.offset..host.offset + 4].try_into().expect("4 bytes"));
            for place in [offset + size, offset + size + 1, offset + size + 70_000, i32::MAX] {
                let mut body = host.bytes.clone();
                body[host.offset..host.offset + 4].copy_from_slice(&place.to_be_bytes());
                wrong.push((format!("offset {place}"), body));
            }
            for (what, body) in wrong {
                broken(both, &host, &body, 0, || format!("{what} of {}", sound.describe()));
                asked_too(both, &host, &body);
                for (i, damage) in all.iter().enumerate() {
                    let mut damaged = body.clone();
                    damage[i % damage.len()].apply(&mut damaged, host.base);
                    broken(both, &host, &damaged, 0, || format!("{what} and container {i} of {}", sound.describe()));
                }
            }
        }
    });
    assert!(calls >= OUTSIDE_CALLS, "{calls} calls");
}

/// The bitmap of no rows has no container: what is wrong with it, and bytes left over, name 0, which is their number.
#[test]
fn an_empty_bitmap() {
    let mut both = Comparison::new();
    let empty = bitmap(&[], &BitmapForm::WithoutRuns);
    // One row under each of three values, and two values without rows; the last one's bitmap is the last.
    let values = (1..=5u8).map(|value| (vec![value], if value <= 3 { vec![u32::from(value) - 1] } else { Vec::new() })).collect();
    let groups = Groups { ty: TINYINT, rows: 3, nulls: Vec::new(), values };
    let traced = body_traced(&groups, &Layout::version(2).with_blocks_of(BLOCK));
    let at = traced.fields.iter().filter(|field| field.name == "bitmap length").nth(4).expect("a length for each").at;
    let mut audit = |length: i32, bytes: &[u8], answer: u8, fault: Fault| {
        let mut body = [&traced.bytes[..traced.bytes.len() - empty.len()], bytes].concat();
        body[at..at + 4].copy_from_slice(&length.to_be_bytes());
        let found = both.audit(&body, TINYINT, &[0xA5]);
        assert_eq!((found.0, found.3), (answer, fault), "length {length}");
    };
    let size = empty.len() as i32;
    let longer = [&empty[..], &[0; 9]].concat();
    for length in [-1, size] {
        audit(length, &empty, ACCEPTED, NO_FAULT);
        audit(length, &longer, ACCEPTED, NO_FAULT);
    }
    for length in (0..size).chain(size + 1..=size + 10).chain([-2, i32::MIN, i32::MAX]) {
        audit(length, &longer, BITMAP, [5, 0, 0]);
    }
    for cut in 0..empty.len() {
        audit(-1, &empty[..cut], BITMAP, [5, 0, 0]);
    }
    for more in 1..10 {
        let bitmap = longer[..empty.len() + more].to_vec();
        let files = [file_of_bins(&[bin_64_of(&bitmap)]), deletion_file(&[bitmap])];
        assert_eq!(both.read_deletions(&files[1], 0, 8, &[0xA5]), refused(BITMAP, vec![0], NO_FAULT));
        for file in files {
            assert_eq!(both.read_window(&file, 0, 5, 8, &[0xA5]), refused(BITMAP, vec![0], NO_FAULT));
        }
    }

    // The count 0 of a bitmap with one container: the bytes behind it are left over, or no bitmap's.
    for form in [Form::Array, Form::Bits] {
        let sound = Sound::new(vec![form], false);
        let none = Damage::new("count 0", 4, &0u32.to_le_bytes());
        for kind in KINDS {
            let host = Host::new(&sound, kind);
            let body = host.damaged(&[&none]);
            if kind.length == Length::Exact {
                broken(&mut both, &host, &body, 0, || none.what.clone());
            } else {
                let row = u64::from(sound.rows[0]);
                assert_eq!(both.audit(&body, TINYINT, &host.field), refused(MISSING, host.cleared(), [0, 0, row]));
            }
        }
        let mut alone = sound.bytes.clone();
        none.apply(&mut alone, 0);
        broken_bin(&mut both, &sound, alone, 0, || none.what.clone());
    }
}

// Rows

/// Rows 0 to 69 in turn under null, if there is one, and four values, in each kind of layout. A value's number is its place among the stored
/// ones, which in version 1 aren't sorted.
fn each_layout(mut check: impl FnMut(&mut Comparison, &Groups, &[u64], &dyn Fn(&Groups) -> Vec<u8>)) {
    const ROWS: u32 = 70;
    let mut both = Comparison::new();
    for (has_null, single) in [(true, true), (true, false), (false, true), (false, false)] {
        let owners = if has_null { 5 } else { 4 };
        // Some of the rows of an entry, so that one of them has a single row.
        let owner = |row: u32| if row == 69 { owners - 1 } else { row % (owners - 1) };
        let mut of = (0..owners).map(|entry| (0..ROWS).filter(|row| owner(*row) == entry).collect::<Vec<u32>>());
        let nulls = if has_null { of.next().expect("five") } else { Vec::new() };
        let values = (1..=4u8).map(|value| vec![value]).zip(of).collect();
        let groups = Groups { ty: TINYINT, rows: ROWS, nulls, values };
        let order = vec![2, 0, 3, 1];
        let place = Place { single, form: BitmapForm::Smallest, ..Place::default() };
        let mut layouts = vec![
            (Layout { order: order.clone(), ..Layout::version(1) }, vec![0, 2, 4, 1, 3]),
            (Layout::version(1), vec![0, 1, 2, 3, 4]),
        ];
        layouts.extend([1, 2, 3, 4].map(|block| (Layout::version(2).with_blocks_of(block), vec![0, 1, 2, 3, 4])));
        for (mut layout, numbers) in layouts {
            // Stored as 3, 1, 4, 2: value 1 is the second entry, value 2 the fourth, and so on.
            assert!(layout.order.iter().zip(1..).all(|(value, number)| numbers[value + 1] == number));
            layout.default_place = Place { length: layout.default_place.length, ..place.clone() };
            layout.always_null = has_null;
            let sound = both.audit(&body(&groups, &layout), TINYINT, &[0xA5; 10]);
            assert_eq!((sound.0, sound.3), (ACCEPTED, NO_FAULT));
            check(&mut both, &groups, &numbers, &|groups| body(groups, &layout));
        }
    }
}

fn insert(groups: &mut Groups, entry: usize, row: u32) {
    let rows = groups.rows_of(entry);
    let at = rows.binary_search(&row).expect_err("the entry hasn't that row");
    rows.insert(at, row);
}

fn remove(groups: &mut Groups, row: u32) {
    groups.nulls.retain(|other| *other != row);
    for (_, rows) in &mut groups.values {
        rows.retain(|other| *other != row);
    }
}

/// The entries that there are: null's only if it has rows.
fn entries(groups: &Groups) -> Vec<usize> {
    (usize::from(groups.nulls.is_empty())..=groups.values.len()).collect()
}

#[track_caller]
fn names(both: &mut Comparison, body: &[u8], answer: u8, fault: Fault) {
    let found = both.audit(body, TINYINT, &[0xA5; 10]);
    assert_eq!((found.0, found.3), (answer, fault));
    let refused = without_record(found);
    for (edition, question) in QUESTIONS {
        let asked = both.ask(body, TINYINT, edition, question, &[1], &[0xA5; 10]);
        assert_eq!(asked, refused, "question {question} in edition {edition}");
    }
}

#[test]
fn the_entry_of_a_row_past_the_end() {
    each_layout(|both, groups, numbers, body| {
        for entry in entries(groups) {
            for row in [70, 71, 79, 65_535, 65_536, 1 << 24, i32::MAX as u32] {
                let mut said = groups.clone();
                insert(&mut said, entry, row);
                names(both, &body(&said), RANGE, [numbers[entry], 0, 0]);
                // And of several the first in stored order.
                for other in entries(groups).into_iter().filter(|other| *other != entry) {
                    let mut said = said.clone();
                    insert(&mut said, other, 75);
                    names(both, &body(&said), RANGE, [numbers[entry].min(numbers[other]), 0, 0]);
                }
            }
        }
    });
}

#[test]
fn the_entry_that_places_a_row_again() {
    each_layout(|both, groups, numbers, body| {
        for row in 0..groups.rows {
            let owner = *entries(groups).iter().find(|entry| groups.clone().rows_of(**entry).contains(&row)).expect("an owner");
            for other in entries(groups).into_iter().filter(|other| *other != owner) {
                let mut said = groups.clone();
                insert(&mut said, other, row);
                let again = numbers[owner].max(numbers[other]);
                names(both, &body(&said), TWICE, [again, 0, 0]);

                // With a row missing as well, and with one too high in each of the entries: what comes first in stored order, and
                // in one bitmap a row that is too high.
                let mut missing = said.clone();
                remove(&mut missing, (row + 1) % groups.rows);
                names(both, &body(&missing), TWICE, [again, 0, 0]);
                for third in entries(groups) {
                    let mut high = said.clone();
                    insert(&mut high, third, 70);
                    let number = numbers[third];
                    let (answer, first) = if number <= again { (RANGE, number) } else { (TWICE, again) };
                    names(both, &body(&high), answer, [first, 0, 0]);
                }
            }
        }
    });
}

#[test]
fn the_lowest_row_that_is_missing() {
    each_layout(|both, groups, _, body| {
        for row in 0..groups.rows {
            let mut said = groups.clone();
            remove(&mut said, row);
            // An entry that has lost its only row keeps its bitmap of none.
            names(both, &body(&said), MISSING, [0, 0, row.into()]);
            for higher in [row + 1, row + 8, row + 40, groups.rows - 1] {
                remove(&mut said, higher);
                names(both, &body(&said), MISSING, [0, 0, row.into()]);
            }
        }
        let said = Groups { rows: groups.rows + 1, ..groups.clone() };
        names(both, &body(&said), MISSING, [0, 0, groups.rows.into()]);
    });

    // In fields of several containers, all but the missing rows under one value.
    let mut both = Comparison::new();
    for rows in [CONTAINER, 2 * CONTAINER + 77, 3 * CONTAINER] {
        let field = vec![0xA5; rows.div_ceil(8) as usize];
        let places = [0, 1, 7, 8, 63, 64, 4_095, 65_534, 65_535, 65_536, 65_537, 2 * CONTAINER - 1, 2 * CONTAINER, rows - 1];
        for row in places.into_iter().filter(|row| *row < rows) {
            for others in [vec![], vec![rows - 1], vec![row + 1, row + 9, rows - 1]] {
                let placed = (0..rows).filter(|placed| *placed != row && !others.contains(placed)).collect();
                let groups = Groups { ty: TINYINT, rows, nulls: Vec::new(), values: vec![(vec![4], placed)] };
                for form in [BitmapForm::Smallest, BitmapForm::WithoutRuns] {
                    let found = both.audit(&body(&groups, &Layout::version(2).with_form(form)), TINYINT, &field);
                    assert_eq!((found.0, found.3), (MISSING, [0, 0, row.into()]));
                }
            }
        }
    }
}

/// A bitmap that is broken, a row too high, a row placed again: what stands first is named, whatever comes behind.
#[test]
fn the_first_entry_goes_before_later_ones() {
    let mut both = Comparison::new();
    let sound = Sound::new(vec![Form::Array, Form::Runs, Form::Bits], true);
    let rows = sound.row_count();
    let field = vec![0xA5; rows as usize / 8];
    // One of three entries is broken in container 1; the rows of the two others are their own, too high, or one another's.
    for version in [1, 2] {
        for (entry, others, answer, fault) in [
            (2, [vec![1], vec![2]], BITMAP, [2, 1, 0]),
            (2, [vec![1], vec![rows]], BITMAP, [2, 1, 0]),
            (2, [vec![1], vec![1]], BITMAP, [2, 1, 0]),
            (2, [vec![rows], vec![2]], RANGE, [1, 0, 0]),
            (2, [vec![1, rows + 9], vec![1]], RANGE, [1, 0, 0]),
            (1, [vec![1], vec![1, rows]], BITMAP, [1, 1, 0]),
            (3, [vec![1], vec![2]], BITMAP, [3, 1, 0]),
            (3, [vec![1], vec![1]], TWICE, [2, 0, 0]),
            (3, [vec![1], vec![1, rows]], RANGE, [2, 0, 0]),
        ] {
            let mut of = Vec::from(others);
            of.insert(entry - 1, sound.rows.clone());
            let values = (1..).map(|value| vec![value]).zip(of).collect();
            let groups = Groups { ty: TINYINT, rows, nulls: Vec::new(), values };
            let mut layout = Layout::version(version).with_blocks_of(1).with_form(sound.stored.clone());
            layout.bitmap_order = (0..=3).filter(|other| *other != entry).chain([entry]).collect();
            let mut bytes = body(&groups, &layout);
            let base = bytes.len() - sound.bytes.len();
            damage_of(&sound, 1)[0].apply(&mut bytes, base);
            let found = both.audit(&bytes, TINYINT, &field);
            assert_eq!((found.0, found.3), (answer, fault), "version {version}");
        }
    }
}

/// Entries are numbered through all blocks, from 1 where there is no null, up to the most values.
#[test]
fn numbers_of_many_entries() {
    let mut both = Comparison::new();
    for (version, values, block) in [(1, 4_096, 1), (2, 1_000, 7), (2, 1_000, 1_000), (2, 65_536, 500)] {
        for has_null in [false, true] {
            let rows = values + u32::from(has_null);
            let field = vec![0xA5; rows.div_ceil(8) as usize];
            // Value i at row i - 1; null at the last row.
            let of = (1..=values).map(|i| (i.to_be_bytes().to_vec(), vec![i - 1])).collect();
            let nulls = if has_null { vec![values] } else { Vec::new() };
            let groups = Groups { ty: INT, rows, nulls, values: of };
            let layout = Layout::version(version).with_blocks_of(block);
            let mut audit = |groups: &Groups| {
                let found = both.audit(&body(groups, &layout), INT, &field);
                (found.0, found.3)
            };
            assert_eq!(audit(&groups), (ACCEPTED, NO_FAULT));
            for entry in [1, 2, 7, 8, 9, 500, 501, values - 1, values] {
                let changed = |row: u32| {
                    let mut said = groups.clone();
                    said.values[entry as usize - 1].1 = vec![row];
                    said
                };
                assert_eq!(audit(&changed(rows)), (RANGE, [entry.into(), 0, 0]));
                // The row of the entry before, or of the one behind, which is then the one that places it again.
                if entry > 1 {
                    assert_eq!(audit(&changed(entry - 2)), (TWICE, [entry.into(), 0, 0]));
                }
                if entry < values {
                    assert_eq!(audit(&changed(entry)), (TWICE, [u64::from(entry) + 1, 0, 0]));
                }
                let mut said = groups.clone();
                said.values[entry as usize - 1].1.clear();
                assert_eq!(audit(&said), (MISSING, [0, 0, u64::from(entry) - 1]));
            }
        }
    }
}
