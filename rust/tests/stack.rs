//! No call takes 128 KiB of stack (docs/DECISIONS.md): each runs in a thread that has no more, on the inputs that take most, and a call
//! that took more would end the test's process at the guard page below the stack.

use std::thread;

use poddurance::raw::{self, Fault, Record};
use reference::types;
use reference::writer::{bin_64, bitmap, body, deletion_file, file_of_bins, index_file, BitmapForm, Groups, Layout};

const STACK: usize = 128 << 10;

/// The most values of version 1, each in one row, and the most literals.
const VALUES: u32 = 4_096;
const LITERALS: u32 = 1_024;

/// The values of a block of version 2.
const BLOCK: u32 = 500;

/// The null rows, behind the others, of the columns that have some.
const NULLS: u32 = 1_000;
const MOST_ROWS: u32 = VALUES + NULLS;

/// Rows of one bitmap of a 64-bit bin and of one container, and how many rows of bits there are.
const BITMAP_ROWS: u64 = 1 << 32;
const CONTAINER: u64 = 1 << 16;
const BITS: u32 = 5_000;
/// How many rows of a window are in the bitmap before.
const WINDOW_BEFORE: u64 = 77;

/// The longest name that can be stored.
const LONGEST_NAME: usize = 65_535;

fn numbers(count: u32) -> impl Iterator<Item = [u8; 4]> {
    (0..count).map(u32::to_be_bytes)
}

#[test]
fn every_call_on_a_small_stack() {
    let literals = numbers(LITERALS).collect::<Vec<_>>().concat();
    // As long as a file can store them: as they are asked for, and in modified UTF-8, with six bytes for four.
    let name = "n".repeat(LONGEST_NAME);
    let beyond = "\u{10000}".repeat(LONGEST_NAME / 6) + "nnn";

    // In each version without null rows and with some, whose bitmap is read and counted.
    let mut columns = Vec::new();
    for (version, nulls) in [(1, 0), (1, NULLS), (2, 0), (2, NULLS)] {
        let rows = VALUES + nulls;
        let values = numbers(VALUES).zip(0..).map(|(value, row)| (value.to_vec(), vec![row])).collect();
        let groups = Groups { ty: types::INT, rows, nulls: (VALUES..rows).collect(), values };
        let body = body(&groups, &Layout::version(version).with_blocks_of(BLOCK as usize));
        let file = index_file(&[(&name, &name, &body)]);
        let record = Record { rows: rows.into(), nulls: nulls.into(), deleted: 0, matched: LITERALS.into() };
        columns.push((version, body, file, record));
    }
    let deletions = deletion_file(&[bitmap(&(0..VALUES).collect::<Vec<_>>(), &BitmapForm::WithoutRuns)]);
    // The same rows from the last ones of a bitmap on, and bits of every other row behind them.
    let from = BITMAP_ROWS - WINDOW_BEFORE;
    let others = (0..u64::from(BITS)).map(|i| BITMAP_ROWS + CONTAINER + 2 * i);
    let wide_rows: Vec<u64> = (from..from + u64::from(VALUES)).chain(others).collect();
    let wide = [BitmapForm::WithoutRuns, BitmapForm::Smallest].map(|form| file_of_bins(&[bin_64(&wide_rows, &form)]));

    let calls = move || {
        let mut field = [0; MOST_ROWS.div_ceil(8) as usize];
        let mut table = vec![0; raw::MOST_BLOCKS];
        for (version, body, file, record) in &columns {
            if *version == 2 {
                let blocks = VALUES.div_ceil(BLOCK).into();
                let opened = (raw::ACCEPTED, record.rows, blocks, Fault::NONE);
                assert_eq!(raw::open(body, types::INT, &mut field, &mut table), opened);
                let (literal, edition) = ((VALUES - 1).to_be_bytes(), types::SECOND_EDITION);
                let (answer, found, compared, fault) = raw::look_up(body, types::INT, edition, &literal, &table, &mut field);
                assert_eq!((answer, found, fault), (raw::ACCEPTED, Record { matched: 1, ..*record }, Fault::NONE));
                assert!(compared > 0);
            }
            assert_eq!(raw::audit(body, types::INT, &mut field), (raw::ACCEPTED, record.rows, Fault::NONE));
            let answer = (raw::ACCEPTED, *record, Fault::NONE);
            assert_eq!(raw::ask(body, types::INT, types::SECOND_EDITION, types::IN, &literals, &mut field), answer);
            let name = name.as_bytes();
            assert_eq!(raw::locate(&[], file, name, name).0, raw::ACCEPTED);
            assert_eq!(raw::locate(&[], file, name, beyond.as_bytes()).0, raw::ABSENT);
            assert_eq!(raw::locate(&[], file, beyond.as_bytes(), name).0, raw::ABSENT);
            let (edition, question) = (types::SECOND_EDITION, types::IN);
            let asked = raw::ask_file(&[], file, name, name, types::INT, edition, question, &literals, &mut field);
            assert_eq!(asked, answer);
        }
        let mut left = field;
        let mut deleted = [0; MOST_ROWS.div_ceil(8) as usize];
        let rows = MOST_ROWS.into();
        assert_eq!(raw::read_deletions(&deletions, 0, rows, &mut deleted), (raw::ACCEPTED, VALUES.into(), Fault::NONE));
        assert_eq!(raw::subtract(&mut field, &deleted, rows), (raw::ACCEPTED, 0, LITERALS.into()));
        for file in &wide {
            let accepted = (raw::ACCEPTED, VALUES.into(), Fault::NONE);
            let mut through_window = [0; MOST_ROWS.div_ceil(8) as usize];
            assert_eq!(raw::read_window(file, 0, from, rows, &mut through_window), accepted);
            assert_eq!(through_window, deleted);
            let bits = (raw::ACCEPTED, u64::from(MOST_ROWS / 2), Fault::NONE);
            assert_eq!(raw::read_window(file, 0, BITMAP_ROWS + CONTAINER + 1, rows, &mut through_window), bits);
        }
        let but_three = (raw::ACCEPTED, u64::from(VALUES) - 3, Fault::NONE);
        assert_eq!(raw::read_window(&deletions, 0, 3, rows, &mut field), but_three);
        let given = Record { rows, nulls: NULLS.into(), deleted: 0, matched: LITERALS.into() };
        let record = Record { deleted: VALUES.into(), matched: 0, ..given };
        assert_eq!(raw::subtract_record(&mut left, &deleted, given), (raw::ACCEPTED, record, LITERALS.into()));
    };
    thread::Builder::new().stack_size(STACK).spawn(calls).expect("a thread").join().expect("every call answers");
}
