//! The guards beside lent buffers work: a byte before or behind a buffer ends the program that reads it. Open and Look up are lent all their
//! buffers between guards, the table too, and so is reading through a window.

mod support;

use std::os::unix::process::ExitStatusExt;
use std::process::{Command, Stdio};

use poddurance::raw;
use reference::types;
use reference::writer::{bin_32, bin_64, body, file_of_bins, BitmapForm, Groups, Layout};
use support::Lender;

const BITMAP: u8 = 6;

/// Which byte the program started by the test is to read.
const TOUCH: &str = "PODDURANCE_TOUCH";
const TEST: &str = "a_byte_outside_a_buffer_ends_the_program";
/// The signal for memory that may not be read (SIGSEGV on Linux).
const SEGMENTATION_FAULT: i32 = 11;

#[test]
fn a_byte_outside_a_buffer_ends_the_program() {
    if let Some(touch) = std::env::var_os(TOUCH) {
        return read_byte(touch.to_str().expect("a word"));
    }
    for (touch, signal) in
        [("last", None), ("first", None), ("behind", Some(SEGMENTATION_FAULT)), ("before", Some(SEGMENTATION_FAULT))]
    {
        let program = std::env::current_exe().expect("the test program has a path");
        let status = Command::new(program)
            .args(["--exact", TEST])
            .env(TOUCH, touch)
            .stdout(Stdio::null())
            .stderr(Stdio::null())
            .status()
            .expect("the test program runs");
        assert_eq!(status.signal(), signal, "reading the byte '{touch}'");
        assert!(signal.is_some() || status.success(), "reading the byte '{touch}'");
    }
}

#[test]
fn the_side_can_be_set_whatever_was_lent_before() {
    let mut lender = Lender::guarded();
    for before in 0..4 {
        for _ in 0..before {
            lender.lend(&[7; 50]);
        }
        lender.place_next(true);
        let at_end = lender.lend(&[7; 100]).as_ptr();
        let at_beginning = lender.lend(&[7; 100]).as_ptr();
        assert!(at_beginning < at_end);
        lender.place_next(false);
        assert_eq!(lender.lend(&[7; 100]).as_ptr(), at_beginning);
        assert_eq!(lender.lend(&[7; 100]).as_ptr(), at_end);
    }
}

/// A word before or behind a table is a guard's too: tables lie as other buffers do.
#[test]
fn tables_lie_beside_guards() {
    let mut lender = Lender::guarded();
    lender.place_next(true);
    let at_end = lender.lend_words(&[7; 100]).as_ptr_range().end.cast();
    let at_beginning = lender.lend_words(&[7; 100]).as_ptr().cast();
    lender.place_next(true);
    assert_eq!(lender.lend(&[7; 100]).as_ptr_range().end, at_end);
    assert_eq!(lender.lend(&[7; 100]).as_ptr(), at_beginning);
}

/// All buffers have exactly the room that is needed, and lie at the end and at the beginning of their memory. The body is looked up in whole,
/// cut at each byte, and with each word of the table led to each place in the body and behind it. A byte that is read or written outside a
/// buffer would end the test.
#[test]
fn open_and_look_up_stay_inside_their_buffers() {
    let texts = ["", "a", "fault", "idle", "running", "stopped", "z"].map(|text| text.as_bytes().to_vec());
    let numbers = |width: usize| [1, 2, 3, 4, 5, 6, 7].map(|number| vec![number; width]);
    for (ty, values) in [(types::STRING, texts), (types::TINYINT, numbers(1)), (types::BIGINT, numbers(8))] {
        // Each value but the last in two rows, in blocks of two values; then two null rows.
        let stored = &values[..6];
        let rows = 2 * stored.len() as u32 + 2;
        let placed = stored.iter().cloned().zip(0..).map(|(value, at)| (value, vec![2 * at, 2 * at + 1])).collect();
        let groups = Groups { ty, rows, nulls: vec![rows - 2, rows - 1], values: placed };
        let whole = body(&groups, &Layout::version(2).with_blocks_of(2));
        let field = vec![0xFF; rows.div_ceil(8) as usize];

        let mut lenders: [Lender; 4] = std::array::from_fn(|_| Lender::guarded());
        let mut at_both_ends = |call: &mut dyn FnMut(&mut [Lender; 4]) -> u8| {
            let answers = [true, false].map(|at_end| {
                lenders.iter_mut().for_each(|lender| lender.place_next(at_end));
                call(&mut lenders)
            });
            assert_eq!(answers[0], answers[1]);
            answers[0]
        };

        let mut table = [0; 3];
        let answer = at_both_ends(&mut |[bodies, _, tables, fields]| {
            let lent = tables.lend_words(&table);
            let answer = raw::open(bodies.lend(&whole), ty, fields.lend(&field), lent);
            table.copy_from_slice(lent);
            assert_eq!(answer, (raw::ACCEPTED, rows.into(), 3, raw::Fault::NONE));
            answer.0
        });
        assert_eq!(answer, raw::ACCEPTED);

        let mut look_up = |body: &[u8], value: &[u8], table: &[u32]| {
            let (literal, edition) = (types::literals(ty, &[value]), types::SECOND_EDITION);
            at_both_ends(&mut |[bodies, literals, tables, fields]| {
                let (body, literal, table) = (bodies.lend(body), literals.lend(&literal), tables.lend_words(table));
                raw::look_up(body, ty, edition, literal, table, fields.lend(&field)).0
            })
        };
        for value in &values {
            assert_eq!(look_up(&whole, value, &table), raw::ACCEPTED);
            // Cut, it lacks at least what the body offset leads to; a bitmap that isn't looked at may be cut off.
            let refused = (0..whole.len()).filter(|end| look_up(&whole[..*end], value, &table) != raw::ACCEPTED).count();
            assert!(refused > table[2] as usize);
            for block in 0..table.len() {
                let mut led = table;
                for place in (0..whole.len() as u32 + 9).chain([u32::MAX - 3, u32::MAX]) {
                    led[block] = place;
                    let answer = look_up(&whole, value, &led);
                    // The last block's entry is always read, and behind the body there is none.
                    assert!(block < 2 || place < whole.len() as u32 || answer != raw::ACCEPTED);
                }
            }
        }
    }
}

/// Both buffers have exactly the room that is needed. Windows begin and end at each bit of the first bytes about the edges of containers and
/// bitmaps, in bits, an array and runs; the file is cut at each byte of its bins, whose sizes and checksums are true then.
#[test]
fn read_window_stays_inside_its_buffers() {
    const CONTAINER: u64 = 65_536;
    const BITMAP_ROWS: u64 = 1 << 32;
    let mut lenders: [Lender; 2] = std::array::from_fn(|_| Lender::guarded());
    let mut read = |file: &[u8], bin: u64, first: u64, rows: u64| {
        let answers = [true, false].map(|at_end| {
            lenders.iter_mut().for_each(|lender| lender.place_next(at_end));
            let [files, fields] = &mut lenders;
            let field = fields.lend(&vec![0xFF; rows.div_ceil(8) as usize]);
            (raw::read_window(files.lend(file), bin, first, rows, field), field.to_vec())
        });
        assert_eq!(answers[0], answers[1]);
        let [((answer, deleted, _), field), _] = answers;
        assert_eq!(deleted, field.iter().map(|byte| u64::from(byte.count_ones())).sum());
        (answer, deleted)
    };

    // An array, bits and a run, over the edge of two bitmaps in the 64-bit bin and of containers in both.
    for start in [0, BITMAP_ROWS - CONTAINER] {
        let array = (CONTAINER - 40..CONTAINER).step_by(3);
        let bits = (CONTAINER..2 * CONTAINER).filter(|row| row % 7 < 3);
        let run = 2 * CONTAINER..2 * CONTAINER + 70;
        let rows: Vec<u64> = array.chain(bits).chain(run).map(|row| start + row).collect();
        for form in [BitmapForm::WithoutRuns, BitmapForm::Smallest] {
            let mut bins = vec![bin_64(&rows, &form)];
            if start == 0 {
                bins.push(bin_32(&rows.iter().map(|row| *row as u32).collect::<Vec<_>>(), &form));
            }
            let file = file_of_bins(&bins);
            for bin in 0..bins.len() as u64 {
                for edge in [start + CONTAINER, start + 2 * CONTAINER] {
                    let ends = [edge, start + 2 * CONTAINER].map(|end| [end - 1, end, end + 1, end + 5, end + 67]);
                    for (first, end) in
                        (edge - 9..edge + 9).flat_map(|first| ends.concat().into_iter().map(move |end| (first, end)))
                    {
                        if first <= end {
                            let inside = rows.iter().filter(|row| (first..end).contains(row)).count() as u64;
                            assert_eq!(read(&file, bin, first, end - first), (raw::ACCEPTED, inside));
                        }
                    }
                }
            }
        }
    }

    let small = [
        bin_64(&[0, 2, 5, BITMAP_ROWS, BITMAP_ROWS + 1], &BitmapForm::Smallest),
        bin_32(&[1, 2, 3, 4, 9], &BitmapForm::Smallest),
    ];
    let whole = file_of_bins(&small);
    for end in 0..whole.len() {
        let (wide, narrow) = (read(&whole[..end], 0, 3, 13), read(&whole[..end], 1, 3, 13));
        // A cut between the two bins, or before both, leaves a file of fewer bins.
        assert!(narrow.0 != raw::ACCEPTED && (wide.0 == raw::ACCEPTED) == (end == file_of_bins(&small[..1]).len()));
    }
    const MAGIC_BYTES: usize = 4;
    for bin in &small {
        for end in MAGIC_BYTES..bin.len() {
            let file = file_of_bins(&[bin[..end].to_vec()]);
            for (first, rows) in [(3, 13), (BITMAP_ROWS - 3, 5), (0, 0)] {
                assert_eq!(read(&file, 0, first, rows), (BITMAP, 0), "cut at {end}");
            }
        }
    }
}

fn read_byte(which: &str) {
    let mut lender = Lender::guarded();
    // The first buffer lies at the end, the second at the beginning.
    let behind = lender.lend(&[7; 100]).as_ptr_range().end;
    let before = lender.lend(&[7; 100]).as_ptr().wrapping_sub(1);
    let byte = match which {
        "last" => behind.wrapping_sub(1),
        "first" => before.wrapping_add(1),
        "behind" => behind,
        "before" => before,
        _ => panic!("no byte is called {which}"),
    };
    // SAFETY: the first two are bytes of the lender's memory, which lives on. The other two lie in a guard, mapped and used
    // by nothing; reading there ends this program, which is what the test that started it expects.
    let byte = unsafe { byte.read_volatile() };
    assert_eq!(byte, 7);
}
