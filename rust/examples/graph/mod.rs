//! The picture `docs/graph.svg`: when was a pump in fault, drawn from the sound index of `demo/`, drawn from the one that lost a row as
//! a reader draws it that takes the bitmap it looks for, and not drawn, since the library refuses that index. The example `picture`
//! writes it, and the test `picture` compares it with the one in the repository.

use std::fmt::Write;

use poddurance::{ask_file, locate, Edition, Error, Literals, Question, RowField, Type};
use reference::roaring::Bitmap;

use crate::svg::{Svg, GREY, RED};

/// Rows 0 to 2 are the samples of pumps 1 to 3 in the first minute, and so on.
const PUMPS: u64 = 3;
const PUMP: u64 = 2;
const MINUTES: u64 = 8;

/// The rows with the state `fault`, as the library answers.
pub fn in_fault(index: &[u8]) -> Result<RowField, Error> {
    let fault = Literals::of(Type::String, ["fault"])?;
    let field = RowField::for_rows(PUMPS * MINUTES)?;
    let answer = ask_file(&[], index, "state", "bitmap", Edition::Second, Question::Equal, &fault, field)?;
    Ok(answer.expect("the demo files have an index on state").into_field())
}

/// The same rows, as a reader takes them that looks up the value, reads its bitmap and believes it. It knows version 1 alone, and no
/// null rows, which are all that the demo file with the lost row needs.
pub fn in_fault_as_it_stands(index: &[u8]) -> Option<Vec<u64>> {
    let body = locate(&[], index, "state", "bitmap").ok()??;
    let number = |at: usize| Some(u32::from_be_bytes(*body.get(at..)?.first_chunk()?));
    let (values, mut at, mut place) = (number(5)?, 10, None);
    for _ in 0..values {
        let length = number(at)? as usize;
        let value = body.get(at + 4..at + 4 + length)?;
        let offset = number(at + 4 + length)?;
        if value == b"fault" {
            place = Some(offset as usize);
        }
        at += 4 + length + 4;
    }
    let mut field = [0; (PUMPS * MINUTES / 8) as usize];
    Bitmap::parse(body.get(at + place?..)?).ok()?.place(&mut field);
    Some((0..PUMPS * MINUTES).filter(|row| field[*row as usize / 8] >> (row % 8) & 1 == 1).collect())
}

/// The minutes of the pump among these rows.
fn minutes(rows: impl IntoIterator<Item = u64>) -> Vec<u64> {
    rows.into_iter().filter(|row| row % PUMPS == PUMP - 1).map(|row| row / PUMPS).collect()
}

const WIDTH: u64 = 880;
const HEIGHT: u64 = 466;
const LEFT: u64 = 20;
const MINUTE: u64 = 105;
const TRACK: u64 = 64;
const FAULT: &str = "#cf222e";
const REFUSED: &str = "#8a5a00";
const TITLE: &str = "A lost row is a refusal, never a silently wrong graph";
const DESCRIPTION: &str =
    "Three graphs of one pump. From the sound index it is in fault for three minutes. From an index that lost a row another \
                           reader draws two, and nothing says so. Asked through Poddurance the same index is refused.";

/// The picture, from the bytes of a sound index and of one that lost a row.
pub fn svg(sound: &[u8], lost: &[u8]) -> String {
    let truth = minutes(&in_fault(sound).expect("the index is sound"));
    let drawn = minutes(in_fault_as_it_stands(lost).expect("the bitmap is well formed"));
    let gone: Vec<u64> = truth.iter().copied().filter(|minute| !drawn.contains(minute)).collect();
    let refusal = in_fault(lost).expect_err("the index that lost a row is refused");

    let mut svg = Svg::new(WIDTH, HEIGHT, TITLE, DESCRIPTION);
    svg.text(LEFT, 30, "size=22 weight=bold", &format!("When was pump {PUMP} in fault?"));

    let top = 76;
    svg.heading(top, "The index is sound:", "demo/pumps-v2.index");
    svg.graph(top + 14, &truth);

    let top = top + 146;
    svg.heading(top, "The index lost a row. Another reader draws:", "demo/pumps-row-lost.index");
    svg.graph(top + 14, &drawn);
    for minute in &gone {
        svg.lost(top + 14, *minute);
    }
    // To the right of what is lost there is room: the pump is in fault no more.
    let beside = LEFT + MINUTE * (gone.iter().max().expect("a row is lost") + 1) + 14;
    svg.text(beside, top + 41, "size=16 weight=bold fill=red", "The fault ends early,");
    svg.text(beside, top + 62, "size=16 weight=bold fill=red", "and nothing says so.");

    let top = top + 146;
    svg.heading(top, "The same index, asked through Poddurance:", "demo/pumps-row-lost.index");
    svg.refused(top + 14, &format!("refused: {refusal}"));
    svg.end()
}

impl Svg {
    /// What is drawn, and the file that it is drawn from.
    fn heading(&mut self, y: u64, text: &str, file: &str) {
        self.text(LEFT, y, "size=18 weight=bold", text);
        self.text(LEFT + MINUTE * MINUTES, y, "size=14 anchor=end family=mono", file);
    }

    /// A line that is up in the minutes of a fault, and the minutes below it.
    fn graph(&mut self, top: u64, faults: &[u64]) {
        let bottom = top + TRACK;
        for minute in 0..=MINUTES {
            let x = LEFT + MINUTE * minute;
            self.put(&format!("<path d=\"M{x} {bottom}V{}\" stroke=\"{GREY}\" stroke-width=\"2\"/>", bottom + 8));
            if minute < MINUTES {
                self.text(x + 5, bottom + 19, "size=14", &format!("10:{minute:02}"));
            }
        }
        for minute in faults {
            let x = LEFT + MINUTE * minute;
            // A gap on both sides, so that the minutes can be counted.
            let width = MINUTE - 2;
            self.put(&format!("<rect x=\"{}\" y=\"{top}\" width=\"{width}\" height=\"{TRACK}\" fill=\"{FAULT}\"/>", x + 1));
            self.text(x + MINUTE / 2, top + 40, "size=18 weight=bold fill=white anchor=middle", "fault");
        }
        let mut line = format!("M{LEFT} {bottom}");
        for minute in 0..MINUTES {
            let level = if faults.contains(&minute) { top } else { bottom };
            write!(line, "V{level}H{}", LEFT + MINUTE * (minute + 1)).expect("a string can be written");
        }
        self.put(&format!("<path d=\"{line}\" fill=\"none\" stroke=\"{GREY}\" stroke-width=\"3\"/>"));
    }

    /// A minute of fault that isn't there.
    fn lost(&mut self, top: u64, minute: u64) {
        let x = LEFT + MINUTE * minute;
        let (width, height) = (MINUTE - 6, TRACK - 6);
        self.put(&format!(
            "<rect x=\"{}\" y=\"{}\" width=\"{width}\" height=\"{height}\" fill=\"none\" stroke=\"{RED}\" stroke-width=\"2\" stroke-dasharray=\"7 5\"/>",
            x + 3,
            top + 1
        ));
        self.text(x + MINUTE / 2, top + 37, "size=18 weight=bold fill=red anchor=middle", "lost");
    }

    /// What is said in the place of a graph.
    fn refused(&mut self, top: u64, answer: &str) {
        let width = MINUTE * MINUTES;
        self.put(&format!("<rect x=\"{LEFT}\" y=\"{top}\" width=\"{width}\" height=\"{TRACK}\" rx=\"6\" fill=\"{REFUSED}\"/>"));
        self.text(LEFT + width / 2, top + 29, "size=20 weight=bold fill=white anchor=middle family=mono", answer);
        self.text(LEFT + width / 2, top + 52, "size=16 fill=white anchor=middle", "so no wrong graph is drawn");
    }
}
