//! The picture `docs/graph.svg` is what the example `picture` makes, and shows what it says; the plot `docs/speed.svg`, which the benchmark
//! draws, has a point for each time. Both are readable on light and on dark.

#[path = "../examples/graph/mod.rs"]
mod graph;
#[path = "../benches/plot/mod.rs"]
mod plot;
#[path = "../examples/svg/mod.rs"]
mod svg;

use std::fs;
use std::path::{Path, PathBuf};
use std::time::Duration;

use poddurance::{Error, Refusal};

fn root() -> PathBuf {
    Path::new(env!("CARGO_MANIFEST_DIR")).join("..")
}

fn demo(name: &str) -> Vec<u8> {
    fs::read(root().join("demo").join(name)).unwrap()
}

fn picture() -> String {
    graph::svg(&demo("pumps-v2.index"), &demo("pumps-row-lost.index"))
}

#[test]
fn it_is_as_made() {
    let there = fs::read_to_string(root().join("docs/graph.svg")).unwrap();
    assert!(there == picture(), "docs/graph.svg is not what the example picture makes");
}

/// The reader that takes what stands there is right about sound indexes, so that the lost row is all that it is wrong about.
#[test]
fn it_shows_what_happens() {
    let read = |name| graph::in_fault_as_it_stands(&demo(name));
    assert!(graph::in_fault(&demo("pumps-v1.index")).unwrap().iter().eq([10, 13, 16]));
    assert!(graph::in_fault(&demo("pumps-v2.index")).unwrap().iter().eq([10, 13, 16]));
    assert_eq!(read("pumps-v1.index"), Some(vec![10, 13, 16]));
    assert_eq!(read("pumps-row-lost.index"), Some(vec![10, 13]));
    assert_eq!(graph::in_fault(&demo("pumps-row-lost.index")), Err(Error::Refused(Refusal::Missing { row: 16 })));

    let picture = picture();
    let count = |text: &str| picture.matches(text).count();
    assert_eq!((count(">fault</text>"), count(">lost</text>")), (3 + 2, 1));
    assert_eq!(count(">refused: MISSING (9), a row never placed: row 16</text>"), 1);
}

/// The contrast of two colours, 1 to 21, as the web's rules on contrast have it.
fn contrast(one: &str, other: &str) -> f64 {
    let lightness = |colour: &str| {
        let part = |at: usize| f64::from(u8::from_str_radix(&colour[at..at + 2], 16).unwrap()) / 255.0;
        let linear = |part: f64| if part <= 0.04045 { part / 12.92 } else { ((part + 0.055) / 1.055).powf(2.4) };
        0.2126 * linear(part(1)) + 0.7152 * linear(part(3)) + 0.0722 * linear(part(5)) + 0.05
    };
    let (one, other) = (lightness(one), lightness(other));
    one.max(other) / one.min(other)
}

/// The colour that a line of the picture gives to `fill` or `stroke`.
fn colour(line: &str, name: &str) -> Option<String> {
    line.split_once(&format!("{name}=\"#")).map(|(_, rest)| format!("#{}", &rest[..6]))
}

#[test]
fn it_is_readable_on_light_and_on_dark() {
    let picture = picture();
    // A background of its own would hide the page's; letters that aren't white stand on the page, white ones on a filled shape.
    assert!(!picture.contains("<style") && !picture.contains("background"));
    let mut seen = 0;
    for line in picture.lines() {
        let letters = colour(line, "fill").filter(|_| line.starts_with("<text"));
        let shape = colour(line, "fill").filter(|_| line.starts_with("<rect"));
        match (letters.as_deref(), shape) {
            (Some("#ffffff"), _) => {}
            (Some(letters), _) => {
                // Large or bold, so that 3 would do, and both are far above it.
                assert!(contrast(letters, "#ffffff") > 3.8 && contrast(letters, "#0d1117") > 3.8, "{line}");
            }
            (None, Some(shape)) => {
                assert!(contrast(&shape, "#ffffff") > 4.5, "white letters on it: {line}");
                assert!(contrast(&shape, "#0d1117") > 3.0, "{line}");
            }
            (None, None) => continue,
        }
        seen += 1;
    }
    assert!(seen > 30, "{seen} letters and shapes");
}

// The plot

/// Times that are proportional to the rows, so that the library takes 2 ns for each and the reference reader 1.
fn proportional(call: &'static str, rows: &[u32]) -> plot::Series {
    let time = |nanoseconds: u32| Duration::from_nanos(nanoseconds.into());
    let point = |rows: &u32| plot::Point { rows: *rows, library: time(2 * rows), reference: time(*rows) };
    plot::Series { call, points: rows.iter().map(point).collect() }
}

/// What stands between the quotes behind a name, once for each line that has it.
fn numbers(picture: &str, name: &str) -> Vec<f64> {
    let behind = |line: &str| line.split_once(&format!(" {name}=\"")).map(|(_, rest)| rest.split('"').next().map(str::parse));
    picture.lines().filter_map(behind).flatten().map(|number| number.expect("a number")).collect()
}

#[test]
fn the_plot_has_a_point_for_each_time() {
    let rows = [10_000, 100_000, 1_000_000];
    let plot = plot::svg("two calls", &[proportional("Audit", &rows), proportional("Ask", &rows)]);
    let circles: String = plot.lines().filter(|line| line.starts_with("<circle")).map(|line| format!("{line}\n")).collect();
    // Two in the legend, and in each panel the reference reader's before the library's.
    let (x, y) = (numbers(&circles, "cx"), numbers(&circles, "cy"));
    assert_eq!((x.len(), y.len()), (2 + 4 * rows.len(), 2 + 4 * rows.len()));
    for points in 0..4 {
        let from = 2 + points * rows.len();
        let steps = |numbers: &[f64]| [numbers[from + 1] - numbers[from], numbers[from + 2] - numbers[from + 1]];
        let ([right, right_again], [up, up_again]) = (steps(&x), steps(&y));
        // Ten times as many rows are as far to the right, and take ten times as long, each time.
        assert!(right > 20.0 && (right - right_again).abs() < 0.2, "{x:?}");
        assert!(up < -20.0 && (up - up_again).abs() < 0.2, "{y:?}");
    }
    for label in
        [">Audit<", ">Ask<", ">rows<", ">time<", ">10,000<", ">1 million<", ">10 µs<", ">library 2 ms<", ">reference 1 ms<"]
    {
        assert!(plot.contains(label), "{label}");
    }
}

/// Every shape ends where it begins, but for the picture, title, description and texts, which end on their own line or the last.
fn is_well_formed(picture: &str) -> bool {
    let lines: Vec<&str> = picture.lines().collect();
    let [first, inner @ .., last] = &lines[..] else {
        return false;
    };
    let ends = |line: &str, name: &str| line.starts_with(&format!("<{name}")) && line.ends_with(&format!("</{name}>"));
    let is_whole = |line: &str| match line.matches('<').count() {
        1 => line.starts_with('<') && line.ends_with("/>"),
        2 => ["title", "desc", "text"].iter().any(|name| ends(line, name)),
        _ => false,
    };
    let even_quotes = lines.iter().all(|line| line.matches('"').count() % 2 == 0);
    first.starts_with("<svg ") && *last == "</svg>" && inner.iter().all(|line| is_whole(line)) && even_quotes
}

#[test]
fn the_plot_is_readable_on_light_and_on_dark() {
    let made = plot::svg("a < b & c", &[proportional("Audit", &[1, 1_000_000_000])]);
    let there = fs::read_to_string(root().join("docs/speed.svg")).unwrap();
    for plot in [made, there] {
        assert!(is_well_formed(&plot), "{plot}");
        assert!(!plot.contains("<style") && !plot.contains("background"));
        let colours: Vec<String> =
            plot.lines().flat_map(|line| [colour(line, "fill"), colour(line, "stroke")]).flatten().collect();
        assert!(colours.len() > 30, "{} coloured lines", colours.len());
        for colour in colours {
            assert!(contrast(&colour, "#ffffff") > 3.8 && contrast(&colour, "#0d1117") > 3.8, "{colour}");
        }
    }
    assert!(is_well_formed(&picture()));
}
