//! The plot `docs/speed.svg`: how long calls of both readers take against the number of rows, both axes logarithmic, so that what is
//! proportional to the rows is a line of slope 1. The benchmark `speed` writes it, and the test `picture` tests how it is drawn.

use std::time::Duration;

use crate::svg::{Svg, GREY};

/// The times of one call over inputs of more and more rows.
pub struct Series {
    pub call: &'static str,
    pub points: Vec<Point>,
}

pub struct Point {
    pub rows: u32,
    pub library: Duration,
    pub reference: Duration,
}

const TITLE: &str = "Time against rows";
const DESCRIPTION: &str =
    "Two plots of time against rows with logarithmic axes, for Audit and for Ask EQUAL. The times of the library and of \
                           the reference reader lie along a line that is proportional to the number of rows.";

const WIDTH: u64 = 880;
const HEIGHT: u64 = 434;
const LEFT: u64 = 20;
// The plots stand side by side, each with its times to the left and its direct labels to the right.
const BESIDE: u64 = 434;
const PLOT_LEFT: u64 = 78;
const PLOT_TOP: u64 = 140;
const PLOT_WIDTH: u64 = 216;
const PLOT_HEIGHT: u64 = 240;
const PLOT_BOTTOM: u64 = PLOT_TOP + PLOT_HEIGHT;
/// Labels of two lines that end close to each other are kept so far apart.
const LABEL_HEIGHT: f64 = 17.0;

const LIBRARY: &str = "#1f7ae0";
const REFERENCE: &str = "#c25e10";

/// The plot, one panel for each call. Each has points, and all are scaled alike.
pub fn svg(what: &str, panels: &[Series]) -> String {
    let points = || panels.iter().flat_map(|series| &series.points);
    let rows = Decades::around(points().map(|point| f64::from(point.rows)));
    let seconds = Decades::around(points().flat_map(|point| [point.library, point.reference]).map(|time| time.as_secs_f64()));

    let mut svg = Svg::new(WIDTH, HEIGHT, TITLE, DESCRIPTION);
    svg.text(LEFT, 30, "size=22 weight=bold", &format!("{TITLE}: {what}"));
    svg.legend(60);
    for (i, series) in panels.iter().enumerate() {
        let panel = Panel { left: BESIDE * i as u64 + PLOT_LEFT, rows, seconds };
        svg.axes(&panel, series.call);
        svg.proportional(&panel, series);
        svg.line(&panel, series, |point| point.reference, REFERENCE);
        svg.line(&panel, series, |point| point.library, LIBRARY);
        svg.end_labels(&panel, series);
    }
    svg.end()
}

/// The powers of ten that an axis goes from and to.
#[derive(Clone, Copy)]
struct Decades {
    first: i32,
    last: i32,
}

impl Decades {
    fn around(numbers: impl Iterator<Item = f64>) -> Decades {
        let (least, most) = numbers.fold((f64::MAX, 0.0_f64), |(least, most), number| (least.min(number), most.max(number)));
        let first = least.log10().floor() as i32;
        Decades { first, last: (most.log10().ceil() as i32).max(first + 1) }
    }

    fn all(self) -> impl Iterator<Item = i32> {
        self.first..=self.last
    }

    /// Where a number lies, 0 at the first power of ten and 1 at the last.
    fn share(self, number: f64) -> f64 {
        (number.log10() - f64::from(self.first)) / f64::from(self.last - self.first)
    }
}

/// One plot's place and its axes.
struct Panel {
    left: u64,
    rows: Decades,
    seconds: Decades,
}

impl Panel {
    fn x(&self, rows: f64) -> f64 {
        self.left as f64 + PLOT_WIDTH as f64 * self.rows.share(rows)
    }

    fn y(&self, seconds: f64) -> f64 {
        PLOT_BOTTOM as f64 - PLOT_HEIGHT as f64 * self.seconds.share(seconds)
    }

    fn place(&self, rows: u32, time: Duration) -> (f64, f64) {
        (self.x(rows.into()), self.y(time.as_secs_f64()))
    }
}

fn most_rows(series: &Series) -> &Point {
    series.points.iter().max_by_key(|point| point.rows).expect("a call has points")
}

impl Svg {
    /// A dot within a ring shows both where they lie on each other.
    fn dot(&mut self, (x, y): (f64, f64), colour: &str) {
        let form = match colour {
            LIBRARY => format!("r=\"3.5\" fill=\"{colour}\""),
            _ => format!("r=\"6\" fill=\"none\" stroke=\"{colour}\" stroke-width=\"2\""),
        };
        self.put(&format!("<circle cx=\"{x:.1}\" cy=\"{y:.1}\" {form}/>"));
    }

    fn stroke(&mut self, path: &str, form: &str) {
        self.put(&format!("<path d=\"{path}\" fill=\"none\" {form}/>"));
    }

    fn legend(&mut self, y: u64) {
        let middle = y - 5;
        let mut x = LEFT + 16;
        for (colour, text, length) in [(LIBRARY, "library", 124), (REFERENCE, "reference reader", 200)] {
            self.stroke(&format!("M{} {middle}H{}", x - 16, x + 16), &format!("stroke=\"{colour}\" stroke-width=\"2\""));
            self.dot((x as f64, middle as f64), colour);
            self.text(x + 24, y, &format!("size=16 fill={colour}"), text);
            x += length;
        }
        self.stroke(&format!("M{} {middle}H{}", x - 16, x + 16), &band());
        self.text(x + 24, y, "size=16", "proportional to the number of rows");
    }

    /// A thin line for each power of ten of both axes, with its number and unit.
    fn axes(&mut self, panel: &Panel, call: &str) {
        let (left, right) = (panel.left, panel.left + PLOT_WIDTH);
        self.text(left, PLOT_TOP - 36, "size=18 weight=bold", call);
        let thin = format!("stroke=\"{GREY}\" stroke-width=\"1\" stroke-opacity=\"0.35\"");
        for power in panel.rows.all() {
            let x = panel.x(10_f64.powi(power)).round() as u64;
            self.stroke(&format!("M{x} {PLOT_TOP}V{PLOT_BOTTOM}"), &thin);
            self.text(x, PLOT_BOTTOM + 20, "size=13 anchor=middle", &rows_shown(power));
        }
        self.text((left + right) / 2, PLOT_BOTTOM + 42, "size=14 weight=bold anchor=middle", "rows");
        for power in panel.seconds.all() {
            let y = panel.y(10_f64.powi(power)).round() as u64;
            self.stroke(&format!("M{left} {y}H{right}"), &thin);
            self.text(left - 8, y + 5, "size=13 anchor=end", &seconds_shown(10_f64.powi(power)));
        }
        self.text(left - 8, PLOT_TOP - 15, "size=14 weight=bold anchor=end", "time");
        self.stroke(&format!("M{left} {PLOT_TOP}V{PLOT_BOTTOM}H{right}"), &format!("stroke=\"{GREY}\" stroke-width=\"2\""));
    }

    /// The line on which each row takes the library's median time for a row.
    fn proportional(&mut self, panel: &Panel, series: &Series) {
        let mut each: Vec<f64> = series.points.iter().map(|point| point.library.as_secs_f64() / f64::from(point.rows)).collect();
        each.sort_by(f64::total_cmp);
        let each = each[each.len() / 2];
        // From where it enters the plot, below or to the left, to where it leaves it.
        let from = 10_f64.powi(panel.rows.first).max(10_f64.powi(panel.seconds.first) / each);
        let to = 10_f64.powi(panel.rows.last).min(10_f64.powi(panel.seconds.last) / each);
        let [from, to] = [from, to].map(|rows| format!("{:.1} {:.1}", panel.x(rows), panel.y(rows * each)));
        self.stroke(&format!("M{from}L{to}"), &band());
    }

    fn line(&mut self, panel: &Panel, series: &Series, time: fn(&Point) -> Duration, colour: &str) {
        let places: Vec<(f64, f64)> = series.points.iter().map(|point| panel.place(point.rows, time(point))).collect();
        let corners: Vec<String> = places.iter().map(|(x, y)| format!("{x:.1} {y:.1}")).collect();
        self.stroke(&format!("M{}", corners.join("L")), &format!("stroke=\"{colour}\" stroke-width=\"1.5\""));
        for place in places {
            self.dot(place, colour);
        }
    }

    /// What both take at the most rows, beside the points and apart from each other.
    fn end_labels(&mut self, panel: &Panel, series: &Series) {
        let last = most_rows(series);
        let (x, library) = panel.place(last.rows, last.library);
        let (_, reference) = panel.place(last.rows, last.reference);
        let middle = (library + reference) / 2.0;
        let apart = ((library - reference).abs() / 2.0).max(LABEL_HEIGHT / 2.0);
        let (library, reference) = match library <= reference {
            true => (middle - apart, middle + apart),
            false => (middle + apart, middle - apart),
        };
        for (y, reader, time, colour) in
            [(library, "library", last.library, LIBRARY), (reference, "reference", last.reference, REFERENCE)]
        {
            let text = format!("{reader} {}", seconds_shown(time.as_secs_f64()));
            self.text(x.round() as u64 + 12, y.round() as u64 + 5, &format!("size=14 fill={colour}"), &text);
        }
    }
}

/// Wide and faint, so that it shows on both sides of the lines that lie on it.
fn band() -> String {
    format!("stroke=\"{GREY}\" stroke-width=\"16\" stroke-opacity=\"0.25\"")
}

/// A power of ten as a number of rows.
fn rows_shown(power: i32) -> String {
    match power {
        ..4 => 10_f64.powi(power).to_string(),
        4..6 => format!("{},000", 10_u32.pow(power as u32 - 3)),
        _ => format!("{} million", 10_u32.pow(power as u32 - 6)),
    }
}

/// A time in the unit that fits, with three digits where it isn't a power of ten.
fn seconds_shown(seconds: f64) -> String {
    let (unit, number) = match seconds {
        ..0.999e-6 => ("ns", seconds * 1e9),
        ..0.999e-3 => ("µs", seconds * 1e6),
        ..0.999 => ("ms", seconds * 1e3),
        _ => ("s", seconds),
    };
    let whole = (number - number.round()).abs() < 1e-6;
    let digits = if whole || number >= 99.5 { 0 } else { 1 + usize::from(number < 9.95) };
    format!("{number:.digits$} {unit}")
}
