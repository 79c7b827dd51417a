//! Pictures as text, a line for each shape. Colours are of a middle lightness, which shows on white and on black. Letters on a filled shape
//! are white.

use std::fmt::Write;

pub const GREY: &str = "#767b83";
pub const RED: &str = "#e5484d";

pub struct Svg(String);

impl Svg {
    /// A picture of that width and height; title and description are for those who can't see it.
    pub fn new(width: u64, height: u64, title: &str, description: &str) -> Svg {
        let mut svg = Svg(String::new());
        svg.put(&format!(
            "<svg xmlns=\"http://www.w3.org/2000/svg\" viewBox=\"0 0 {width} {height}\" width=\"{width}\" height=\"{height}\" role=\"img\" \
             font-family=\"system-ui, -apple-system, 'Segoe UI', 'DejaVu Sans', Helvetica, Arial, sans-serif\">"
        ));
        svg.put(&format!("<title>{title}</title>"));
        svg.put(&format!("<desc>{description}</desc>"));
        svg
    }

    pub fn put(&mut self, line: &str) {
        self.0.push_str(line);
        self.0.push('\n');
    }

    /// The form is a list of size, weight, fill, anchor, family and turn (in degrees, about the text's place).
    pub fn text(&mut self, x: u64, y: u64, form: &str, text: &str) {
        let mut fill = GREY;
        let mut attributes = String::new();
        for (name, value) in form.split(' ').filter_map(|part| part.split_once('=')) {
            match (name, value) {
                ("fill", "red") => fill = RED,
                ("fill", "white") => fill = "#ffffff",
                ("fill", _) => fill = value,
                ("anchor", _) => write!(attributes, " text-anchor=\"{value}\"").expect("a string can be written"),
                ("turn", _) => write!(attributes, " transform=\"rotate({value} {x} {y})\"").expect("a string can be written"),
                ("family", _) => {
                    attributes
                        .push_str(" font-family=\"ui-monospace, 'SF Mono', Menlo, Consolas, 'DejaVu Sans Mono', monospace\"");
                }
                _ => write!(attributes, " font-{name}=\"{value}\"").expect("a string can be written"),
            }
        }
        let text = text.replace('&', "&amp;").replace('<', "&lt;");
        self.put(&format!("<text x=\"{x}\" y=\"{y}\" fill=\"{fill}\"{attributes}>{text}</text>"));
    }

    pub fn end(mut self) -> String {
        self.put("</svg>");
        self.0
    }
}
