//! The elements of a plot.

use crate::text::html;
use std::fmt::Write;

pub const WIDTH: f64 = 820.0;
/// The width of a character.
pub const CHARACTER: f64 = 6.2;

/// What a plot is about: a name for its parts, a title, a description for who does not see it.
pub struct About<'a> {
    pub id: &'a str,
    pub title: &'a str,
    pub description: &'a str,
}

/// A plot, element by element.
pub struct Svg(String);

impl Svg {
    pub fn start(about: &About, height: f64) -> Svg {
        let About {
            id,
            title,
            description,
        } = about;
        let (title, description) = (html(title), html(description));
        Svg(format!(
            "<svg viewBox=\"0 0 {WIDTH} {height}\" role=\"img\" aria-labelledby=\"{id}-title {id}-description\">\n\
             <title id=\"{id}-title\">{title}</title>\n<desc id=\"{id}-description\">{description}</desc>\n"
        ))
    }

    pub fn line(&mut self, class: &str, from: (f64, f64), to: (f64, f64)) {
        let ((x1, y1), (x2, y2)) = (from, to);
        self.add(format_args!(
            "<line class=\"{class}\" x1=\"{x1:.1}\" y1=\"{y1:.1}\" x2=\"{x2:.1}\" y2=\"{y2:.1}\"/>"
        ));
    }

    pub fn text(&mut self, class: &str, (x, y): (f64, f64), text: &str) {
        let text = html(text);
        self.add(format_args!(
            "<text class=\"{class}\" x=\"{x:.1}\" y=\"{y:.1}\">{text}</text>"
        ));
    }

    /// A rectangle with what a browser shows of it when it is pointed at.
    pub fn rectangle(&mut self, (x, y): (f64, f64), (width, height): (f64, f64), title: &str) {
        let title = html(title);
        self.add(format_args!(
            "<rect x=\"{x:.1}\" y=\"{y:.1}\" width=\"{width:.1}\" height=\"{height:.1}\"><title>{title}</title></rect>"
        ));
    }

    fn add(&mut self, element: std::fmt::Arguments) {
        self.0.write_fmt(element).expect("a string takes all");
        self.0.push('\n');
    }

    pub fn end(self) -> String {
        self.0 + "</svg>\n"
    }
}
