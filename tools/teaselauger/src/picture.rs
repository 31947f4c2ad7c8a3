//! The elements of an SVG picture. Text is set in a font of fixed width, so that its width is known.

/// Of a letter, by the font's size.
const LETTER: f64 = 0.62;

#[derive(Default)]
pub struct Picture {
    body: String,
}

pub fn text_width(text: &str, size: f64) -> f64 {
    text.chars().count() as f64 * size * LETTER
}

pub fn escaped(text: &str) -> String {
    let mut out = String::new();
    for c in text.chars() {
        match c {
            '&' => out += "&amp;",
            '<' => out += "&lt;",
            '>' => out += "&gt;",
            '"' => out += "&quot;",
            c if c.is_control() => out.push(' '),
            c => out.push(c),
        }
    }
    out
}

impl Picture {
    pub fn rect(&mut self, class: &str, at: (f64, f64), size: (f64, f64)) {
        let ((x, y), (width, height)) = (at, size);
        self.body += &format!("<rect class=\"{class}\" x=\"{x:.1}\" y=\"{y:.1}\" width=\"{width:.1}\" height=\"{height:.1}\"/>\n");
    }

    /// A rectangle with something to read when it is pointed at.
    pub fn told_rect(&mut self, class: &str, at: (f64, f64), size: (f64, f64), told: &str) {
        let ((x, y), (width, height), told) = (at, size, escaped(told));
        self.body += &format!(
            "<rect class=\"{class}\" x=\"{x:.1}\" y=\"{y:.1}\" width=\"{width:.1}\" height=\"{height:.1}\" rx=\"3\"><title>{told}</title></rect>\n"
        );
    }

    /// With the end of its base line at the left (start), in the middle or at the right (end).
    pub fn text(&mut self, class: &str, at: (f64, f64), size: f64, anchor: &str, text: &str) {
        let ((x, y), text) = (at, escaped(text));
        self.body += &format!(
            "<text class=\"{class}\" x=\"{x:.1}\" y=\"{y:.1}\" font-size=\"{size}\" text-anchor=\"{anchor}\">{text}</text>\n"
        );
    }

    pub fn line(&mut self, class: &str, from: (f64, f64), to: (f64, f64), style: &str) {
        let ((x1, y1), (x2, y2)) = (from, to);
        self.body += &format!("<line class=\"{class}\" x1=\"{x1:.1}\" y1=\"{y1:.1}\" x2=\"{x2:.1}\" y2=\"{y2:.1}\"{style}/>\n");
    }

    pub fn circle(&mut self, class: &str, at: (f64, f64), radius: f64, style: &str) {
        let (x, y) = at;
        self.body += &format!("<circle class=\"{class}\" cx=\"{x:.1}\" cy=\"{y:.1}\" r=\"{radius}\"{style}/>\n");
    }

    /// A triangle that points to the right, its tip there.
    pub fn head(&mut self, tip: (f64, f64), style: &str) {
        let (x, y) = tip;
        self.body += &format!("<path class=\"head\" d=\"M{x:.1} {y:.1} l-5 -3 v6 z\"{style}/>\n");
    }

    pub fn cross(&mut self, class: &str, at: (f64, f64)) {
        let (x, y) = at;
        self.body += &format!("<path class=\"{class}\" d=\"M{:.1} {:.1} l6 6 m0 -6 l-6 6\"/>\n", x - 3.0, y - 3.0);
    }

    /// The whole file.
    pub fn file(&self, size: (f64, f64), title: &str, style: &str) -> String {
        let (width, height) = size;
        format!(
            "<svg xmlns=\"http://www.w3.org/2000/svg\" viewBox=\"0 0 {width:.1} {height:.1}\" width=\"{width:.1}\" height=\"{height:.1}\" \
             font-family=\"DejaVu Sans Mono, Menlo, Consolas, monospace\">\n<title>{}</title>\n<style>\n{style}</style>\n{}</svg>\n",
            escaped(title),
            self.body
        )
    }
}
