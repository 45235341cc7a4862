//! A picture as SVG text: black and greys, and a colour for each ribbon where there are several; text as text.
//!
//! Coordinates are printed as whole hundredths, so that the file is the same on every machine.

use crate::plane::{p, P};

/// A stroke.
#[derive(Clone, Copy)]
pub struct Pen {
    pub width: f64,
    pub colour: &'static str,
    pub dash: &'static str,
    /// A white core of this width makes a double line of it.
    pub core: f64,
}

pub const BLACK: &str = "#000";
pub const GREY: &str = "#777";
pub const LIGHT: &str = "#bbb";
pub const WHITE: &str = "#fff";

pub const fn pen(width: f64, colour: &'static str) -> Pen {
    Pen { width, colour, dash: "", core: 0.0 }
}

impl Pen {
    pub const fn dashed(self, dash: &'static str) -> Pen {
        Pen { dash, ..self }
    }

    pub const fn double(self, core: f64) -> Pen {
        Pen { core, ..self }
    }
}

/// Where a text stands against its point.
#[derive(Clone, Copy)]
pub enum Anchor {
    Start,
    Middle,
    End,
}

pub struct Picture {
    width: f64,
    height: f64,
    title: String,
    about: String,
    body: String,
}

impl Picture {
    pub fn new(width: f64, height: f64, title: &str, about: &str) -> Picture {
        Picture { width, height, title: title.to_string(), about: about.to_string(), body: String::new() }
    }

    pub fn written(&self) -> String {
        let (w, h) = (hundredths(self.width), hundredths(self.height));
        let (title, about) = (escaped(&self.title), escaped(&self.about));
        format!(
            "<svg xmlns=\"http://www.w3.org/2000/svg\" role=\"img\" width=\"{w}\" height=\"{h}\" viewBox=\"0 0 {w} {h}\" \
             font-family=\"DejaVu Sans, Verdana, Arial, sans-serif\" fill=\"none\" stroke-linejoin=\"round\">\n\
             <title>{title}</title>\n<desc>{about}</desc>\n\
             <rect width=\"{w}\" height=\"{h}\" fill=\"#fff\"/>\n{}</svg>\n",
            self.body
        )
    }

    /// Nothing may be cut off at the picture's edge.
    fn inside(&self, at: P) {
        let (x, y) = (at.x, at.y);
        assert!(
            (0.0..=self.width).contains(&x) && (0.0..=self.height).contains(&y),
            "{}: {x}, {y} is outside",
            self.title
        );
    }

    fn add(&mut self, element: String) {
        self.body += &element;
        self.body.push('\n');
    }

    pub fn path(&mut self, points: &[P], pen: Pen) {
        points.iter().for_each(|&q| self.inside(q));
        if points.len() > 1 {
            let joined: Vec<String> = points.iter().map(|q| pair(*q)).collect();
            self.stroke(&format!("M{}", joined.join("L")), pen);
        }
    }

    fn stroke(&mut self, d: &str, pen: Pen) {
        let dash = if pen.dash.is_empty() { String::new() } else { format!(" stroke-dasharray=\"{}\"", pen.dash) };
        let width = hundredths(pen.width);
        self.add(format!("<path d=\"{d}\" stroke=\"{}\" stroke-width=\"{width}\"{dash}/>", pen.colour));
        if pen.core > 0.0 {
            self.add(format!("<path d=\"{d}\" stroke=\"{WHITE}\" stroke-width=\"{}\"/>", hundredths(pen.core)));
        }
    }

    pub fn line(&mut self, a: P, b: P, pen: Pen) {
        self.path(&[a, b], pen);
    }

    /// A line or curve with an arrow's head at its end.
    pub fn arrow(&mut self, points: &[P], pen: Pen) {
        let n = points.len();
        self.path(points, pen);
        self.head(points[n - 1], (points[n - 1] - points[n - 2]).unit(), pen.width, pen.colour);
    }

    /// An arrow's head whose tip lies a little past the point.
    pub fn head(&mut self, at: P, way: P, width: f64, colour: &str) {
        let size = 5.0 + 2.0 * width;
        let (tip, back) = (at + way * (0.6 * size), at - way * (0.4 * size));
        let (a, b) = (back + way.left() * (0.4 * size), back - way.left() * (0.4 * size));
        self.add(format!("<path d=\"M{}L{}L{}Z\" fill=\"{colour}\"/>", pair(tip), pair(a), pair(b)));
    }

    pub fn disc(&mut self, centre: P, radius: f64, fill: &str, edge: Pen) {
        self.add(format!(
            "<circle cx=\"{}\" cy=\"{}\" r=\"{}\" fill=\"{fill}\" stroke=\"{}\" stroke-width=\"{}\"/>",
            hundredths(centre.x),
            hundredths(centre.y),
            hundredths(radius),
            edge.colour,
            hundredths(edge.width)
        ));
    }

    pub fn frame(&mut self, at: P, width: f64, height: f64, fill: &str, edge: Pen) {
        self.add(format!(
            "<rect x=\"{}\" y=\"{}\" width=\"{}\" height=\"{}\" fill=\"{fill}\" stroke=\"{}\" stroke-width=\"{}\"/>",
            hundredths(at.x),
            hundredths(at.y),
            hundredths(width),
            hundredths(height),
            edge.colour,
            hundredths(edge.width)
        ));
    }

    /// A line of text; its baseline begins, is centred or ends at the point.
    pub fn text(&mut self, at: P, anchor: Anchor, size: f64, words: &str) {
        self.put_text(at, anchor, size, words, "");
    }

    pub fn bold(&mut self, at: P, anchor: Anchor, size: f64, words: &str) {
        self.put_text(at, anchor, size, words, " font-weight=\"bold\"");
    }

    /// A line of letters of one width, as a program prints it.
    pub fn typed(&mut self, at: P, anchor: Anchor, size: f64, words: &str) {
        self.put_text(at, anchor, size, words, " font-family=\"DejaVu Sans Mono, Consolas, monospace\"");
    }

    /// A short text centred on a point, in height too.
    pub fn label(&mut self, at: P, size: f64, words: &str) {
        self.text(at + p(0.0, 0.36 * size), Anchor::Middle, size, words);
    }

    pub fn bold_label(&mut self, at: P, size: f64, words: &str) {
        self.bold(at + p(0.0, 0.36 * size), Anchor::Middle, size, words);
    }

    fn put_text(&mut self, at: P, anchor: Anchor, size: f64, words: &str, more: &str) {
        // A letter is at most 0.6 of its size wide, on average.
        let wide = 0.6 * size * words.chars().count() as f64;
        let (anchor, start) = match anchor {
            Anchor::Start => ("start", 0.0),
            Anchor::Middle => ("middle", -wide / 2.0),
            Anchor::End => ("end", -wide),
        };
        self.inside(at + p(start, -size));
        self.inside(at + p(start + wide, 0.3 * size));
        self.add(format!(
            "<text x=\"{}\" y=\"{}\" font-size=\"{}\" text-anchor=\"{anchor}\" fill=\"{BLACK}\" stroke=\"{WHITE}\" \
             stroke-width=\"3\" paint-order=\"stroke\" xml:space=\"preserve\"{more}>{}</text>",
            hundredths(at.x),
            hundredths(at.y),
            hundredths(size),
            escaped(words)
        ));
    }
}

fn pair(q: P) -> String {
    format!("{} {}", hundredths(q.x), hundredths(q.y))
}

/// A number rounded to hundredths, in whole numbers. The small push upward keeps halves, which arise from round sizes, away
/// from the line between two roundings.
fn hundredths(v: f64) -> String {
    assert!(v.is_finite(), "a number");
    let n = (v * 100.0 + 0.5 + 1e-4).floor() as i64;
    let (sign, n) = if n < 0 { ("-", -n) } else { ("", n) };
    match n % 100 {
        0 => format!("{sign}{}", n / 100),
        part if part % 10 == 0 => format!("{sign}{}.{}", n / 100, part / 10),
        part => format!("{sign}{}.{part:02}", n / 100),
    }
}

fn escaped(words: &str) -> String {
    words.replace('&', "&amp;").replace('<', "&lt;").replace('>', "&gt;")
}
