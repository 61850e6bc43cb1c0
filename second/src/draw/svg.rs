//! The text of an SVG picture.

/// A place in the picture, x to the right and y down.
#[derive(Clone, Copy, Debug, PartialEq)]
pub struct Point {
    pub x: f64,
    pub y: f64,
}

pub fn at(x: f64, y: f64) -> Point {
    Point { x, y }
}

/// A picture in the making. What is drawn later covers what is drawn before.
pub struct Svg {
    text: String,
}

impl Svg {
    pub fn new(width: f64, height: f64) -> Svg {
        let (width, height) = (px(width), px(height));
        let text = format!(
            "<svg xmlns=\"http://www.w3.org/2000/svg\" width=\"{width}\" height=\"{height}\" \
             viewBox=\"0 0 {width} {height}\" font-family=\"sans-serif\">\n"
        );
        Svg { text }
    }

    pub fn finish(mut self) -> String {
        self.text.push_str("</svg>\n");
        self.text
    }

    /// The elements up to `close` have these attributes.
    pub fn open(&mut self, attributes: &str) {
        self.push(format!("<g {attributes}>"));
    }

    pub fn close(&mut self) {
        self.push("</g>".to_string());
    }

    pub fn line(&mut self, from: Point, to: Point) {
        let (x1, y1, x2, y2) = (px(from.x), px(from.y), px(to.x), px(to.y));
        self.push(format!(
            "<line x1=\"{x1}\" y1=\"{y1}\" x2=\"{x2}\" y2=\"{y2}\"/>"
        ));
    }

    /// A line that is not counted among the references.
    pub fn path(&mut self, from: Point, to: Point, attributes: &str) {
        let (x1, y1, x2, y2) = (px(from.x), px(from.y), px(to.x), px(to.y));
        self.push(format!("<path d=\"M{x1} {y1}L{x2} {y2}\" {attributes}/>"));
    }

    /// A circle that says more where the pointer rests on it.
    pub fn circle(&mut self, center: Point, radius: f64, attributes: &str, hint: &str) {
        let (x, y, r) = (px(center.x), px(center.y), px(radius));
        let hint = escaped(hint);
        self.push(format!(
            "<circle cx=\"{x}\" cy=\"{y}\" r=\"{r}\" {attributes}><title>{hint}</title></circle>"
        ));
    }

    /// A circle that is not counted among the vertices.
    pub fn sample(&mut self, center: Point, radius: f64, attributes: &str) {
        let (x, y, r) = (px(center.x), px(center.y), px(radius));
        self.push(format!(
            "<ellipse cx=\"{x}\" cy=\"{y}\" rx=\"{r}\" ry=\"{r}\" {attributes}/>"
        ));
    }

    /// A box around its center.
    pub fn frame(&mut self, center: Point, half: Point, attributes: &str) {
        let (x, y) = (px(center.x - half.x), px(center.y - half.y));
        let (width, height) = (px(2.0 * half.x), px(2.0 * half.y));
        self.push(format!(
            "<rect x=\"{x}\" y=\"{y}\" width=\"{width}\" height=\"{height}\" {attributes}/>"
        ));
    }

    pub fn words(&mut self, from: Point, attributes: &str, words: &str) {
        let (x, y, words) = (px(from.x), px(from.y), escaped(words));
        self.push(format!(
            "<text x=\"{x}\" y=\"{y}\" {attributes}>{words}</text>"
        ));
    }

    fn push(&mut self, element: String) {
        self.text.push_str(&element);
        self.text.push('\n');
    }
}

/// A length with one digit behind the point at most.
fn px(length: f64) -> String {
    let tenths = format!("{length:.1}");
    match tenths.strip_suffix(".0") {
        Some(whole) => whole.to_string(),
        None => tenths,
    }
}

/// About how wide words are in a font of this size. Fonts differ, so it is generous.
pub fn width_of(words: &str, size: f64) -> f64 {
    0.6 * size * words.chars().count() as f64
}

/// Words as XML has them. Characters that no XML may have become a replacement.
pub fn escaped(words: &str) -> String {
    let mut text = String::new();
    for character in words.chars() {
        match character {
            '&' => text.push_str("&amp;"),
            '<' => text.push_str("&lt;"),
            '>' => text.push_str("&gt;"),
            '"' => text.push_str("&quot;"),
            '\'' => text.push_str("&apos;"),
            '\t' => text.push(' '),
            c if c.is_control() || c == '\u{FFFE}' || c == '\u{FFFF}' => text.push('\u{FFFD}'),
            c => text.push(c),
        }
    }
    text
}
