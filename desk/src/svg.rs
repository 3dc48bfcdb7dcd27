//! What the drawings share: their frame and colours, text, numbers and ticks.

/// The size of text, in pixels, unless a class says otherwise.
pub const TEXT: f64 = 13.0;
/// The size of the heading.
pub const HEADING: f64 = 17.0;
/// The room between the border of a drawing and what it shows.
pub const PADDING: f64 = 24.0;

/// The greatest count of ticks on an axis, whatever its range.
const MOST_TICKS: usize = 100;

/// A place in a drawing: to the right and down, in pixels.
pub type Place = (f64, f64);

/// The rules of all drawings. The panel is opaque, so that they do on any page. Text has an edge of
/// the panel's colour, so that a line behind it does not make it hard to read.
const LIGHT: &str = "\
text{font-family:system-ui,sans-serif;font-size:13px;fill:#1c2530;stroke:#fcfcfb;\
stroke-width:3px;stroke-linejoin:round;paint-order:stroke}
.heading{font-size:17px;font-weight:600}
.note{fill:#4d5a68}
.name{font-weight:600}
.middle{text-anchor:middle}
.end{text-anchor:end}
.panel{fill:#fcfcfb;stroke:#cfd6dd}
.axis{stroke:#4d5a68;stroke-linecap:round}
.faint{stroke:#d3d9e0}
";

/// The rules that are different where the reader prefers dark pages.
const DARK: &str = "\
text{fill:#e7ebf0;stroke:#171b21}
.note{fill:#aab5c1}
.panel{fill:#171b21;stroke:#39424d}
.axis{stroke:#aab5c1}
.faint{stroke:#353e49}
";

/// What a drawing is, apart from what it shows.
pub struct Frame<'a> {
    /// What a reader who does not see the drawing is told.
    pub title: &'a str,
    /// In pixels.
    pub width: f64,
    /// In pixels.
    pub height: f64,
    /// Style rules of this drawing alone.
    pub light: &'a str,
    /// Those that are different where the reader prefers dark pages.
    pub dark: &'a str,
}

impl Frame<'_> {
    /// The whole text of the drawing.
    pub fn around(&self, body: &str) -> String {
        let (width, height) = (number(self.width, 0), number(self.height, 0));
        let title = escape(self.title);
        let (light, dark) = (self.light, self.dark);
        let panel = format!(
            "<rect class=\"panel\" x=\"0.5\" y=\"0.5\" width=\"{}\" height=\"{}\" rx=\"10\"/>",
            number(self.width.round() - 1.0, 0),
            number(self.height.round() - 1.0, 0),
        );
        format!(
            "<svg xmlns=\"http://www.w3.org/2000/svg\" width=\"{width}\" height=\"{height}\" \
             viewBox=\"0 0 {width} {height}\" role=\"img\">\n\
             <title>{title}</title>\n\
             <style>\n{LIGHT}{light}\
             @media (prefers-color-scheme:dark){{\n{DARK}{dark}}}\n</style>\n\
             {panel}\n{body}</svg>\n"
        )
    }
}

/// A rectangle of the drawing, by where its four sides are.
#[derive(Clone, Copy)]
pub struct Rect {
    pub left: f64,
    pub top: f64,
    pub right: f64,
    pub bottom: f64,
}

impl Rect {
    /// A rectangle that has no place, to be grown.
    pub fn empty() -> Rect {
        Rect {
            left: f64::INFINITY,
            top: f64::INFINITY,
            right: f64::NEG_INFINITY,
            bottom: f64::NEG_INFINITY,
        }
    }

    /// Grows until it has a place.
    pub fn take(&mut self, (x, y): Place) {
        self.left = self.left.min(x);
        self.right = self.right.max(x);
        self.top = self.top.min(y);
        self.bottom = self.bottom.max(y);
    }

    /// Grows until it has another.
    pub fn take_all(&mut self, other: &Rect) {
        self.take((other.left, other.top));
        self.take((other.right, other.bottom));
    }

    /// From left to right.
    pub fn width(&self) -> f64 {
        self.right - self.left
    }

    /// From top to bottom.
    pub fn height(&self) -> f64 {
        self.bottom - self.top
    }

    /// Whether another comes nearer than so much.
    pub fn is_near(&self, other: &Rect, (beside, under): Place) -> bool {
        self.left < other.right + beside
            && other.left < self.right + beside
            && self.top < other.bottom + under
            && other.top < self.bottom + under
    }
}

/// A text as XML has it.
pub fn escape(text: &str) -> String {
    let mut escaped = String::with_capacity(text.len());
    for c in text.chars() {
        match c {
            '&' => escaped.push_str("&amp;"),
            '<' => escaped.push_str("&lt;"),
            '>' => escaped.push_str("&gt;"),
            '"' => escaped.push_str("&quot;"),
            // XML has these control characters, not the others.
            '\t' | '\n' | '\r' => escaped.push(c),
            '\u{fffe}' | '\u{ffff}' => escaped.push('\u{fffd}'),
            c if c.is_control() => escaped.push('\u{fffd}'),
            c => escaped.push(c),
        }
    }
    escaped
}

/// A number with at most so many decimals, without zeros at the end; 0 for one that is not finite.
pub fn number(x: f64, decimals: usize) -> String {
    let x = if x.is_finite() { x } else { 0.0 };
    let text = format!("{x:.decimals$}");
    let text = match text.contains('.') {
        true => text.trim_end_matches('0').trim_end_matches('.'),
        false => &text,
    };
    match text {
        "-0" => "0".to_owned(),
        text => text.to_owned(),
    }
}

/// A number to be read: as `number`, with a minus sign instead of a hyphen.
pub fn label(x: f64, decimals: usize) -> String {
    number(x, decimals).replace('-', "\u{2212}")
}

/// A count with its noun.
pub fn count(n: usize, noun: &str) -> String {
    match n {
        1 => format!("1 {noun}"),
        n => format!("{n} {noun}s"),
    }
}

/// About how wide a text is. Fonts differ, and this is rather too much than too little.
pub fn width_of(text: &str, size: f64) -> f64 {
    let wide = |c: char| match c {
        'm' | 'w' => 1.0,
        ' ' | '.' | ',' | ':' | ';' | 'f' | 'i' | 'j' | 'l' | 'r' | 't' => 0.42,
        _ => 0.68,
    };
    size * text.chars().map(wide).sum::<f64>()
}

/// A text element; `class` may be empty.
pub fn text(class: &str, at: Place, text: &str) -> String {
    let (x, y) = (number(at.0, 1), number(at.1, 1));
    let class = match class {
        "" => String::new(),
        class => format!(" class=\"{class}\""),
    };
    format!("<text{class} x=\"{x}\" y=\"{y}\">{}</text>\n", escape(text))
}

/// A line element.
pub fn line(class: &str, from: Place, to: Place) -> String {
    let [x1, y1, x2, y2] = [from.0, from.1, to.0, to.1].map(|x| number(x, 2));
    format!("<line class=\"{class}\" x1=\"{x1}\" y1=\"{y1}\" x2=\"{x2}\" y2=\"{y2}\"/>\n")
}

/// The least of 1, 2 and 5 times a power of ten that is not below a number; 1 where the number is
/// not positive.
pub fn nice_step(least: f64) -> f64 {
    if !least.is_finite() || least <= 0.0 {
        return 1.0;
    }
    let power = 10f64.powf(least.log10().floor());
    let steps = [1.0, 2.0, 5.0].map(|factor| factor * power);
    let enough = |step: &f64| *step >= least * (1.0 - 1e-9);
    steps.into_iter().find(enough).unwrap_or(10.0 * power)
}

/// The multiples of a step from one number to another.
pub fn ticks(from: f64, to: f64, step: f64) -> Vec<f64> {
    let first = (from / step - 1e-6).ceil();
    let last = (to / step + 1e-6).floor();
    let all = (0..MOST_TICKS).map(|n| first + n as f64);
    all.take_while(|n| *n <= last).map(|n| n * step).collect()
}

/// How many decimals the multiples of a step have.
pub fn decimals(step: f64) -> usize {
    let digits = (-step.log10() - 1e-9).ceil();
    // The cast makes 0 of what is not a number.
    digits.clamp(0.0, 6.0) as usize
}
