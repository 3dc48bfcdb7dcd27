//! The drawing of a seam: for each coordinate the difference of two refinements along a line.

use crate::svg::{self, Frame, Place};

/// The least and the greatest difference of a part of the line, where it has a place on the door.
pub type Part = Option<(i32, i32)>;

/// One coordinate's difference along the line, after l steps minus after k.
pub struct Trace {
    /// The line from its lower or left end on, in equal parts.
    pub parts: Vec<Part>,
    /// The greatest difference, without its sign.
    pub greatest: u32,
    /// The part that has it.
    pub at: Option<usize>,
}

/// What is drawn of a seam.
pub struct Drawing {
    /// The line, as `row 3`.
    pub along: String,
    /// k and l.
    pub steps: [usize; 2],
    /// The edges of the starting net along the line.
    pub edges: usize,
    /// The places that were compared.
    pub places: usize,
    /// The greatest difference that the promise of the seam allows, in units.
    pub allowance: u32,
    /// x, y and z.
    pub traces: [Trace; 3],
}

const WIDTH: f64 = 800.0;
/// The left and the right end of the panels.
const LEFT: f64 = 64.0;
const RIGHT: f64 = WIDTH - svg::PADDING;
/// The height of a panel, of the line over it, and from the line of one to that of the next.
const PANEL: f64 = 150.0;
const OVER: f64 = 24.0;
const PITCH: f64 = PANEL + OVER + 14.0;
/// The room of a panel's name.
const NAME: f64 = 120.0;
/// The room between the ends of the range and those of the panel, for the label of the allowance.
const ROOM: f64 = 22.0;
/// The height of a caption, and of the labels under the last panel.
const CAPTION: f64 = 21.0;
const UNDER: f64 = 50.0;
/// The least distance of ticks upright and across.
const TICKS_UP: f64 = 16.0;
const TICKS_ACROSS: f64 = 60.0;

const STYLE: &str = "\
.field{fill:#f1f4f7}
.gap{fill:#dde2e8}
.d{fill:#1668a8;stroke:#1668a8;stroke-width:2;stroke-linejoin:round}
.a{stroke:#b8400a;stroke-width:1.5;stroke-dasharray:7 4}
.limit{fill:#a83808}
.ring{fill:none;stroke:#1c2530;stroke-width:2}
";
const DARK_STYLE: &str = "\
.field{fill:#1f252d}
.gap{fill:#343d48}
.d{fill:#5cb3f0;stroke:#5cb3f0}
.a{stroke:#ff9a57}
.limit{fill:#ffab73}
.ring{stroke:#fff}
";

/// The whole text of the drawing: three panels, one under the other.
pub fn draw(drawing: &Drawing) -> String {
    let [k, l] = drawing.steps;
    let title = format!(
        "Seam along {}: after {} against {k}",
        drawing.along,
        svg::count(l, "step")
    );
    let mut y = svg::PADDING + svg::HEADING;
    let mut body = svg::text("heading", (svg::PADDING, y), &title);
    for caption in captions(drawing) {
        y += CAPTION;
        body.push_str(&svg::text("note", (svg::PADDING, y), &caption));
    }
    y += CAPTION / 2.0;
    for (name, trace) in ["x", "y", "z"].into_iter().zip(&drawing.traces) {
        body.push_str(&Panel::new(drawing, name, trace, y + OVER).draw());
        y += PITCH;
    }
    let bottom = y - PITCH + OVER + PANEL;
    body.push_str(&axis(drawing, bottom));
    let frame = Frame {
        title: &title,
        width: WIDTH,
        height: bottom + UNDER + svg::PADDING,
        light: STYLE,
        dark: DARK_STYLE,
    };
    frame.around(&body)
}

fn captions(drawing: &Drawing) -> Vec<String> {
    let [k, l] = drawing.steps;
    let [x, y, z] = drawing.traces.each_ref().map(|trace| trace.greatest);
    let mut what = format!(
        "the point after {} minus that after {k}, in units of 1/1024 mm, at {}",
        svg::count(l, "step"),
        svg::count(drawing.places, "place")
    );
    let mut parts = drawing.traces.iter().flat_map(|trace| &trace.parts);
    if parts.any(|part| part.is_none()) {
        what.push_str("; grey is off the door");
    }
    vec![what, format!("greatest: x {x}, y {y}, z {z} units")]
}

/// Units, and how many micrometres they are, rounded up: nobody should rely on too little.
fn amount(units: u32) -> String {
    let hundredths = (u64::from(units) * 100_000).div_ceil(1024);
    let micrometres = svg::label(hundredths as f64 / 100.0, 2);
    match units {
        1 => format!("1 unit, {micrometres} \u{b5}m"),
        units => format!("{units} units, {micrometres} \u{b5}m"),
    }
}

/// Where the ticks of the horizontal axis are, in edges, and how many decimals they have.
fn edge_ticks(edges: usize) -> (Vec<f64>, usize) {
    let edges = edges.max(1) as f64;
    let step = svg::nice_step(edges * TICKS_ACROSS / (RIGHT - LEFT));
    (svg::ticks(0.0, edges, step), svg::decimals(step))
}

/// Where a count of edges is drawn.
fn across(edges: usize, at: f64) -> f64 {
    LEFT + (RIGHT - LEFT) * at / edges.max(1) as f64
}

/// The labels of the horizontal axis, under the last panel.
fn axis(drawing: &Drawing, bottom: f64) -> String {
    let (ticks, decimals) = edge_ticks(drawing.edges);
    let mut text = String::new();
    for tick in ticks {
        let x = across(drawing.edges, tick);
        text.push_str(&svg::line("axis", (x, bottom), (x, bottom + 5.0)));
        text.push_str(&svg::text(
            "middle",
            (x, bottom + 20.0),
            &svg::label(tick, decimals),
        ));
    }
    let upright = ["left", "right", "column"];
    let end = match upright.iter().any(|word| drawing.along.starts_with(word)) {
        true => "lower",
        false => "left",
    };
    let name = format!(
        "edges of the net along {}, from the {end} end",
        drawing.along
    );
    text.push_str(&svg::text(
        "middle name",
        ((LEFT + RIGHT) / 2.0, bottom + 42.0),
        &name,
    ));
    text
}

/// The panel of one coordinate.
struct Panel<'a> {
    drawing: &'a Drawing,
    name: &'a str,
    trace: &'a Trace,
    top: f64,
    /// The greatest number of units that the panel shows, up and down.
    range: f64,
}

impl<'a> Panel<'a> {
    fn new(drawing: &'a Drawing, name: &'a str, trace: &'a Trace, top: f64) -> Panel<'a> {
        let parts = trace.parts.iter().flatten();
        let shown = parts.map(|(low, high)| low.unsigned_abs().max(high.unsigned_abs()));
        let greatest = shown.fold(trace.greatest.max(drawing.allowance), u32::max);
        Panel {
            drawing,
            name,
            trace,
            top,
            range: f64::from(greatest.max(1)),
        }
    }

    fn draw(&self) -> String {
        let (bottom, zero) = (self.top + PANEL, self.up(0.0));
        let mut text = self.field();
        text.push_str(&self.gaps());
        text.push_str(&self.grid());
        text.push_str(&svg::line("axis", (LEFT, zero), (RIGHT, zero)));
        text.push_str(&self.allowance());
        text.push_str(&self.envelope());
        text.push_str(&svg::line("axis", (LEFT, self.top), (LEFT, bottom)));
        text.push_str(&self.header());
        text
    }

    /// Where a number of units is drawn.
    fn up(&self, units: f64) -> f64 {
        let half = PANEL / 2.0;
        self.top + half - (half - ROOM) * units / self.range
    }

    /// Where part n begins.
    fn start(&self, n: usize) -> f64 {
        LEFT + (RIGHT - LEFT) * n as f64 / self.trace.parts.len().max(1) as f64
    }

    fn field(&self) -> String {
        rect("field", (LEFT, self.top), RIGHT - LEFT)
    }

    /// The ticks with their labels and lines.
    fn grid(&self) -> String {
        let unit = (PANEL / 2.0 - ROOM) / self.range;
        let step = svg::nice_step((TICKS_UP / unit).max(1.0));
        let mut text = String::new();
        for tick in svg::ticks(-self.range, self.range, step) {
            let y = self.up(tick);
            text.push_str(&svg::line("faint", (LEFT, y), (RIGHT, y)));
            text.push_str(&svg::line("axis", (LEFT - 5.0, y), (LEFT, y)));
            text.push_str(&svg::text(
                "end",
                (LEFT - 9.0, y + 4.5),
                &svg::label(tick, 0),
            ));
        }
        for tick in edge_ticks(self.drawing.edges).0 {
            let x = across(self.drawing.edges, tick);
            text.push_str(&svg::line("faint", (x, self.top), (x, self.top + PANEL)));
        }
        text
    }

    /// The stretches of the line that are off the door, and those on it.
    fn runs(&self, on: bool) -> Vec<(usize, &[Part])> {
        let parts = &self.trace.parts;
        let mut from = 0;
        let mut runs = Vec::new();
        for run in parts.chunk_by(|a, b| a.is_some() == b.is_some()) {
            if run.iter().all(|part| part.is_some() == on) {
                runs.push((from, run));
            }
            from += run.len();
        }
        runs
    }

    fn gaps(&self) -> String {
        let mut text = String::new();
        for (from, run) in self.runs(false) {
            let (left, right) = (self.start(from), self.start(from + run.len()));
            text.push_str(&rect("gap", (left, self.top), right - left));
        }
        text
    }

    /// From the least to the greatest difference of each part.
    fn envelope(&self) -> String {
        let mut path = String::new();
        for (from, run) in self.runs(true) {
            path.push_str(&self.outline(from, run));
        }
        if path.is_empty() {
            path.push_str("M0 0");
        }
        format!("<path class=\"d\" d=\"{path}\"/>\n")
    }

    /// The way around the parts of a stretch: to the right over the greatest differences, and back
    /// under the least.
    fn outline(&self, from: usize, run: &[Part]) -> String {
        let over = (from..).zip(run.iter().flatten().map(|part| part.1));
        let under = (from + 1..).zip(run.iter().flatten().map(|part| part.0));
        let under: Vec<(usize, i32)> = under.collect();
        let [left, right] = [from, from + run.len()].map(|n| svg::number(self.start(n), 2));
        let there = self.steps(over);
        let back = self.steps(under.into_iter().rev());
        format!("M{left} {there}H{right}V{back}H{left}Z")
    }

    /// A way along the parts, whose levels begin at the given ends of parts. It stays on a level as
    /// long as that is the same.
    fn steps(&self, levels: impl Iterator<Item = (usize, i32)>) -> String {
        let mut path = String::new();
        let mut before = None;
        for (n, units) in levels {
            let y = svg::number(self.up(f64::from(units)), 2);
            match before {
                None => path.push_str(&y),
                Some(level) if level == units => (),
                Some(_) => path.push_str(&format!("H{}V{y}", svg::number(self.start(n), 2))),
            }
            before = Some(units);
        }
        path
    }

    fn allowance(&self) -> String {
        let units = self.drawing.allowance;
        let [above, below] = [1.0, -1.0].map(|sign| self.up(sign * f64::from(units)));
        let mut text = String::new();
        for y in [above, below] {
            text.push_str(&svg::line("a", (LEFT, y), (RIGHT, y)));
        }
        let label = format!("allowance {}", amount(units));
        text.push_str(&svg::text("end limit", (RIGHT - 6.0, above - 6.0), &label));
        text
    }

    /// The line over the panel, and the ring around the greatest difference, which it explains.
    fn header(&self) -> String {
        let y = self.top - 8.0;
        let mut text = svg::text("name", (LEFT, y), &format!("{} in units", self.name));
        let amount = format!("greatest {}", amount(self.trace.greatest));
        let x = LEFT + NAME;
        text.push_str(&svg::text("note", (x, y), &amount));
        if let Some(place) = self.greatest() {
            text.push_str(&ring((x - 12.0, y - 4.5)));
            text.push_str(&ring(place));
        }
        text
    }

    /// Where the greatest difference is, where it is not 0.
    fn greatest(&self) -> Option<Place> {
        let at = self.trace.at?;
        let (low, high) = self.trace.parts.get(at).copied().flatten()?;
        let units = match low.unsigned_abs() > high.unsigned_abs() {
            true => low,
            false => high,
        };
        let x = (self.start(at) + self.start(at + 1)) / 2.0;
        (self.trace.greatest > 0).then(|| (x, self.up(f64::from(units))))
    }
}

/// A rectangle as high as a panel.
fn rect(class: &str, (x, y): Place, width: f64) -> String {
    let [x, y, width, height] = [x, y, width, PANEL].map(|x| svg::number(x, 2));
    format!("<rect class=\"{class}\" x=\"{x}\" y=\"{y}\" width=\"{width}\" height=\"{height}\"/>\n")
}

fn ring((x, y): Place) -> String {
    let (x, y) = (svg::number(x, 2), svg::number(y, 2));
    format!("<circle class=\"ring\" cx=\"{x}\" cy=\"{y}\" r=\"5\"/>\n")
}
