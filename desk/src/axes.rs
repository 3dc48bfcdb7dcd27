//! The axes of a picture: three edges of the box around the door, with ticks in millimetres.

use crate::svg::{self, Place, Rect};
use crate::view::{dot, Box3, View};

/// The length of a tick, and the room between it and its label.
const TICK: f64 = 5.0;
const TICK_GAP: f64 = 4.0;
/// The least room beside and under the label of a tick, and around a name.
const LABEL_GAP: Place = (4.0, 0.0);
const NAME_GAP: Place = (16.0, 4.0);
/// The height of a line of text.
const LABEL_HIGH: f64 = 15.0;
/// Steps in which a name is moved away until it is free, and their greatest count.
const PUSH: f64 = 3.0;
const MOST_PUSHES: usize = 60;

/// The axes: three edges of the box that bound it as it is seen, so that they cross nothing.
pub struct Axes {
    /// Lines behind the door and in front of it.
    pub behind: String,
    pub front: String,
    /// What the labels cover.
    pub taken: Vec<Rect>,
    /// What the box covers.
    pub seen: Rect,
}

/// An edge of the box along one coordinate.
struct Axis {
    name: char,
    low: f64,
    high: f64,
    from: Place,
    to: Place,
    /// The direction away from the box, of length 1.
    out: Place,
    /// Pixels of a millimetre along the edge, to the right and down.
    rate: Place,
}

impl Axes {
    pub fn of(around: &Box3, view: &View) -> Axes {
        let mut axes = Axes {
            behind: String::new(),
            front: String::new(),
            taken: Vec::new(),
            seen: Rect::empty(),
        };
        for corner in around.corners() {
            axes.seen.take(view.place(corner));
        }
        axes.draw_ground(around, view);
        let [x, y, z] = [0, 1, 2].map(|n| [n == 0, n == 1, n == 2]);
        // The bottom edge in front, the left edge in front, the bottom edge at the right.
        let all = [
            Axis::of('x', x, z, around, view),
            Axis::of('y', y, z, around, view),
            Axis::of('z', z, x, around, view),
        ];
        let ticks = all.each_ref().map(|axis| axis.ticks());
        for (axis, (step, ticks)) in all.iter().zip(&ticks) {
            axes.front.push_str(&svg::line("axis", axis.from, axis.to));
            for tick in ticks {
                axes.draw_tick(axis, *tick, svg::decimals(*step));
            }
        }
        for (axis, (step, ticks)) in all.iter().zip(&ticks) {
            axes.draw_name(axis, *step, ticks);
        }
        axes
    }

    /// The two edges behind the door that, with two axes, make the ground it stands on.
    fn draw_ground(&mut self, around: &Box3, view: &View) {
        let place = |which| view.place(around.corner(which));
        let far = place([false, false, false]);
        for to in [[true, false, false], [false, false, true]] {
            self.behind.push_str(&svg::line("faint", far, place(to)));
        }
    }

    fn draw_tick(&mut self, axis: &Axis, at: f64, decimals: usize) {
        let from = axis.place(at);
        self.front
            .push_str(&svg::line("axis", from, along(from, axis.out, TICK)));
        let text = svg::label(at, decimals);
        let (centre, rect) = beside(from, axis.out, TICK + TICK_GAP, &text);
        if !self.is_taken(&rect, LABEL_GAP) {
            self.put("middle", centre, rect, &text);
        }
    }

    /// The name of an axis, beyond the labels of its ticks and clear of all others.
    fn draw_name(&mut self, axis: &Axis, step: f64, ticks: &[f64]) {
        let text = axis.name(!ticks.is_empty());
        let middle = axis.place((axis.low + axis.high) / 2.0);
        let depths = ticks
            .iter()
            .map(|tick| axis.depth_of(*tick, svg::decimals(step)));
        let mut gap = TICK + TICK_GAP + depths.fold(0.0, f64::max);
        for _ in 0..MOST_PUSHES {
            let (_, rect) = beside(middle, axis.out, gap, &text);
            if !self.is_taken(&rect, NAME_GAP) {
                break;
            }
            gap += PUSH;
        }
        let (centre, rect) = beside(middle, axis.out, gap, &text);
        self.put("middle name", centre, rect, &text);
    }

    fn is_taken(&self, rect: &Rect, gap: Place) -> bool {
        self.taken.iter().any(|other| rect.is_near(other, gap))
    }

    fn put(&mut self, class: &str, (x, y): Place, rect: Rect, text: &str) {
        // Text stands on its line: its middle is about a third of its size above that.
        let base = (x, y + 0.36 * svg::TEXT);
        self.front.push_str(&svg::text(class, base, text));
        self.taken.push(rect);
    }
}

impl Axis {
    /// The edge along one coordinate from the corner that is high in the coordinates `at`.
    fn of(name: char, along: [bool; 3], at: [bool; 3], around: &Box3, view: &View) -> Axis {
        let ([a, b, c], [d, e, f]) = (along, at);
        let unit = along.map(f64::from);
        let rate = view.direction(unit);
        let length = rate.0.hypot(rate.1);
        // Of the two directions across the edge, the one down, or to the left.
        let across = (-rate.1 / length, rate.0 / length);
        let out = match across.1 < -1e-9 || across.1 < 1e-9 && across.0 > 0.0 {
            true => (-across.0, -across.1),
            false => across,
        };
        Axis {
            name,
            low: dot(unit, around.low),
            high: dot(unit, around.high),
            from: view.place(around.corner(at)),
            to: view.place(around.corner([a || d, b || e, c || f])),
            out,
            rate,
        }
    }

    /// Where a value is on the edge.
    fn place(&self, value: f64) -> Place {
        let by = value - self.low;
        (
            self.from.0 + by * self.rate.0,
            self.from.1 + by * self.rate.1,
        )
    }

    /// The step between ticks, the least whose labels have room, and the ticks; none where there is
    /// not room for two.
    fn ticks(&self) -> (f64, Vec<f64>) {
        let range = self.high - self.low;
        let mut step = svg::nice_step(range / 10.0);
        while step < range && !self.has_room(step) {
            step = svg::nice_step(1.5 * step);
        }
        let ticks = match self.has_room(step) {
            true => svg::ticks(self.low, self.high, step),
            false => Vec::new(),
        };
        match ticks.len() {
            0 | 1 => (step, Vec::new()),
            _ => (step, ticks),
        }
    }

    /// Whether labels at such a step have room beside or over each other.
    fn has_room(&self, step: f64) -> bool {
        let wide = |x| text_width(&svg::label(x, svg::decimals(step)));
        let (right, down) = (step * self.rate.0.abs(), step * self.rate.1.abs());
        let widest = wide(self.low).max(wide(self.high));
        right >= widest + 2.0 * LABEL_GAP.0 || down >= 2.0 * LABEL_HIGH
    }

    /// How far from the tick the label of a value reaches, with some room beyond it.
    fn depth_of(&self, value: f64, decimals: usize) -> f64 {
        let (wide, high) = half_size(&svg::label(value, decimals));
        2.0 * (wide * self.out.0.abs() + high * self.out.1.abs()) + TICK_GAP
    }

    /// The name with its unit, and the range where no tick shows it.
    fn name(&self, has_ticks: bool) -> String {
        let name = self.name;
        if has_ticks {
            return format!("{name} mm");
        }
        let [low, high] = range_labels(self.low, self.high);
        match low == high {
            true => format!("{name} {low} mm"),
            false => format!("{name} {low} to {high} mm"),
        }
    }
}

/// Both ends of a range with as many decimals as its size calls for.
fn range_labels(low: f64, high: f64) -> [String; 2] {
    let decimals = match high > low {
        true => svg::decimals((high - low) / 100.0).min(4),
        false => 4,
    };
    [low, high].map(|x| svg::label(x, decimals))
}

fn along((x, y): Place, (right, down): Place, by: f64) -> Place {
    (x + by * right, y + by * down)
}

pub fn text_width(text: &str) -> f64 {
    svg::width_of(text, svg::TEXT)
}

fn half_size(label: &str) -> Place {
    (text_width(label) / 2.0, LABEL_HIGH / 2.0)
}

/// The middle of a text and its rectangle, so much away from a line through a place. The whole
/// text is on that side of the line.
fn beside(place: Place, out: Place, gap: f64, text: &str) -> (Place, Rect) {
    let (wide, high) = half_size(text);
    let by = gap + wide * out.0.abs() + high * out.1.abs();
    let (x, y) = along(place, out, by);
    let rect = Rect {
        left: x - wide,
        top: y - high,
        right: x + wide,
        bottom: y + high,
    };
    ((x, y), rect)
}
