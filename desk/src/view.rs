//! How points in space are seen: the viewer stands to the right of the door and above it.

use crate::svg::{Place, Rect};

/// x, y, z in millimetres, or a direction.
pub type Vector = [f64; 3];
pub type Triangle = [Vector; 3];

/// How far the viewer stands to the right and above, as cosine and sine of an angle: 28 degrees
/// and 16.
const TURN: [f64; 2] = [15.0 / 17.0, 8.0 / 17.0];
const RISE: [f64; 2] = [24.0 / 25.0, 7.0 / 25.0];
/// The greatest width and height of the box around the door, in pixels.
const MOST_WIDE: f64 = 660.0;
const MOST_HIGH: f64 = 700.0;

/// The least and the greatest of each coordinate.
pub struct Box3 {
    pub low: Vector,
    pub high: Vector,
}

impl Box3 {
    /// Around all points; at 0 where there is none.
    pub fn around(mut points: impl Iterator<Item = Vector>) -> Box3 {
        let first = points.next().unwrap_or_default();
        let (mut low, mut high) = (first, first);
        for point in points {
            for ((low, high), x) in low.iter_mut().zip(&mut high).zip(point) {
                *low = low.min(x);
                *high = high.max(x);
            }
        }
        Box3 { low, high }
    }

    /// The corner that is high in the coordinates given as true.
    pub fn corner(&self, [x, y, z]: [bool; 3]) -> Vector {
        let ([x0, y0, z0], [x1, y1, z1]) = (self.low, self.high);
        let one = |high, low, is_high| if is_high { high } else { low };
        [one(x1, x0, x), one(y1, y0, y), one(z1, z0, z)]
    }

    pub fn corners(&self) -> [Vector; 8] {
        [0, 1, 2, 3, 4, 5, 6, 7].map(|n| self.corner([n & 1 > 0, n & 2 > 0, n & 4 > 0]))
    }
}

/// How points are seen.
pub struct View {
    right: Vector,
    up: Vector,
    pub towards: Vector,
    centre: Vector,
    scale: f64,
}

impl View {
    /// The box fills the room that it has. Where it is a single point any scale will do.
    pub fn of(around: &Box3) -> View {
        let ([cos, sin], [rise_cos, rise_sin]) = (TURN, RISE);
        let ([x0, y0, z0], [x1, y1, z1]) = (around.low, around.high);
        let mut view = View {
            right: [cos, 0.0, -sin],
            up: [-sin * rise_sin, rise_cos, -cos * rise_sin],
            towards: [sin * rise_cos, rise_sin, cos * rise_cos],
            centre: [(x0 + x1) / 2.0, (y0 + y1) / 2.0, (z0 + z1) / 2.0],
            scale: 1.0,
        };
        let mut seen = Rect::empty();
        for corner in around.corners() {
            seen.take(view.place(corner));
        }
        let scale = (MOST_WIDE / seen.width()).min(MOST_HIGH / seen.height());
        if scale.is_finite() {
            view.scale = scale;
        }
        view
    }

    /// Where a point is seen, from the centre of the box on.
    pub fn place(&self, point: Vector) -> Place {
        self.direction(minus(point, self.centre))
    }

    pub fn direction(&self, vector: Vector) -> Place {
        let (x, y) = (dot(vector, self.right), dot(vector, self.up));
        (self.scale * x, -self.scale * y)
    }

    /// How near to the viewer the middle of a triangle is.
    pub fn nearness(&self, triangle: &Triangle) -> f64 {
        triangle
            .iter()
            .map(|corner| dot(*corner, self.towards))
            .sum()
    }
}

pub fn normal([a, b, c]: &Triangle) -> Vector {
    cross(minus(*b, *a), minus(*c, *a))
}

pub fn plus([a, b, c]: Vector, [d, e, f]: Vector) -> Vector {
    [a + d, b + e, c + f]
}

pub fn minus([a, b, c]: Vector, [d, e, f]: Vector) -> Vector {
    [a - d, b - e, c - f]
}

pub fn dot([a, b, c]: Vector, [d, e, f]: Vector) -> f64 {
    a * d + b * e + c * f
}

pub fn cross([a, b, c]: Vector, [d, e, f]: Vector) -> Vector {
    [b * f - c * e, c * d - a * f, a * e - b * d]
}
