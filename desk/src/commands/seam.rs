//! `ups seam`: how far the points of two refinements are apart along a line.

use super::outline_of;
use crate::arguments::Arguments;
use crate::failure::Failure;
use crate::files::{self, Output};
use crate::line::Course;
use crate::progress::Progress;
use crate::seam_drawing::{self, Drawing, Trace};
use crate::surface::Surface;
use std::ffi::OsStr;
use ups::{Refusal, POINT};

/// The most parts of a line that are drawn.
const PARTS: usize = 720;
const NAMES: [&str; POINT] = ["x", "y", "z"];

pub fn run(arguments: &Arguments) -> Result<(), Failure> {
    let line = arguments.along()?;
    let steps = [arguments.number("-k")?, arguments.number("-l")?].map(Option::unwrap_or_default);
    let drawn = arguments.word("-o");
    let net = files::net(arguments.operand(0))?;
    let outline = outline_of(arguments)?;
    let [k, l] = steps;
    let one = Surface::refined(&net, outline.as_deref(), k)?;
    let two = Surface::refined(&net, outline.as_deref(), l)?;
    let course = line.course(net.width(), net.height())?;
    let seam = Seam::along(course, steps, [&one, &two])?;
    let figures = seam.figures();
    let Some(drawn) = drawn else {
        return files::write(OsStr::new("-"), figures.as_bytes());
    };
    let drawing = seam_drawing::draw(&seam.drawing(line.name()));
    if files::is_standard(drawn) {
        return files::write(drawn, drawing.as_bytes());
    }
    let mut outputs = [Output::create(drawn)?, Output::create(OsStr::new("-"))?];
    let [svg, text] = &mut outputs;
    svg.bytes(drawing.as_bytes())?;
    text.bytes(figures.as_bytes())?;
    files::finish(outputs)
}

/// The allowance of the promise of the seam, in whole units.
fn allowance([k, l]: [usize; 2]) -> u32 {
    if k == l {
        0
    } else {
        (k + l + 2) as u32 / 2
    }
}

/// One coordinate's differences, the second point minus the first.
struct Differences {
    /// The greatest in size, and where it is first, in 1,024ths of the coarser grid.
    greatest: Option<(u32, usize)>,
    /// The least and the greatest in each part of the line.
    parts: Vec<Option<(i32, i32)>>,
}

/// Two refinements compared along a line.
struct Seam {
    course: Course,
    steps: [usize; 2],
    places: usize,
    differences: [Differences; POINT],
}

impl Seam {
    fn along(course: Course, steps: [usize; 2], sides: [&Surface; 2]) -> Result<Seam, Failure> {
        let [k, l] = steps;
        let length = course.length(k.min(l));
        let parts = PARTS.min(length + 1);
        let none = |()| Differences {
            greatest: None,
            parts: vec![None; parts],
        };
        let mut seam = Seam {
            course,
            steps,
            places: 0,
            differences: [(); POINT].map(none),
        };
        let mut progress = Progress::of(length, false);
        for from_end in 0..=length {
            progress.done(from_end);
            seam.compare(sides, from_end, from_end * parts / (length + 1))?;
        }
        match seam.places {
            0 => Err(Refusal::OFF_DOOR.into()),
            _ => Ok(seam),
        }
    }

    /// The place on both sides, each in its own grid, by the 1,024ths of the coarser.
    fn sides_of(&self, from_end: usize) -> [(usize, usize); 2] {
        let [k, l] = self.steps;
        let coarser = k.min(l);
        let place = |k: usize| self.course.place(k, from_end << (k - coarser));
        self.steps.map(place)
    }

    fn compare(
        &mut self,
        sides: [&Surface; 2],
        from_end: usize,
        part: usize,
    ) -> Result<(), Refusal> {
        let [one, two] = sides;
        let [(p, q), (p2, q2)] = self.sides_of(from_end);
        if !one.holds(p, q) {
            return Ok(());
        }
        self.places += 1;
        let points = one.point(p, q)?.into_iter().zip(two.point(p2, q2)?);
        for (differences, (x, x2)) in self.differences.iter_mut().zip(points) {
            differences.add(x2 - x, from_end, part);
        }
        Ok(())
    }

    /// The greatest differences, and the allowance.
    fn figures(&self) -> String {
        let mut text = format!("places {}\n", self.places);
        for (name, differences) in NAMES.into_iter().zip(&self.differences) {
            let (greatest, from_end) = differences.greatest.unwrap_or_default();
            let [(p, q), (p2, q2)] = self.sides_of(from_end);
            text += &format!("{name} {greatest} at {p} {q} and {p2} {q2}\n");
        }
        text + &format!("allowance {}\n", allowance(self.steps))
    }

    fn drawing(self, along: String) -> Drawing {
        let length = self.course.length(self.steps[0].min(self.steps[1]));
        let trace = |differences: Differences| {
            let (greatest, from_end) = differences.greatest.unwrap_or_default();
            let at = from_end * differences.parts.len() / (length + 1);
            Trace {
                parts: differences.parts,
                greatest,
                at: (greatest > 0).then_some(at),
            }
        };
        Drawing {
            along,
            steps: self.steps,
            edges: self.course.edges,
            places: self.places,
            allowance: allowance(self.steps),
            traces: self.differences.map(trace),
        }
    }
}

impl Differences {
    fn add(&mut self, difference: i32, from_end: usize, part: usize) {
        let size = difference.unsigned_abs();
        if self.greatest.is_none_or(|(greatest, _)| size > greatest) {
            self.greatest = Some((size, from_end));
        }
        if let Some(part) = self.parts.get_mut(part) {
            let (least, most) = part.unwrap_or((difference, difference));
            *part = Some((least.min(difference), most.max(difference)));
        }
    }
}
