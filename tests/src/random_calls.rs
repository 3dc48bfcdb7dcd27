//! Calls on random nets, with all that they need, and changes of calls at random.

use crate::call::{Ask, Call, Outlined};
use crate::multiresolution::DETAIL_LIMIT;
use crate::nets::{self, Numbers, NUMBERS};
use crate::oracle::LIMIT;
use crate::random::Random;
use crate::refinement;
use crate::seam::{self, Seam};
use crate::shapes;

/// Sides, vertices, places, steps and thresholds, of which some are refused everywhere.
const WILD: [usize; 9] = [0, 1, 2, 3, 7, 514, 1025, 1026, usize::MAX];
/// Numbers beyond the range of nets, some beyond that of details too.
const BEYOND: [i32; 4] = [LIMIT + 1, -DETAIL_LIMIT - 1, i32::MIN, i32::MAX];

type Size = (usize, usize);

fn random_net(random: &mut Random) -> (Vec<i32>, Size) {
    let size = nets::random_size(random);
    let numbers = random.pick(&NUMBERS);
    (nets::random_net(random, size, numbers), size)
}

fn random_place(random: &mut Random, (w, h): Size) -> (usize, usize) {
    let (last_p, last_q) = (1024 * (w - 1), 1024 * (h - 1));
    (random.below(last_p + 1), random.below(last_q + 1))
}

pub fn vertex(random: &mut Random) -> Call {
    let (net, size) = random_net(random);
    let (i, j) = (random.below(size.0), random.below(size.1));
    Call::new(&net, size, Ask::Vertex { i, j })
}

pub fn bezier(random: &mut Random) -> Call {
    let (net, size) = random_net(random);
    let (i, j) = (random.below(size.0 - 1), random.below(size.1 - 1));
    let down = random.below(2) as u32;
    Call::new(&net, size, Ask::Bezier { i, j, down })
}

pub fn surface(random: &mut Random) -> Call {
    let (net, size) = random_net(random);
    let (p, q) = random_place(random, size);
    Call::new(&net, size, Ask::Surface { p, q })
}

pub fn view(random: &mut Random) -> Call {
    let (net, size) = random_net(random);
    let (p, q) = random_place(random, size);
    Call::new(&net, size, Ask::View { p, q })
}

pub fn write(random: &mut Random) -> Call {
    let (net, size) = random_net(random);
    Call::new(&net, size, Ask::Write { written_len: 1 })
}

pub fn refine(random: &mut Random) -> Call {
    let (net, size) = random_net(random);
    Call::new(&net, size, Ask::refine(size, random.below(3)))
}

pub fn refined_point(random: &mut Random) -> Call {
    let (net, size) = random_net(random);
    let k = random.below(3);
    let refined = refinement::refined_size(size, k).expect("a size");
    let place = random_place(random, refined);
    Call::new(&net, size, Ask::refined_point(size, k, place))
}

pub fn seam_points(random: &mut Random) -> Call {
    let (net, size) = random_net(random);
    let steps = [random.below(3), random.below(3)];
    let coarser = refinement::refined_size(size, steps[0].min(steps[1])).expect("a size");
    let place = random_place(random, coarser);
    let places = seam::one_place(steps, place);
    Call::new(&net, size, Ask::seam_points(size, places))
}

/// May be refused by 11.
pub fn split(random: &mut Random) -> Call {
    let size = nets::random_odd_size(random);
    let numbers = random.pick(&[Numbers::Small, Numbers::Small, Numbers::Mixed]);
    let net = nets::random_net(random, size, numbers);
    Call::new(&net, size, Ask::split(size))
}

/// May be refused by 11.
pub fn merge(random: &mut Random) -> Call {
    let (coarse, size) = random_net(random);
    let fine = refinement::refined_size(size, 1).expect("a size");
    let most = random.pick(&[0, 50, LIMIT / 4]);
    let details = nets::random_details(random, fine, most);
    Call::merge(&coarse, &details, size)
}

pub fn clean(random: &mut Random) -> Call {
    let size = nets::random_odd_size(random);
    let most = random.pick(&[50, DETAIL_LIMIT]);
    let details = nets::random_details(random, size, most);
    let t = random.below(most as usize + 1) as u32;
    Call::new(&details, size, Ask::Clean { t })
}

pub fn from_points(random: &mut Random) -> Call {
    let size = nets::random_size(random);
    let numbers = random.pick(&NUMBERS);
    let given = nets::random_given(random, size, numbers);
    Call::new(&given, size, Ask::FromPoints)
}

/// The outline of a call on a net, connected more often than not.
fn outline(random: &mut Random, size: Size) -> Vec<u8> {
    match random.below(4) {
        0 => shapes::full(size),
        1 => shapes::random(random, size, 80),
        _ => {
            let most = 1 + random.below(40);
            shapes::grown(random, size, most)
        }
    }
}

fn with_outline(random: &mut Random, call: Call) -> Call {
    let bytes = outline(random, (call.w, call.h));
    call.with_outline(&bytes)
}

pub fn check(random: &mut Random) -> Call {
    let size = nets::random_size(random);
    Call::check_of(&outline(random, size), size)
}

pub fn bezier_outlined(random: &mut Random) -> Call {
    let call = bezier(random);
    with_outline(random, call)
}

pub fn surface_outlined(random: &mut Random) -> Call {
    let call = surface(random);
    with_outline(random, call)
}

pub fn view_outlined(random: &mut Random) -> Call {
    let call = view(random);
    with_outline(random, call)
}

pub fn refine_outlined(random: &mut Random) -> Call {
    let call = refine(random);
    with_outline(random, call)
}

pub fn refined_point_outlined(random: &mut Random) -> Call {
    let call = refined_point(random);
    with_outline(random, call)
}

/// One change of a call, whatever it is by now.
type Change = fn(&mut Random, &mut Call);

const CHANGES: [Change; 9] = [
    set_side,
    set_argument,
    cut,
    lengthen,
    spoil,
    less_room,
    more_room,
    less_room_beside,
    set_outline,
];

/// Makes one of the changes.
pub fn change(random: &mut Random, call: &mut Call) {
    random.pick(&CHANGES)(random, call);
}

fn set_side(random: &mut Random, call: &mut Call) {
    let side = random.pick(&WILD);
    match random.below(2) {
        0 => call.w = side,
        _ => call.h = side,
    }
}

fn set_argument(random: &mut Random, call: &mut Call) {
    let wild = random.pick(&WILD);
    match &mut call.ask {
        Ask::Vertex { i: a, j: b }
        | Ask::Bezier { i: a, j: b, .. }
        | Ask::Surface { p: a, q: b }
        | Ask::View { p: a, q: b } => *[a, b][random.below(2)] = wild,
        Ask::Refine { k, .. } => *k = wild,
        Ask::RefinedPoint { k, p, q, .. } => *[k, p, q][random.below(3)] = wild,
        Ask::SeamPoints(Seam { places, .. }) => {
            let at = &mut places[random.below(2)];
            *[&mut at.k, &mut at.place.0, &mut at.place.1][random.below(3)] = wild;
        }
        Ask::Clean { t } => *t = wild as u32,
        Ask::Write { .. } | Ask::Split { .. } | Ask::Merge | Ask::FromPoints | Ask::Check => {}
    }
}

/// A byte set to 0, to 1 or beyond, or bytes less or more, where there is an outline.
fn set_outline(random: &mut Random, call: &mut Call) {
    let Some(Outlined { bytes, .. }) = &mut call.outline else {
        return;
    };
    let at = random.below(bytes.len().max(1));
    let byte = random.pick(&[0, 0, 1, 2, 255]);
    match random.below(4) {
        0 => bytes.truncate(at),
        1 => bytes.extend([byte, 7, 1]),
        _ => bytes.iter_mut().skip(at).take(1).for_each(|b| *b = byte),
    }
}

/// The net, the details or the given points that are lent to be read.
fn numbers<'a>(random: &mut Random, call: &'a mut Call) -> &'a mut Vec<i32> {
    match (call.ask, random.below(2)) {
        (Ask::Merge, 0) => &mut call.details,
        _ => &mut call.net,
    }
}

fn cut(random: &mut Random, call: &mut Call) {
    let numbers = numbers(random, call);
    let len = random.pick(&[numbers.len().saturating_sub(1), numbers.len() / 2, 0]);
    numbers.truncate(len);
}

/// With numbers that no range has, since nothing behind the net is read.
fn lengthen(random: &mut Random, call: &mut Call) {
    let more = 1 + random.below(40);
    let numbers = numbers(random, call);
    numbers.resize(numbers.len() + more, i32::MIN);
}

fn spoil(random: &mut Random, call: &mut Call) {
    let beyond = random.pick(&BEYOND);
    let numbers = numbers(random, call);
    if !numbers.is_empty() {
        let at = random.below(numbers.len());
        numbers[at] = beyond;
    }
}

fn less_room(random: &mut Random, call: &mut Call) {
    call.out_len = random.pick(&[call.out_len.saturating_sub(1), call.out_len / 2, 0]);
}

fn more_room(random: &mut Random, call: &mut Call) {
    call.out_len += random.below(40);
}

/// Of the scratch, of the search or of an output beside the first.
fn less_room_beside(random: &mut Random, call: &mut Call) {
    if let (Some(outline), true) = (&mut call.outline, random.below(2) == 0) {
        let len = match random.below(2) {
            0 => &mut outline.fine_len,
            _ => &mut outline.search_len,
        };
        *len = len.saturating_sub(1);
        return;
    }
    let len = match &mut call.ask {
        Ask::Refine { scratch_len, .. } => scratch_len,
        Ask::RefinedPoint {
            scratch_len,
            point_len,
            ..
        } => [scratch_len, point_len][random.below(2)],
        Ask::SeamPoints(Seam {
            scratch_lens: [one, two],
            points_len,
            ..
        }) => [one, two, points_len, &mut call.out2_len][random.below(4)],
        Ask::Split { details_len } => details_len,
        _ => return,
    };
    *len = len.saturating_sub(1);
}
