//! Nets and places to test with.

use crate::oracle::LIMIT;
use crate::random::Random;
use crate::record::{self, Control, POINT_RECORD};

/// The door corner, 2 by 2, with the given z of c1 of vertex (0, 0).
pub fn door_corner(z: i32) -> Vec<i32> {
    let mut net = Vec::new();
    for j in 0..2 {
        for i in 0..2 {
            let (x, y) = (1200 * i, 1200 * j);
            let c1_z = if (i, j) == (0, 0) { z } else { 0 };
            let controls: [Control; 3] =
                [[x + 600, y, c1_z], [x - 600, y + 600, 0], [x, y - 600, 0]];
            net.extend(controls.as_flattened());
        }
    }
    net
}

#[derive(Clone, Copy, Debug)]
pub enum Numbers {
    /// From -3 to 3, so that many exact values are halves.
    Tiny,
    /// From -50 to 50.
    Small,
    /// Any in range.
    Large,
    /// The two ends of the range.
    Extreme,
    /// Each number small, large or extreme.
    Mixed,
}

/// All but the tiny ones.
pub const NUMBERS: [Numbers; 4] = [
    Numbers::Small,
    Numbers::Large,
    Numbers::Extreme,
    Numbers::Mixed,
];

pub fn random_number(random: &mut Random, numbers: Numbers) -> i32 {
    match numbers {
        Numbers::Tiny => random.between(-3, 3),
        Numbers::Small => random.between(-50, 50),
        Numbers::Large => random.between(-LIMIT, LIMIT),
        Numbers::Extreme => random.pick(&[-LIMIT, LIMIT]),
        Numbers::Mixed => {
            let numbers = random.pick(&[Numbers::Small, Numbers::Large, Numbers::Extreme]);
            random_number(random, numbers)
        }
    }
}

pub fn random_net(random: &mut Random, size: (usize, usize), numbers: Numbers) -> Vec<i32> {
    (0..record::numbers(size))
        .map(|_| random_number(random, numbers))
        .collect()
}

/// Sides of 2 to 9 vertices.
pub fn random_size(random: &mut Random) -> (usize, usize) {
    (2 + random.below(8), 2 + random.below(8))
}

/// Odd sides of 3 to 11 vertices, which split takes.
pub fn random_odd_size(random: &mut Random) -> (usize, usize) {
    (3 + 2 * random.below(5), 3 + 2 * random.below(5))
}

/// The control points of a vertex within `spread` of a random one, so that a net of great
/// numbers can be split.
pub fn near_net(
    random: &mut Random,
    (w, h): (usize, usize),
    numbers: Numbers,
    spread: i32,
) -> Vec<i32> {
    let mut net = Vec::with_capacity(record::numbers((w, h)));
    for _ in 0..w * h {
        let centre = [0; POINT_RECORD].map(|_| random_number(random, numbers));
        for _ in 0..3 {
            let near = |x: i32| (x + random.between(-spread, spread)).clamp(-LIMIT, LIMIT);
            net.extend(centre.map(near));
        }
    }
    net
}

/// Details of a net of the given size, up to `most` in size.
pub fn random_details(random: &mut Random, size: (usize, usize), most: i32) -> Vec<i32> {
    let numbers = 0..record::details(size);
    numbers.map(|_| random.between(-most, most)).collect()
}

/// p, t1 and t2 in one coordinate that are accepted: c1 and c2 are such numbers, and p is one with
/// which c3 = 3p - c1 - c2 is in range, often next to an end of it. Small ones are all small.
fn random_jet(random: &mut Random, numbers: Numbers) -> [i32; 3] {
    if let Numbers::Small = numbers {
        return [0; 3].map(|_| random_number(random, numbers));
    }
    let [c1, c2] = [0; 2].map(|_| random_number(random, numbers));
    let least = (c1 + c2 - LIMIT + 2).div_euclid(3);
    let greatest = (c1 + c2 + LIMIT).div_euclid(3);
    let between = random.between(least, greatest);
    let p = random.pick(&[least, greatest, between, between]);
    [p, c1 - p, c2 - p]
}

/// Given points of a net of the given size that are accepted.
pub fn random_given(random: &mut Random, (w, h): (usize, usize), numbers: Numbers) -> Vec<i32> {
    let mut given = Vec::with_capacity(record::given((w, h)));
    for _ in 0..w * h {
        let [x, y, z] = [0; 3].map(|_| random_jet(random, numbers));
        given.extend([0, 1, 2].map(|n| [x[n], y[n], z[n]]).as_flattened());
    }
    given
}

/// At least 100 places of a net of the given size.
pub fn places(random: &mut Random, size: (usize, usize)) -> Vec<(usize, usize)> {
    places_at(random, size, 1024)
}

/// At least 100 places at edge count `d`.
pub fn places_at(random: &mut Random, (w, h): (usize, usize), d: usize) -> Vec<(usize, usize)> {
    let (last_p, last_q) = (d * (w - 1), d * (h - 1));
    // The vertices at the four corners of the net, and some others.
    let mut places = vec![(0, 0), (last_p, 0), (0, last_q), (last_p, last_q)];
    for _ in 0..4 {
        places.push((d * random.below(w), d * random.below(h)));
    }
    // Horizontal and vertical edges, among them the last row and the last column.
    for _ in 0..6 {
        places.push((random.below(last_p + 1), d * random.below(h)));
        places.push((random.below(last_p + 1), last_q));
        places.push((d * random.below(w), random.below(last_q + 1)));
        places.push((last_p, random.below(last_q + 1)));
    }
    // In a cell: the diagonal edge and the lines where two shares are equal, three in the up
    // triangle and three in the down triangle.
    for _ in 0..4 {
        let t = random.below(d / 2 + 1);
        let lines = [
            (2 * t, d - 2 * t),
            (t, t),
            (t, d - 2 * t),
            (d - 2 * t, t),
            (d - t, d - t),
            (d - t, 2 * t),
            (2 * t, d - t),
        ];
        for (f, g) in lines {
            let (i, j) = (random.below(w - 1), random.below(h - 1));
            places.push((d * i + f, d * j + g));
        }
    }
    // Next to the centre of a triangle.
    for _ in 0..4 {
        let centre = random.pick(&[d / 3, 2 * d / 3]);
        let (i, j) = (random.below(w - 1), random.below(h - 1));
        places.push((
            d * i + centre + random.below(2),
            d * j + centre + random.below(2),
        ));
    }
    // Next to all these lines.
    for _ in 0..24 {
        let (p, q) = random.pick(&places);
        let p = (p + random.below(3)).saturating_sub(1).min(last_p);
        let q = (q + random.below(3)).saturating_sub(1).min(last_q);
        places.push((p, q));
    }
    for _ in 0..24 {
        places.push((random.below(last_p + 1), random.below(last_q + 1)));
    }
    assert!(places.len() >= 100);
    places
}
