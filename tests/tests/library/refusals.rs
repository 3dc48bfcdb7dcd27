//! Each refusal of each call, one fault at a time.

use ups_tests::call::{Ask, Call, ASKS};
use ups_tests::nets::{self, Numbers};
use ups_tests::oracle::{chosen_triangle, Kind, Triangle, EDGE, LIMIT};
use ups_tests::random::Random;
use ups_tests::record::{self, RECORD};

const MAX: usize = usize::MAX;
const SIZE: (usize, usize) = (4, 3);
/// Unsigned numbers whose lower bits alone, or whose product with RECORD or 1024, would be small.
const WIDE: [usize; 6] = [1 << 32, (1 << 32) + 2, 1 << 54, 1 << 60, 1 << 63, MAX - 1];
const BEYOND: [i32; 4] = [LIMIT + 1, -LIMIT - 1, i32::MIN, i32::MAX];

fn net() -> Vec<i32> {
    nets::random_net(&mut Random::new(51), SIZE, Numbers::Mixed)
}

/// A surface point and a viewer's point at one place.
fn points(p: usize, q: usize) -> [Ask; 2] {
    [Ask::Surface { p, q }, Ask::View { p, q }]
}

/// The calls that use exactly this triangle's control points; the place lies inside it.
fn asks_of(triangle: Triangle) -> [Ask; 3] {
    let (i, j) = (triangle.i as usize, triangle.j as usize);
    let (down, f, g) = match triangle.kind {
        Kind::Up => (0, 300, 200),
        Kind::Down => (1, 800, 700),
    };
    let [surface, view] = points(1024 * i + f, 1024 * j + g);
    [Ask::Bezier { i, j, down }, surface, view]
}

fn all_triangles() -> Vec<Triangle> {
    let mut all = Vec::new();
    for j in 0..SIZE.1 - 1 {
        for i in 0..SIZE.0 - 1 {
            for kind in [Kind::Up, Kind::Down] {
                all.push(Triangle::new(kind, i, j));
            }
        }
    }
    all
}

/// The positions of a vertex's numbers.
fn positions((i, j): (i128, i128)) -> std::ops::Range<usize> {
    let start = RECORD * (j as usize * SIZE.0 + i as usize);
    start..start + RECORD
}

#[test]
fn one_sides_outside_2_to_1025() {
    // Long enough for 1,026 by 4 and for 4 by 1,026.
    let long = vec![0; record::numbers((1026, 4))];
    for ask in ASKS {
        for side in [2, 3, 1024, 1025] {
            Call::new(&long, (side, 4), ask).expect(0);
            Call::new(&long, (4, side), ask).expect(0);
        }
        for side in [0, 1, 1026, 1027, 2049, MAX].into_iter().chain(WIDE) {
            Call::new(&long, (side, 4), ask).expect(1);
            Call::new(&long, (4, side), ask).expect(1);
            Call::new(&long, (side, side), ask).expect(1);
            Call::new(&long, (side, 0), ask).expect(1);
            Call::new(&long, (0, side), ask).expect(1);
        }
    }
}

#[test]
fn two_net_too_short() {
    let net = net();
    for ask in ASKS {
        Call::new(&net, SIZE, ask).expect(0);
        for missing in [1, RECORD, record::numbers((SIZE.0, 1))] {
            Call::new(&net[..net.len() - missing], SIZE, ask).expect(2);
        }
        for len in [3 * RECORD, RECORD, RECORD - 1, 1, 0] {
            Call::new(&net[..len], SIZE, ask).expect(2);
        }
    }
    // Rows and columns exchanged: the product is the same, one vertex more is not.
    for ask in ASKS {
        Call::new(&net, (SIZE.1, SIZE.0), ask).expect(0);
        Call::new(&net, (SIZE.0, SIZE.1 + 1), ask).expect(2);
        Call::new(&net, (SIZE.0 + 1, SIZE.1), ask).expect(2);
        Call::new(&net, (1025, 1025), ask).expect(2);
    }
}

#[test]
fn five_output_too_short() {
    let net = net();
    for ask in &ASKS[1..] {
        let mut call = Call::new(&net, SIZE, *ask);
        let needed = call.out_len;
        for out_len in [needed, needed + 1, needed + 2, 2 * needed, needed + 200] {
            call.out_len = out_len;
            call.expect(0);
        }
        for out_len in 0..needed {
            call.out_len = out_len;
            call.expect(5);
        }
    }
}

#[test]
fn five_no_room_for_the_count_of_bytes() {
    let net = net();
    let expect = |written_len, refusal| {
        Call::new(&net, SIZE, Ask::Write { written_len }).expect(refusal);
    };
    for written_len in [1, 2, 3, 100] {
        expect(written_len, 0);
    }
    expect(0, 5);
}

#[test]
fn six_no_such_vertex() {
    let net = net();
    let (w, h) = SIZE;
    let expect = |i, j, refusal| Call::new(&net, SIZE, Ask::Vertex { i, j }).expect(refusal);
    for j in 0..h {
        for i in 0..w {
            expect(i, j, 0);
        }
    }
    for far in [MAX].into_iter().chain(WIDE) {
        for j in [0, h - 1, h, far] {
            expect(far, j, 6);
        }
        for i in [0, w - 1, w, far] {
            expect(i, far, 6);
        }
    }
    for (i, j) in [(w, 0), (0, h), (w, h), (w, h - 1), (w - 1, h)] {
        expect(i, j, 6);
    }
}

#[test]
fn six_no_such_triangle() {
    let net = net();
    let (w, h) = SIZE;
    let expect = |i, j, down, refusal| {
        Call::new(&net, SIZE, Ask::Bezier { i, j, down }).expect(refusal);
    };
    for down in [0, 1] {
        for j in 0..h - 1 {
            for i in 0..w - 1 {
                expect(i, j, down, 0);
            }
        }
        for i in [w - 1, w, MAX].into_iter().chain(WIDE) {
            for j in [0, h - 2, h - 1, h, MAX] {
                expect(i, j, down, 6);
            }
        }
        for j in [h - 1, h, MAX].into_iter().chain(WIDE) {
            for i in [0, w - 2, w - 1, w, MAX] {
                expect(i, j, down, 6);
            }
        }
    }
    for down in [2, 3, 256, 257, 1 << 31, u32::MAX - 1, u32::MAX] {
        expect(0, 0, down, 6);
        expect(w - 2, h - 2, down, 6);
        expect(w - 1, h - 1, down, 6);
    }
}

#[test]
fn six_no_such_place() {
    let net = net();
    let (w, h) = SIZE;
    let (last_p, last_q) = (1024 * (w - 1), 1024 * (h - 1));
    let expect = |p, q, refusal| {
        for ask in points(p, q) {
            Call::new(&net, SIZE, ask).expect(refusal);
        }
    };
    for p in [0, 1, 1024, last_p - 1, last_p] {
        for q in [0, 1, 1024, last_q - 1, last_q] {
            expect(p, q, 0);
        }
    }
    for far in [MAX].into_iter().chain(WIDE) {
        for (p, q) in [(0, far), (last_p, far), (far, 0), (far, last_q), (far, far)] {
            expect(p, q, 6);
        }
    }
    for q in [0, 1, last_q, last_q + 1] {
        expect(last_p + 1, q, 6);
        expect(last_p + 1024, q, 6);
    }
    for p in [0, 1, last_p, last_p + 1] {
        expect(p, last_q + 1, 6);
        expect(p, last_q + 1024, 6);
    }
}

#[test]
fn six_at_the_smallest_and_the_greatest_sides() {
    let long = vec![0; record::numbers((1025, 2))];
    for (w, h) in [(2, 2), (1025, 2), (2, 1025)] {
        let (last_p, last_q) = (1024 * (w - 1), 1024 * (h - 1));
        for (p, q, refusal) in [
            (last_p, last_q, 0),
            (last_p + 1, last_q, 6),
            (last_p, last_q + 1, 6),
        ] {
            for ask in points(p, q) {
                Call::new(&long, (w, h), ask).expect(refusal);
            }
        }
        for (i, j, refusal) in [(w - 2, h - 2, 0), (w - 1, h - 2, 6), (w - 2, h - 1, 6)] {
            for down in [0, 1] {
                Call::new(&long, (w, h), Ask::Bezier { i, j, down }).expect(refusal);
            }
        }
        for (i, j, refusal) in [(w - 1, h - 1, 0), (w, h - 1, 6), (w - 1, h, 6)] {
            Call::new(&long, (w, h), Ask::Vertex { i, j }).expect(refusal);
        }
    }
}

/// Expects that the call refuses this number beyond its range and takes it at the limits.
fn expect_range(mut call: Call, position: usize) {
    for (values, refusal) in [(&BEYOND[..], 3), (&[LIMIT, -LIMIT], 0)] {
        for &value in values {
            call.net[position] = value;
            call.expect(refusal);
        }
    }
}

#[test]
fn three_each_number_of_the_triangle_beyond_its_range() {
    let net = net();
    for triangle in all_triangles() {
        for position in triangle.corners().into_iter().flat_map(positions) {
            for ask in asks_of(triangle) {
                expect_range(Call::new(&net, SIZE, ask), position);
            }
        }
    }
}

#[test]
fn three_each_number_of_a_net_that_is_taken_whole() {
    let net = net();
    for ask in [
        Ask::Write { written_len: 1 },
        Ask::refine(SIZE, 0),
        Ask::refine(SIZE, 1),
        Ask::refine(SIZE, 2),
        Ask::refined_point(SIZE, 0, (0, 0)),
        Ask::refined_point(SIZE, 2, (0, 0)),
    ] {
        for position in 0..net.len() {
            expect_range(Call::new(&net, SIZE, ask), position);
        }
    }
}

#[test]
fn three_not_for_a_number_of_another_vertex() {
    let net = net();
    for triangle in all_triangles() {
        let corners = triangle.corners();
        let inside: Vec<usize> = corners.into_iter().flat_map(positions).collect();
        let outside: Vec<usize> = (0..net.len()).filter(|n| !inside.contains(n)).collect();
        for ask in asks_of(triangle) {
            for &position in &outside {
                let mut call = Call::new(&net, SIZE, ask);
                call.net[position] = LIMIT + 1;
                call.expect(0);
            }
            // All of them at once, at each end.
            for value in BEYOND {
                let mut call = Call::new(&net, SIZE, ask);
                for &position in &outside {
                    call.net[position] = value;
                }
                call.expect(0);
            }
        }
    }
}

/// On edges and vertices several triangles give the same point; number 3 shows which one is
/// looked at.
#[test]
fn three_shows_the_chosen_triangle() {
    let net = net();
    let (w, h) = SIZE;
    let mut places = nets::places(&mut Random::new(52), SIZE);
    for q in (0..=1024 * (h - 1)).step_by(512) {
        for p in (0..=1024 * (w - 1)).step_by(512) {
            places.push((p, q));
        }
    }
    for (p, q) in places {
        let triangle = chosen_triangle(w, h, p as i128, q as i128, EDGE);
        for j in 0..h as i128 {
            for i in 0..w as i128 {
                let refusal = if triangle.corners().contains(&(i, j)) {
                    3
                } else {
                    0
                };
                for ask in points(p, q) {
                    let mut call = Call::new(&net, SIZE, ask);
                    call.net[positions((i, j))].fill(-LIMIT - 1);
                    call.expect(refusal);
                }
            }
        }
    }
}

#[test]
fn the_vertex_call_tests_no_numbers_range() {
    for value in BEYOND {
        let net = vec![value; record::numbers(SIZE)];
        for j in 0..SIZE.1 {
            for i in 0..SIZE.0 {
                Call::new(&net, SIZE, Ask::Vertex { i, j }).expect(0);
            }
        }
    }
}
