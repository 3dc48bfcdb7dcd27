//! The oracle's own definitions of outlines, each held against another way to say the same.

use ups_tests::oracle::{triangles_at, Kind, Triangle};
use ups_tests::outlines::{self, Door};
use ups_tests::random::Random;
use ups_tests::shapes;

type Size = (usize, usize);

const SIZES: [Size; 5] = [(2, 2), (3, 2), (2, 4), (4, 3), (3, 5)];

fn all(size: Size) -> Vec<Triangle> {
    outlines::all(size).collect()
}

#[test]
fn bytes_go_row_by_row_and_cell_by_cell_up_before_down() {
    let due = [
        (Kind::Up, 0, 0),
        (Kind::Down, 0, 0),
        (Kind::Up, 1, 0),
        (Kind::Down, 1, 0),
        (Kind::Up, 0, 1),
        (Kind::Down, 0, 1),
        (Kind::Up, 1, 1),
        (Kind::Down, 1, 1),
    ];
    assert_eq!(
        all((3, 3)),
        due.map(|(kind, i, j)| Triangle::new(kind, i, j))
    );
    for size in SIZES {
        let triangles = all(size);
        assert_eq!(Some(triangles.len()), outlines::triangles(size));
        for (n, triangle) in triangles.iter().enumerate() {
            let bytes = shapes::numbered(size, 1 << n);
            let has = |other: &&Triangle| Door::new(&bytes, size).has(other);
            let present: Vec<&Triangle> = triangles.iter().filter(has).collect();
            assert_eq!(present, [triangle]);
        }
    }
}

/// Two triangles share an edge where they have two corners in common.
#[test]
fn neighbours_have_two_corners_in_common() {
    for size in SIZES {
        for one in all(size) {
            for other in all(size) {
                let corners = other.corners();
                let common = one
                    .corners()
                    .iter()
                    .filter(|at| corners.contains(at))
                    .count();
                let near = outlines::neighbours(&one).contains(&other);
                assert_eq!(near, common == 2, "{one:?} {other:?}");
            }
        }
    }
}

/// Connected by the closure of sharing an edge, instead of a flood.
fn connected_by_closure(bytes: &[u8], size: Size) -> bool {
    let door = Door::new(bytes, size);
    let present: Vec<Triangle> = all(size).into_iter().filter(|t| door.has(t)).collect();
    let count = present.len();
    let near =
        |a: usize, b: usize| a == b || outlines::neighbours(&present[a]).contains(&present[b]);
    let mut joined: Vec<Vec<bool>> = (0..count)
        .map(|a| (0..count).map(|b| near(a, b)).collect())
        .collect();
    for by in 0..count {
        for a in 0..count {
            for b in 0..count {
                joined[a][b] |= joined[a][by] && joined[by][b];
            }
        }
    }
    count > 0 && joined.iter().flatten().all(|&joined| joined)
}

#[test]
fn the_flood_finds_what_the_closure_finds() {
    for size in [(2, 2), (3, 2), (2, 4), (3, 3)] {
        let count = outlines::triangles(size).expect("a count");
        for number in 0..1 << count {
            let bytes = shapes::numbered(size, number);
            let flood = Door::new(&bytes, size).connected();
            assert_eq!(flood, connected_by_closure(&bytes, size), "{bytes:?}");
        }
    }
}

#[test]
fn a_place_on_the_door_lies_in_a_present_triangle() {
    let mut random = Random::new(401);
    for size in SIZES {
        for edge in [1, 2, 4, 6] {
            let bytes = shapes::random(&mut random, size, 30);
            let door = Door::new(&bytes, size);
            for q in 0..=edge * (size.1 - 1) + 1 {
                for p in 0..=edge * (size.0 - 1) + 1 {
                    let (x, y, edge) = (p as i128, q as i128, edge as i128);
                    let holding = triangles_at(size.0, size.1, x, y, edge);
                    let due = holding.iter().any(|t| door.has(t));
                    assert_eq!(door.holds((p, q), edge), due, "{size:?} {p} {q} {edge}");
                }
            }
        }
    }
}

/// The fine triangles of a starting triangle are a quarter as large each, and they are found by
/// cells as among all triangles.
#[test]
fn fine_triangles_lie_in_one_starting_triangle() {
    let mut random = Random::new(402);
    for size in SIZES {
        for k in 0..=4 {
            let bytes = shapes::random(&mut random, size, 50);
            let door = Door::new(&bytes, size);
            let fine = door.refined(k);
            assert_eq!(fine, door.refined_by_cells(k), "{size:?} {k}");
            let count = |bytes: &[u8]| bytes.iter().filter(|&&byte| byte == 1).count();
            assert_eq!(count(&fine), count(&bytes) << (2 * k), "{size:?} {k}");
        }
    }
}
