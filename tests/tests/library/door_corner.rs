//! The worked cases of the specification.

use ups_tests::call::{Answer, Ask, Call, Reading};
use ups_tests::kernel::{LentNet, Room};
use ups_tests::netfile::{self, FileNet};
use ups_tests::nets::door_corner;
use ups_tests::oracle::{self, Net, EDGE, LIMIT};
use ups_tests::rational::Rational;
use ups_tests::record::{self, POINT_RECORD};

const SIZE: (usize, usize) = (2, 2);
/// Numbers of a net of this size.
const NUMBERS: usize = record::numbers(SIZE);
/// Column, row and point of each refined vertex, as the specification lists them.
const LISTING: [(usize, usize, [i32; 3]); 9] = [
    (0, 0, [0, 0, 40]),
    (1, 0, [600, 0, 40]),
    (2, 0, [1200, 0, 0]),
    (0, 1, [0, 600, 30]),
    (1, 1, [600, 600, 0]),
    (2, 1, [1200, 600, 0]),
    (0, 2, [0, 1200, 0]),
    (1, 2, [600, 1200, 0]),
    (2, 2, [1200, 1200, 0]),
];

/// z of each control point of a net.
fn net_z(net: &[i32]) -> Vec<i32> {
    net.iter().skip(2).step_by(POINT_RECORD).copied().collect()
}

/// z of each point of a Bézier net.
fn bezier_z(numbers: &[i32]) -> Vec<i32> {
    numbers.iter().skip(2).step_by(3).copied().collect()
}

/// The surface point, after comparison with the oracle and with the viewer's point.
fn point(net: &[i32], p: usize, q: usize) -> [i32; 3] {
    let answer = Call::new(net, SIZE, Ask::Surface { p, q }).check();
    let Answer::Numbers(numbers) = answer else {
        panic!("({p}, {q}): {answer:?}");
    };
    let point = [numbers[0], numbers[1], numbers[2]];
    let view = Call::new(net, SIZE, Ask::View { p, q }).check();
    let bits = point.map(|x| (f64::from(x) / 1024.0).to_bits());
    assert_eq!(view, Answer::DoubleBits(bits.to_vec()));
    point
}

/// The bytes of the net's file, after comparison with the oracle.
fn file(net: &[i32]) -> Vec<u8> {
    let answer = Call::new(net, SIZE, Ask::Write { written_len: 1 }).check();
    let Answer::Bytes(bytes) = answer else {
        panic!("{answer:?}");
    };
    bytes
}

/// The numbers after k steps, after comparison with the oracle.
fn refine(net: &[i32], k: usize) -> Vec<i32> {
    let answer = Call::new(net, SIZE, Ask::refine(SIZE, k)).check();
    let Answer::Numbers(numbers) = answer else {
        panic!("{answer:?}");
    };
    numbers
}

fn bezier(net: &[i32], down: u32) -> Vec<i32> {
    let ask = Ask::Bezier { i: 0, j: 0, down };
    let answer = Call::new(net, SIZE, ask).check();
    let Answer::Numbers(numbers) = answer else {
        panic!("{answer:?}");
    };
    numbers
}

#[test]
fn the_net_is_the_one_written_in_the_specification() {
    assert_eq!(
        door_corner(120),
        [
            600, 0, 120, -600, 600, 0, 0, -600, 0, //
            1800, 0, 0, 600, 600, 0, 1200, -600, 0, //
            600, 1200, 0, -600, 1800, 0, 0, 600, 0, //
            1800, 1200, 0, 600, 1800, 0, 1200, 600, 0,
        ]
    );
}

#[test]
fn points_of_the_door_corner() {
    let net = door_corner(120);
    assert_eq!(point(&net, 0, 0), [0, 0, 40]);
    assert_eq!(point(&net, 512, 0), [600, 0, 40]);
    assert_eq!(point(&net, 0, 512), [0, 600, 30]);
    assert_eq!(point(&net, 256, 256), [300, 300, 48]);
}

#[test]
fn points_of_the_door_corner_turned_over() {
    let net = door_corner(-120);
    assert_eq!(point(&net, 0, 0), [0, 0, -40]);
    assert_eq!(point(&net, 512, 0), [600, 0, -40]);
    assert_eq!(point(&net, 0, 512), [0, 600, -30]);
    assert_eq!(point(&net, 256, 256), [300, 300, -48]);
}

#[test]
fn the_middle_point_is_exactly_forty_seven_and_a_half() {
    for (z, expected) in [(120, 95), (-120, -95)] {
        let numbers = door_corner(z);
        let exact = Net::new(&numbers, 2, 2).exact(256, 256, EDGE);
        assert_eq!(exact[2], Rational::new(expected, 2));
    }
}

/// Refined vertex (i, j) lies at place (512i, 512j). Refining this net gives whole numbers, so
/// the listing's rows are surface points of the starting net.
#[test]
fn the_rows_of_the_listing() {
    let net = door_corner(120);
    for (i, j, expected) in LISTING {
        assert_eq!(point(&net, 512 * i, 512 * j), expected, "row {i} {j}");
    }
}

/// The same rows from the refined net.
#[test]
fn the_rows_of_the_listing_after_one_step() {
    let net = door_corner(120);
    for (i, j, expected) in LISTING {
        let ask = Ask::refined_point(SIZE, 1, (1024 * i, 1024 * j));
        let answer = Call::new(&net, SIZE, ask).check();
        let Answer::Refined((refined, point)) = answer else {
            panic!("{answer:?}");
        };
        assert_eq!(refined, refine(&net, 1));
        assert_eq!(point, expected, "row {i} {j}");
    }
}

#[test]
fn refined_numbers_of_the_door_corner() {
    for (z, expected) in [
        (120, [[80, 20, 20], [0, 60, 60], [30, 0, 60]]),
        (-120, [[-80, -20, -20], [0, -60, -60], [-30, 0, -60]]),
    ] {
        let z = net_z(&refine(&door_corner(z), 1));
        // Vertices (0, 0), (1, 0) and (0, 1) of three in a row; beyond them all z are 0.
        for (vertex, z) in z.chunks(3).enumerate() {
            let place = [0, 1, 3].iter().position(|&at| at == vertex);
            assert_eq!(z, place.map_or([0; 3], |n| expected[n]), "vertex {vertex}");
        }
    }
}

#[test]
fn refined_halves_go_away_from_zero() {
    for (z, half) in [(1, 1), (-1, -1), (3, 2), (-3, -2), (5, 3), (-5, -3)] {
        let z = net_z(&refine(&door_corner(z), 1));
        assert_eq!(z[3..6], [0, half, half]);
    }
}

/// A kept control triangle at vertex (0, 0) of a flat net.
#[test]
fn coarse_z_of_kept_control_triangles() {
    let fine = (3, 3);
    for (kept, coarse) in [([80, 20, 20], [120, 0, 0]), ([0, 1, 1], [-1, 1, 1])] {
        let mut net = vec![0; record::numbers(fine)];
        for (k, z) in kept.into_iter().enumerate() {
            net[POINT_RECORD * k + 2] = z;
        }
        let answer = Call::new(&net, fine, Ask::split(fine)).check();
        let split = answer.split().expect("accepted");
        let z = net_z(&split.coarse);
        assert_eq!(z[..3], coarse, "{kept:?}");
        assert!(z[3..].iter().all(|&z| z == 0), "{kept:?}");
    }
}

/// Refining the door corner gives whole numbers, so nothing is left for the details.
#[test]
fn the_refined_door_corner_is_split_into_the_door_corner() {
    for z in [120, -120] {
        let net = door_corner(z);
        let (fine, refined) = ((3, 3), refine(&net, 1));
        let answer = Call::new(&refined, fine, Ask::split(fine)).check();
        let split = answer.split().expect("accepted");
        assert_eq!(split.coarse, net);
        assert_eq!(split.details, [0; record::details((3, 3))]);
        let merged = Call::merge(&split.coarse, &split.details, SIZE).check();
        assert_eq!(merged, Answer::Numbers(refined));
    }
}

#[test]
fn bezier_net_of_the_up_triangle() {
    let numbers = bezier(&door_corner(120), 0);
    let expected = [
        1440, 0, 0, 2880, 2160, 0, 0, 0, 0, 2880, 0, 0, 1440, 1080, 0, 1440, 1440, 0, 960,
    ];
    assert_eq!(bezier_z(&numbers), expected);
    let numbers = bezier(&door_corner(-120), 0);
    assert_eq!(bezier_z(&numbers), expected.map(|z| -z));
}

#[test]
fn bezier_net_of_the_down_triangle_is_flat() {
    assert_eq!(bezier_z(&bezier(&door_corner(120), 1)), [0; 19]);
}

/// x and y of the door corner are linear: the points lie at their places in the grid.
#[test]
fn bezier_net_x_and_y_of_the_up_triangle() {
    let numbers = bezier(&door_corner(120), 0);
    let x: Vec<i32> = numbers.iter().step_by(3).copied().collect();
    let y: Vec<i32> = numbers.iter().skip(1).step_by(3).copied().collect();
    let twelfths_x = [0, 12, 0, 3, 0, 9, 9, 0, 3, 2, 8, 2, 6, 0, 6, 5, 2, 5, 4];
    let twelfths_y = [0, 0, 12, 0, 3, 0, 3, 9, 9, 2, 2, 8, 0, 6, 6, 2, 5, 5, 4];
    assert_eq!(x, twelfths_x.map(|n| 3600 * n));
    assert_eq!(y, twelfths_y.map(|n| 3600 * n));
}

#[test]
fn x_and_y_of_the_door_corner_are_linear() {
    let numbers = door_corner(120);
    let net = LentNet::new(&numbers);
    let linear = |place: usize| Rational::new(1200 * place as i128, 1024).rounded();
    for q in (0..=1024).step_by(8) {
        for p in (0..=1024).step_by(8) {
            let [x, y, _] = net.surface_point(SIZE, (p, q), 3).expect("accepted");
            assert_eq!((i128::from(x), i128::from(y)), (linear(p), linear(q)));
        }
    }
}

/// At place (0, 512) the z of c1 of (0, 0) counts one quarter, so each number of quarters over
/// or under a whole number can be set up.
#[test]
fn quarters_are_rounded_once_with_halves_away_from_zero() {
    for (base, quarters, expected) in [
        (-48, 0, -48),
        (-48, 1, -48), // -47.75: plus a half, divided towards zero, it would give -47
        (-48, 2, -48), // -47.5
        (-48, 3, -47),
        (47, 1, 47),
        (47, 2, 48),
        (47, 3, 48),
        (-1, 1, -1),
        (-1, 2, -1), // -0.5
        (-1, 3, 0),
        (0, 1, 0),
        (0, 2, 1),
    ] {
        let mut net = door_corner(0);
        for z in net.iter_mut().skip(2).step_by(POINT_RECORD) {
            *z = base;
        }
        net[2] = base + quarters;
        assert_eq!(point(&net, 0, 512)[2], expected, "{base} + {quarters}/4");
    }
}

#[test]
fn examples_of_refusals() {
    let net = door_corner(120);
    let asks = [
        Ask::Vertex { i: 0, j: 0 },
        Ask::Bezier {
            i: 0,
            j: 0,
            down: 0,
        },
        Ask::Surface { p: 0, q: 0 },
        Ask::View { p: 0, q: 0 },
        Ask::Write { written_len: 1 },
        Ask::refine(SIZE, 0),
        Ask::refine(SIZE, 1),
        Ask::refine(SIZE, 6),
        Ask::refined_point(SIZE, 0, (0, 0)),
        Ask::refined_point(SIZE, 2, (0, 0)),
    ];
    for ask in asks {
        Call::new(&net, SIZE, ask).expect(0);
        Call::new(&net, (1, 2), ask).expect(1);
        Call::new(&net[..35], SIZE, ask).expect(2);
        let mut beyond = net.clone();
        beyond[0] = 16_777_217;
        let number = if matches!(ask, Ask::Vertex { .. }) {
            0
        } else {
            3
        };
        Call::new(&beyond, SIZE, ask).expect(number);
    }
    for ask in [
        Ask::Surface { p: 1025, q: 0 },
        Ask::View { p: 1025, q: 0 },
        Ask::refined_point(SIZE, 0, (1025, 0)),
        Ask::refined_point(SIZE, 1, (2049, 0)),
    ] {
        Call::new(&net, SIZE, ask).expect(6);
    }
    let wide = (18, 2);
    for ask in [Ask::refine(wide, 6), Ask::refined_point(wide, 6, (0, 0))] {
        Call::new(&vec![0; record::numbers(wide)], wide, ask).expect(4);
    }
    let mut write = Call::new(&net, SIZE, Ask::Write { written_len: 1 });
    for (out_len, refusal) in [(155, 5), (156, 0)] {
        write.out_len = out_len;
        write.expect(refusal);
    }
}

#[test]
fn examples_of_refusals_of_split_merge_and_clean() {
    let fine = (3, 3);
    let zeros = [0; record::details((4, 3))];
    for ask in [Ask::split((4, 3)), Ask::Clean { t: 1 }] {
        Call::new(&zeros, (4, 3), ask).expect(10);
        Call::new(&zeros, fine, ask).expect(0);
    }
    for (t, refusal) in [(33_554_432, 0), (33_554_433, 12)] {
        Call::new(&zeros, fine, Ask::Clean { t }).expect(refusal);
    }
    for (number, detail, refusal) in [
        (16_777_216, 0, 0),
        (16_777_215, 1, 0),
        (16_777_216, 1, 11),
        (-16_777_216, -1, 11),
        (16_777_216, -33_554_432, 0),
        (16_777_216, -33_554_433, 3),
        (16_777_217, 0, 3),
    ] {
        let details = [detail; record::details((3, 3))];
        Call::merge(&[number; NUMBERS], &details, SIZE).expect(refusal);
    }
    for ask in [Ask::split(fine), Ask::Clean { t: 1 }, Ask::Merge] {
        Call::new(&zeros, (1, 3), ask).expect(1);
    }
}

#[test]
fn examples_of_refused_files() {
    let file = file(&door_corner(120));
    let expect = |file: &[u8], refusal| Reading::new(file, NUMBERS).expect(refusal);
    expect(&file, 0);
    expect(&[], 7);
    expect(&[&[0x20, 0, 0, 2], &file[4..]].concat(), 8);
    expect(&[&file[..], &[0]].concat(), 9);
    expect(&[&[0x10, 0, 0, 1], &file[4..]].concat(), 1);
    // x = 16,777,217
    expect(&[&file[..8], &[0x31, 0, 0, 1], &file[12..]].concat(), 3);
}

/// Every word of the door corner's file, written out by hand.
#[test]
fn the_file_of_the_door_corner() {
    #[rustfmt::skip]
    let words = [
        0x10000002, 0x20000002,
        0x30000258, 0x40000000, 0x50000078,
        0x3ffffda8, 0x40000258, 0x50000000,
        0x30000000, 0x4ffffda8, 0x50000000,
        0x30000708, 0x40000000, 0x50000000,
        0x30000258, 0x40000258, 0x50000000,
        0x300004b0, 0x4ffffda8, 0x50000000,
        0x30000258, 0x400004b0, 0x50000000,
        0x3ffffda8, 0x40000708, 0x50000000,
        0x30000000, 0x40000258, 0x50000000,
        0x30000708, 0x400004b0, 0x50000000,
        0x30000258, 0x40000708, 0x50000000,
        0x300004b0, 0x40000258, 0x50000000,
        0x60000000_u32,
    ];
    let bytes: Vec<u8> = words.into_iter().flat_map(u32::to_be_bytes).collect();
    assert_eq!(bytes.len(), 156);
    let numbers = door_corner(120);
    assert_eq!(file(&numbers), bytes);
    let net = FileNet {
        size: SIZE,
        numbers,
    };
    assert_eq!(Reading::new(&bytes, NUMBERS).check(), Ok(net));
}

#[test]
fn z_of_minus_one_is_word_5fffffff() {
    let net = door_corner(-1);
    assert_eq!(netfile::word(netfile::Z, -1), 0x5fff_ffff);
    let bytes = file(&net);
    // The fifth word is z of c1 of (0, 0).
    assert_eq!(bytes[16..20], [0x5f, 0xff, 0xff, 0xff]);
    let back = Reading::new(&bytes, NUMBERS).check().expect("accepted");
    assert_eq!(back.numbers, net);
}

#[test]
fn accepted_at_the_edge() {
    let net = door_corner(120);
    assert_eq!(point(&net, 1024, 0), [1200, 0, 0]);
    for edge in [LIMIT, -LIMIT] {
        assert_eq!(edge.abs(), 16_777_216);
        let full = vec![edge; NUMBERS];
        assert_eq!(point(&full, 300, 200), [edge; 3]);
        assert_eq!(bezier(&full, 0), [36 * edge; 57]);
        assert_eq!(bezier(&full, 1), [36 * edge; 57]);
        Reading::new(&file(&full), NUMBERS).expect(0);
        let mut one = net.clone();
        one[0] = edge;
        point(&one, 300, 200);
        bezier(&one, 0);
        file(&one);
    }
}

#[test]
fn six_steps_of_17_by_17_are_accepted() {
    let size = (17, 17);
    let last = 1024 * 1024;
    for edge in [LIMIT, -LIMIT] {
        let net = LentNet::new(&vec![edge; record::numbers(size)]);
        let room = Room::of_steps(size, 6, 0);
        let refined = net.refine(size, 6, room).expect("accepted");
        assert!(refined == vec![edge; record::numbers((1025, 1025))]);
        let at_once = net.refined_point(size, 6, (last, last), room, 3);
        assert!(at_once == Ok((refined, [edge; 3])));
    }
}

#[test]
fn the_greatest_net_is_accepted() {
    const SIDE: usize = 1025;
    let size = (SIDE, SIDE);
    let numbers: Vec<i32> = (0..record::numbers(size))
        .map(|n| (n as i32).wrapping_mul(0x2545_f491) >> 8)
        .collect();
    assert!(numbers.iter().all(|x| (-LIMIT..=LIMIT).contains(x)));
    let net = LentNet::new(&numbers);
    assert_eq!(net.vertex_refusal(SIDE, SIDE, 1024, 1024), 0);
    assert_eq!(net.vertex_refusal(SIDE, SIDE, 1025, 1024), 6);
    let last = 1024 * 1024;
    for place in [
        (last, last),
        (last, 0),
        (0, last),
        (last - 1, 512 * 1024 + 3),
    ] {
        let expected = oracle::surface_point(&numbers, size, place, 3);
        assert!(expected.is_ok());
        assert_eq!(net.surface_point(size, place, 3), expected);
        let view = net.view_point(size, place, 3);
        assert_eq!(view, expected.map(oracle::view_bits));
    }
    for down in [0, 1] {
        let expected = oracle::bezier_net(&numbers, size, (1023, 1023), down, 57);
        assert!(expected.is_ok());
        assert_eq!(net.bezier_net(size, (1023, 1023), down, 57), expected);
    }
}

#[test]
fn one_vertex_more_a_side_is_refused() {
    let numbers = vec![0; record::numbers((1026, 1026))];
    let net = LentNet::new(&numbers);
    let file_len = |(w, h)| netfile::file_len(w, h).expect("a length");
    let copy = |size| Room::of_steps(size, 0, 0);
    for size in [
        (1026, 1026),
        (1026, 1025),
        (1025, 1026),
        (1026, 2),
        (2, 1026),
    ] {
        assert_eq!(net.vertex_refusal(size.0, size.1, 0, 0), 1);
        assert_eq!(net.bezier_net(size, (0, 0), 0, 57), Err(1));
        assert_eq!(net.surface_point(size, (0, 0), 3), Err(1));
        assert_eq!(net.view_point(size, (0, 0), 3), Err(1));
        assert_eq!(net.write(size, file_len(size), 1).err(), Some(1));
        assert_eq!(net.refine(size, 0, copy(size)).err(), Some(1));
    }
    for size in [(1025, 1025), (1025, 2), (2, 1025)] {
        assert_eq!(net.vertex_refusal(size.0, size.1, 0, 0), 0);
        assert_eq!(net.bezier_net(size, (0, 0), 0, 57), Ok([0; 57]));
        assert_eq!(net.surface_point(size, (0, 0), 3), Ok([0; 3]));
        assert_eq!(net.view_point(size, (0, 0), 3), Ok([0; 3]));
        assert_eq!(net.write(size, file_len(size), 1).err(), None);
        assert_eq!(net.refine(size, 0, copy(size)).err(), None);
    }
}
