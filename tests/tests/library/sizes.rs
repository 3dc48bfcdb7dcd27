//! The size functions of the crate `ups`: they are the oracle's lengths, the library takes exactly
//! that room and not one number less, and 0 is for what the library refuses by its sizes.

use ups::{coarse_numbers, coarse_side, detail_numbers, file_bytes, file_numbers};
use ups::{given_numbers, net_numbers};
use ups::{lent, Refusal};
use ups::{refined_numbers, refined_triangles, scratch_numbers, side_after, triangles};
use ups::{BEZIER, DETAIL_RECORD, FILE_WORDS, GIVEN_RECORD, POINT, RECORD, SEAM_POINTS};
use ups::{EDGE, GREATEST_DEPTH, GREATEST_SIDE, LEAST_SIDE};
use ups_tests::hermite;
use ups_tests::multiresolution;
use ups_tests::netfile::{self, HEIGHT, POINT_WORDS, WIDTH};
use ups_tests::oracle::{Faults, BEZIER_NUMBERS, POINT_NUMBERS};
use ups_tests::outlines::{self, Door};
use ups_tests::record;
use ups_tests::refinement;
use ups_tests::seam::SEAM_NUMBERS;

type Size = (usize, usize);

const MAX: usize = usize::MAX;
const SHORT: Refusal = Refusal::SHORT;
const ROOM: Refusal = Refusal::ROOM;
const WIDE: usize = 1 << 32;
const SIDES: [usize; 19] = [
    0, 1, 2, 3, 4, 5, 17, 18, 33, 512, 513, 514, 1023, 1024, 1025, 1026, 1027, WIDE, MAX,
];
const STEPS: [usize; 11] = [0, 1, 2, 3, 4, 5, 6, 7, 63, 64, MAX];
/// Sizes on which the library is called, each with the most steps that are tried.
const LENT: [(Size, usize); 7] = [
    ((2, 2), 6),
    ((5, 3), 3),
    ((3, 5), 2),
    ((17, 17), 6),
    ((513, 2), 1),
    ((1025, 2), 0),
    ((3, 1025), 0),
];

fn sizes() -> impl Iterator<Item = Size> {
    SIDES.into_iter().flat_map(|w| SIDES.map(|h| (w, h)))
}

/// The oracle's length, or 0 where one of these refusals holds.
fn expected(len: Option<usize>, faults: &Faults, refusals: &[u32]) -> usize {
    let refuses = |&(holds, number): &(bool, u32)| holds && refusals.contains(&number);
    if faults.iter().any(refuses) {
        0
    } else {
        len.expect("a length")
    }
}

#[test]
fn records() {
    assert_eq!(RECORD, record::RECORD);
    assert_eq!(DETAIL_RECORD, record::DETAIL_RECORD);
    assert_eq!(GIVEN_RECORD, record::GIVEN_RECORD);
    assert_eq!((POINT, BEZIER), (POINT_NUMBERS, BEZIER_NUMBERS));
    assert_eq!(SEAM_POINTS, SEAM_NUMBERS);
    assert_eq!(FILE_WORDS, 3 * POINT_WORDS);
    assert_eq!((EDGE, LEAST_SIDE), (1024, 2));
    assert_eq!((GREATEST_SIDE, GREATEST_DEPTH), (1025, 6));
}

#[test]
fn of_nets_and_files() {
    for (w, h) in sizes() {
        let faults = netfile::write_faults(&[], (w, h), MAX, MAX);
        let numbers = expected(refinement::refined_len((w, h), 0), &faults, &[1]);
        assert_eq!(net_numbers(w, h), numbers, "{w} {h}");
        let bytes = expected(netfile::file_len(w, h), &faults, &[1]);
        assert_eq!(file_bytes(w, h), bytes, "{w} {h}");
    }
}

#[test]
fn of_given_points() {
    for (w, h) in sizes() {
        let faults = hermite::from_points_faults(&[], (w, h), MAX);
        let given = expected(hermite::given_len((w, h)), &faults, &[1]);
        assert_eq!(given_numbers(w, h), given, "{w} {h}");
    }
}

#[test]
fn of_refined_nets() {
    for (w, h) in sizes() {
        for k in STEPS {
            let faults = refinement::refine_faults(&[], (w, h), k, MAX, MAX);
            let refined = expected(refinement::refined_len((w, h), k), &faults, &[1, 4]);
            assert_eq!(refined_numbers(w, h, k), refined, "{w} {h} {k}");
            let scratch = expected(refinement::scratch_len((w, h), k), &faults, &[1, 4]);
            assert_eq!(scratch_numbers(w, h, k), scratch, "{w} {h} {k}");
        }
    }
}

#[test]
fn of_outlines() {
    for (w, h) in sizes() {
        let faults = outlines::check_faults(&Door::new(&[], (w, h)), MAX);
        let count = expected(outlines::triangles((w, h)), &faults, &[1]);
        assert_eq!(triangles(w, h), count, "{w} {h}");
        for k in STEPS {
            let faults = refinement::refine_faults(&[], (w, h), k, MAX, MAX);
            let fine = expected(outlines::fine_triangles((w, h), k), &faults, &[1, 4]);
            assert_eq!(refined_triangles(w, h, k), fine, "{w} {h} {k}");
        }
    }
}

#[test]
fn of_splits() {
    for (w, h) in sizes() {
        let faults = multiresolution::split_faults(&[], (w, h), MAX, MAX);
        let coarse = expected(multiresolution::coarse_len((w, h)), &faults, &[1, 10]);
        assert_eq!(coarse_numbers(w, h), coarse, "{w} {h}");
        let details = expected(multiresolution::details_len((w, h)), &faults, &[1, 10]);
        assert_eq!(detail_numbers(w, h), details, "{w} {h}");
    }
}

#[test]
fn of_merged_nets() {
    for (w, h) in sizes() {
        let faults = multiresolution::merge_faults(&[], &[], (w, h), MAX);
        let merged = expected(refinement::refined_len((w, h), 1), &faults, &[1, 4]);
        assert_eq!(refined_numbers(w, h, 1), merged, "{w} {h}");
        let needed = multiresolution::merged_details_len((w, h));
        let details = detail_numbers(side_after(w, 1), side_after(h, 1));
        assert_eq!(details, expected(needed, &faults, &[1, 4]), "{w} {h}");
    }
}

#[test]
fn of_every_side() {
    for side in (0..1100).chain(SIDES) {
        let size = (side, side);
        for k in STEPS {
            let faults = refinement::refine_faults(&[], size, k, MAX, MAX);
            let refined = refinement::refined_size(size, k);
            let after = expected(refined.map(|(w, _)| w), &faults, &[1, 4]);
            assert_eq!(side_after(side, k), after, "{side} {k}");
        }
        let faults = multiresolution::split_faults(&[], size, MAX, MAX);
        let (coarse, _) = multiresolution::coarse_size(size);
        let coarse = expected(Some(coarse), &faults, &[1, 10]);
        assert_eq!(coarse_side(side), coarse, "{side}");
    }
}

/// The kinds of the two words are not looked at, and every bit of their payloads is.
#[test]
fn of_the_net_in_a_file() {
    let sides = [0, 1, 2, 3, 1025, 1026].into_iter();
    let payloads: Vec<usize> = sides.chain((11..28).map(|bit| (1 << bit) + 2)).collect();
    for &w in &payloads {
        for &h in &payloads {
            for (one, two) in [(WIDTH, HEIGHT), (0, 15), (9, 1)] {
                let (one, two) = (netfile::word(one, w as i64), netfile::word(two, h as i64));
                let file = netfile::bytes(&[one, two, 0]);
                for len in 0..8 {
                    assert_eq!(file_numbers(&file[..len]), 0);
                }
                for len in 8..=file.len() {
                    assert_eq!(file_numbers(&file[..len]), net_numbers(w, h), "{w} {h}");
                }
            }
        }
    }
}

/// Of a call to which nothing is lent: it is refused by its size where the answer is 0, and else
/// since the net is too short.
fn expect_empty(len: usize, by_size: &[Refusal], answer: Result<(), Refusal>) {
    let refusal = answer.expect_err("nothing is lent");
    assert_eq!(by_size.contains(&refusal), len == 0, "{refusal}");
    assert!(len == 0 || refusal == SHORT, "{refusal}");
}

#[test]
fn nothing_is_for_refused_sizes_alone() {
    let (side, even, depth) = (Refusal::SIZE, Refusal::EVEN, Refusal::DEPTH);
    let (side, odd, steps) = ([side], [side, even], [side, depth]);
    for (w, h) in sizes() {
        let checked = lent::check_outline(&[], w, h, &mut []);
        expect_empty(triangles(w, h), &side, checked);
        let written = lent::write(&[], w, h, &mut []).map(|_| ());
        expect_empty(net_numbers(w, h), &side, written);
        expect_empty(file_bytes(w, h), &side, written);
        for k in STEPS {
            let refined = lent::refine(&[], w, h, k, &mut [], &mut []);
            expect_empty(refined_numbers(w, h, k), &steps, refined);
            let outlined =
                lent::refine_outlined(&[], w, h, k, &[], &mut [], &mut [], &mut [], &mut []);
            expect_empty(refined_triangles(w, h, k), &steps, outlined);
        }
        let split = lent::split(&[], w, h, &mut [], &mut []);
        expect_empty(coarse_numbers(w, h), &odd, split);
        let cleaned = lent::clean(&mut [], w, h, 0);
        expect_empty(detail_numbers(w, h), &odd, cleaned);
        let merged = lent::merge(&[], &[], w, h, &mut []);
        expect_empty(refined_numbers(w, h, 1), &steps, merged);
        let through = lent::from_points(&[], w, h, &mut []);
        expect_empty(given_numbers(w, h), &side, through);
    }
}

/// Calls with slices of these lengths, and with each of them shorter by one number, which is
/// refused.
fn check_room<const N: usize>(
    lens: [usize; N],
    refusals: [Refusal; N],
    call: impl Fn([usize; N]) -> Result<(), Refusal>,
) {
    assert_eq!(call(lens), Ok(()), "{lens:?}");
    for (slice, refusal) in refusals.into_iter().enumerate() {
        let mut less = lens;
        // A scratch that is not needed cannot be shorter.
        if lens[slice] > 0 {
            less[slice] -= 1;
            assert_eq!(call(less), Err(refusal), "{less:?}");
        }
    }
}

fn zeros(len: usize) -> Vec<i32> {
    vec![0; len]
}

#[test]
fn room_of_vertices_points_and_bezier_nets() {
    for ((w, h), _) in LENT {
        let net = net_numbers(w, h);
        check_room([net], [SHORT], |[net]| {
            let numbers = zeros(net);
            assert_eq!(lent::vertex(&numbers, w, h, 1, 1)?.len(), RECORD);
            Ok(())
        });
        check_room([net, BEZIER], [SHORT, ROOM], |[net, out]| {
            lent::bezier_net(&zeros(net), w, h, 0, 0, true, &mut zeros(out))
        });
        check_room([net, POINT], [SHORT, ROOM], |[net, out]| {
            lent::surface_point(&zeros(net), w, h, 1024, 1024, &mut zeros(out))
        });
        check_room([net, POINT], [SHORT, ROOM], |[net, out]| {
            lent::view_point(&zeros(net), w, h, 1024, 1024, &mut vec![0.0; out])
        });
    }
}

#[test]
fn room_of_files() {
    for ((w, h), _) in LENT {
        let (net, bytes) = (net_numbers(w, h), file_bytes(w, h));
        check_room([net, bytes], [SHORT, ROOM], |[net, out]| {
            assert_eq!(lent::write(&zeros(net), w, h, &mut vec![0; out])?, bytes);
            Ok(())
        });
        let file = netfile::file(&zeros(net), (w, h));
        check_room([file_numbers(&file)], [ROOM], |[net]| {
            assert_eq!(lent::read(&file, &mut zeros(net))?, (w, h));
            Ok(())
        });
    }
}

#[test]
fn room_of_refined_nets() {
    for ((w, h), most) in LENT {
        for k in 0..=most {
            let (net, out) = (net_numbers(w, h), refined_numbers(w, h, k));
            let lens = [net, out, scratch_numbers(w, h, k)];
            check_room(lens, [SHORT, ROOM, ROOM], |[net, out, scratch]| {
                lent::refine(&zeros(net), w, h, k, &mut zeros(out), &mut zeros(scratch))
            });
            let lens = [net, out, scratch_numbers(w, h, k), POINT];
            check_room(lens, [SHORT, ROOM, ROOM, ROOM], |[net, out, by, point]| {
                let (out, by, point) = (&mut zeros(out), &mut zeros(by), &mut zeros(point));
                lent::refined_point(&zeros(net), w, h, k, 0, 0, out, by, point)
            });
        }
    }
}

/// As many steps on both sides together as the sides take.
#[test]
fn room_of_seams() {
    for ((w, h), most) in LENT {
        for k in 0..=most {
            let l = most - k;
            let [(out, by), (out2, by2)] =
                [k, l].map(|k| (refined_numbers(w, h, k), scratch_numbers(w, h, k)));
            let lens = [net_numbers(w, h), out, by, out2, by2, SEAM_POINTS];
            let refusals = [SHORT, ROOM, ROOM, ROOM, ROOM, ROOM];
            check_room(lens, refusals, |[net, out, by, out2, by2, to]| {
                let (net, to) = (&zeros(net), &mut zeros(to));
                let (out, by) = (&mut zeros(out), &mut zeros(by));
                let (out2, by2) = (&mut zeros(out2), &mut zeros(by2));
                lent::seam_points(net, w, h, k, l, 0, 0, 0, 0, out, by, out2, by2, to)
            });
        }
    }
}

fn ones(len: usize) -> Vec<u8> {
    vec![1; len]
}

#[test]
fn room_of_outlines() {
    for ((w, h), _) in LENT {
        let (net, count) = (net_numbers(w, h), triangles(w, h));
        check_room([count, count], [SHORT, ROOM], |[outline, search]| {
            lent::check_outline(&ones(outline), w, h, &mut vec![0; search])
        });
        let refusals = [SHORT, SHORT, ROOM];
        check_room([net, count, BEZIER], refusals, |[net, on, out]| {
            let (net, on, out) = (zeros(net), ones(on), &mut zeros(out));
            lent::bezier_net_outlined(&net, w, h, &on, 0, 0, true, out)
        });
        check_room([net, count, POINT], refusals, |[net, on, out]| {
            let (net, on, out) = (zeros(net), ones(on), &mut zeros(out));
            lent::surface_point_outlined(&net, w, h, &on, 1024, 1024, out)
        });
        check_room([net, count, POINT], refusals, |[net, on, out]| {
            let (net, on, out) = (zeros(net), ones(on), &mut vec![0.0; out]);
            lent::view_point_outlined(&net, w, h, &on, 1024, 1024, out)
        });
    }
}

#[test]
fn room_of_refined_outlines() {
    for ((w, h), most) in LENT {
        for k in 0..=most {
            let (net, count) = (net_numbers(w, h), triangles(w, h));
            let (out, by) = (refined_numbers(w, h, k), scratch_numbers(w, h, k));
            let fine = refined_triangles(w, h, k);
            let lens = [net, count, out, by, fine, count];
            let refusals = [SHORT, SHORT, ROOM, ROOM, ROOM, ROOM];
            check_room(lens, refusals, |[net, on, out, by, fine, search]| {
                let (net, on, search) = (zeros(net), ones(on), &mut vec![0; search]);
                let (out, by, fine) = (&mut zeros(out), &mut zeros(by), &mut ones(fine));
                lent::refine_outlined(&net, w, h, k, &on, out, by, fine, search)
            });
            let lens = [net, count, out, by, fine, count, POINT];
            let refusals = [SHORT, SHORT, ROOM, ROOM, ROOM, ROOM, ROOM];
            check_room(lens, refusals, |[net, on, out, by, fine, search, at]| {
                let (net, on, search) = (zeros(net), ones(on), &mut vec![0; search]);
                let (out, by, fine) = (&mut zeros(out), &mut zeros(by), &mut ones(fine));
                let at = &mut zeros(at);
                lent::refined_point_outlined(&net, w, h, k, &on, 0, 0, out, by, fine, search, at)
            });
        }
    }
}

/// Of the sizes, those that can be split.
#[test]
fn room_of_splits() {
    let sizes = LENT.map(|(size, _)| size).into_iter();
    for (w, h) in sizes.filter(|&(w, h)| coarse_numbers(w, h) > 0) {
        let (coarse, details) = (coarse_numbers(w, h), detail_numbers(w, h));
        let lens = [net_numbers(w, h), coarse, details];
        check_room(lens, [SHORT, ROOM, ROOM], |[net, coarse, details]| {
            lent::split(&zeros(net), w, h, &mut zeros(coarse), &mut zeros(details))
        });
        check_room([details], [SHORT], |[details]| {
            lent::clean(&mut zeros(details), w, h, 1)
        });
    }
}

/// Of the sizes, those that can be refined.
#[test]
fn room_of_merged_nets() {
    for ((w, h), _) in LENT.into_iter().filter(|(_, most)| *most > 0) {
        let details = detail_numbers(side_after(w, 1), side_after(h, 1));
        let lens = [net_numbers(w, h), details, refined_numbers(w, h, 1)];
        check_room(lens, [SHORT, SHORT, ROOM], |[coarse, details, out]| {
            lent::merge(&zeros(coarse), &zeros(details), w, h, &mut zeros(out))
        });
    }
}

#[test]
fn room_of_nets_through_given_points() {
    for ((w, h), _) in LENT {
        let lens = [given_numbers(w, h), net_numbers(w, h)];
        check_room(lens, [SHORT, ROOM], |[given, out]| {
            lent::from_points(&zeros(given), w, h, &mut zeros(out))
        });
    }
}
