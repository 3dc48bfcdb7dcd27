//! Nets through given points: number for number, the points found again at the vertices, the
//! derivatives there, and that no other net has them.

use ups_tests::call::{outlined_asks, Ask, Call, ASKS};
use ups_tests::hermite::{pieces_at, Jet, Piece};
use ups_tests::kernel::{LentGiven, LentNet, Room};
use ups_tests::nets::{self, Numbers, NUMBERS};
use ups_tests::oracle::{triangles_at, Net, Vertex, EDGE, LIMIT};
use ups_tests::random::Random;
use ups_tests::rational::Rational;
use ups_tests::record::{self, GIVEN_RECORD, RECORD};
use ups_tests::refinement;
use ups_tests::shapes;

type Size = (usize, usize);

/// Differences are taken over d/D of an edge, with d and D of these.
const DISTANCES: [(i128, i128); 6] = [(1, 1024), (-1, 1024), (1, 2), (5, 7), (-3, 1), (1000, 3)];

/// The net through points that are accepted, after comparison with the oracle's.
fn through(given: &[i32], size: Size) -> Vec<i32> {
    let net = Call::new(given, size, Ask::FromPoints).check().numbers();
    net.expect("accepted")
}

/// Every vertex with its given numbers.
fn vertices(given: &[i32], (w, _): Size) -> impl Iterator<Item = (Size, &[i32])> {
    let numbers = given.chunks_exact(GIVEN_RECORD).enumerate();
    numbers.map(move |(n, vertex)| ((n % w, n / w), vertex))
}

fn exact((i, j): Size) -> Vertex {
    (i as i128, j as i128)
}

/// The same numbers at every vertex.
fn everywhere(vertex: [i32; GIVEN_RECORD], (w, h): Size) -> Vec<i32> {
    vertex.repeat(w * h)
}

/// The specification's formulas with numbers that are all different, and columns that are not rows.
#[test]
fn by_hand() {
    let mut given = vec![0; record::given((3, 2))];
    given[..9].copy_from_slice(&[10, 20, 30, 1, 2, 3, 400, 500, 600]);
    given[4 * 9..5 * 9].copy_from_slice(&[-7, 0, 7, 1000, -1, 5, -1000, 1, 6]);
    let mut net = vec![0; record::numbers((3, 2))];
    net[..9].copy_from_slice(&[11, 22, 33, 410, 520, 630, -391, -482, -573]);
    net[4 * 9..5 * 9].copy_from_slice(&[993, -1, 12, -1007, 1, 13, -7, 0, -4]);
    assert_eq!(through(&given, (3, 2)), net);
    let net = LentNet::new(&net);
    assert_eq!(net.surface_point((3, 2), (1024, 1024), 3), Ok([-7, 0, 7]));
    assert_eq!(net.surface_point((3, 2), (2048, 0), 3), Ok([0; 3]));
}

#[test]
fn random_points() {
    let mut random = Random::new(601);
    for round in 0..4000 {
        let size = nets::random_size(&mut random);
        let given = nets::random_given(&mut random, size, NUMBERS[round % 4]);
        let mut call = Call::new(&given, size, Ask::FromPoints);
        call.out_len += random.pick(&[0, 1, RECORD - 1, RECORD, 100]);
        call.expect(0);
    }
}

/// p is found again at a vertex: in the net, and in the refined net, by two calls and by one.
fn check_vertex(net: &LentNet, refined: &LentNet, size: Size, (i, j): Size, p: [i32; 3]) {
    let fine = refinement::refined_size(size, 1).expect("a size");
    let place = (1024 * i, 1024 * j);
    assert_eq!(net.surface_point(size, place, 3), Ok(p), "{size:?}");
    let place = (2048 * i, 2048 * j);
    assert_eq!(refined.surface_point(fine, place, 3), Ok(p), "{size:?}");
    let room = Room::of_steps(size, 1, 0);
    let at_once = net.refined_point(size, 1, place, room, 3);
    assert_eq!(at_once.map(|(_, point)| point), Ok(p), "{size:?}");
}

/// p is found again at every `step`th vertex and at the last one.
fn check_points(given: &[i32], size: Size, step: usize) {
    let net = LentNet::new(&through(given, size));
    let room = Room::of_steps(size, 1, 0);
    let refined = LentNet::new(&net.refine(size, 1, room).expect("accepted"));
    let last = vertices(given, size).last();
    for (at, vertex) in vertices(given, size).step_by(step).chain(last) {
        check_vertex(&net, &refined, size, at, [vertex[0], vertex[1], vertex[2]]);
    }
}

#[test]
fn points_at_vertices() {
    let mut random = Random::new(602);
    for round in 0..800 {
        let size = nets::random_size(&mut random);
        let given = nets::random_given(&mut random, size, NUMBERS[round % 4]);
        check_points(&given, size, 1);
    }
}

/// Where one of the vectors is odd, or both are, two of the refined controls are halves and are
/// rounded away from zero. The point is p all the same.
#[test]
fn points_at_vertices_with_odd_vectors() {
    for p in [-2, -1, 0, 1, 5] {
        for t1 in -3..=3 {
            for t2 in -3..=3 {
                let vertex = [p, 0, -p, t1, -t1, t2, t2, t1, -t2];
                check_points(&everywhere(vertex, (2, 2)), (2, 2), 1);
            }
        }
    }
}

/// One refinement is all that is claimed: here the first one rounds c1 and c2 away from zero by a
/// half, and the second one all three by a third, which makes their sum 2 and the point 1, or -2
/// and -1.
#[test]
fn two_refinements_may_move_a_point() {
    let size = (3, 2);
    for sign in [1, -1] {
        let given = everywhere([0, 0, 0, 1, 1, 1, 1, 1, 1].map(|x| sign * x), size);
        check_points(&given, size, 1);
        let net = LentNet::new(&through(&given, size));
        let room = Room::of_steps(size, 2, 0);
        for (at @ (i, j), _) in vertices(&given, size) {
            let twice = net.refined_point(size, 2, (4096 * i, 4096 * j), room, 3);
            assert_eq!(twice.map(|(_, point)| point), Ok([sign; 3]), "{at:?}");
        }
    }
}

/// The longest sides that one refinement takes, and longer ones, which it refuses by 4.
#[test]
fn long_narrow_nets() {
    let mut random = Random::new(603);
    for size in [(513, 2), (2, 513)] {
        let given = nets::random_given(&mut random, size, Numbers::Mixed);
        check_points(&given, size, 100);
    }
    for size in [(514, 2), (2, 514), (1025, 2), (2, 1025)] {
        let given = nets::random_given(&mut random, size, Numbers::Mixed);
        let numbers = through(&given, size);
        Call::new(&numbers, size, Ask::refine(size, 1)).expect(4);
        let net = LentNet::new(&numbers);
        for ((i, j), vertex) in vertices(&given, size).step_by(7) {
            let point = net.surface_point(size, (1024 * i, 1024 * j), 3);
            assert_eq!(point, Ok([vertex[0], vertex[1], vertex[2]]), "{size:?}");
        }
    }
}

/// The first and the last vertex of the greatest net are looked at, and its last number is written.
#[test]
fn the_greatest_net() {
    let size = (1025, 1025);
    let given = nets::random_given(&mut Random::new(609), size, Numbers::Large);
    let mut call = Call::new(&given, size, Ask::FromPoints);
    call.out_len = record::numbers(size);
    call.expect(0);
    for position in [0, given.len() - 1] {
        let mut beyond = given.clone();
        beyond[position] = i32::MAX;
        let refused = LentGiven::new(&beyond).from_points(size, call.out_len);
        assert_eq!(refused, Err(16), "{position}");
    }
}

/// No call refuses the net by a number of it. A split may refuse its own result by 11.
#[test]
fn every_call_takes_the_net() {
    let mut random = Random::new(604);
    for round in 0..40 {
        let size = nets::random_odd_size(&mut random);
        let given = nets::random_given(&mut random, size, NUMBERS[round % 4]);
        let net = through(&given, size);
        let refining = [1, 2].map(|k| Ask::refine(size, k));
        for ask in ASKS.into_iter().chain(refining) {
            Call::new(&net, size, ask).expect(0);
        }
        for ask in outlined_asks(size, 1) {
            let outline = shapes::full(size);
            let call = Call::new(&net, size, ask).with_outline(&outline);
            call.expect(0);
        }
        let split = Call::new(&net, size, Ask::split(size)).check();
        assert!([0, 11].contains(&split.refusal()), "{split:?}");
        Call::new(&net, size, Ask::Merge).expect(0);
    }
}

/// The exact spline, taken from every triangle that holds the vertex.
#[test]
fn the_exact_spline_at_vertices() {
    let mut random = Random::new(605);
    for round in 0..200 {
        let size @ (w, h) = nets::random_size(&mut random);
        let given = nets::random_given(&mut random, size, NUMBERS[round % 4]);
        let numbers = through(&given, size);
        let net = Net::new(&numbers, w, h);
        for (at, vertex) in vertices(&given, size) {
            let (i, j) = exact(at);
            let (p, q) = (EDGE * i, EDGE * j);
            let due = Jet::given(vertex).value;
            assert_eq!(net.exact(p, q, EDGE), due, "{at:?}");
            for triangle in triangles_at(w, h, p, q, EDGE) {
                assert_eq!(net.exact_in(triangle, p, q, EDGE), due, "{at:?}");
            }
        }
    }
}

/// The slopes of the exact spline on each side of a vertex where the grid goes on. For half an edge
/// it is one quadratic f there, and (4f(x) - f(2x) - 3f(0))/(2x) is its derivative at 0.
#[test]
fn slopes_of_the_exact_spline() {
    let mut random = Random::new(610);
    let (three, four) = (Rational::whole(3), Rational::whole(4));
    for round in 0..40 {
        let size @ (w, h) = (2 + random.below(4), 2 + random.below(4));
        let given = nets::random_given(&mut random, size, NUMBERS[round % 4]);
        let numbers = through(&given, size);
        let net = Net::new(&numbers, w, h);
        let (p_limit, q_limit) = (EDGE * (w as i128 - 1), EDGE * (h as i128 - 1));
        for (at, vertex) in vertices(&given, size) {
            let (i, j) = exact(at);
            for ((x, y), due) in [(1, 0), (-1, 1)].into_iter().zip(Jet::given(vertex).along) {
                for d in [-256, -5, 1, 100] {
                    let place = |n: i128| (EDGE * i + n * d * x, EDGE * j + n * d * y);
                    let (p, q) = place(2);
                    if !(0..=p_limit).contains(&p) || !(0..=q_limit).contains(&q) {
                        continue;
                    }
                    let [f0, f1, f2] = [0, 1, 2].map(|n| net.exact(place(n).0, place(n).1, EDGE));
                    let factor = Rational::new(EDGE, 2 * d);
                    let slope = [0, 1, 2].map(|n| factor * (four * f1[n] - f2[n] - three * f0[n]));
                    assert_eq!(slope, due, "{at:?}, {d}");
                }
            }
        }
    }
}

/// Twelve inside, six on a border, and four and two at the corners of the grid.
#[test]
fn pieces_that_meet_a_vertex() {
    let numbers = vec![0; record::numbers((4, 3))];
    let net = Net::new(&numbers, 4, 3);
    let rows = [[2, 6, 6, 4], [6, 12, 12, 6], [4, 6, 6, 2]];
    for (j, row) in rows.into_iter().enumerate() {
        for (i, count) in row.into_iter().enumerate() {
            assert_eq!(pieces_at(&net, exact((i, j))).len(), count, "({i}, {j})");
        }
    }
}

/// The jets of all pieces that meet a vertex.
fn jets(net: &Net, at: Size) -> Vec<Jet> {
    let jet = |piece: Piece| piece.jet(1, 2);
    pieces_at(net, exact(at)).into_iter().map(jet).collect()
}

#[test]
fn derivatives_at_vertices() {
    let mut random = Random::new(606);
    for round in 0..60 {
        let size @ (w, h) = (2 + random.below(4), 2 + random.below(4));
        let given = nets::random_given(&mut random, size, NUMBERS[round % 4]);
        let numbers = through(&given, size);
        let net = Net::new(&numbers, w, h);
        for (at, vertex) in vertices(&given, size) {
            for piece in pieces_at(&net, exact(at)) {
                for (d, edge) in DISTANCES {
                    assert_eq!(piece.jet(d, edge), Jet::given(vertex), "{at:?}, {d}/{edge}");
                }
            }
        }
    }
}

/// The same differences tell other nets apart: random control points have derivatives of their
/// own, twice c1 and c2 from their mean, and not those of random vectors. Where the mean is not
/// whole, no given points have it.
#[test]
fn other_nets_have_other_derivatives() {
    let mut random = Random::new(607);
    let mut unfit = 0;
    for round in 0..60 {
        let size @ (w, h) = (2 + random.below(4), 2 + random.below(4));
        let numbers = nets::random_net(&mut random, size, NUMBERS[round % 4]);
        let given = nets::random_given(&mut random, size, NUMBERS[round % 4]);
        let net = Net::new(&numbers, w, h);
        for (at, vertex) in vertices(&given, size) {
            let [c1, c2, c3] = [0, 3, 6].map(|n| {
                let control = &net.vertex(exact(at))[n..n + 3];
                [0, 1, 2].map(|x| Rational::from(control[x]))
            });
            let (two, three) = (Rational::whole(2), Rational::whole(3));
            let value = [0, 1, 2].map(|x| (c1[x] + c2[x] + c3[x]) / three);
            let along = [c1, c2].map(|c| [0, 1, 2].map(|x| two * (c[x] - value[x])));
            unfit += usize::from(value.iter().any(|x| x.denominator() != 1));
            for jet in jets(&net, at) {
                assert_eq!(jet, Jet { value, along }, "{at:?}");
                let due = Jet::given(vertex);
                assert!(jet.value != due.value && jet.along != due.along, "{at:?}");
            }
        }
    }
    assert!(unfit >= 100, "{unfit}");
}

/// Each control number changed alone, by little and by much: at its vertex every piece has another
/// value or another derivative, and at the other vertices nothing differs.
#[test]
fn each_control_number_counts() {
    let mut random = Random::new(608);
    let size @ (w, h) = (3, 2);
    let given = nets::random_given(&mut random, size, Numbers::Large);
    let numbers = through(&given, size);
    for position in 0..numbers.len() {
        for change in [1, -1, 3, 1_000_003, -LIMIT] {
            let mut changed = numbers.clone();
            changed[position] += change;
            let net = Net::new(&changed, w, h);
            for (n, (at, vertex)) in vertices(&given, size).enumerate() {
                let own = n == position / RECORD;
                for jet in jets(&net, at) {
                    let differs = jet != Jet::given(vertex);
                    assert_eq!(differs, own, "{position} by {change}, {at:?}");
                }
            }
        }
    }
}
