//! Points by de Casteljau's algorithm in exact rationals, as source document 000 writes it:
//! formulas 2.13 to 2.15 for ordinates of any degree m, and algorithm 2.2 for a place of a net.

use crate::oracle::{chosen_triangle, gaps, order, scaled, sum, Net, Patch, Point, Triangle};
use crate::rational::Rational;
use std::collections::BTreeMap;

/// λ1, λ2, λ3.
pub type Index = [usize; 3];

/// The ordinates b^r(λ) of one step r, by their λ.
pub type Ordinates = BTreeMap<Index, Point>;

/// All λ of the sum m.
pub fn indices(m: usize) -> impl Iterator<Item = Index> {
    (0..=m).flat_map(move |one| (0..=m - one).map(move |two| [one, two, m - one - two]))
}

/// What b^r(λ) is the average of: b^(r-1) at λ with 1 more in its first, second and third place.
fn three(before: &Ordinates, [one, two, three]: Index) -> [Point; 3] {
    [
        before[&[one + 1, two, three]],
        before[&[one, two + 1, three]],
        before[&[one, two, three + 1]],
    ]
}

/// The steps at one τ: b^0, b^1, and so on to b^m.
pub struct Steps {
    pub tau: [Rational; 3],
    steps: Vec<Ordinates>,
}

impl Steps {
    /// Formula 2.14: b^0 are the ordinates, all those of degree m. Formula 2.15, for r = 1 to m:
    /// b^r(λ) is τ1, τ2 and τ3 times its three points, summed.
    pub fn new(ordinates: Ordinates, m: usize, tau: [Rational; 3]) -> Self {
        assert!(ordinates.keys().copied().eq(indices(m)));
        let mut steps = vec![ordinates];
        for r in 1..=m {
            let average = |at| {
                let [x, y, z] = three(&steps[r - 1], at);
                sum(&[scaled(x, tau[0]), scaled(y, tau[1]), scaled(z, tau[2])])
            };
            let step = indices(m - r).map(|at| (at, average(at))).collect();
            steps.push(step);
        }
        Steps { tau, steps }
    }

    /// Formula 2.13: b^m(0, 0, 0).
    pub fn value(&self) -> Point {
        let last = self.steps.last().expect("b^0 at least");
        last[&[0, 0, 0]]
    }

    /// The averages of steps 1 to m, each with its three points. With m = 2 these are b^1(1, 0, 0),
    /// b^1(0, 1, 0), b^1(0, 0, 1) and b^2(0, 0, 0).
    pub fn averages(&self) -> impl Iterator<Item = (Point, [Point; 3])> + '_ {
        self.steps.windows(2).flat_map(|pair| {
            let (before, step) = (&pair[0], &pair[1]);
            let falling = step.iter().rev();
            falling.map(|(&at, &point)| (point, three(before, at)))
        })
    }
}

/// Algorithm 2.2 in the given triangle: the small triangle of P, the middle of the edge P, Q and
/// the centre holds the place; its six ordinates; τ, which is A, B and G over the edge count; and
/// the two steps.
pub fn steps_in(net: &Net, triangle: Triangle, (p, q): (usize, usize), edge: i128) -> Steps {
    let shares = triangle.shares(p as i128, q as i128, edge);
    let [p, q, _] = order(shares);
    let patch = Patch::new(net, triangle);
    let ordinates = Ordinates::from([
        ([2, 0, 0], patch.s(p)),
        ([1, 1, 0], patch.u(p, q)),
        ([1, 0, 1], patch.v(p)),
        ([0, 2, 0], patch.r(p, q)),
        ([0, 1, 1], patch.m(p, q)),
        ([0, 0, 2], patch.z()),
    ]);
    let tau = gaps(shares).map(|gap| Rational::new(gap, edge));
    Steps::new(ordinates, 2, tau)
}

/// The same in the chosen triangle.
pub fn steps(net: &Net, (p, q): (usize, usize), edge: i128) -> Steps {
    let triangle = chosen_triangle(net.w, net.h, p as i128, q as i128, edge);
    steps_in(net, triangle, (p, q), edge)
}
