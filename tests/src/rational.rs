//! Exact rational numbers over `i128`. An overflow panics in every build profile.

use std::cmp::Ordering;
use std::ops::{Add, Div, Mul, Neg, Sub};

/// A reduced fraction with a positive denominator, so equal values have equal fields.
#[derive(Clone, Copy, Debug, PartialEq, Eq)]
pub struct Rational {
    numerator: i128,
    denominator: i128,
}

fn times(a: i128, b: i128) -> i128 {
    a.checked_mul(b).expect("rational overflow")
}

fn plus(a: i128, b: i128) -> i128 {
    a.checked_add(b).expect("rational overflow")
}

fn gcd(a: u128, b: u128) -> u128 {
    let (mut a, mut b) = (a, b);
    while b != 0 {
        // Division of 64-bit numbers is much faster than division of 128-bit numbers.
        if let (Ok(mut c), Ok(mut d)) = (u64::try_from(a), u64::try_from(b)) {
            while d != 0 {
                (c, d) = (d, c % d);
            }
            return u128::from(c);
        }
        (a, b) = (b, a % b);
    }
    a
}

/// The whole number nearest to a fraction with a positive denominator, halves away from zero
/// (request d): the whole part of its size plus a half, with the sign put back. All of the oracle's
/// rounding is here.
pub fn nearest(numerator: i128, denominator: i128) -> i128 {
    let size = times(numerator, numerator.signum());
    let halves = plus(times(2, size), denominator);
    times(halves / times(2, denominator), numerator.signum())
}

/// Whether r is what n/d is rounded to, without a division: no whole number is nearer, and where
/// another is as near, that one is nearer to zero.
pub fn is_nearest(r: i128, n: i128, d: i128) -> bool {
    let twice = 2 * (r * d - n).abs();
    twice < d || twice == d && r.abs() * d > n.abs()
}

impl Rational {
    pub const ZERO: Rational = Rational {
        numerator: 0,
        denominator: 1,
    };

    pub fn new(numerator: i128, denominator: i128) -> Self {
        assert!(denominator != 0, "denominator 0");
        // Whole numbers, the most of the values, are reduced.
        if denominator == 1 {
            return Rational::whole(numerator);
        }
        let divisor = gcd(numerator.unsigned_abs(), denominator.unsigned_abs());
        let divisor = i128::try_from(divisor).expect("rational overflow");
        let sign = denominator.signum();
        Rational {
            numerator: times(numerator / divisor, sign),
            denominator: times(denominator / divisor, sign),
        }
    }

    pub fn whole(value: i128) -> Self {
        Rational {
            numerator: value,
            denominator: 1,
        }
    }

    pub fn numerator(self) -> i128 {
        self.numerator
    }

    pub fn denominator(self) -> i128 {
        self.denominator
    }

    /// The nearest whole number, halves away from zero.
    pub fn rounded(self) -> i128 {
        nearest(self.numerator, self.denominator)
    }
}

impl From<i32> for Rational {
    fn from(value: i32) -> Self {
        Rational::whole(i128::from(value))
    }
}

impl Add for Rational {
    type Output = Rational;

    fn add(self, other: Rational) -> Rational {
        if self.denominator == other.denominator {
            return Rational::new(plus(self.numerator, other.numerator), self.denominator);
        }
        let left = times(self.numerator, other.denominator);
        let right = times(other.numerator, self.denominator);
        Rational::new(
            plus(left, right),
            times(self.denominator, other.denominator),
        )
    }
}

impl Neg for Rational {
    type Output = Rational;

    fn neg(self) -> Rational {
        Rational {
            numerator: times(self.numerator, -1),
            denominator: self.denominator,
        }
    }
}

impl Sub for Rational {
    type Output = Rational;

    fn sub(self, other: Rational) -> Rational {
        self + -other
    }
}

impl Mul for Rational {
    type Output = Rational;

    fn mul(self, other: Rational) -> Rational {
        Rational::new(
            times(self.numerator, other.numerator),
            times(self.denominator, other.denominator),
        )
    }
}

impl Div for Rational {
    type Output = Rational;

    fn div(self, other: Rational) -> Rational {
        Rational::new(
            times(self.numerator, other.denominator),
            times(self.denominator, other.numerator),
        )
    }
}

impl Ord for Rational {
    fn cmp(&self, other: &Rational) -> Ordering {
        let left = times(self.numerator, other.denominator);
        left.cmp(&times(other.numerator, self.denominator))
    }
}

impl PartialOrd for Rational {
    fn partial_cmp(&self, other: &Rational) -> Option<Ordering> {
        Some(self.cmp(other))
    }
}
