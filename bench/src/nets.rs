//! Times the calls on whole nets: refining, split, merge, clean, and nets through given points.

use crate::plain::{Refusal, LIMIT};
use crate::plain_refine::{kind_row, table_row, Size};
use crate::{
    answer, medians, plain_hermite, plain_multiresolution, plain_refine, print_headings,
    print_times, random_net, same, sample, touched, tuned_multiresolution, tuned_refine, Pass,
    Random, FINE_SIDE, MS, SIDE, STEPS, US,
};
use std::cell::RefCell;
use std::hint::black_box;
use ups::{
    coarse_numbers, coarse_side, detail_numbers, given_numbers, lent, net_numbers, refined_numbers,
    scratch_numbers,
};

/// Both sides of the coarse net.
const COARSE_SIDE: usize = coarse_side(FINE_SIDE);
/// Calls in a round where one takes some 20 microseconds, and where it takes one or two.
const SMALL_CALLS: usize = 25;
const TINY_CALLS: usize = 256;
/// The greatest size of what is added to a refined net, so that it has details.
const NOISE: i32 = 1024;

/// One version of a call, which works in lent numbers.
type Call<'a> = Box<dyn Fn(&mut [i32]) -> Result<(), Refusal> + 'a>;

/// What is timed: the calls of a round, nanoseconds of the unit in which a call is printed, and
/// the numbers that are lent to a call, of which the first `len` are its result.
struct Work {
    name: &'static str,
    calls: usize,
    unit: f64,
    lent_len: usize,
    len: usize,
}

impl Work {
    /// One call in a round, all of whose lent numbers are its result.
    fn new(name: &'static str, len: usize) -> Work {
        Work {
            name,
            calls: 1,
            unit: MS,
            lent_len: len,
            len,
        }
    }

    /// Times a call in each version and hands its result back. `prepare` sets what the lent numbers
    /// hold before the calls and is not timed.
    fn measure(&self, prepare: impl Fn(&mut [i32]), versions: &[Call]) -> Vec<i32> {
        let results = versions.iter().map(|call| {
            let mut lent = touched(self.lent_len);
            prepare(&mut lent);
            assert_eq!(call(&mut lent), Ok(()));
            lent.truncate(self.len);
            lent
        });
        let result = same(self.name, results);
        self.time(&result, prepare, versions);
        result
    }

    /// Times the versions and a copy of the result, all in the same lent numbers.
    fn time(&self, result: &[i32], prepare: impl Fn(&mut [i32]), versions: &[Call]) {
        let len = self.len;
        let lent = &RefCell::new(touched(self.lent_len));
        let copy: Call = Box::new(|lent| {
            lent[..len].copy_from_slice(black_box(result));
            Ok(())
        });
        let passes = versions.iter().chain([&copy]).map(|call| -> Pass {
            Box::new(move || {
                let lent = &mut *lent.borrow_mut();
                assert_eq!(call(lent), Ok(()));
                sample(black_box(&lent[..len]))
            })
        });
        let prepare = || prepare(&mut lent.borrow_mut());
        let times = medians(self.name, self.calls, prepare, passes.collect());
        print_times(self.name, self.unit, &times);
    }
}

type Refine = fn(&[i32], Size, usize, &mut [i32], &mut [i32]) -> Result<(), Refusal>;

const REFINE: Refine =
    |net, (w, h), k, out, scratch| answer(lent::refine(net, w, h, k, out, scratch));
const REFINE_BY_TABLE: Refine =
    |net, size, k, out, scratch| plain_refine::refine(net, size, k, out, scratch, table_row);
pub const REFINE_BY_KIND: Refine =
    |net, size, k, out, scratch| plain_refine::refine(net, size, k, out, scratch, kind_row);
const REFINE_TUNED: Refine = tuned_refine::refine;

/// Refines a net with equal sides in each version and hands the refined net back.
fn refine(
    (name, calls, unit): (&'static str, usize, f64),
    net: &[i32],
    (side, k): (usize, usize),
    versions: &[Refine],
) -> Vec<i32> {
    let len = refined_numbers(side, side, k);
    let work = Work {
        name,
        calls,
        unit,
        lent_len: len + scratch_numbers(side, side, k),
        len,
    };
    let calls = versions.iter().map(|version| -> Call {
        Box::new(move |lent| {
            let (out, scratch) = lent.split_at_mut(len);
            version(black_box(net), (side, side), k, out, scratch)
        })
    });
    work.measure(|_| (), &calls.collect::<Vec<_>>())
}

type Split = fn(&[i32], Size, &mut [i32], &mut [i32]) -> Result<(), Refusal>;

/// Splits the net in each version and hands the coarse net and the details back.
fn split(name: &'static str, net: &[i32]) -> (Vec<i32>, Vec<i32>) {
    let size = (FINE_SIDE, FINE_SIDE);
    let coarse_len = coarse_numbers(FINE_SIDE, FINE_SIDE);
    let len = coarse_len + detail_numbers(FINE_SIDE, FINE_SIDE);
    let versions: [Split; 3] = [
        |net, (w, h), coarse, details| answer(lent::split(net, w, h, coarse, details)),
        |net, size, coarse, details| {
            plain_multiresolution::split(net, size, coarse, details, kind_row)
        },
        tuned_multiresolution::split,
    ];
    let calls = versions.map(|version| -> Call {
        Box::new(move |lent| {
            let (coarse, details) = lent.split_at_mut(coarse_len);
            version(black_box(net), size, coarse, details)
        })
    });
    let mut coarse = Work::new(name, len).measure(|_| (), &calls);
    let details = coarse.split_off(coarse_len);
    (coarse, details)
}

type Merge = fn(&[i32], &[i32], Size, &mut [i32]) -> Result<(), Refusal>;

/// Merges the coarse net and the details in each version and hands the net back.
fn merge(name: &'static str, coarse: &[i32], details: &[i32]) -> Vec<i32> {
    let len = net_numbers(FINE_SIDE, FINE_SIDE);
    let versions: [Merge; 3] = [
        |coarse, details, (w, h), out| answer(lent::merge(coarse, details, w, h, out)),
        |coarse, details, size, out| {
            plain_multiresolution::merge(coarse, details, size, out, kind_row)
        },
        tuned_multiresolution::merge,
    ];
    let calls = versions.map(|version| -> Call {
        let size = (COARSE_SIDE, COARSE_SIDE);
        Box::new(move |lent| version(black_box(coarse), black_box(details), size, lent))
    });
    Work::new(name, len).measure(|_| (), &calls)
}

type Clean = fn(&mut [i32], Size, u32) -> Result<(), Refusal>;

/// Cleans the details in each version, with their median size as the threshold.
fn clean(details: &[i32]) {
    let len = details.len();
    let mut sizes: Vec<u32> = details.iter().map(|x| x.unsigned_abs()).collect();
    let (_, &mut threshold, _) = sizes.select_nth_unstable(len / 2);
    let versions: [Clean; 2] = [
        |details, (w, h), t| answer(lent::clean(details, w, h, t)),
        plain_multiresolution::clean,
    ];
    let calls = versions.map(|version| -> Call {
        let size = (FINE_SIDE, FINE_SIDE);
        Box::new(move |lent| version(black_box(lent), size, threshold))
    });
    let put_back = |lent: &mut [i32]| lent.copy_from_slice(details);
    Work::new("clean", len).measure(put_back, &calls);
}

type FromPoints = fn(&[i32], Size, &mut [i32]) -> Result<(), Refusal>;

/// Makes a net through given points in each version.
fn from_points(side: usize, calls: usize, unit: f64, random: &mut Random) {
    let given = &random_given(random, side);
    let versions: [FromPoints; 2] = [
        |given, (w, h), out| answer(lent::from_points(given, w, h, out)),
        plain_hermite::from_points,
    ];
    let versions = versions.map(|version| -> Call {
        Box::new(move |lent| version(black_box(given), (side, side), lent))
    });
    let work = Work {
        calls,
        unit,
        ..Work::new("from points", net_numbers(side, side))
    };
    work.measure(|_| (), &versions);
}

/// Points and vectors of up to a third of the range, so that no sum leaves it.
fn random_given(random: &mut Random, side: usize) -> Vec<i32> {
    let most = LIMIT / 3;
    let values = 2 * most as usize + 1;
    (0..given_numbers(side, side))
        .map(|_| random.below(values) as i32 - most)
        .collect()
}

/// A quarter of the net's numbers, with noise. A coarse number is at most 7/3 of the greatest in
/// size, so none is out of range.
fn noisy(net: &[i32], random: &mut Random) -> Vec<i32> {
    let values = 2 * NOISE as usize + 1;
    net.iter()
        .map(|x| x / 4 + random.below(values) as i32 - NOISE)
        .collect()
}

/// A net whose numbers lie near the limit of the range, so that their sizes alone do not tell
/// that a coarse or a merged number is in range. It is merged: a coarse number is one to two times
/// `NOISE` from the limit and a detail up to `NOISE` inwards. The net's own coarse numbers are at
/// most 2/3 of `NOISE` further out, and half a unit for each rounding.
fn near_limit(random: &mut Random) -> Vec<i32> {
    let noise = NOISE as usize;
    // x and z above zero, y below
    let outwards = |n: usize| if n % 3 == 1 { -1 } else { 1 };
    let coarse: Vec<i32> = (0..coarse_numbers(FINE_SIDE, FINE_SIDE))
        .map(|n| outwards(n) * (LIMIT - NOISE - random.below(noise + 1) as i32))
        .collect();
    let details: Vec<i32> = (0..detail_numbers(FINE_SIDE, FINE_SIDE))
        .map(|n| -outwards(n) * random.below(noise + 1) as i32)
        .collect();
    let mut net = vec![0; net_numbers(FINE_SIDE, FINE_SIDE)];
    let done = lent::merge(&coarse, &details, COARSE_SIDE, COARSE_SIDE, &mut net);
    assert_eq!(done, Ok(()));
    net
}

/// The greatest size of a number.
fn greatest(numbers: &[i32]) -> i32 {
    numbers.iter().fold(0, |most, x| most.max(x.abs()))
}

/// Refines a net by one step.
fn refine_once(random: &mut Random) {
    let versions = [REFINE, REFINE_BY_KIND, REFINE_TUNED];
    let net = random_net(random, COARSE_SIDE);
    let name = ("refine 513, k 1", 1, MS);
    refine(name, &net, (COARSE_SIDE, 1), &versions);
}

/// Refines the smallest net by as many steps as there can be.
fn refine_smallest(random: &mut Random) {
    let versions = [REFINE, REFINE_BY_KIND, REFINE_TUNED];
    let net = random_net(random, 2);
    let name = ("refine 2, k 6", SMALL_CALLS, US);
    refine(name, &net, (2, STEPS), &versions);
}

/// Splits the net and merges it again, and a net near the limit.
fn split_and_merge(net: &[i32], random: &mut Random) -> Vec<i32> {
    let (coarse, details) = split("split", net);
    let near = near_limit(random);
    let (near_coarse, near_details) = split("split, limit", &near);
    assert!(greatest(&near_coarse) + greatest(&near_details) > LIMIT);
    let merged = merge("merge", &coarse, &details);
    let near_merged = merge("merge, limit", &near_coarse, &near_details);
    assert!(merged == net && near_merged == near, "the nets differ");
    details
}

pub fn measure(starting: &[i32], random: &mut Random) {
    print_headings("ms per net", &["table", "kinds", "tuned", "copy"]);
    let versions = [REFINE, REFINE_BY_TABLE, REFINE_BY_KIND, REFINE_TUNED];
    let name = ("refine 17, k 6", 1, MS);
    let refined = refine(name, starting, (SIDE, STEPS), &versions);
    println!();
    print_headings("ms per net", &["kinds", "tuned", "copy"]);
    refine_once(random);
    let net = noisy(&refined, random);
    let details = split_and_merge(&net, random);
    println!();
    print_headings("us per net", &["kinds", "tuned", "copy"]);
    refine_smallest(random);
    println!();
    print_headings("ms per net", &["plain", "copy"]);
    clean(&details);
    from_points(FINE_SIDE, 1, MS, random);
    println!();
    print_headings("us per net", &["plain", "copy"]);
    from_points(SIDE, TINY_CALLS, US, random);
}
