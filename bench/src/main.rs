//! Times the library `ups` and the same computation in Rust on the same inputs: in plain Rust,
//! which a good programmer writes at first, and in tuned Rust, which takes the library's own ways
//! of rounding and testing where they make it faster; each file of it says which. All of them find
//! the same faults first.
//!
//! A line gives the kernel's time, then each other version's and the kernel's over it, all
//! medians of one run. Every version's results are compared with the kernel's before it is timed,
//! and with an outline while it is. Buffers are not cleared before a pass: it writes over what the
//! one before left. Their pages are touched before the first, so that no page is brought in while
//! it is timed.
//! - `surface point`, `viewer's point`, `Bézier net`: one call at a random place or triangle of a
//!   net of 17 by 17; `along a row`: surface points one after the other, with p rising by a small
//!   step and q the same. `steps` is plain Rust that takes de Casteljau's steps, as the library
//!   does, and `plain` is plain Rust for a Bézier net; `tuned` is tuned Rust of the same.
//! - `refine 17, k 6`: 17 by 17 by six steps to 1,025 by 1,025, 1.05 million vertices;
//!   `refine 513, k 1` to the same size by one step, and `refine 2, k 6` from 2 by 2 to 65 by 65.
//!   `table` is plain Rust with the weight table, `kinds` is plain Rust written out for each kind
//!   of vertex, `tuned` is that tuned, `copy` copies the result.
//! - `split`, `merge`: a net of 1,025 by 1,025 into its coarse net and details, and these back
//!   into the net, with the same columns but `table`. `limit` is a net whose numbers are so near
//!   the limit of the range that the sizes of numbers alone do not tell that the results are in
//!   range.
//! - `clean`: the details of that net, of which half become 0. Each pass begins with the details
//!   as they were; putting them back is not timed.
//! - `from points`: the net of 1,025 by 1,025 through given points, and that of 17 by 17.
//!   This and `clean` have no tuned version.
//! - `write`, `read`: the file of a net of 1,025 by 1,025; `copy` copies the file's bytes.
//!
//! With an outline (`outlines.rs`): surface points and refining beside the library's own without
//! one, where `15 alone` is a point refused by 15, which has tested all bytes, and `13 plain` that
//! test in plain Rust; checking 1,025 by 1,025 beside a flood in plain Rust with a `Vec` for its
//! stack; and the links that the library's search follows a triangle, counted in Rust.
//!
//! Last, how cost grows (`growth.rs`): the kernel's time a number of the refined net by size and
//! depth, and a byte of a file by size.

mod files;
mod growth;
mod nets;
mod outlines;
mod plain;
mod plain_file;
mod plain_hermite;
mod plain_multiresolution;
mod plain_outline;
mod plain_refine;
mod points;
mod tuned;
mod tuned_file;
mod tuned_multiresolution;
mod tuned_refine;

use plain::{Refusal, LIMIT};
use std::fs;
use std::hint::black_box;
use std::time::Instant;
use ups::net_numbers;

const SIDE: usize = 17;
/// Both sides of the nets that are split, and written to a file and read back.
const FINE_SIDE: usize = 1025;
/// Steps of refining.
const STEPS: usize = 6;
const CALLS: usize = 4096;
const ROUNDS: usize = 61;
/// Rounds of several passes, which are short ones.
const SHORT_ROUNDS: usize = 251;
/// Passes over the list of inputs in one round. It lasts half a millisecond, so that where other
/// work takes turns with it most rounds are without a break.
const PASSES: usize = 4;
/// Nanoseconds of a microsecond and of a millisecond.
const US: f64 = 1e3;
const MS: f64 = 1e6;

/// splitmix64 with a fixed seed.
struct Random(u64);

impl Random {
    fn word(&mut self) -> u64 {
        self.0 = self.0.wrapping_add(0x9e37_79b9_7f4a_7c15);
        let z = (self.0 ^ (self.0 >> 30)).wrapping_mul(0xbf58_476d_1ce4_e5b9);
        let z = (z ^ (z >> 27)).wrapping_mul(0x94d0_49bb_1331_11eb);
        z ^ (z >> 31)
    }

    fn below(&mut self, bound: usize) -> usize {
        ((u128::from(self.word()) * bound as u128) >> 64) as usize
    }
}

/// One version of a computation. It goes once over all inputs and hands back a number that is
/// the same in every version.
type Pass<'a> = Box<dyn FnMut() -> i64 + 'a>;

/// The median time of a pass of each version, in nanoseconds. `prepare` is not timed; it comes
/// before the passes of each version.
fn medians(name: &str, passes: usize, prepare: impl Fn(), mut versions: Vec<Pass>) -> Vec<f64> {
    let count = versions.len();
    let rounds = if passes > 1 { SHORT_ROUNDS } else { ROUNDS };
    let mut times = vec![Vec::new(); count];
    for round in 0..rounds {
        let mut sums = vec![0_i64; count];
        // The version that goes first changes from round to round.
        for offset in 0..count {
            let version = (round + offset) % count;
            prepare();
            let start = Instant::now();
            for _ in 0..passes {
                let sum = black_box(versions[version]());
                sums[version] = sums[version].wrapping_add(sum);
            }
            times[version].push(start.elapsed().as_nanos() as f64 / passes as f64);
        }
        let same = sums.iter().all(|sum| *sum == sums[0]);
        assert!(same, "{name}: the results differ");
    }
    times.into_iter().map(median).collect()
}

fn median(mut times: Vec<f64>) -> f64 {
    times.sort_by(f64::total_cmp);
    times[times.len() / 2]
}

/// The result of the first version, which is the kernel's; the others have the same.
fn same<T: PartialEq>(name: &str, results: impl Iterator<Item = T>) -> T {
    let all = results.reduce(|first, other| {
        assert!(first == other, "{name}: the results differ");
        first
    });
    all.expect("a version")
}

fn sum(numbers: &[i32]) -> i64 {
    numbers.iter().map(|&x| i64::from(x)).sum()
}

/// The sum of a few numbers, among them some of each place in a vertex.
fn sample(numbers: &[i32]) -> i64 {
    numbers.iter().step_by(100_003).map(|&x| i64::from(x)).sum()
}

/// The kernel's time, and each other version's with the kernel's over it. `unit` is the
/// nanoseconds of what they are printed in.
fn print_times(name: &str, unit: f64, times: &[f64]) {
    let kernel = times[0];
    print!("{name:<16}{:>10.2}", kernel / unit);
    for other in &times[1..] {
        print!("{:>10.2}{:>8.2}", other / unit, kernel / other);
    }
    println!();
}

/// The headings of the kernel's time, and of each other version's with the ratio.
fn print_headings(unit: &str, others: &[&str]) {
    print!("{unit:<16}{:>10}", "kernel");
    for other in others {
        print!("{other:>10}{:>8}", "ratio");
    }
    println!();
}

/// Memory whose pages are all in use, so that no page is brought in while it is timed.
fn touched<T: Copy + From<u8>>(len: usize) -> Vec<T> {
    vec![T::from(1); len]
}

/// The library's answer in the form of the plain ones.
fn answer(of_kernel: Result<(), ups::Refusal>) -> Result<(), Refusal> {
    of_kernel.map_err(ups::Refusal::number)
}

fn random_net(random: &mut Random, side: usize) -> Vec<i32> {
    let values = 2 * LIMIT as usize + 1;
    (0..net_numbers(side, side))
        .map(|_| random.below(values) as i32 - LIMIT)
        .collect()
}

/// The processor's name and the count of its cores, where the system tells them.
fn print_processor() {
    let info = fs::read_to_string("/proc/cpuinfo").unwrap_or_default();
    let lines = || info.lines().filter_map(|line| line.split_once(':'));
    let values = |key| lines().filter(move |(name, _)| name.trim() == key);
    if let Some((_, name)) = values("model name").next() {
        println!("{}, {} cores", name.trim(), values("processor").count());
        println!();
    }
}

fn main() {
    print_processor();
    let mut random = Random(1);
    let starting = random_net(&mut random, SIDE);
    points::measure(&starting, &mut random);
    println!();
    nets::measure(&starting, &mut random);
    println!();
    files::measure(&random_net(&mut random, FINE_SIDE));
    println!();
    outlines::measure(&starting, &mut random);
    println!();
    growth::measure(&mut random);
}
