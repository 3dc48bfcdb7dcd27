//! How the cost of a call grows: the time a number of the refined net, and a byte of a file, at
//! square sizes from the least to the greatest. Where the cost is linear the lines are flat, but
//! for the fixed cost of a call on a small net and for memory that no cache holds.
//!
//! All cells of a table are timed in each round, so that a change of the machine's pace is in all
//! of them.

use crate::nets::REFINE_BY_KIND;
use crate::plain_refine::Size;
use crate::{median, plain_file, random_net, touched, Random, FINE_SIDE};
use std::hint::black_box;
use std::time::Instant;
use ups::{file_bytes, lent, net_numbers, refined_numbers, scratch_numbers, GREATEST_DEPTH};

const SIDES: [usize; 10] = [3, 5, 9, 17, 33, 65, 129, 257, 513, 1025];
const ROUNDS: usize = 31;
/// The least numbers or bytes of a round's calls, so that these last about a millisecond.
const WORK: usize = 1 << 20;

/// The time of a call by the numbers or bytes that it gives, in nanoseconds. A call before, which
/// is not timed, brings what is small into the cache.
fn time_each(count: usize, mut call: impl FnMut()) -> f64 {
    let calls = WORK.div_ceil(count);
    call();
    let start = Instant::now();
    for _ in 0..calls {
        call();
    }
    start.elapsed().as_nanos() as f64 / (calls * count) as f64
}

/// The medians of the rounds' times of each cell.
fn medians<C: Copy>(cells: &[C], mut time: impl FnMut(C) -> f64) -> Vec<f64> {
    let mut times = vec![Vec::new(); cells.len()];
    for _ in 0..ROUNDS {
        for (times, &cell) in times.iter_mut().zip(cells) {
            times.push(time(cell));
        }
    }
    times.into_iter().map(median).collect()
}

/// Prints a line of its name and times for each side.
fn print_table(title: &str, columns: &[String], times: impl Fn(usize) -> Vec<f64>) {
    print!("{title:<16}");
    columns.iter().for_each(|column| print!("{column:>8}"));
    println!();
    for side in SIDES {
        print!("{:<16}", format!("{side} by {side}"));
        times(side).iter().for_each(|time| print!("{time:>8.3}"));
        println!();
    }
}

/// Lent numbers that suffice for every size.
struct Lent {
    out: Vec<i32>,
    scratch: Vec<i32>,
}

impl Lent {
    fn new() -> Lent {
        let scratch = net_numbers(FINE_SIDE / 2 + 1, FINE_SIDE / 2 + 1);
        Lent {
            out: touched(net_numbers(FINE_SIDE, FINE_SIDE)),
            scratch: touched(scratch),
        }
    }

    fn refine(&mut self, net: &[i32], side: usize, k: usize) {
        let out = &mut self.out[..refined_numbers(side, side, k)];
        let scratch = &mut self.scratch[..scratch_numbers(side, side, k)];
        let done = lent::refine(black_box(net), side, side, k, out, scratch);
        assert_eq!(done, Ok(()));
        black_box(out);
    }
}

/// Refining at each size and depth that is accepted. A net's numbers are the first of the greatest
/// net's.
fn refine(net: &[i32]) {
    let depths = 0..=GREATEST_DEPTH;
    let cells: Vec<(usize, usize)> = SIDES
        .iter()
        .flat_map(|&side| depths.clone().map(move |k| (side, k)))
        .filter(|&(side, k)| refined_numbers(side, side, k) > 0)
        .collect();
    let (mut lent, mut same) = (Lent::new(), Lent::new());
    for &(side, k) in &cells {
        let len = refined_numbers(side, side, k);
        let size: Size = (side, side);
        lent.refine(net, side, k);
        let done = REFINE_BY_KIND(net, size, k, &mut same.out, &mut same.scratch);
        assert_eq!(done, Ok(()));
        let equal = lent.out[..len] == same.out[..len];
        assert!(equal, "{side} by {side}, k {k}: the results differ");
    }
    let times = medians(&cells, |(side, k)| {
        time_each(refined_numbers(side, side, k), || lent.refine(net, side, k))
    });
    let columns: Vec<String> = depths.map(|k| format!("k {k}")).collect();
    print_table("ns per number", &columns, |side| {
        let of_side = cells.iter().zip(&times).filter(|((s, _), _)| *s == side);
        of_side.map(|(_, &time)| time).collect()
    });
}

fn write(net: &[i32], side: usize, file: &mut [u8]) {
    let written = lent::write(black_box(net), side, side, file);
    assert_eq!(written, Ok(file_bytes(side, side)));
    black_box(file);
}

fn read(file: &[u8], side: usize, out: &mut [i32]) {
    let size = lent::read(black_box(file), out);
    assert_eq!(size, Ok((side, side)));
    black_box(out);
}

/// Writing and reading at each size.
fn files(net: &[i32]) {
    let mut files = SIDES.map(|side| touched::<u8>(file_bytes(side, side)));
    let mut out: Vec<i32> = touched(net.len());
    for (file, side) in files.iter_mut().zip(SIDES) {
        let (mut same, mut written) = (file.clone(), [0]);
        write(net, side, file);
        let done = plain_file::write(net, (side, side), &mut same, &mut written);
        assert_eq!((done, written), (Ok(()), [file.len() as u64]));
        assert!(*file == same, "{side} by {side}: the bytes differ");
        read(file, side, &mut out);
        let len = net_numbers(side, side);
        assert!(
            out[..len] == net[..len],
            "{side} by {side}: the nets differ"
        );
    }
    let cells: Vec<usize> = (0..SIDES.len()).collect();
    let writing = medians(&cells, |n| {
        let (side, file) = (SIDES[n], &mut files[n]);
        time_each(file.len(), || write(net, side, file))
    });
    let reading = medians(&cells, |n| {
        let (side, file) = (SIDES[n], &files[n]);
        time_each(file.len(), || read(file, side, &mut out))
    });
    let columns = ["write", "read"].map(String::from);
    print_table("ns per byte", &columns, |side| {
        let of_side = cells.iter().filter(|&&n| SIDES[n] == side);
        of_side.flat_map(|&n| [writing[n], reading[n]]).collect()
    });
}

pub fn measure(random: &mut Random) {
    let net = random_net(random, FINE_SIDE);
    refine(&net);
    println!();
    files(&net);
}
