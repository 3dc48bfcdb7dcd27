//! Faults put into a call together: the earliest number of the order is answered.

use crate::call::Call;

/// The order on nets. A call has some of these numbers; one with 16 has it for 3.
pub const ORDER: [u32; 13] = [1, 4, 10, 12, 6, 2, 13, 15, 5, 14, 3, 16, 11];

/// Puts one fault into a call.
pub type Fault = fn(&mut Call);

/// Sides outside 2 to 1,025 for which no net is lent.
pub const SIDES: [Fault; 6] = [
    |c| c.w = 0,
    |c| c.w = 1,
    |c| c.w = usize::MAX,
    |c| c.h = 0,
    |c| c.h = 1,
    |c| c.h = usize::MAX,
];

/// The faults with one number.
pub type Group = (u32, Vec<Fault>);

/// Every choice of one fault for each of the numbers.
fn choices(groups: &[&Group]) -> Vec<Vec<Fault>> {
    let mut all = vec![Vec::new()];
    for (_, group) in groups {
        let longer = |chosen: &Vec<Fault>| {
            let with = |fault: &Fault| [&chosen[..], &[*fault]].concat();
            group.iter().map(with).collect::<Vec<_>>()
        };
        all = all.iter().flat_map(longer).collect();
    }
    all
}

/// Applies each choice of faults with these numbers and expects the earliest number. Hands
/// back whether in some call the conditions of all the numbers held together.
fn check(start: &Call, groups: &[&Group]) -> bool {
    let numbers: Vec<u32> = groups.iter().map(|group| group.0).collect();
    let first = ORDER.into_iter().find(|number| numbers.contains(number));
    let mut together = false;
    for chosen in choices(groups) {
        let mut call = start.clone();
        for fault in chosen {
            fault(&mut call);
        }
        call.expect(first.unwrap_or(0));
        let conditions = call.faults();
        let holds = |number| conditions.contains(&(true, number));
        together |= numbers.iter().all(|&number| holds(number));
    }
    together
}

/// The call without a fault, and each fault of it alone.
pub fn check_alone(start: &Call, groups: &[Group]) {
    start.expect(0);
    for group in groups {
        assert!(check(start, &[group]), "{start:?}: {}", group.0);
    }
}

/// Faults with two numbers, put in in the order of the groups. `apart` tells which two numbers
/// have no call where both conditions hold.
pub fn check_pairs(start: &Call, groups: &[Group], apart: impl Fn(u32, u32) -> bool) {
    for (n, one) in groups.iter().enumerate() {
        for other in &groups[n + 1..] {
            let together = check(start, &[one, other]);
            let expected = !apart(one.0, other.0);
            assert_eq!(together, expected, "{start:?}: {} and {}", one.0, other.0);
        }
    }
}

/// Faults with any set of numbers.
pub fn check_sets(start: &Call, groups: &[Group]) {
    for set in 0..1 << groups.len() {
        let in_set = |n: &usize| set >> n & 1 == 1;
        let chosen: Vec<&Group> = (0..groups.len())
            .filter(in_set)
            .map(|n| &groups[n])
            .collect();
        check(start, &chosen);
    }
}
