//! Several faults of one file: the first in the order of the bytes is answered.

use ups_tests::call::Reading;
use ups_tests::netfile;
use ups_tests::nets;
use ups_tests::oracle::LIMIT;
use ups_tests::record;

/// Numbers of a 2 by 2 net and words of its file.
const NUMBERS: usize = record::numbers((2, 2));
const WORDS: usize = 39;
const END: usize = WORDS - 1;

#[derive(Clone, Copy, Debug)]
enum Fault {
    /// The file ends in this word, after `left` of its bytes.
    Cut {
        word: usize,
        left: usize,
    },
    Kind {
        word: usize,
    },
    Payload {
        word: usize,
        payload: u32,
    },
    ShortNet,
    ShortSize,
    /// Bytes after the end word.
    Tail {
        count: usize,
    },
}

fn put(fault: Fault, reading: &mut Reading) {
    let file = &mut reading.file;
    match fault {
        Fault::Cut { word, left } => file.truncate(4 * word + left),
        Fault::Kind { word } => file[4 * word] ^= 0x80,
        Fault::Payload { word, payload } => {
            let kind = file[4 * word] & 0xf0;
            file[4 * word..4 * word + 4].copy_from_slice(&payload.to_be_bytes());
            file[4 * word] |= kind;
        }
        Fault::ShortNet => reading.net_len -= 1,
        Fault::ShortSize => reading.size_len = 1,
        Fault::Tail { count } => file.resize(file.len() + count, 0),
    }
}

/// The door corner's file with these faults.
fn faulty(faults: &[Fault]) -> Reading {
    let net = nets::door_corner(120);
    let file = netfile::file(&net, (2, 2));
    let mut reading = Reading::new(&file, NUMBERS);
    // A cut comes last, since it takes away the places of later faults.
    let cut = |fault: &&Fault| matches!(fault, Fault::Cut { .. });
    for fault in faults.iter().filter(|fault| !cut(fault)) {
        put(*fault, &mut reading);
    }
    for fault in faults.iter().filter(cut) {
        put(*fault, &mut reading);
    }
    reading
}

/// The faults of a word's payload, with their number.
fn payload_faults(word: usize) -> (u32, Vec<Fault>) {
    let number = |x: i32| netfile::word(0, i64::from(x));
    let (refusal, payloads) = match word {
        0 | 1 => (1, vec![0, 1, 1026, 0x0fff_ffff]),
        END => (8, vec![1, 1 << 27]),
        _ => (3, vec![number(LIMIT + 1), number(-LIMIT - 1)]),
    };
    let fault = |payload| Fault::Payload { word, payload };
    (refusal, payloads.into_iter().map(fault).collect())
}

/// All faults of a 2 by 2 file with their numbers, in the order in which they count.
fn order() -> Vec<(u32, Vec<Fault>)> {
    let mut order = Vec::new();
    for word in 0..WORDS {
        let cuts = [0, 1, 2, 3].map(|left| Fault::Cut { word, left });
        order.push((7, cuts.to_vec()));
        order.push((8, vec![Fault::Kind { word }]));
        order.push(payload_faults(word));
        if word == 1 {
            order.push((5, vec![Fault::ShortNet, Fault::ShortSize]));
        }
    }
    order.push((9, vec![Fault::Tail { count: 1 }, Fault::Tail { count: 4 }]));
    order
}

#[test]
fn each_fault_alone() {
    faulty(&[]).expect(0);
    for (number, faults) in order() {
        for fault in faults {
            faulty(&[fault]).expect(number);
        }
    }
}

#[test]
fn each_pair_of_faults() {
    let order = order();
    for (n, (number, faults)) in order.iter().enumerate() {
        let later: Vec<Fault> = order[n + 1..].iter().flat_map(|f| f.1.clone()).collect();
        for &one in faults {
            for &other in &later {
                faulty(&[one, other]).expect(*number);
            }
        }
    }
}

/// From one fault on every later one too.
#[test]
fn each_fault_with_all_later_ones() {
    let order = order();
    for (n, (number, faults)) in order.iter().enumerate() {
        // A cut would take the other faults away.
        let stays = |fault: &Fault| !matches!(fault, Fault::Cut { .. });
        let later = order[n + 1..].iter().flat_map(|f| f.1.clone());
        let later: Vec<Fault> = later.filter(stays).collect();
        for fault in faults {
            faulty(&[&[*fault], &later[..]].concat()).expect(*number);
        }
    }
}

#[test]
fn examples_of_the_order() {
    let side = |word, payload| Fault::Payload { word, payload };
    let beyond = |word| payload_faults(word).1[0];
    let cut = |word| Fault::Cut { word, left: 0 };
    let kind = |word| Fault::Kind { word };
    let examples = [
        // A bad width, and no height.
        (1, vec![side(0, 1), cut(1)]),
        (1, vec![side(0, 1026), kind(1)]),
        (1, vec![side(0, 1), Fault::ShortNet]),
        (1, vec![side(0, 0x0fff_ffff), side(1, 0x0fff_ffff)]),
        // The height word's own tests come before the lengths.
        (7, vec![cut(1), Fault::ShortNet]),
        (8, vec![kind(1), Fault::ShortNet]),
        (8, vec![kind(1), Fault::ShortSize]),
        (8, vec![kind(1), side(1, 1026)]),
        (1, vec![side(1, 1026), Fault::ShortNet]),
        (1, vec![side(1, 0), Fault::ShortSize]),
        // The lengths come before the first number.
        (5, vec![Fault::ShortNet, cut(2)]),
        (5, vec![Fault::ShortNet, cut(20)]),
        (5, vec![Fault::ShortSize, kind(2)]),
        (5, vec![Fault::ShortNet, beyond(2)]),
        (5, vec![Fault::ShortNet, Fault::Tail { count: 1 }]),
        // Numbers one by one, the kind before the range.
        (3, vec![beyond(2), kind(3)]),
        (3, vec![beyond(10), cut(11)]),
        (8, vec![kind(10), beyond(10)]),
        (8, vec![kind(10), beyond(11)]),
        (8, vec![kind(2), cut(3)]),
        // What is left of a cut word is not looked at.
        (7, vec![Fault::Cut { word: 10, left: 3 }, kind(10)]),
        // The end.
        (3, vec![beyond(END - 1), kind(END)]),
        (8, vec![side(END, 1), Fault::Tail { count: 1 }]),
        (8, vec![kind(END), Fault::Tail { count: 1 }]),
        (3, vec![beyond(END - 1), Fault::Tail { count: 1 }]),
    ];
    for (number, faults) in examples {
        faulty(&faults).expect(number);
    }
}
