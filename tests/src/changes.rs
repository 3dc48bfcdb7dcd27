//! Changes of a file at random.

// All changes have one type, and some of them change the length.
#![allow(clippy::ptr_arg)]

use crate::netfile::{self, END, HEIGHT, WIDTH};
use crate::nets::{self, Numbers};
use crate::oracle::LIMIT;
use crate::random::Random;

/// One change of a file, whatever it holds by now.
type Change = fn(&mut Random, &mut Vec<u8>);

const CHANGES: [Change; 14] = [
    flip_bit,
    set_byte,
    leave_byte_out,
    insert_byte,
    double_byte,
    leave_word_out,
    insert_word,
    double_word,
    swap_words,
    truncate,
    extend,
    set_side,
    set_number,
    set_end,
];

/// Makes one of the changes.
pub fn change(random: &mut Random, file: &mut Vec<u8>) {
    random.pick(&CHANGES)(random, file);
}

/// A position in the file, often near one of its ends.
fn position(random: &mut Random, len: usize) -> usize {
    let near = random.below(len.min(12));
    match random.below(4) {
        0 => near,
        1 => len - 1 - near,
        _ => random.below(len),
    }
}

fn any_byte(random: &mut Random) -> u8 {
    let any = random.word() as u8;
    random.pick(&[0, 1, 2, 127, 128, 255, any, any])
}

fn flip_bit(random: &mut Random, file: &mut Vec<u8>) {
    if !file.is_empty() {
        let at = position(random, file.len());
        file[at] ^= 1 << random.below(8);
    }
}

fn set_byte(random: &mut Random, file: &mut Vec<u8>) {
    if !file.is_empty() {
        let at = position(random, file.len());
        file[at] = any_byte(random);
    }
}

fn leave_byte_out(random: &mut Random, file: &mut Vec<u8>) {
    if !file.is_empty() {
        let at = position(random, file.len());
        file.remove(at);
    }
}

fn insert_byte(random: &mut Random, file: &mut Vec<u8>) {
    let at = position(random, file.len() + 1);
    file.insert(at, any_byte(random));
}

fn double_byte(random: &mut Random, file: &mut Vec<u8>) {
    if !file.is_empty() {
        let at = position(random, file.len());
        file.insert(at, file[at]);
    }
}

/// The start of a whole word, if there is one.
fn word_start(random: &mut Random, file: &[u8]) -> Option<usize> {
    let whole = file.len() / 4;
    (whole > 0).then(|| 4 * position(random, whole))
}

fn leave_word_out(random: &mut Random, file: &mut Vec<u8>) {
    if let Some(at) = word_start(random, file) {
        file.drain(at..at + 4);
    }
}

fn insert_word(random: &mut Random, file: &mut Vec<u8>) {
    if let Some(at) = word_start(random, file) {
        let value = nets::random_number(random, Numbers::Mixed);
        let word = netfile::word(random.below(16) as u32, i64::from(value));
        file.splice(at..at, word.to_be_bytes());
    }
}

fn double_word(random: &mut Random, file: &mut Vec<u8>) {
    if let Some(at) = word_start(random, file) {
        let word = file[at..at + 4].to_vec();
        file.splice(at..at, word);
    }
}

fn swap_words(random: &mut Random, file: &mut Vec<u8>) {
    if let (Some(one), Some(other)) = (word_start(random, file), word_start(random, file)) {
        for byte in 0..4 {
            file.swap(one + byte, other + byte);
        }
    }
}

fn truncate(random: &mut Random, file: &mut Vec<u8>) {
    let len = position(random, file.len() + 1);
    file.truncate(len);
}

fn extend(random: &mut Random, file: &mut Vec<u8>) {
    for _ in 0..1 + random.below(8) {
        file.push(any_byte(random));
    }
}

fn set_word(file: &mut [u8], at: usize, word: u32) {
    if let Some(place) = file.get_mut(at..at + 4) {
        place.copy_from_slice(&word.to_be_bytes());
    }
}

fn set_side(random: &mut Random, file: &mut Vec<u8>) {
    let any = random.below(1 << 28) as i64;
    let side = random.pick(&[0, 1, 2, 3, 4, 5, 1025, 1026, 1 << 16, any, (1 << 28) - 1]);
    match random.below(2) {
        0 => set_word(file, 0, netfile::word(WIDTH, side)),
        _ => set_word(file, 4, netfile::word(HEIGHT, side)),
    }
}

/// Sets a number to one at or beyond the limits of its range or of its 28 bits.
fn set_number(random: &mut Random, file: &mut Vec<u8>) {
    let (limit, half) = (i64::from(LIMIT), 1 << 27);
    let value = random.pick(&[limit, -limit, limit + 1, -limit - 1, half - 1, -half, -1]);
    let Some(at) = word_start(random, file).filter(|&at| at >= 8) else {
        return;
    };
    set_word(
        file,
        at,
        netfile::word(netfile::number_kind(at / 4 - 2), value),
    );
}

fn set_end(random: &mut Random, file: &mut Vec<u8>) {
    let bit = random.below(28);
    let payload = random.pick(&[0, 1, 1 << bit]);
    let at = (file.len() / 4).saturating_sub(1) * 4;
    set_word(file, at, netfile::word(END, payload));
}
