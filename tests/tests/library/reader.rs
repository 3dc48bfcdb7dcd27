//! Each refusal of the file reader, one fault at a time.

use ups_tests::call::Reading;
use ups_tests::kernel::LentFile;
use ups_tests::netfile::{self, END, HEIGHT, WIDTH, X};
use ups_tests::nets::{self, Numbers};
use ups_tests::oracle::LIMIT;
use ups_tests::pages::Side;
use ups_tests::random::Random;
use ups_tests::record::{self, RECORD};

const SIZE: (usize, usize) = (2, 2);
/// Numbers of a 2 by 2 net.
const NUMBERS: usize = record::numbers(SIZE);
/// Words and bytes of its file.
const WORDS: usize = 39;
const BYTES: usize = 156;
/// The greatest payload.
const MOST: i64 = (1 << 28) - 1;

fn net() -> Vec<i32> {
    nets::random_net(&mut Random::new(91), SIZE, Numbers::Mixed)
}

fn file() -> Vec<u8> {
    netfile::file(&net(), SIZE)
}

fn words() -> Vec<u32> {
    netfile::words(&net(), SIZE)
}

fn expect(words: &[u32], refusal: u32) {
    Reading::new(&netfile::bytes(words), NUMBERS).expect(refusal);
}

/// Expects the refusal of the words with one of them changed.
fn expect_with(words: &[u32], position: usize, word: u32, refusal: u32) {
    let mut changed = words.to_vec();
    changed[position] = word;
    expect(&changed, refusal);
}

#[test]
fn the_file_itself_is_accepted() {
    assert_eq!((words().len(), file().len()), (WORDS, BYTES));
    expect(&words(), 0);
}

/// With a net slice for 2 by 2, and with one for some larger sizes.
#[test]
fn each_byte_set_to_each_value() {
    for net in [nets::door_corner(120), net()] {
        let file = netfile::file(&net, SIZE);
        let mut seen = [0; 10];
        for net_len in [NUMBERS, 600] {
            for position in 0..BYTES {
                let mut reading = Reading::new(&file, net_len);
                for value in 0..=255 {
                    reading.file[position] = value;
                    let number = reading.check().err().unwrap_or(0);
                    seen[number as usize] += 1;
                }
            }
        }
        println!("files by refusal: {seen:?}");
        for number in [0, 1, 3, 5, 8] {
            assert!(seen[number] >= 300, "too few files with {number}: {seen:?}");
        }
    }
}

#[test]
fn one_width_or_height_outside_2_to_1025() {
    let words = words();
    let wide = [1 << 16, (1 << 16) + 2, 1 << 27, MOST - 1, MOST];
    for side in [0, 1, 1026, 1027, 2049].into_iter().chain(wide) {
        expect_with(&words, 0, netfile::word(WIDTH, side), 1);
        expect_with(&words, 1, netfile::word(HEIGHT, side), 1);
    }
}

#[test]
fn one_not_for_sides_from_2_to_1025() {
    for side in [2, 3, 4, 1024, 1025] {
        for (w, h) in [(side, 2), (2, side)] {
            let count = record::numbers((w, h));
            let file = netfile::file(&vec![0; count], (w, h));
            Reading::new(&file, count).expect(0);
        }
    }
}

#[test]
fn three_each_number_beyond_its_range() {
    let words = words();
    let limit = i64::from(LIMIT);
    // All words but the two sides and the end.
    for position in 0..WORDS - 3 {
        let expect_value = |value, refusal| {
            let word = netfile::word(netfile::number_kind(position), value);
            expect_with(&words, 2 + position, word, refusal);
        };
        for value in [limit, -limit, 1, 0, -1] {
            expect_value(value, 0);
        }
        for value in [limit + 1, 2 * limit, (1 << 27) - 1] {
            expect_value(value, 3);
            expect_value(-value, 3);
        }
        expect_value(-1 << 27, 3);
    }
}

#[test]
fn five_net_slice_too_short() {
    let file = file();
    for net_len in 0..NUMBERS {
        Reading::new(&file, net_len).expect(5);
    }
    for net_len in [NUMBERS, NUMBERS + 1, NUMBERS + RECORD, 1000] {
        Reading::new(&file, net_len).expect(0);
    }
}

#[test]
fn five_net_slice_too_short_by_one_number() {
    let mut random = Random::new(92);
    for size in [(2, 3), (3, 2), (5, 7), (1025, 2), (2, 1025)] {
        let net = nets::random_net(&mut random, size, Numbers::Mixed);
        let file = netfile::file(&net, size);
        Reading::new(&file, net.len() - 1).expect(5);
        Reading::new(&file, net.len()).expect(0);
    }
}

#[test]
fn five_size_slice_too_short() {
    let mut reading = Reading::new(&file(), NUMBERS);
    for (size_len, refusal) in [(0, 5), (1, 5), (2, 0), (3, 0), (100, 0)] {
        reading.size_len = size_len;
        reading.expect(refusal);
    }
}

#[test]
fn seven_each_truncation() {
    let file = file();
    for len in 0..BYTES {
        Reading::new(&file[..len], NUMBERS).expect(7);
    }
}

/// That the result has no room is refused after the height word.
#[test]
fn seven_or_five_each_truncation_with_a_short_slice() {
    let file = file();
    for (net_len, size_len) in [(NUMBERS - 1, 2), (0, 2), (NUMBERS, 1), (NUMBERS, 0), (0, 0)] {
        for len in 0..BYTES {
            let mut reading = Reading::new(&file[..len], net_len);
            reading.size_len = size_len;
            reading.expect(if len < 8 { 7 } else { 5 });
        }
    }
}

#[test]
fn eight_each_wrong_kind() {
    let words = words();
    for (position, word) in words.iter().enumerate() {
        let right = word >> 28;
        for kind in 0..16 {
            let refusal = if kind == right { 0 } else { 8 };
            let changed = kind << 28 | word & 0x0fff_ffff;
            expect_with(&words, position, changed, refusal);
        }
    }
}

#[test]
fn eight_each_payload_bit_of_the_end_word() {
    let words = words();
    for bit in 0..28 {
        expect_with(&words, WORDS - 1, netfile::word(END, 1 << bit), 8);
    }
    expect_with(&words, WORDS - 1, netfile::word(END, MOST), 8);
    expect_with(&words, WORDS - 1, netfile::word(END, 0), 0);
}

#[test]
fn eight_each_pair_of_words_swapped_unless_of_one_kind() {
    let mut words = words();
    for one in 0..WORDS {
        for other in one + 1..WORDS {
            let same = words[one] >> 28 == words[other] >> 28;
            words.swap(one, other);
            expect(&words, if same { 0 } else { 8 });
            words.swap(one, other);
        }
    }
}

/// A number too few or too many puts a wrong kind in the place of the next word.
#[test]
fn eight_each_number_left_out_or_doubled() {
    let words = words();
    for position in 2..WORDS - 1 {
        let (before, after) = (&words[..position], &words[position + 1..]);
        expect(&[before, after].concat(), 8);
        expect(
            &[before, &[words[position]], &words[position..]].concat(),
            8,
        );
    }
}

#[test]
fn eight_where_the_size_does_not_fit_the_numbers() {
    // More than any of the stated sizes needs.
    let room = record::numbers((4, 5)) + 20;
    for (size, stated) in [((2, 3), (2, 2)), ((2, 2), (2, 3)), ((4, 4), (4, 5))] {
        let mut words = netfile::words(&vec![0; record::numbers(size)], size);
        words[0] = netfile::word(WIDTH, stated.0);
        words[1] = netfile::word(HEIGHT, stated.1);
        Reading::new(&netfile::bytes(&words), room).expect(8);
    }
}

#[test]
fn nine_bytes_after_the_end_word() {
    let file = file();
    let expect = |rest: &[u8]| Reading::new(&[&file, rest].concat(), NUMBERS).expect(9);
    for byte in 0..=255 {
        for count in 1..=9 {
            expect(&vec![byte; count]);
        }
    }
    // Words that could follow, and a whole file.
    expect(&netfile::bytes(&[netfile::word(X, 0)]));
    expect(&netfile::bytes(&[netfile::word(END, 0)]));
    expect(&file);
}

/// A file of the exact length in read-only pages, with an inaccessible page right behind it or
/// right in front of it.
#[test]
fn nothing_outside_the_file_is_read_and_the_file_is_not_written() {
    let long = [&file()[..], &[0]].concat();
    for len in 0..=long.len() {
        for side in [Side::Front, Side::End] {
            for net_len in [NUMBERS, NUMBERS - 1] {
                let reading = Reading::new(&long[..len], net_len);
                let lent = LentFile::in_pages(&reading.file, side);
                assert_eq!(reading.of_kernel(&lent), reading.of_oracle(), "{reading:?}");
            }
        }
    }
}
