//! The numbers, names and sentences of refusals in the crate `ups`.

use std::collections::HashSet;
use std::error::Error;
use ups::{lent, Door, Net, Refusal, Split};
use ups_tests::multiresolution::DETAIL_LIMIT;
use ups_tests::netfile;
use ups_tests::oracle::LIMIT;
use ups_tests::record;

/// Numbers of a net of 2 by 2.
const NUMBERS: usize = record::numbers((2, 2));

const REFUSALS: [(u32, Refusal, &str); 16] = [
    (
        1,
        Refusal::SIZE,
        "a side of the net is below 2 or above 1,025",
    ),
    (
        2,
        Refusal::SHORT,
        "the net, the details, the outline or the given points are shorter than the size needs",
    ),
    (3, Refusal::RANGE, "a number is beyond its range"),
    (
        4,
        Refusal::DEPTH,
        "more than 6 steps, or a refined side above 1,025",
    ),
    (5, Refusal::ROOM, "a lent output or scratch is too short"),
    (
        6,
        Refusal::PLACE,
        "the net has no such vertex, triangle or place",
    ),
    (
        7,
        Refusal::MISSING_WORD,
        "the file ends where a word is due",
    ),
    (
        8,
        Refusal::WRONG_WORD,
        "the file has another word than the one that is due",
    ),
    (
        9,
        Refusal::TRAILING,
        "the file has bytes after its end word",
    ),
    (10, Refusal::EVEN, "split and clean need odd sides"),
    (
        11,
        Refusal::RESULT,
        "a number of the result is beyond the net range",
    ),
    (12, Refusal::THRESHOLD, "the threshold is above 33,554,432"),
    (
        13,
        Refusal::OUTLINE_BYTE,
        "a byte of the outline is neither 0 nor 1",
    ),
    (
        14,
        Refusal::NOT_CONNECTED,
        "the present triangles are none, or not connected by edges",
    ),
    (
        15,
        Refusal::OFF_DOOR,
        "the place or the triangle is off the door",
    ),
    (
        16,
        Refusal::CONTROL_RANGE,
        "a control value of the net through the given points is beyond the net range",
    ),
];

#[test]
fn numbers_and_sentences() {
    for (number, refusal, sentence) in REFUSALS {
        assert_eq!(Refusal::check(number), Err(refusal));
        assert_eq!(refusal.number(), number);
        assert_eq!(refusal.to_string(), sentence);
        assert_eq!(
            format!("{refusal:?}"),
            format!("refusal {number}, {sentence}")
        );
        let error: Box<dyn Error> = refusal.into();
        assert_eq!(error.to_string(), sentence);
    }
    let different: HashSet<Refusal> = REFUSALS.map(|(_, refusal, _)| refusal).into();
    assert_eq!(different.len(), REFUSALS.len());
}

#[test]
fn none_and_others() {
    assert_eq!(Refusal::check(0), Ok(()));
    for number in [17, 18, 100, u32::MAX] {
        let refusal = Refusal::check(number).expect_err("not 0");
        assert_eq!(refusal.number(), number);
        assert_eq!(refusal.to_string(), "not a refusal of this library");
    }
}

/// A net whose numbers are all the same.
fn net(w: usize, h: usize, number: i32) -> Result<Net, Refusal> {
    Net::new(w, h, &vec![number; record::numbers((w, h))])
}

/// The example that the specification or `Refusal` gives for each refusal.
#[test]
fn examples() -> Result<(), Refusal> {
    let file = netfile::file(&[0; NUMBERS], (2, 2));
    let mut details = [0; record::details((3, 3))];
    details[0] = 1;
    let merged = Split::new(net(2, 2, LIMIT)?, &details)?.merge();
    let threshold = net(3, 3, 0)?.split()?.clean(DETAIL_LIMIT as u32 + 1);
    let mut given = [0; record::given((2, 2))];
    (given[0], given[3]) = (LIMIT, 1);
    let answers = [
        net(1, 2, 0).err(),
        Net::new(2, 2, &[0; NUMBERS - 1]).err(),
        net(2, 2, LIMIT + 1).err(),
        net(18, 2, 0)?.refine(6).err(),
        lent::write(&[0; NUMBERS], 2, 2, &mut [0; 155]).err(),
        net(2, 2, 0)?.point(1025, 0).err(),
        Net::from_file(&[]).err(),
        Net::from_file(&[0x20, 0, 0, 2]).err(),
        Net::from_file(&[&file[..], &[0]].concat()).err(),
        net(4, 3, 0)?.split().err(),
        merged.err(),
        threshold.err(),
        Door::new(net(2, 2, 0)?, &[1, 2]).err(),
        Door::new(net(3, 2, 0)?, &[1, 0, 1, 0]).err(),
        Door::new(net(2, 2, 0)?, &[1, 0])?.point(1024, 1024).err(),
        Net::from_points(2, 2, &given).err(),
    ];
    assert_eq!(answers, REFUSALS.map(|(_, refusal, _)| Some(refusal)));
    Ok(())
}
