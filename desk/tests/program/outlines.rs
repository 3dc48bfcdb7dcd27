//! Outlines: what is left out of points, walks and seams, and which outlines are refused.

use crate::lines::lines;
use crate::running::{refused, small_net, Folder, Size};
use crate::seams::compared;
use ups_tests::nets::{self, Numbers, NUMBERS};
use ups_tests::oracle::{self, EDGE};
use ups_tests::outlines::{self, Door, Lengths};
use ups_tests::random::Random;
use ups_tests::record;
use ups_tests::refinement;
use ups_tests::shapes;

const ROOM: Lengths = Lengths {
    out: usize::MAX,
    scratch: usize::MAX,
    fine: usize::MAX,
    search: usize::MAX,
};

/// Runs a line of `point` that must print this point or be refused by this number.
fn expect_point(folder: &Folder, line: &str, point: Result<[i32; 3], u32>) -> u32 {
    match point {
        Ok([x, y, z]) => {
            assert_eq!(folder.printed(line), format!("{x} {y} {z}\n"), "{line}");
            0
        }
        Err(number) => {
            refused(&folder.ups(line), number, line);
            number
        }
    }
}

/// Any outline: connected or not, sometimes with another byte or too short.
fn any_outline(random: &mut Random, size: Size) -> Vec<u8> {
    let chances = 20 + random.below(70);
    let most = 1 + random.below(12);
    let mut outline = match random.below(3) {
        0 => shapes::random(random, size, chances),
        _ => shapes::grown(random, size, most),
    };
    let len = outline.len();
    match random.below(8) {
        0 => outline[random.below(len)] = 2 + random.below(254) as u8,
        1 => outline.truncate(random.below(len)),
        2 => outline.extend([2, 3]),
        _ => {}
    }
    outline
}

/// `point` without k asks for no connected outline, with k it does.
#[test]
fn points_on_the_door_and_off_it() {
    let folder = Folder::new("outline-points");
    let mut random = Random::new(381);
    let mut seen = [0; 17];
    for round in 0..60 {
        let (net, size) = small_net(&mut random, NUMBERS[round % 4]);
        let outline = any_outline(&mut random, size);
        let door = Door::new(&outline, size);
        folder.put_net("net", &net, size);
        folder.put("outline", &outline);
        let k = random.below(3);
        let fine = refinement::refined_size(size, k).expect("a size");
        let refined = refinement::refined(&net, size, k);
        for place in nets::places(&mut random, size).into_iter().step_by(29) {
            let (p, q) = place;
            let faults = outlines::point_faults(&net, &door, place, 3);
            let due = oracle::accepted(&faults);
            let due = due.map(|()| refinement::point_of(&net, size, place));
            let line = format!("point net {p} {q} --outline outline");
            seen[expect_point(&folder, &line, due) as usize] += 1;
            let place = (p << k, q << k);
            let faults = outlines::refined_point_faults(&net, &door, k, place, ROOM, 3);
            let due = oracle::accepted(&faults);
            let due = due.map(|()| refinement::point_of(&refined, fine, place));
            let line = format!("point net {} {} -k {k} --outline outline", place.0, place.1);
            seen[expect_point(&folder, &line, due) as usize] += 1;
        }
    }
    println!("points by refusal: {seen:?}");
    assert!([0, 2, 13, 14, 15].iter().all(|&n| seen[n] > 2), "{seen:?}");
}

/// What is printed of the places on the door, or 15 where none of the line is. The steps lead to
/// all vertices: where none of these is on the door, no other place of the line is.
#[test]
fn walks_leave_out_places_off_the_door() {
    let folder = Folder::new("outline-walks");
    let mut random = Random::new(382);
    let mut seen = [0; 3];
    for round in 0..24 {
        let (net, size) = small_net(&mut random, NUMBERS[round % 4]);
        let most = 1 + random.below(8);
        let outline = shapes::grown(&mut random, size, most);
        let door = Door::new(&outline, size);
        folder.put_net("net", &net, size);
        folder.put("outline", &outline);
        let k = random.below(3);
        let step = random.pick(&[1024, 512, 128]);
        let fine = refinement::refined_size(size, k).expect("a size");
        let refined = refinement::refined(&net, size, k);
        let point = |&(p, q): &Size| {
            let [x, y, z] = refinement::point_of(&refined, fine, (p, q));
            format!("{p} {q} {x} {y} {z}\n")
        };
        for line in lines(size) {
            let places: Vec<Size> = line.places(size, k, step).collect();
            let on_door = |place: &&Size| door.holds(**place, EDGE << k);
            let due: Vec<String> = places.iter().filter(on_door).map(point).collect();
            let name = &line.name;
            let line = format!("walk net --along {name} -k {k} --step {step} --outline outline");
            if due.is_empty() {
                folder.refuses(&line, 15);
                seen[0] += 1;
            } else {
                assert_eq!(folder.printed(&line), due.concat(), "{size:?} {line}");
                seen[1 + usize::from(due.len() < places.len())] += 1;
            }
        }
    }
    assert!(seen.iter().all(|&count| count > 10), "{seen:?}");
}

/// The door is on the line, but none of the places that are walked to is on the door.
#[test]
fn walks_past_the_door() {
    let folder = Folder::new("outline-past");
    folder.put_net("net", &[5; record::numbers((3, 2))], (3, 2));
    // The up triangle of the second cell.
    folder.put("outline", [0, 0, 1, 0]);
    let walk = "walk net --outline outline --along bottom --step";
    assert_eq!(folder.printed(&format!("{walk} 1500")), "1500 0 5 5 5\n");
    assert_eq!(folder.printed(&format!("{walk} 2048")), "2048 0 5 5 5\n");
    folder.refuses(&format!("{walk} 2049"), 15);
    folder.refuses("walk net --outline outline --along left", 15);
}

#[test]
fn seams_leave_out_places_off_the_door() {
    let folder = Folder::new("outline-seams");
    let mut random = Random::new(383);
    let mut seen = [0; 2];
    for round in 0..20 {
        let size = (2 + random.below(3), 2 + random.below(3));
        let net = nets::random_net(&mut random, size, NUMBERS[round % 4]);
        let most = 1 + random.below(8);
        let outline = shapes::grown(&mut random, size, most);
        let door = Door::new(&outline, size);
        folder.put_net("net", &net, size);
        folder.put("outline", &outline);
        let depths = random.pick(&[[0, 1], [1, 0], [2, 0], [0, 3], [1, 1]]);
        let [k, l] = depths;
        let coarser = k.min(l);
        let all = lines(size);
        let line = &all[random.below(all.len())];
        let on_door = |place| door.holds(place, EDGE << coarser);
        let due = compared(&net, size, depths, line, on_door);
        let arguments = format!(
            "seam net -k {k} -l {l} --along {} --outline outline",
            line.name
        );
        seen[usize::from(due.is_some())] += 1;
        match due {
            Some(due) => assert_eq!(folder.printed(&arguments), due, "{size:?} {arguments}"),
            None => folder.refuses(&arguments, 15),
        }
    }
    assert!(seen.iter().all(|&count| count > 1), "{seen:?}");
}

/// Lines that refuse an outline which is not connected.
const LINES: [&str; 12] = [
    "check net",
    "list net",
    "list net -k 0",
    "point net 0 0 -k 0",
    "walk net --along bottom",
    "refine net -k 1 -o out",
    "refine net -k 0 -o out --fine-outline fine",
    "seam net -k 0 -l 1 --along left",
    "seam net -k 0 -l 1 --along left -o out",
    "mesh net -k 0 -o out.ply",
    "picture net -o out",
    "picture net -o - --net",
];

/// Every command that takes an outline refuses one that is too short, has another byte or is not
/// connected, and writes nothing.
#[test]
fn refused_outlines() {
    let folder = Folder::new("outline-refused");
    folder.put_net("net", &[0; record::numbers((3, 2))], (3, 2));
    for (bytes, number) in [
        (&[][..], 2),
        (&[1, 1, 1], 2),
        (&[1, 1, 1, 2], 13),
        (&[255, 1, 1, 1], 13),
        (&[1, 0, 1, 0], 14),
        (&[1, 0, 0, 1], 14),
    ] {
        folder.put("outline", bytes);
        for line in LINES {
            folder.refuses(&format!("{line} --outline outline"), number);
        }
        if number == 14 {
            let printed = folder.printed("point net 0 0 --outline outline");
            assert_eq!(printed, "0 0 0\n");
        } else {
            folder.refuses("point net 0 0 --outline outline", number);
        }
    }
    // No triangle at all.
    folder.put("outline", [0; 4]);
    for line in [
        "check net",
        "list net",
        "mesh net -k 1 -o out.stl",
        "picture net -o out",
    ] {
        folder.refuses(&format!("{line} --outline outline"), 14);
    }
    folder.refuses("point net 0 0 --outline outline", 15);
}

/// The depth is refused before the outline is looked at, as the library has it.
#[test]
fn the_order_of_refusals() {
    let folder = Folder::new("outline-order");
    let mut random = Random::new(384);
    let net = nets::random_net(&mut random, (2, 2), Numbers::Small);
    folder.put_net("net", &net, (2, 2));
    folder.put("outline", [7]);
    for line in [
        "list net -k 7",
        "point net 0 0 -k 7",
        "walk net --along left -k 7",
        "refine net -k 7 -o out",
        "seam net -k 7 -l 0 --along left",
        "mesh net -k 7 -o out.stl",
        "picture net -k 7 -o out",
    ] {
        folder.refuses(&format!("{line} --outline outline"), 4);
    }
    folder.refuses("point net 2000 0 --outline outline", 6);
    folder.put("cut", &folder.get("net")[..50]);
    folder.refuses_file("list cut --outline outline -k 7", "cut", 7);
    // The outline on standard input.
    let output = folder.fed("point net 0 1024 --outline -", &[0, 1, 5]);
    let [x, y, z] = refinement::point_of(&net, (2, 2), (0, 1024));
    assert_eq!(output.stdout, format!("{x} {y} {z}\n").as_bytes());
}
