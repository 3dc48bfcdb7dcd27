//! Damaged argument lists.

use crate::damaged::ended;
use crate::running::Folder;
use crate::texts::text;
use std::ffi::OsStr;
use std::os::unix::ffi::OsStrExt;
use ups_tests::changes;
use ups_tests::nets;
use ups_tests::random::Random;

/// Runs of the test.
pub const ARGUMENTS: usize = 1_500;

/// Accepted lines, whose words are changed.
const LINES: [&str; 12] = [
    "check net --outline outline",
    "list net -k 2",
    "point net 0 0 -k 1 --mm",
    "walk net --along left --step 512",
    "refine net -k 1 -o out --outline outline --fine-outline out2",
    "seam net -k 1 -l 0 --along row 1 -o out",
    "mesh net -k 1 -o out.stl",
    "picture net -o out -k 1 --net",
    "split odd -o out -d out2",
    "merge net details -o out",
    "clean details -t 1 -o out",
    "through details -o out",
];

/// Words to put into them.
const WORDS: &str = "- -- --- -k -l -o -d -t --mm --net --step --along --outline \
    --fine-outline -o= --outline= -k=1 --along=row net odd outline details none/such 0 1 2 6 7 \
    18446744073709551616 -1 row left --help check merge";
/// Words that no line of text has.
const BYTES: [&[u8]; 4] = [b"", b"\xff\xfe", b"a\nb", b"--\xc3\xa4"];

fn any_word(random: &mut Random) -> Vec<u8> {
    let words = WORDS.split_ascii_whitespace().map(str::as_bytes);
    let words: Vec<&[u8]> = words.chain(BYTES).collect();
    random.pick(&words).to_vec()
}

fn put_inputs(folder: &Folder) {
    folder.put_corner("net");
    folder.put_net("odd", &nets::door_corner(9).repeat(3)[..81], (3, 3));
    folder.put("outline", [1, 1]);
    folder.put("details", text(&[0; 81], (3, 3)));
}

/// One change of the words.
fn change(random: &mut Random, words: &mut Vec<Vec<u8>>) {
    let at = random.below(words.len());
    let word = any_word(random);
    let number = |word: &Vec<u8>| word.iter().all(u8::is_ascii_digit);
    match random.below(9) {
        0 if words.len() > 1 => drop(words.remove(at)),
        1 => words.insert(at, word),
        2 => words.swap(0, at),
        3 => words.insert(at, words[random.below(words.len())].clone()),
        4 => changes::change(random, &mut words[at]),
        // A number becomes another.
        5.. if words.iter().any(number) => {
            let at = words.iter().rposition(number).expect("a number");
            let other = random.pick(&["0", "3", "7", "1025", "99999999999"]);
            words[at] = other.into();
        }
        _ => words[at] = word,
    }
    // The system takes no argument with a zero byte, and no name may lead out of the folder.
    for word in words.iter_mut().filter(|word| *word != b"none/such") {
        word.retain(|&byte| byte != 0 && byte != b'/');
    }
}

#[test]
fn argument_lists() {
    let folder = Folder::new("damaged-arguments");
    put_inputs(&folder);
    let names = folder.names();
    let mut random = Random::new(414);
    let mut seen = [0; 3];
    for round in 0..ARGUMENTS {
        let line = LINES[round % LINES.len()];
        let mut words: Vec<Vec<u8>> = line.split(' ').map(|word| word.into()).collect();
        for _ in 0..1 + random.below(3) {
            change(&mut random, &mut words);
        }
        let mut command = folder.command(&[]);
        command.args(words.iter().map(|word| OsStr::from_bytes(word)));
        let shown = String::from_utf8_lossy(&words.join(&b' ')).into_owned();
        let output = command.output().expect("output");
        let (status, _) = ended(&folder, &output, &names, &shown);
        seen[status as usize] += 1;
        if status == 0 {
            put_inputs(&folder);
        }
    }
    println!("argument lists by status: {seen:?}");
    assert!(seen.iter().all(|&count| count > 20), "{seen:?}");
}
