// A line parsed under a tree: the library against the original's parser with that tree in the place of its own.
use crate::buffers::Expected;
use crate::part::Part;
use crate::planting::{Tree, full, full_line, marked, named, random, random_line};
use crate::random::Random;
use crate::reports::{fault, parsed};
use crate::words::{LIMIT, too_long};
use forest::image;
use original::Original;

/// The words that lines under the named trees are made of, as they are typed.
const WORDS: [&str; 20] = [
    "a",
    "b",
    "-a",
    "-b",
    "-ab",
    "-cba",
    "-",
    "--",
    "--a",
    "--b",
    "--c",
    "--a=x",
    "--b=",
    "--c=a=b",
    "--=x",
    "---a",
    "-\\\"",
    "--\\\"",
    "\"--a b\"",
    "-=",
];
/// The most words of such a line.
const SHORT: usize = 4;

const TREES: usize = 5_000;
const LINES: usize = 200;
const LONG: usize = 30_000;
const SEED: u64 = 0x7061_7273_6500_0001;
const SEED_LONG: u64 = 0x7061_7273_6500_0002;

/// M9 to M14: the line, and the report or the fault that the standard states.
const MARKED: [(&str, Result<&[u8], (u64, &str)>); 6] = [
    ("set -lc x", Ok(b"\x11\0\x03set\x12\0\x06config\0\x01x\x13\0\x04long")),
    ("set -cl x", Err((6, "-c"))),
    ("set --long=1", Err((5, "--long"))),
    ("set --", Err((5, "--"))),
    ("set --cfg x", Err((7, "config"))),
    ("set -c x -", Ok(b"\x11\0\x03set\x12\0\x06config\0\x01x\x14\0\x01-")),
];

fn expected(line: &[u8]) -> Expected {
    if line.len() > LIMIT {
        return too_long(line.len());
    }
    match str::from_utf8(line) {
        Ok(text) => match parsed(text) {
            (0, report) => Expected::Bytes(report),
            (number, told) => Expected::Fault { number, told },
        },
        Err(error) => Expected::Refusal { number: 3, value: error.valid_up_to() as u64 },
    }
}

/// The image of a tree that is from now on the original's too.
pub fn planted(Tree(tree): &Tree) -> Vec<u8> {
    Original::plant(tree);
    image(tree)
}

// The tree of the image has to be planted.
fn check(part: &mut Part, image: &[u8], line: &[u8]) {
    part.input(line);
    part.check(|out| calls::parse(image, line, out), &expected(line));
}

/// The original and the library have to answer what the standard states.
pub fn marked_lines(part: &mut Part) {
    let image = planted(&marked());
    for (line, stated) in MARKED {
        let stated = match stated {
            Ok(report) => (0, report.to_vec()),
            Err((number, text)) => (number, fault(text)),
        };
        let found = parsed(line);
        check(part, &image, line.as_bytes());
        part.note((stated != found).then(|| format!("stated:   {stated:?}\noriginal: {found:?}")));
    }
}

/// Under every named tree every line of up to four words, and every such line behind the name of its first node.
pub fn named_trees(part: &mut Part) {
    for tree in named() {
        let image = planted(&tree);
        every_line(&mut Vec::new(), SHORT, &mut |line| check(part, &image, line.as_bytes()));
        every_line(&mut vec!["a"], SHORT, &mut |line| check(part, &image, line.as_bytes()));
    }
}

/// Gives out the line of these words, and all lines with up to so many of the words above behind them.
pub fn every_line(words: &mut Vec<&'static str>, more: usize, check: &mut impl FnMut(&str)) {
    check(&words.join(" "));
    if more == 0 {
        return;
    }
    for word in WORDS {
        words.push(word);
        every_line(words, more - 1, check);
        words.pop();
    }
}

/// Lines of words that random trees know, and of words made of them, under such trees.
pub fn random_trees(part: &mut Part) {
    let mut numbers = Random(SEED);
    for _ in 0..TREES {
        let tree = random(&mut numbers);
        let image = planted(&tree);
        for _ in 0..LINES {
            check(part, &image, random_line(&mut numbers, &tree.0[0].name).as_bytes());
        }
    }
}

/// Lines up to the longest that is taken, and some longer, that use the many options and flags of a node.
pub fn long_lines(part: &mut Part) {
    let mut numbers = Random(SEED_LONG);
    let image = planted(&full());
    for _ in 0..LONG {
        check(part, &image, full_line(&mut numbers, LIMIT + 1).as_bytes());
    }
}

/// Refusals in their order: a bad tree before a line that is too long, that before one that is ill-formed, that before faults.
pub fn refusals(part: &mut Part) {
    let image = planted(&marked());
    for length in [0, 1, LIMIT - 1, LIMIT, LIMIT + 1, 70_000] {
        for byte in [b'a', b' ', b'-', 0xFF] {
            let line = vec![byte; length];
            check(part, &image, &line);
            part.input(&line);
            // without its last byte the third frame is broken
            let (cut, bad) = (&image[..image.len() - 1], Expected::Refusal { number: 1, value: 2 });
            part.check(|out| calls::parse(cut, &line, out), &bad);
        }
    }
}
