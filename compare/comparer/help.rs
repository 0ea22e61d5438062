// The help for the words of a line under a tree: the library against the original's show_help with that tree in the place of its own.
use crate::buffers::Expected;
use crate::lines::every_character;
use crate::parse::{every_line, planted};
use crate::part::Part;
use crate::planting::{marked, named};
use crate::ran::helped;
use crate::random::Random;
use crate::reports::fault;
use crate::trees::random_tree;
use crate::words::{LIMIT, too_long};
use forest::{Node, image};
use original::Original;
use original_fs::Original as OriginalFs;

/// The most words of the lines under the named trees.
const SHORT: usize = 3;
const TREES: usize = 10_000;
const LINES: usize = 40;
const SEED: u64 = 0x6865_6C70_0000_0001;

/// What stands between words: any white space, and what is none.
const BETWEEN: [&str; 8] = [" ", " ", " ", "  ", "\t", "\u{a0}", "\u{3000}\n", "\u{200b}"];

fn expected(line: &[u8]) -> Expected {
    if line.len() > LIMIT {
        return too_long(line.len());
    }
    let text = match str::from_utf8(line) {
        Ok(text) => text,
        Err(error) => return Expected::Refusal { number: 3, value: error.valid_up_to() as u64 },
    };
    let words: Vec<String> = text.split_whitespace().map(str::to_string).collect();
    if words.is_empty() {
        return Expected::Refusal { number: 14, value: 0 };
    }
    match helped(&words) {
        Ok(shown) => Expected::Bytes(shown),
        Err(word) => Expected::Fault { number: 4, told: fault(&word) },
    }
}

// The tree of the image has to be planted.
fn check(part: &mut Part, image: &[u8], line: &[u8]) {
    part.input(line);
    part.check(|out| calls::help(image, line, out), &expected(line));
}

/// Every node of the original's own trees.
pub fn original_trees(part: &mut Part) {
    for tree in [Original::tree(), OriginalFs::tree()] {
        Original::plant(&tree);
        every_node(part, &image(&tree), "", &tree);
    }
}

fn every_node(part: &mut Part, image: &[u8], above: &str, siblings: &[Node]) {
    for node in siblings {
        let line = format!("{above} {}", node.name);
        check(part, image, line.as_bytes());
        every_node(part, image, &line, &node.below);
    }
}

/// Words that lead to a node of a random tree, and words that lead nowhere.
pub fn random_trees(part: &mut Part) {
    let mut random = Random(SEED);
    for _ in 0..TREES {
        let tree = random_tree(&mut random);
        Original::plant(&tree);
        let image = image(&tree);
        for _ in 0..LINES {
            check(part, &image, random_line(&mut random, &tree).as_bytes());
        }
    }
}

pub fn random_line(random: &mut Random, tree: &[Node]) -> String {
    let mut line = if random.once_in(4) { random.pick(&BETWEEN).to_string() } else { String::new() };
    let mut siblings = tree;
    while !siblings.is_empty() && !random.once_in(4) {
        let node = &siblings[random.below(siblings.len())];
        line += &node.name;
        line += random.pick(&BETWEEN);
        siblings = &node.below;
    }
    if random.once_in(6) { line + random.pick(&["a", "ab", "\"a\"", "-", "\u{20ac}"]) } else { line }
}

/// Under every named tree of parse every line of up to three of its words.
pub fn named_trees(part: &mut Part) {
    for tree in named() {
        let image = planted(&tree);
        every_line(&mut Vec::new(), SHORT, &mut |line| check(part, &image, line.as_bytes()));
    }
}

/// Every character in a word that leads nowhere, and between two words.
pub fn every_one(part: &mut Part) {
    let image = planted(&marked());
    for character in every_character() {
        check(part, &image, format!("a{character}b").as_bytes());
        check(part, &image, format!("set{character}a").as_bytes());
    }
}

/// Refusals in their order: a bad tree, a line that is too long, an ill-formed one, no words, an unknown word.
pub fn refusals(part: &mut Part) {
    let tree = Original::tree();
    let image = image(&tree);
    for length in [0, 1, LIMIT - 1, LIMIT, LIMIT + 1, 70_000] {
        for byte in [b'a', b' ', 0xFF] {
            let line = vec![byte; length];
            check(part, &image, &line);
            let bad = Expected::Refusal { number: 1, value: 0 };
            part.input(&line);
            part.check(|out| calls::help(&image[1..], &line, out), &bad);
        }
    }
}
