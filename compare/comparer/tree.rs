// The test of a tree image: the library against an independent reader of the standard's text (compare/forest).
use crate::damage::damaged;
use crate::part::{Part, say};
use crate::random::Random;
use crate::trees::random_tree;
use forest::{BYTES, DEPTHS, Kind, NAME, NOTE, Node};
use forest::{frames, full_tree, image, largest_tree, plain_definition, plain_node, read};
use original::Original;
use original_fs::Original as OriginalFs;

const RANDOM: usize = 20_000;
const DAMAGED: usize = 1_000_000;
/// A random tree is damaged so many times.
const TIMES: usize = 100;
const SEED: u64 = 0x7472_6565_0000_0001;
const SEED_DAMAGED: u64 = 0x7472_6565_0000_0002;

/// The trees of the repository as house lines.
const BASE_TREE: &str = include_str!("../../trees/base.tree");
const FS_TREE: &str = include_str!("../../trees/fs.tree");

/// The 64 bits that the library has to answer.
fn answer(told: &Result<Vec<Node>, usize>) -> u64 {
    match told {
        Ok(_) => 0,
        Err(number) => 1 << 32 | *number as u64,
    }
}

/// The library has to answer what the reader of the standard's text says.
fn check(part: &mut Part, image: &[u8]) -> Result<Vec<Node>, usize> {
    let told = read(image);
    expect(part, image, answer(&told));
    told
}

fn expect(part: &mut Part, image: &[u8], expected: u64) {
    part.input(image);
    let given = calls::tree(image);
    let difference = (given != expected).then(|| format!("expected: {}\nfound:    {}", say(expected), say(given)));
    part.called(expected != 0, difference);
}

/// A tree is accepted, and read back it is the same.
fn check_good(part: &mut Part, tree: &[Node]) {
    let told = check(part, &image(tree));
    part.note((told.as_deref() != Ok(tree)).then(|| format!("expected: {tree:?}\nfound:    {told:?}")));
}

/// An image is refused at this frame, by both.
fn check_bad(part: &mut Part, image: &[u8], number: usize) {
    let told = check(part, image);
    part.note((told != Err(number)).then(|| format!("expected: refused at {number}\nfound:    {told:?}")));
}

/// The bytes of house lines, each of which has to be a frame of its own.
fn house_frames(lines: &str) -> Vec<Vec<u8>> {
    let digits = |pair: &[u8]| u8::from_str_radix(str::from_utf8(pair).expect("ASCII"), 16).expect("two digits");
    lines.lines().map(|line| line.as_bytes().chunks(2).map(digits).collect()).collect()
}

/// The original's own trees are those of trees/, frame by frame.
pub fn original_trees(part: &mut Part) {
    for (tree, lines) in [(Original::tree(), BASE_TREE), (OriginalFs::tree(), FS_TREE)] {
        check_good(part, &tree);
        part.same(&frames(&tree), &house_frames(lines));
    }
}

/// Random trees; and each of their frames ends where the library sees its end: a byte that begins no frame is refused there.
pub fn random_trees(part: &mut Part) {
    let mut random = Random(SEED);
    for _ in 0..RANDOM {
        let tree = random_tree(&mut random);
        check_good(part, &tree);
        let mut front = Vec::new();
        for (number, frame) in frames(&tree).iter().enumerate().take(100) {
            check_bad(part, &[&front[..], &[0x04]].concat(), number);
            front.extend(frame);
        }
    }
}

pub fn damaged_images(part: &mut Part) {
    let mut random = Random(SEED_DAMAGED);
    for _ in 0..DAMAGED / TIMES {
        let frames = frames(&random_tree(&mut random));
        for _ in 0..TIMES {
            _ = check(part, &damaged(&mut random, &frames));
        }
    }
}

/// Each byte of the original's base tree, and of one of all kinds of frames, changed to each other, and cut off everywhere.
pub fn every_byte(part: &mut Part) {
    for tree in [Original::tree(), small_tree()] {
        let whole = image(&tree);
        for place in 0..whole.len() {
            let mut image = whole.clone();
            for byte in 0..=0xFF {
                image[place] = byte;
                _ = check(part, &image);
            }
            _ = check(part, &whole[..place]);
        }
    }
}

/// Three depths, options and flags with and without shorts, longs and usages.
fn small_tree() -> Vec<Node> {
    let option = |required, number| plain_definition(Kind::Option { required }, number);
    let mut flag = plain_definition(Kind::Flag, 3);
    (flag.short, flag.long, flag.description) = (Some(b'f'), Some("four".to_string()), "five".to_string());
    let inner = Node { usage: Some("b c".to_string()), definitions: vec![option(true, 2), flag], ..plain_node("c".to_string()) };
    let middle = Node { below: vec![inner, plain_node("ca".to_string())], ..plain_node("b".to_string()) };
    let first = Node { definitions: vec![option(false, 1)], below: vec![middle], ..plain_node("a".to_string()) };
    vec![first, plain_node("ab".to_string())]
}

/// The largest image with as many nodes, options and flags as there may be, and one more of each.
pub fn limits(part: &mut Part) {
    let largest = largest_tree();
    check_good(part, &largest);
    assert_eq!(image(&largest).len(), BYTES);
    one_byte_more(part, &largest);
    one_frame_more(part);
    texts_about_the_limits(part);
    depths(part);
    check_good(part, &[]);
}

/// One byte more, whatever it is and wherever it stands, gives 0; so do very many.
fn one_byte_more(part: &mut Part, largest: &[Node]) {
    let whole = image(largest);
    for length in [whole.len() + 1, 65_536, 1 << 20] {
        let mut more = whole.clone();
        more.resize(length, b'd');
        check_bad(part, &more, 0);
    }
    let mut longer = largest.to_vec();
    longer[0].description.push('d');
    check_bad(part, &image(&longer), 0);
    check_bad(part, &whole[..whole.len() - 1], frames(largest).len() - 1);
}

/// One node, one option, one flag more than there may be.
fn one_frame_more(part: &mut Part) {
    let full = full_tree();
    let mut more = full.clone();
    more.push(plain_node("256".to_string()));
    check_bad(part, &image(&more), frames(&full).len());
    let last = full[0].definitions.len() + 1;
    for kind in [Kind::Option { required: false }, Kind::Flag] {
        let mut more = full.clone();
        more[0].definitions.push(plain_definition(kind, 32));
        check_bad(part, &image(&more), last);
        more[1].definitions = full[0].definitions.clone();
        check_bad(part, &image(&more), last);
    }
    let mut both = full.clone();
    both[1].definitions = full[0].definitions.clone();
    check_good(part, &both);
}

/// Names and longs of 0 to 34 bytes, descriptions and usages of 94 to 98.
fn texts_about_the_limits(part: &mut Part) {
    for length in 0..NAME + 3 {
        let text = "n".repeat(length);
        _ = check(part, &image(&[plain_node(text.clone())]));
        let mut flag = plain_definition(Kind::Flag, 1);
        flag.long = Some(text);
        _ = check(part, &image(&[Node { definitions: vec![flag], ..plain_node("a".to_string()) }]));
    }
    for length in NOTE - 2..NOTE + 3 {
        let text = " ".repeat(length);
        _ = check(part, &image(&[Node { description: text.clone(), ..plain_node("a".to_string()) }]));
        _ = check(part, &image(&[Node { usage: Some(text), ..plain_node("a".to_string()) }]));
    }
}

/// Chains of nodes one below the other, to the greatest depth and one more.
fn depths(part: &mut Part) {
    let mut chain = Vec::new();
    for length in 1..=DEPTHS + 1 {
        chain = vec![Node { below: chain, ..plain_node("a".to_string()) }];
        if length <= DEPTHS { check_good(part, &chain) } else { check_bad(part, &image(&chain), DEPTHS) }
    }
}
