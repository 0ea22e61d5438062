// Random command trees that keep all rules, most of them small.
use crate::random::Random;
use forest::{BYTES, DEFINITIONS, DEPTHS, Definition, Kind, NAME, NODES, NOTE, Node, image};
use std::collections::BTreeSet;

/// A random tree whose image is short enough.
pub fn random_tree(random: &mut Random) -> Vec<Node> {
    loop {
        let most = if random.once_in(40) { NODES } else { 12 };
        let mut shape = Shape { left: random.below(most + 1), deep: random.once_in(4) };
        let tree = siblings(random, 0, &mut shape);
        if image(&tree).len() <= BYTES {
            return tree;
        }
    }
}

/// How a tree grows: so many nodes are left, and they go down rather than side by side.
struct Shape {
    left: usize,
    deep: bool,
}

/// Siblings of a depth with all below them.
fn siblings(random: &mut Random, depth: usize, shape: &mut Shape) -> Vec<Node> {
    let most = match depth {
        _ if shape.deep => 1 + random.below(2),
        0 => shape.left,
        _ => random.below(4),
    };
    let names: BTreeSet<String> = (0..most.min(shape.left)).map(|_| name(random)).collect();
    shape.left -= names.len();
    names.into_iter().map(|name| node(random, depth, name, shape)).collect()
}

fn node(random: &mut Random, depth: usize, name: String, shape: &mut Shape) -> Node {
    let grows = depth + 1 < DEPTHS && (shape.deep || random.once_in(2));
    let below = if grows { siblings(random, depth + 1, shape) } else { Vec::new() };
    Node {
        handler: random.pick(&[0, 1, 255, 256, 65_535]),
        name,
        description: note(random),
        usage: random.once_in(2).then(|| note(random)),
        definitions: definitions(random),
        below,
    }
}

fn definitions(random: &mut Random) -> Vec<Definition> {
    let most = if random.once_in(40) { DEFINITIONS } else { 3 };
    let count = random.below(most + 1);
    (0..count).map(|_| definition(random)).collect()
}

fn definition(random: &mut Random) -> Definition {
    let kind = if random.once_in(2) { Kind::Flag } else { Kind::Option { required: random.once_in(2) } };
    let short = random.once_in(2).then(|| 0x21 + random.below(0x7F - 0x21) as u8);
    let long = random.once_in(2).then(|| name(random));
    Definition { kind, short, name: name(random), long, description: note(random) }
}

/// A name: of few letters, so that names are often alike, or of any bytes.
fn name(random: &mut Random) -> String {
    if random.once_in(4) { text(random, 1, NAME, 0x21, 0x7E) } else { text(random, 1, 3, b'a', b'b') }
}

fn note(random: &mut Random) -> String {
    let most = if random.once_in(4) { NOTE } else { 12 };
    text(random, 0, most, 0x20, 0x7E)
}

fn text(random: &mut Random, least: usize, most: usize, first: u8, last: u8) -> String {
    let length = least + random.below(most - least + 1);
    (0..length).map(|_| char::from(first + random.below(usize::from(last - first) + 1) as u8)).collect()
}
