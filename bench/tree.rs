// The test of a tree image, against the original building the same tree; and images of several lengths.
use crate::table::tree_row;
use crate::timing::{Task, medians};
use forest::{BYTES, DEFINITIONS, Definition, Kind, Node, image, largest_tree};
use original::Original;
use original_fs::Original as OriginalFs;
use std::hint::black_box;

/// The nodes of an even tree have frames of so many bytes, and a tree of so many nodes is as long as an image may be.
const FRAME: usize = 128;

pub fn rows() {
    let fs = OriginalFs::tree();
    row("fs tree", &fs, &mut || drop(black_box(OriginalFs::build_tree())));
    built_row("the largest tree", largest_tree());
    for bytes in [BYTES / 16, BYTES / 8, BYTES / 4, BYTES / 2, BYTES] {
        built_row("even nodes", even(bytes / FRAME));
    }
    for nodes in [1, 8] {
        built_row("32 and 32 a node", defining(nodes));
    }
}

/// A row of a tree that the original builds from plain data with its own builders.
fn built_row(kind: &str, tree: Vec<Node>) {
    let tree: &'static [Node] = tree.leak();
    row(kind, tree, &mut || drop(black_box(Original::build(black_box(tree)))));
}

fn row(kind: &str, tree: &[Node], rust: Task) {
    let image = image(tree);
    assert_eq!(calls::tree(&image), 0);
    let mut ours = || _ = black_box(calls::tree(black_box(&image)));
    let [rust, ours] = medians([rust, &mut ours]);
    tree_row(kind, image.len(), rust, ours);
}

/// Siblings whose frames have 128 bytes each.
pub fn even(nodes: usize) -> Vec<Node> {
    let node = |number| Node {
        handler: 1,
        name: format!("command-{number:03}"),
        description: "d".repeat(60),
        usage: Some("u".repeat(50)),
        ..Node::default()
    };
    let tree: Vec<Node> = (0..nodes).map(node).collect();
    assert_eq!(image(&tree).len(), nodes * FRAME);
    tree
}

/// Siblings with as many options and flags as a node may have.
fn defining(nodes: usize) -> Vec<Node> {
    let node = |number| Node { handler: 1, name: format!("command-{number}"), definitions: definitions(), ..Node::default() };
    (0..nodes).map(node).collect()
}

fn definitions() -> Vec<Definition> {
    let definition = |kind, number: usize| Definition {
        kind,
        short: Some(b'!' + number as u8),
        name: format!("definition-{number:02}"),
        long: Some(format!("definition-{number:02}")),
        description: "Use long listing format".to_string(),
    };
    let options = (0..DEFINITIONS).map(|number| definition(Kind::Option { required: false }, number));
    let flags = (0..DEFINITIONS).map(|number| definition(Kind::Flag, DEFINITIONS + number));
    options.chain(flags).collect()
}
