// Trees at the limits of an image.
use crate::{BYTES, DEFINITIONS, Definition, Kind, NODES, NOTE, Node, image};

/// A node with nothing but its name.
pub fn plain_node(name: String) -> Node {
    Node { name, ..Node::default() }
}

/// A definition with nothing but its name, a number.
pub fn plain_definition(kind: Kind, number: usize) -> Definition {
    Definition { kind, short: None, name: format!("{number}"), long: None, description: String::new() }
}

/// A tree of as many nodes as there may be, of which the first has as many options and flags as it may have.
pub fn full_tree() -> Vec<Node> {
    let mut tree: Vec<Node> = (0..NODES).map(|number| plain_node(format!("{number:03}"))).collect();
    let options = (0..DEFINITIONS).map(|number| plain_definition(Kind::Option { required: true }, number));
    let flags = (0..DEFINITIONS).map(|number| plain_definition(Kind::Flag, number));
    tree[0].definitions = options.chain(flags).collect();
    tree
}

/// A tree of as many nodes, and with as many options and flags of one of them, as there may be, whose image is as long as it may be.
pub fn largest_tree() -> Vec<Node> {
    let mut tree = full_tree();
    stretch(&mut tree, BYTES);
    tree
}

/// Lengthens the descriptions and usages of depth 0, the last first, until the image has so many bytes.
fn stretch(tree: &mut [Node], bytes: usize) {
    let mut missing = bytes - image(tree).len();
    for node in tree.iter_mut().rev() {
        for note in [&mut node.description, node.usage.get_or_insert_default()] {
            let more = missing.min(NOTE - note.len());
            note.push_str(&"d".repeat(more));
            missing -= more;
        }
    }
    assert_eq!(missing, 0, "the nodes have room for so many bytes");
}
