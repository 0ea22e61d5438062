// The image of a tree: frame by frame, from depth 0 down.
use crate::{Definition, Kind, Node};

/// The length that says that there is no text.
const NONE: u8 = 0xFF;

/// The frames of siblings of depth 0 and of all below them.
pub fn frames(forest: &[Node]) -> Vec<Vec<u8>> {
    let mut frames = Vec::new();
    add_siblings(&mut frames, 0, forest);
    frames
}

/// The frames joined.
pub fn image(forest: &[Node]) -> Vec<u8> {
    frames(forest).concat()
}

fn add_siblings(frames: &mut Vec<Vec<u8>>, depth: u8, siblings: &[Node]) {
    for node in siblings {
        frames.push(node_frame(depth, node));
        frames.extend(node.definitions.iter().map(definition_frame));
        add_siblings(frames, depth + 1, &node.below);
    }
}

fn node_frame(depth: u8, node: &Node) -> Vec<u8> {
    let [high, low] = node.handler.to_be_bytes();
    let mut frame = vec![0x01, depth, high, low];
    add_text(&mut frame, &node.name);
    add_text(&mut frame, &node.description);
    add_perhaps(&mut frame, &node.usage);
    frame
}

fn definition_frame(definition: &Definition) -> Vec<u8> {
    let mut frame = match definition.kind {
        Kind::Option { required } => vec![0x02, u8::from(required)],
        Kind::Flag => vec![0x03],
    };
    frame.push(definition.short.unwrap_or(0));
    add_text(&mut frame, &definition.name);
    add_perhaps(&mut frame, &definition.long);
    add_text(&mut frame, &definition.description);
    frame
}

fn add_text(frame: &mut Vec<u8>, text: &str) {
    frame.push(u8::try_from(text.len()).expect("a text has a length byte"));
    frame.extend(text.as_bytes());
}

fn add_perhaps(frame: &mut Vec<u8>, text: &Option<String>) {
    match text {
        Some(text) => add_text(frame, text),
        None => frame.push(NONE),
    }
}
