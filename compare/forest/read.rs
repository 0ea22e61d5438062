// An image read by the text of the standard: the tree, or the number of the first frame that breaks a rule.
use crate::{BYTES, DEFINITIONS, DEPTHS, Definition, Kind, NAME, NODES, NOTE, Node};

/// The length that says that there is no text.
const NONE: u8 = 0xFF;

/// What one frame says.
enum Frame {
    Node(usize, Node),
    Definition(Definition),
}

/// The tree of an image, or the number, from 0, of the first frame that breaks a rule.
pub fn read(image: &[u8]) -> Result<Vec<Node>, usize> {
    if image.len() > BYTES {
        return Err(0);
    }
    let mut growing = Growing::default();
    let mut left = image;
    let mut number = 0usize;
    while !left.is_empty() {
        let taken = match frame(&mut left) {
            Some(Frame::Node(depth, node)) => growing.node(depth, node),
            Some(Frame::Definition(definition)) => growing.definition(definition),
            None => None,
        };
        taken.ok_or(number)?;
        number += 1;
    }
    growing.close(0);
    Ok(growing.grown)
}

/// The tree as far as it is read.
#[derive(Default)]
struct Growing {
    /// The nodes of depth 0 that are closed.
    grown: Vec<Node>,
    /// The last node and those above it, from depth 0 down.
    open: Vec<Node>,
    nodes: usize,
}

impl Growing {
    fn node(&mut self, depth: usize, node: Node) -> Option<()> {
        if depth > self.open.len() || self.nodes == NODES {
            return None;
        }
        self.close(depth);
        if self.siblings().last().is_some_and(|before| before.name >= node.name) {
            return None;
        }
        self.open.push(node);
        self.nodes += 1;
        Some(())
    }

    /// A definition belongs to the last node.
    fn definition(&mut self, definition: Definition) -> Option<()> {
        let list = &mut self.open.last_mut()?.definitions;
        let alike = list.iter().filter(|other| other.is_flag() == definition.is_flag()).count();
        (alike < DEFINITIONS).then(|| list.push(definition))
    }

    /// Closes the nodes of this depth and deeper: each goes to its siblings.
    fn close(&mut self, depth: usize) {
        while self.open.len() > depth {
            let node = self.open.pop().expect("there is an open node");
            self.siblings().push(node);
        }
    }

    /// The closed nodes below the last open one.
    fn siblings(&mut self) -> &mut Vec<Node> {
        match self.open.last_mut() {
            Some(node) => &mut node.below,
            None => &mut self.grown,
        }
    }
}

/// Takes a frame that is within its limits from the front.
fn frame(left: &mut &[u8]) -> Option<Frame> {
    match byte(left)? {
        0x01 => {
            let depth = usize::from(byte(left)?);
            let handler = u16::from_be_bytes([byte(left)?, byte(left)?]);
            let (name, description, usage) = (name(left)?, note(left)?, perhaps(left, note)?);
            let node = Node { handler, name, description, usage, ..Node::default() };
            (depth < DEPTHS).then_some(Frame::Node(depth, node))
        }
        0x02 => match byte(left)? {
            0 => definition(left, Kind::Option { required: false }),
            1 => definition(left, Kind::Option { required: true }),
            _ => None,
        },
        0x03 => definition(left, Kind::Flag),
        _ => None,
    }
}

fn definition(left: &mut &[u8], kind: Kind) -> Option<Frame> {
    let short = match byte(left)? {
        0x00 => None,
        short @ 0x21..=0x7E => Some(short),
        _ => return None,
    };
    let (name, long, description) = (name(left)?, perhaps(left, name)?, note(left)?);
    Some(Frame::Definition(Definition { kind, short, name, long, description }))
}

fn name(left: &mut &[u8]) -> Option<String> {
    let text = text(left)?;
    let fair = (1..=NAME).contains(&text.len()) && text.bytes().all(|byte| matches!(byte, 0x21..=0x7E));
    fair.then_some(text)
}

fn note(left: &mut &[u8]) -> Option<String> {
    let text = text(left)?;
    let fair = text.len() <= NOTE && text.bytes().all(|byte| matches!(byte, 0x20..=0x7E));
    fair.then_some(text)
}

/// A text that may be missing.
fn perhaps(left: &mut &[u8], text: fn(&mut &[u8]) -> Option<String>) -> Option<Option<String>> {
    if left.first() == Some(&NONE) {
        byte(left)?;
        return Some(None);
    }
    text(left).map(Some)
}

/// A length byte and its bytes, which have to be ASCII.
fn text(left: &mut &[u8]) -> Option<String> {
    let length = usize::from(byte(left)?);
    let (text, rest) = left.split_at_checked(length)?;
    *left = rest;
    text.is_ascii().then(|| text.iter().copied().map(char::from).collect())
}

fn byte(left: &mut &[u8]) -> Option<u8> {
    let (&first, rest) = left.split_first()?;
    *left = rest;
    Some(first)
}
