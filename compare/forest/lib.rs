// A command tree as plain data, written as an image and read from one by the text of the standard.
mod large;
mod read;
mod write;

pub use large::{full_tree, largest_tree, plain_definition, plain_node};
pub use read::read;
pub use write::{frames, image};

/// The limits of an image: its bytes, its nodes, the options and the flags of a node, and the depths.
pub const BYTES: usize = 32_768;
pub const NODES: usize = 256;
pub const DEFINITIONS: usize = 32;
pub const DEPTHS: usize = 8;
/// The most bytes of a name or a long, and of a description or a usage.
pub const NAME: usize = 32;
pub const NOTE: usize = 96;

#[derive(Clone, PartialEq, Debug, Default)]
pub struct Node {
    /// 0 for none.
    pub handler: u16,
    pub name: String,
    pub description: String,
    pub usage: Option<String>,
    pub definitions: Vec<Definition>,
    pub below: Vec<Node>,
}

#[derive(Clone, PartialEq, Debug)]
pub struct Definition {
    pub kind: Kind,
    pub short: Option<u8>,
    pub name: String,
    pub long: Option<String>,
    pub description: String,
}

#[derive(Clone, Copy, PartialEq, Debug)]
pub enum Kind {
    Option { required: bool },
    Flag,
}

impl Definition {
    pub fn is_flag(&self) -> bool {
        self.kind == Kind::Flag
    }
}
