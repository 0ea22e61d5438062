// The lines of a session: frames of a tree and keys as house lines.
use forest::{Node, frames};

/// A house line.
pub fn house(frame: &[u8]) -> String {
    let digits: String = frame.iter().map(|byte| format!("{byte:02x}")).collect();
    digits + "\n"
}

pub fn tree_lines(tree: &[Node]) -> String {
    frames(tree).iter().map(|frame| house(frame)).collect()
}

/// Keys in lines of so many.
pub fn key_lines(keys: &[u8], length: usize) -> String {
    keys.chunks(length).map(|keys| house(&[b" ", keys].concat())).collect()
}
