// A tree in the place of the original's own, built with its builders.
use super::super::CommandNode;
use crate::Original;
use core::cell::RefCell;
use forest::Node;
use std::collections::BTreeMap;
use std::string::String;

type Tree = BTreeMap<String, CommandNode>;

lazy_static::thread_local! {
    static PLANTED: RefCell<Option<Tree>> = const { RefCell::new(None) };
}

impl Original {
    /// Makes a tree the command tree of this thread, from its next use on. The original's trees have texts that last.
    pub fn plant(tree: &[Node]) {
        PLANTED.set(Some(Original::build(tree.to_vec().leak())));
        lazy_static::renew();
    }
}

/// The tree that was planted and not taken yet.
pub fn take() -> Option<Tree> {
    PLANTED.take()
}
