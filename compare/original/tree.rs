// Hands out the original's command tree as plain data, and builds others with its builders.
use super::super::{COMMAND_TREE, CommandNode, FlagDef, OptionDef, build_command_tree};
use super::handlers::handler;
use crate::Original;
use forest::{Definition, Kind, Node};
use std::collections::BTreeMap;
use std::string::{String, ToString};
use std::vec::Vec;

impl Original {
    /// The command tree as plain data, with its handlers numbered from 1 in name order.
    pub fn tree() -> Vec<Node> {
        nodes_of(&COMMAND_TREE, &mut 0)
    }

    /// The command tree, built anew.
    pub fn build_tree() -> BTreeMap<String, CommandNode> {
        build_command_tree()
    }

    /// Another tree, built as base.rs builds its own.
    pub fn build(siblings: &'static [Node]) -> BTreeMap<String, CommandNode> {
        let mut tree = BTreeMap::new();
        for node in siblings {
            tree.insert(node.name.to_string(), built(node));
        }
        tree
    }
}

fn built(told: &'static Node) -> CommandNode {
    let mut node = CommandNode::new(&told.description);
    if told.handler != 0 {
        node = node.with_handler(handler(told.handler));
    }
    if let Some(usage) = &told.usage {
        node = node.with_usage(usage);
    }
    for definition in &told.definitions {
        node = match definition.kind {
            Kind::Option { required } => node.with_option(built_option(definition, required)),
            Kind::Flag => node.with_flag(built_flag(definition)),
        };
    }
    for below in &told.below {
        node = node.add_subcommand(below.name.as_str(), built(below));
    }
    node
}

fn built_option(told: &'static Definition, required: bool) -> OptionDef {
    let mut option = OptionDef::new(&told.name, &told.description);
    if let Some(short) = told.short {
        option = option.with_short(char::from(short));
    }
    if let Some(long) = &told.long {
        option = option.with_long(long);
    }
    if required { option.required() } else { option }
}

fn built_flag(told: &'static Definition) -> FlagDef {
    let mut flag = FlagDef::new(&told.name, &told.description);
    if let Some(short) = told.short {
        flag = flag.with_short(char::from(short));
    }
    match &told.long {
        Some(long) => flag.with_long(long),
        None => flag,
    }
}

fn nodes_of(tree: &BTreeMap<String, CommandNode>, handlers: &mut u16) -> Vec<Node> {
    tree.iter().map(|(name, node)| node_of(name, node, handlers)).collect()
}

fn node_of(name: &str, node: &CommandNode, handlers: &mut u16) -> Node {
    *handlers += u16::from(node.handler.is_some());
    let handler = if node.handler.is_some() { *handlers } else { 0 };
    let options = node.options.iter().map(|option| {
        definition(Kind::Option { required: option.required }, option.short, option.name, option.long, option.description)
    });
    let flags =
        node.flags.iter().map(|flag| definition(Kind::Flag, flag.short, flag.name, flag.long, flag.description));
    Node {
        handler,
        name: name.to_string(),
        description: node.description.to_string(),
        usage: node.usage.map(|usage| usage.to_string()),
        definitions: options.chain(flags).collect(),
        below: nodes_of(&node.subcommands, handlers),
    }
}

fn definition(kind: Kind, short: Option<char>, name: &str, long: Option<&str>, description: &str) -> Definition {
    let short = short.map(|short| u8::try_from(short).expect("a short is ASCII"));
    let long = long.map(|long| long.to_string());
    Definition { kind, short, name: name.to_string(), long, description: description.to_string() }
}
