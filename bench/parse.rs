// One line parsed, against the original's parse of it under the same tree: the whole call, and what comes after its test of the image.
use crate::table::parse_row;
use crate::timing::parted;
use forest::{Definition, Kind, Node, image};
use original::Original;
use original_fs::Original as OriginalFs;
use std::hint::black_box;

/// How many words the lines have.
const COUNTS: [usize; 3] = [5, 20, 100];
/// More than the report of any of these lines takes.
const ROOM: usize = 4_096;

/// A tree and the lines to parse under it: the words that name the command, and those that follow in turn.
struct Case {
    name: &'static str,
    tree: Vec<Node>,
    command: &'static [&'static str],
    arguments: &'static [&'static str],
}

fn cases() -> [Case; 2] {
    let fs = Case {
        name: "fs",
        tree: OriginalFs::tree(),
        command: &["rm"],
        arguments: &["-rf", "--dir", "a/b.toml", "-d", "--force", "c"],
    };
    let arguments: &[&str] = &["--option-a", "linux.toml", "-g", "--option-b=2", "start", "-b", "4", "--flag-h"];
    [fs, Case { name: "256 nodes", tree: large_tree(), command: &["n15", "n14"], arguments }]
}

pub fn rows() {
    for case in cases() {
        Original::plant(&case.tree);
        for count in COUNTS {
            let arguments = case.arguments.iter().cycle();
            let words: Vec<&str> = case.command.iter().chain(arguments).copied().take(count).collect();
            line_row(case.name, &image(&case.tree), count, &words.join(" "));
        }
    }
}

fn line_row(tree: &str, image: &[u8], count: usize, line: &str) {
    let mut out = [0; ROOM];
    assert!(Original::parse(line).is_ok(), "{line}");
    assert_eq!(calls::parse(image, line.as_bytes(), &mut out) >> 32, 0, "{line}");
    let rust = || drop(black_box(Original::parse(black_box(line))));
    let parse = |image: &[u8], line: &[u8], out: &mut [u8]| _ = black_box(calls::parse(black_box(image), black_box(line), black_box(out)));
    let times = parted(image, line.as_bytes(), ROOM, rust, parse);
    parse_row(tree, count, &times);
}

/// 16 nodes with 15 children each, all with two options and two flags.
pub fn large_tree() -> Vec<Node> {
    let node = |number, below| Node { name: format!("n{number:02}"), definitions: definitions(), below, ..Node::default() };
    let children = || (0..15).map(|number| node(number, Vec::new())).collect();
    (0..16).map(|number| node(number, children())).collect()
}

fn definitions() -> Vec<Definition> {
    let option = Kind::Option { required: false };
    let definition = |(kind, short, name): (Kind, u8, &str)| Definition {
        kind,
        short: Some(short),
        name: name.to_string(),
        long: None,
        description: String::new(),
    };
    let told =
        [(option, b'a', "option-a"), (option, b'b', "option-b"), (Kind::Flag, b'g', "flag-g"), (Kind::Flag, b'h', "flag-h")];
    told.map(definition).to_vec()
}
