// Whole sessions: the program `console` against the original's loop and shell, with the frames of the standard around them.
mod bad;
mod keyed;
mod lines;
mod mixed;
mod modelled;
mod program;
mod talk;
mod told;

pub use bad::bad_lines;
pub use keyed::{ecma48, refused_words};
pub use mixed::{damaged_trees, mixed_sessions};
pub use talk::{closed_outputs, dialogues};

use crate::named::named;
use crate::part::Part;
use crate::planting::{Tree, examples, full, handlers, marked, named as trees};
use forest::{BYTES, Kind, NODES, Node, image, largest_tree, plain_definition, plain_node};
use lines::{house, key_lines, tree_lines};
use program::{Feed, output};
use told::{Told, told};

/// The most keys of a line.
const KEYS: usize = 511;

fn session(tree: &[Node], keys: &[u8]) -> String {
    tree_lines(tree) + &key_lines(keys, KEYS)
}

/// Has the program print what the session has to print. Where that comes to an end by itself, so has the program.
fn check(part: &mut Part, input: &[u8], feed: Feed) {
    check_with(part, &[], input, feed, told(input));
}

/// The same with these words behind the program's name.
fn check_with(part: &mut Part, words: &[&str], input: &[u8], feed: Feed, told: Told) {
    let difference = match output(words, input, feed, told.ends) {
        Ok(printed) if printed == told.output.as_bytes() => None,
        Ok(printed) => Some(format!("expected:\n{}found:\n{}", told.output, String::from_utf8_lossy(&printed))),
        Err(said) => Some(format!("expected:\n{}found:    {said}", told.output)),
    };
    part.input(input);
    part.called(told.output.rsplit_terminator('\n').next().is_some_and(|line| line.starts_with("2f")), difference);
}

/// The session of the standard: the original and the program print what it shows.
pub fn standard(part: &mut Part) {
    let input = "01000002036c6f67104368616e6765206c6f67206c6576656c0b6c6f67205b4c4556454c5d\n206c6f670d\n";
    let stated = "220d1b5b324b61787669736f723a24206c\n220d1b5b324b61787669736f723a24206c6f\n\
        220d1b5b324b61787669736f723a24206c6f67\n220a\n2100021100036c6f67\n2261787669736f723a2420\n";
    check(part, input.as_bytes(), Feed::Pipe);
    part.same(&[stated], &[told(input.as_bytes()).output]);
}

/// The named streams of keys, each byte in each mode, and lines that run: whole, and with few keys to a line.
pub fn named_sessions(part: &mut Part) {
    let Tree(tree) = examples();
    let every = (0..=255)
        .flat_map(|byte| [&b"ab\x1B[D"[..], b"\x1B", b"\x1B["].map(|before| [before, &[byte], b"z\r"].concat()));
    let lines = [
        &b"help\rclear\rnone\rlog a \"b c\"\r log\\\r"[..],
        b"vm\rvm start -f x\rvm stop\rvm start --force=1\rvm start -x\r",
        b"\r\n \r\xC2\xA0\r\xFF\rhelp \xFF\rlog \xE2\x82\r\"\"\r",
        b"help vm start\rhelp x\rhelp \xC2\x80\xC3\xA9\rhelp \"\\\x01\r help log\r",
        b"log\rexit\rlog\r",
        b"log\n quit \nlog\n",
        b"exit",
        b"exit 1\rquit",
        b"a\x1B\rexit\r",
    ];
    let entries: String = (0..101).map(|number| format!("log {number}\r")).collect();
    let walked = entries + &"\x1B[A".repeat(102) + &"\x1B[B".repeat(103) + "\r" + "\x1B[A\r";
    let all = named().into_iter().chain(every).chain(lines.map(<[u8]>::to_vec)).chain([walked.into_bytes()]);
    for keys in all {
        check(part, session(&tree, &keys).as_bytes(), Feed::Pipe);
        check(part, (tree_lines(&tree) + &key_lines(&keys, 3)).as_bytes(), Feed::Pipe);
    }
}

/// Under each of the named trees: each node by its names, alone, with an argument, and behind `help`.
pub fn named_trees(part: &mut Part) {
    for Tree(tree) in trees().into_iter().map(handlers).chain([marked(), examples()]) {
        let mut lines = vec!["help".to_string()];
        every_node(&mut lines, "", &tree);
        let keys: Vec<String> =
            lines.iter().map(|line| format!("{line}\r{line} -a x --b=y \"z z\"\rhelp {line}\r")).collect();
        check(part, session(&tree, keys.concat().as_bytes()).as_bytes(), Feed::Pipe);
    }
}

fn every_node(lines: &mut Vec<String>, above: &str, siblings: &[Node]) {
    for node in siblings {
        let line = format!("{above}{}", node.name);
        every_node(lines, &format!("{line} "), &node.below);
        lines.push(line);
    }
}

/// Images of 32,768 bytes and one more, nodes and definitions one too many, and what is shown under the largest trees.
pub fn tree_limits(part: &mut Part) {
    let keys = b"help\rhelp 000\r000\r255\r".as_slice();
    let longest = largest_tree();
    assert_eq!(image(&longest).len(), BYTES);
    let mut longer = longest.clone();
    longer[0].description.push('d');
    let mut crowded: Vec<Node> = (0..=NODES).map(|number| plain_node(format!("{number:03}"))).collect();
    let fullest = crowded[..NODES].to_vec();
    crowded[NODES].handler = 1;
    for tree in [&longest, &longer, &crowded, &fullest] {
        check(part, session(tree, keys).as_bytes(), Feed::Pipe);
        // what is printed for one read is far more than a buffer holds
        check(part, session(tree, &b"help\r".repeat(100)).as_bytes(), Feed::Pipe);
    }
    for kind in [Kind::Flag, Kind::Option { required: false }] {
        let Tree(mut tree) = full();
        tree[0].definitions.push(plain_definition(kind, 99));
        check(part, session(&tree, keys).as_bytes(), Feed::Pipe);
    }
}

/// Lines of 1,024 digits and a few less and more; sessions of 65,535 lines and a few less and more, the last of them bad or not ended.
pub fn line_limits(part: &mut Part) {
    let head = tree_lines(&examples().0);
    for digits in 1_018..=1_030 {
        let line = "20".to_string() + &"61".repeat(514);
        for end in ["\n", "", "\n200d\n", "20\n"] {
            check(part, (head.clone() + "2062\n" + &line[..digits] + end).as_bytes(), Feed::Pipe);
        }
    }
    let (first, lasts) = ("200d\n", ["200d\n", "20\n", "20", "x\n", "\n", "20657869740d\n"]);
    for count in 65_533..=65_537 {
        for last in lasts {
            check(part, (first.to_string() + &"20\n".repeat(count - 2) + last).as_bytes(), Feed::Pipe);
        }
    }
}

/// Sessions in pieces of each length, each of them one read.
pub fn pieces(part: &mut Part) {
    let Tree(tree) = examples();
    let keys = b"help\rlog a\rvm start -f\x1B[A\x1B[D\x08\r\xC3\xA9\r".as_slice();
    let inputs = [
        session(&tree, keys),
        session(&tree, keys) + "20",
        session(&tree, keys) + "\n" + &key_lines(keys, 4),
        session(&tree, b"a\rexit\ra\r") + "2061\n",
        session(&tree, &b"help\r".repeat(200)) + &"2".repeat(1_024),
        session(&tree, keys) + &"2".repeat(1_025) + "\n",
        session(&tree, keys) + &"20".repeat(513) + "\n2061\n",
    ];
    for input in &inputs {
        for length in (1..=20).chain([511, 512, 1_023, 1_024, 1_025, 1_026, 1_027, 60_000]) {
            check(part, input.as_bytes(), Feed::Pieces(&[length]));
        }
        check(part, input.as_bytes(), Feed::Pieces(&[1, 70, 2, 1, 1, 30, 5]));
    }
}
