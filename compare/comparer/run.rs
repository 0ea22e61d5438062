// A line run under a tree: the library against the original with that tree in the place of its own, in screen, end, handler and report.
use crate::buffers::Expected;
use crate::help;
use crate::lines::{Mixer, about_white_space, every, every_character};
use crate::parse::{every_line, planted};
use crate::part::Part;
use crate::planting::{Tree, examples, full, full_line, handlers, marked, named, random};
use crate::ran::{EXIT, HANDLER, Ran, TEXT, ran};
use crate::random::Random;
use crate::trees::random_tree;
use crate::words::{LIMIT, too_long};
use forest::{Node, image};
use original::Original;
use original_fs::Original as OriginalFs;

/// The most words of the lines under the named trees.
const SHORT: usize = 3;
const TREES: usize = 5_000;
const LINES: usize = 100;
const LONG: usize = 20_000;
const MIXED: usize = 300_000;
const SEED: u64 = 0x7275_6E00_0000_0001;
const SEED_HELP: u64 = 0x7275_6E00_0000_0002;
const SEED_LONG: u64 = 0x7275_6E00_0000_0003;
const SEED_MIXED: u64 = 0x7275_6E00_0000_0004;

/// Builtins, lines that look like one, and commands with and without a handler of the tree of `examples`.
const BUILTINS: [&str; 26] = [
    "",
    "help",
    "exit",
    "quit",
    "clear",
    "help log",
    "help vm start",
    "help vm stop",
    "help help",
    "help exit",
    "help \"log\"",
    "help log log",
    "helplog",
    "Help",
    "exit 1",
    "quit quit",
    "clear x",
    "\"help\"",
    "\\exit",
    "log",
    "log a\\",
    "vm",
    "vm start",
    "vm start -f x",
    "vm stop",
    "\"\"",
];

fn expected(line: &[u8]) -> Expected {
    if line.len() > LIMIT { too_long(line.len()) } else { Expected::Kind(ran(line)) }
}

// The tree of the image has to be planted.
fn check(part: &mut Part, image: &[u8], line: &[u8]) {
    part.input(line);
    part.check(|out| calls::run(image, line, out), &expected(line));
}

/// What the standard states of lines under that tree: the number, the kind, the second value and the bytes.
const STATED: [(&str, u64, u64, u64, &str); 12] = [
    (" help log", 4, TEXT, 0, "Error: Unknown command 'help'\nType 'help' to see available commands\n"),
    ("help log", 0, TEXT, 0, "Command: log\nDescription: Change log level\nUsage: log [LEVEL]\n"),
    ("help \"", 4, TEXT, 0, "Error: UnknownCommand(\"\\\"\")\n"),
    ("help \0\x01\x7F", 4, TEXT, 0, "Error: UnknownCommand(\"\\0\\u{1}\\u{7f}\")\n"),
    ("help \u{e9}\u{301}", 4, TEXT, 0, "Error: UnknownCommand(\"\u{e9}\u{301}\")\n"),
    ("log", 0, HANDLER, 2, "\x11\0\x03log"),
    ("log a\\ ", 0, HANDLER, 2, "\x11\0\x03log\x14\0\x01a"),
    ("exit", 0, EXIT, 0, "Goodbye!\n"),
    ("\tquit ", 0, EXIT, 0, "Goodbye!\n"),
    ("clear", 0, TEXT, 0, "\x1b[2J\x1b[H"),
    ("vm", 8, TEXT, 0, "Error: Command 'vm' has no handler function\n"),
    ("\"\"", 4, TEXT, 0, "Error: Unknown command 'empty command'\nType 'help' to see available commands\n"),
];

/// The original and the library have to answer what the standard states. The line that run trims, parse does not.
pub fn stated(part: &mut Part) {
    let image = planted(&examples());
    for (line, number, kind, second, told) in STATED {
        let stated = Ran { number, kind, second, bytes: told.as_bytes().to_vec() };
        let found = ran(line.as_bytes());
        check(part, &image, line.as_bytes());
        part.note((stated != found).then(|| format!("stated:   {stated:?}\noriginal: {found:?}")));
    }
    let untrimmed = Expected::Bytes(b"\x11\0\x03log\x14\0\x02a ".to_vec());
    part.input(b"log a\\ ");
    part.check(|out| calls::parse(&image, b"log a\\ ", out), &untrimmed);
}

/// Builtins and what looks like one, with each character that is white space, and those beside it in Unicode, around them and within.
pub fn white_space(part: &mut Part) {
    let trees = [examples(), Tree(OriginalFs::tree())];
    let characters: Vec<char> = about_white_space().collect();
    for tree in &trees {
        let image = planted(tree);
        for (line, w) in BUILTINS.iter().flat_map(|line| characters.iter().map(move |w| (line, w))) {
            let split = line.replace(' ', &w.to_string());
            let wider = line.replace(' ', &format!(" {w}"));
            let around =
                [format!("{w}{line}"), format!("{line}{w}"), format!("{w}{line}{w}{w}"), format!(" {w}{line}{w} ")];
            let within =
                [split.clone(), format!("{w}{split}{w}"), wider, format!("{line}{w}{line}"), format!("{line} {w}x")];
            around.iter().chain(&within).for_each(|line| check(part, &image, line.as_bytes()));
        }
    }
}

/// Every character as part of a word that help is asked for, and of a command.
pub fn every_one(part: &mut Part) {
    let image = planted(&examples());
    for character in every_character() {
        check(part, &image, format!("help a{character}b").as_bytes());
        check(part, &image, format!("vm {character} \\{character}").as_bytes());
    }
}

/// Words that help is asked for, of every few of some characters that `Debug` escapes and some that it doesn't.
pub fn escapes(part: &mut Part) {
    const ESCAPED: [&[u8]; 14] = [
        b"a",
        b" ",
        b"'",
        b"\"",
        b"\\",
        b"u{e9}",
        b"\0",
        b"\x01",
        b"\x0F",
        b"\x1F",
        b"\x7F",
        b"\xC2\x80",
        b"\xCC\x81",
        b"\xFF",
    ];
    let image = planted(&examples());
    every(&ESCAPED, 4, &mut |word| {
        check(part, &image, &[b"help ", word].concat());
        check(part, &image, &[b"help log ", word].concat());
    });
}

/// Under both of the original's trees: each of the lines above, and every node by its names, alone and behind `help`.
pub fn original_trees(part: &mut Part) {
    for tree in [Original::tree(), OriginalFs::tree()] {
        let image = planted(&Tree(tree.clone()));
        BUILTINS.iter().for_each(|line| check(part, &image, line.as_bytes()));
        every_path(part, &image, "", &tree);
    }
}

/// Every node by the names that lead to it: run, asked for help, with a word more, and with white space in front.
fn every_path(part: &mut Part, image: &[u8], above: &str, siblings: &[Node]) {
    for node in siblings {
        let path = format!("{above}{}", node.name);
        let lines = [
            format!("help {path}"),
            format!("help {path} x"),
            format!(" help {path}"),
            path.clone(),
            format!(" {path} x "),
        ];
        lines.iter().for_each(|line| check(part, image, line.as_bytes()));
        every_path(part, image, &format!("{path} "), &node.below);
    }
}

/// Under every named tree, with handlers and without, every line of up to three words: alone, behind the name of its first node, and as help.
pub fn named_trees(part: &mut Part) {
    for tree in named() {
        let image = planted(&handlers(tree));
        for front in [&[][..], &["a"], &["help"], &["help", "a"]] {
            every_line(&mut front.to_vec(), SHORT, &mut |line| check(part, &image, line.as_bytes()));
        }
    }
}

/// Lines of words that random trees know, run and asked for help, some with white space around them.
pub fn random_trees(part: &mut Part) {
    let mut numbers = Random(SEED);
    for _ in 0..TREES {
        let tree = handlers(random(&mut numbers));
        let image = planted(&tree);
        for _ in 0..LINES {
            let line = crate::planting::random_line(&mut numbers, &tree.0[0].name);
            check(part, &image, dressed(&mut numbers, &line).as_bytes());
        }
    }
}

/// A line as it is, or behind `help`, or with white space around it.
fn dressed(random: &mut Random, line: &str) -> String {
    let [before, behind] = [(); 2].map(|()| random.pick(&["", "", " ", "\t", "\u{3000}"]));
    let help = random.pick(&["", "", "", "", "help ", "help  ", "help\t"]);
    format!("{before}{help}{line}{behind}")
}

/// Under random trees with texts of all lengths: a bare help, every path, and words that lead to a node or nowhere.
pub fn help_texts(part: &mut Part) {
    let mut random = Random(SEED_HELP);
    for _ in 0..TREES {
        let tree = random_tree(&mut random);
        Original::plant(&tree);
        let image = image(&tree);
        check(part, &image, b"help");
        every_path(part, &image, "", &tree);
        for _ in 0..LINES / 10 {
            let line = help::random_line(&mut random, &tree);
            check(part, &image, dressed(&mut random, &line).as_bytes());
        }
    }
}

/// Lines up to the longest that is taken, and some longer, that use the many options and flags of a node.
pub fn long_lines(part: &mut Part) {
    let mut numbers = Random(SEED_LONG);
    let image = planted(&full());
    for _ in 0..LONG {
        let line = full_line(&mut numbers, LIMIT + 1);
        check(part, &image, dressed(&mut numbers, &line).as_bytes());
    }
}

/// Mixed lines of all characters, damaged ones among them, as commands and as words that help is asked for.
pub fn mixed_lines(part: &mut Part) {
    let mut mixer = Mixer::new(SEED_MIXED);
    let image = planted(&examples());
    for _ in 0..MIXED {
        let front = mixer.random.pick(&["", "help ", "log ", "vm start ", " help "]);
        check(part, &image, &[front.as_bytes(), &mixer.line()].concat());
    }
}

/// Refusals in their order: a bad tree before a line that is too long, that before the line's text.
pub fn refusals(part: &mut Part) {
    let image = planted(&marked());
    for length in [0, 1, 4, LIMIT - 1, LIMIT, LIMIT + 1, 70_000] {
        for byte in [b'a', b' ', b'-', 0xFF] {
            for front in ["", "help", "exit"] {
                let line = [front.as_bytes(), &vec![byte; length.saturating_sub(front.len())]].concat();
                check(part, &image, &line);
                part.input(&line);
                // without its last byte the third frame is broken
                let (cut, bad) = (&image[..image.len() - 1], Expected::Refusal { number: 1, value: 2 });
                part.check(|out| calls::run(cut, &line, out), &bad);
            }
        }
    }
}
