// Writes the input and the output of the program replay_shell: lines under trees, and what the original does with them.
#[path = "comparer/frames.rs"]
#[allow(dead_code)]
mod frames;
mod hex;
#[path = "comparer/planting.rs"]
#[allow(dead_code)]
mod planting;
#[path = "comparer/ran.rs"]
mod ran;
#[path = "comparer/random.rs"]
mod random;
#[path = "comparer/reports.rs"]
#[allow(dead_code)]
mod reports;
mod stored;

use hex::{hex, or_dash};
use original_fs::Original as OriginalFs;
use planting::{Tree, examples, full, full_line, handlers, random_line};
use ran::{EXIT, HANDLER, Ran, TEXT, ran};
use random::Random;
use stored::{Sample, Stored, bytes};

/// The longest line that is taken, in bytes.
const LIMIT: usize = 1_024;

/// Lines under the tree of examples, the standard's own first.
const EXAMPLES: [&str; 34] = [
    " help log",
    "log a\\ ",
    "exit",
    "clear",
    "vm",
    "",
    " \t",
    "\"\"",
    "log",
    "log x \"y z\"",
    "vm start",
    "vm start -f",
    "vm start --force x",
    "vm start --force=x",
    "vm start -x",
    "vm stop",
    "lo",
    "quit",
    " quit\n",
    "exit 1",
    "help",
    " help\t",
    "help ",
    "help\u{3000}",
    "help log",
    "help  log ",
    "help\tlog",
    "help vm",
    "help vm start",
    "help vm stop",
    "help \"log\"",
    "help \\",
    "help \0\x01\x0f\x10\x1b\x7f'",
    "help \u{e9}\u{301}\u{200b}",
];

/// Lines under the tree with the feature fs.
const FS: [&str; 12] = [
    "help",
    "help ls",
    "help rm",
    "help uname",
    "help ls x",
    "ls -la /",
    "ls --all=1",
    "rm -rfd a b",
    "rm -rx",
    "exit 3",
    "uname --kernel-name -m",
    "log \"a b\" \\\" \u{65e5}\u{672c}",
];

/// What stands around builtins: all white space, and what is none.
const WHITE: [char; 28] = [
    '\t', '\n', '\u{b}', '\u{c}', '\r', ' ', '\u{85}', '\u{a0}', '\u{1680}', '\u{2000}', '\u{2001}', '\u{2002}',
    '\u{2003}', '\u{2004}', '\u{2005}', '\u{2006}', '\u{2007}', '\u{2008}', '\u{2009}', '\u{200a}', '\u{2028}',
    '\u{2029}', '\u{202f}', '\u{205f}', '\u{3000}', '\u{200b}', '\u{180e}', '\0',
];

/// The number of random trees, of the lines under each, of long lines, their most bytes, and the start of their numbers.
const RANDOM: usize = 4;
const LINES: usize = 30;
const LONG: usize = 4;
const LONG_BYTES: usize = 500;
const SEED: u64 = 0x7265_706C_6179_0005;

/// The examples, builtins in white space, and lines that are ill-formed, as long as they may be, and longer.
fn examples_sample() -> Sample {
    let white = WHITE
        .iter()
        .flat_map(|w| [format!("{w}exit{w}"), format!("help{w}"), format!("{w}help log"), format!("help {w}log")]);
    let mut lines = bytes(&EXAMPLES);
    lines.extend(white.map(String::into_bytes));
    lines.extend([b"log\xFF".to_vec(), b" \xC3".to_vec(), b"help \xED\xA0\x80".to_vec()]);
    lines.extend([LIMIT, LIMIT + 1].map(|length| [b"exit".to_vec(), vec![b' '; length - 4]].concat()));
    (examples().0, lines)
}

fn random_sample(random: &mut Random) -> Sample {
    let Tree(tree) = handlers(planting::random(random));
    let mut line = |number: usize| {
        let line = random_line(random, &tree[0].name);
        if number % 4 == 0 { format!("help {line}") } else { line }
    };
    let lines = (0..LINES).map(|number| line(number).into_bytes()).collect();
    (tree, lines)
}

fn all_samples() -> Vec<Sample> {
    let mut random = Random(SEED);
    let long = (0..LONG).map(|_| full_line(&mut random, LONG_BYTES).into_bytes()).collect();
    let mut samples = vec![(Vec::new(), bytes(&["help", "log", "help log", ""])), examples_sample()];
    samples.extend([(OriginalFs::tree(), bytes(&FS)), (full().0, long)]);
    samples.extend((0..RANDOM).map(|_| random_sample(&mut random)));
    samples
}

/// What is to be written for a line under the tree that is planted: what it does, what stays, and the answer to a short buffer.
fn answer(line: &[u8]) -> String {
    if line.len() > LIMIT {
        return format!("refused 2 {} kept", line.len());
    }
    let Ran { number, kind, second, bytes } = ran(line);
    let what = match kind {
        TEXT => format!("text {number}"),
        EXIT => "exit".to_string(),
        HANDLER => format!("handler {second}"),
        _ => return "nothing - kept".to_string(),
    };
    format!("{what} {} kept short 9 {}", or_dash(hex(&bytes)), bytes.len())
}

fn main() {
    let mut stored = Stored::default();
    all_samples().iter().for_each(|sample| stored.sample(sample, answer));
    stored.bad_tree(&examples_sample());
    stored.write();
}
