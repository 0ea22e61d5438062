// Writes the input and the output of the program replay_parse: lines under trees, and what the original's parse makes of them.
#[path = "comparer/frames.rs"]
#[allow(dead_code)]
mod frames;
mod hex;
#[path = "comparer/planting.rs"]
#[allow(dead_code)]
mod planting;
#[path = "comparer/random.rs"]
mod random;
#[path = "comparer/reports.rs"]
mod reports;
mod stored;

use hex::hex;
use original_fs::Original as OriginalFs;
use planting::{full, full_line, marked, random_line};
use random::Random;
use reports::parsed;
use stored::{Sample, Stored, bytes};

/// The longest line that is taken, in bytes.
const LIMIT: usize = 1_024;

/// The lines of the standard's examples M9 to M14.
const MARKED: [&str; 6] = ["set -lc x", "set -cl x", "set --long=1", "set --", "set --cfg x", "set -c x -"];

/// The words behind `set` in lines of up to so many.
const WORDS: [&str; 12] = ["x", "-", "-l", "-c", "-lc", "-ll", "-é", "--long", "--cfg", "--config", "--cfg=", "--config=a=b"];
const SHORT: usize = 2;

/// Lines under the tree with the feature fs.
const FS: [&str; 16] = [
    "",
    "\"\"",
    "log",
    " help log",
    "log a\\ ",
    "log \"a b\" \\\" 日本",
    "lo",
    "logs",
    "ls -la /",
    "ls --all --all",
    "ls --all=1",
    "rm -rfd a b",
    "rm -rx",
    "uname --kernel-name -m",
    "cd .. -",
    "exit -- 1",
];

/// The number of random trees, of the lines under each, of long lines, their most bytes, and the start of their numbers.
const RANDOM: usize = 6;
const LINES: usize = 40;
const LONG: usize = 12;
const LONG_BYTES: usize = 500;
const SEED: u64 = 0x7265_706C_6179_0004;

/// The marked examples, all short lines of the words above, and lines that are refused before they are parsed.
fn marked_sample() -> Sample {
    let mut lines = bytes(&MARKED);
    let mut fronts = vec!["set".to_string()];
    for _ in 0..SHORT {
        fronts = fronts.iter().flat_map(|front| WORDS.map(|word| format!("{front} {word}"))).collect();
        lines.extend(fronts.iter().map(|line| line.as_bytes().to_vec()));
    }
    let longest: Vec<u8> = b"set -c ".iter().copied().chain([b'x'; LIMIT]).collect();
    lines.extend([longest[..LIMIT].to_vec(), longest[..=LIMIT].to_vec(), b"set -c \xC3".to_vec(), b"set\xFF --".to_vec()]);
    (marked().0, lines)
}

/// Lines up to the longest under a node with very many options and flags.
fn full_sample(random: &mut Random) -> Sample {
    (full().0, (0..LONG).map(|_| full_line(random, LONG_BYTES).into_bytes()).collect())
}

fn random_sample(random: &mut Random) -> Sample {
    let tree = planting::random(random).0;
    let lines = (0..LINES).map(|_| random_line(random, &tree[0].name).into_bytes()).collect();
    (tree, lines)
}

fn all_samples() -> Vec<Sample> {
    let mut random = Random(SEED);
    let mut samples = vec![(Vec::new(), bytes(&FS[..4])), marked_sample(), (OriginalFs::tree(), bytes(&FS))];
    samples.push(full_sample(&mut random));
    samples.extend((0..RANDOM).map(|_| random_sample(&mut random)));
    samples
}

/// What is to be written for a line under the tree that is planted: the frames or the refusal, what stays, and the answer to a short buffer.
fn answer(line: &[u8]) -> String {
    if line.len() > LIMIT {
        return format!("refused 2 {} kept", line.len());
    }
    let text = match str::from_utf8(line) {
        Ok(text) => text,
        Err(error) => return format!("refused 3 {} kept", error.valid_up_to()),
    };
    let (number, told) = parsed(text);
    format!("told {number} {} kept short 9 {}", hex(&told), told.len())
}

fn main() {
    let mut stored = Stored::default();
    all_samples().iter().for_each(|sample| stored.sample(sample, answer));
    stored.bad_tree(&marked_sample());
    stored.write();
}
