// Writes the input and the output of the program replay_words: lines, and what the original's tokenize makes of them.
#[path = "comparer/frames.rs"]
#[allow(dead_code)]
mod frames;
mod hex;
#[path = "comparer/lines.rs"]
#[allow(dead_code)]
mod lines;
#[path = "comparer/random.rs"]
mod random;

use hex::{hex, or_dash};
use lines::{Mixer, every_character, every_line};
use original::Original;

/// The longest line that is taken, in bytes, and the greatest value of refusal 2.
const LIMIT: usize = 1_024;
const MOST: usize = 65_535;

/// The lines of the standard's examples M1 to M8.
const MARKED: [&str; 8] =
    ["", "\"\"", "a\\", "a \"b c\" d", "a\"b\"c", "\"a\\\"b\"", "a\u{A0}b", "a \"b"];

/// A line that is cut off, and gets a byte that no text has, at every place.
const WHOLE: &str = "set \"größe 日本\" \\\" a\\\u{A0}😀\u{3000}x";

/// The characters of the short lines, the number of mixed lines, their most bytes, and the start of their numbers.
const SHORT: usize = 3;
const MIXED: usize = 120;
const MIXED_BYTES: usize = 200;
const SEED: u64 = 0x7265_706C_6179_0001;

/// Every character that is white space: between letters, after an escape, and in quotes.
fn add_white_space(list: &mut Vec<Vec<u8>>) {
    for white in every_character().filter(|character| character.is_whitespace()) {
        list.push(format!("a{white}b \\{white} \"{white}\"").into_bytes());
    }
}

/// Mixed lines, every sixth damaged.
fn add_mixed(list: &mut Vec<Vec<u8>>, mixer: &mut Mixer) {
    for number in 1..=MIXED {
        let length = mixer.random.below(MIXED_BYTES + 1);
        let mut line = mixer.text(length).into_bytes();
        if number % 6 == 0 {
            mixer.damage(&mut line);
        }
        list.push(line);
    }
}

/// Lines about the longest that is taken: very many words, a mixed line, and the same ill-formed at its last byte.
fn add_limits(list: &mut Vec<Vec<u8>>, mixer: &mut Mixer) {
    for length in LIMIT - 1..=LIMIT + 1 {
        list.push(b"a ".iter().copied().cycle().take(length).collect());
        let mut line = mixer.text(length).into_bytes();
        list.push(line.clone());
        line[length - 1] = 0xFF;
        list.push(line);
    }
}

/// One line cut off, and ill-formed, at every place.
fn add_damaged(list: &mut Vec<Vec<u8>>) {
    for place in 0..WHOLE.len() {
        let mut line = WHOLE.as_bytes().to_vec();
        line[place] = 0xFF;
        list.push(line);
        list.push(WHOLE.as_bytes()[..place].to_vec());
    }
}

fn all_lines() -> Vec<Vec<u8>> {
    let mut list: Vec<Vec<u8>> = MARKED.map(|line| line.as_bytes().to_vec()).to_vec();
    let mut mixer = Mixer::new(SEED);
    every_line(SHORT, &mut |line| list.push(line.to_vec()));
    add_white_space(&mut list);
    add_mixed(&mut list, &mut mixer);
    add_limits(&mut list, &mut mixer);
    add_damaged(&mut list);
    list
}

/// What is to be written for a line: the words' frames or the refusal, what stays, and the answer to a short buffer.
fn answer(line: &[u8]) -> String {
    if line.len() > LIMIT {
        return format!("refused 2 {} kept", line.len().min(MOST));
    }
    let text = match str::from_utf8(line) {
        Ok(text) => text,
        Err(error) => return format!("refused 3 {} kept", error.valid_up_to()),
    };
    let frames = frames::of(&Original::tokenize(text));
    let short = if frames.is_empty() { String::new() } else { format!(" short 9 {}", frames.len()) };
    format!("words {} kept{short}", or_dash(hex(&frames)))
}

fn main() {
    let folder = std::env::args().nth(1).expect("the folder of replay_words");
    let lines = all_lines();
    let input: String = lines.iter().map(|line| hex(line) + "\n").collect();
    let output: String = lines.iter().map(|line| format!("{} {}\n", or_dash(hex(line)), answer(line))).collect();
    assert!(input.len() < 65_536, "replay_words reads at most 65,535 bytes");
    std::fs::write(format!("{folder}/stdin"), &input).expect("stdin is written");
    std::fs::write(format!("{folder}/stdout"), &output).expect("stdout is written");
    println!("{} lines; {} and {} bytes", lines.len(), input.len(), output.len());
}
