// The words of a line: the library against the original's tokenize, and its refusals against Rust's standard library.
use crate::buffers::Expected;
use crate::frames;
use crate::lines::{Mixer, every_character, every_line};
use crate::part::Part;
use original::Original;

/// The longest line that is taken, in bytes.
pub const LIMIT: usize = 1_024;
/// The value of refusal 2 for a line of this length or more.
const MOST: usize = 65_535;

const SHORT: usize = 6;
const MIXED: usize = 1_000_000;
const SEED: u64 = 0x776F_7264_7300_0001;

pub fn too_long(length: usize) -> Expected {
    Expected::Refusal { number: 2, value: length.min(MOST) as u64 }
}

fn expected(line: &[u8]) -> Expected {
    if line.len() > LIMIT {
        return too_long(line.len());
    }
    match str::from_utf8(line) {
        Ok(text) => Expected::Bytes(frames::of(&Original::tokenize(text))),
        Err(error) => Expected::Refusal { number: 3, value: error.valid_up_to() as u64 },
    }
}

pub fn check(part: &mut Part, line: &[u8]) {
    part.input(line);
    part.check(|out| calls::words(line, out), &expected(line));
}

pub fn short_lines(part: &mut Part) {
    every_line(SHORT, &mut |line| check(part, line));
}

/// Every character between letters, after an escape, and in quotes.
pub fn every_one(part: &mut Part) {
    for character in every_character() {
        check(part, format!("a{character}b \\{character} \"{character}\"").as_bytes());
    }
}

/// Lines of one byte repeated, about the longest that is taken and about the greatest value: well-formed, with an
/// ill-formed byte at the end, and ill-formed from the start.
pub fn limits(part: &mut Part) {
    for length in (1_020..1_030).chain(65_530..65_540).chain([131_072, 1_048_577]) {
        for byte in [b'a', b' ', b'"', b'\\', 0xFF] {
            let mut line = vec![byte; length];
            check(part, &line);
            line[length - 1] = 0xFF;
            check(part, &line);
        }
        let pairs: Vec<u8> = b"a ".iter().copied().cycle().take(length).collect();
        check(part, &pairs);
    }
}

pub fn mixed_lines(part: &mut Part) {
    let mut mixer = Mixer::new(SEED);
    for _ in 0..MIXED {
        check(part, &mixer.line());
    }
}
