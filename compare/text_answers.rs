// Writes the input and the output of the program replay_text: texts, and what Rust's standard library says of them.
mod hex;

use hex::{hex, or_dash};
use std::collections::HashSet;
use std::fmt::Write;

// Unicode's Table 3-7 from two bytes on: for each row the least and the greatest value of each byte.
const ROWS: [&[(u8, u8)]; 8] = [
    &[(0xC2, 0xDF), (0x80, 0xBF)],
    &[(0xE0, 0xE0), (0xA0, 0xBF), (0x80, 0xBF)],
    &[(0xE1, 0xEC), (0x80, 0xBF), (0x80, 0xBF)],
    &[(0xED, 0xED), (0x80, 0x9F), (0x80, 0xBF)],
    &[(0xEE, 0xEF), (0x80, 0xBF), (0x80, 0xBF)],
    &[(0xF0, 0xF0), (0x90, 0xBF), (0x80, 0xBF), (0x80, 0xBF)],
    &[(0xF1, 0xF3), (0x80, 0xBF), (0x80, 0xBF), (0x80, 0xBF)],
    &[(0xF4, 0xF4), (0x80, 0x8F), (0x80, 0xBF), (0x80, 0xBF)],
];

// The least and the greatest character of each length, those next to the surrogates, and a few between.
const CHARACTERS: &str = "\u{0}\u{7F}\u{80}é\u{7FF}\u{800}€\u{D7FF}\u{E000}\u{FEFF}\u{FFFD}\u{FFFF}\
    \u{10000}😀\u{FFFFF}\u{100000}\u{10FFFF}";

// Overlong forms, surrogates, what lies past 10FFFF, and bytes that no text has.
const NEVER: [&[u8]; 20] = [
    b"\xC0\x80",
    b"\xC1\xBF",
    b"\xE0\x80\x80",
    b"\xE0\x9F\xBF",
    b"\xF0\x80\x80\x80",
    b"\xF0\x8F\xBF\xBF",
    b"\xED\xA0\x80",
    b"\xED\xAF\xBF",
    b"\xED\xB0\x80",
    b"\xED\xBF\xBF",
    b"\xED\xA0\xBD\xED\xB8\x80",
    b"\xF4\x90\x80\x80",
    b"\xF5\x80\x80\x80",
    b"\xF7\xBF\xBF\xBF",
    b"\xF8\x88\x80\x80\x80",
    b"\xFC\x84\x80\x80\x80\x80",
    b"\xFE",
    b"\xFF",
    b"\xFE\xFF",
    b"\xFF\xFE\x61\x00",
];

// Codes beside the white space that are blank to the eye, or that other lists take for white space.
const LIKE_SPACE: [u32; 14] = [
    0x1C, 0x1D, 0x1E, 0x1F, 0x115F, 0x180E, 0x200B, 0x200C, 0x200D, 0x2060, 0x2800, 0x3164, 0xFEFF, 0xFFA0,
];

fn is_white_space(code: u32) -> bool {
    char::from_u32(code).is_some_and(char::is_whitespace)
}

fn white_space() -> Vec<u32> {
    (0..=0x110000).filter(|&code| is_white_space(code)).collect()
}

// The texts of the sample, each once.
struct Sample {
    texts: Vec<Vec<u8>>,
    seen: HashSet<Vec<u8>>,
}

impl Sample {
    fn add(&mut self, parts: &[&[u8]]) {
        let text = parts.concat();
        if self.seen.insert(text.clone()) {
            self.texts.push(text);
        }
    }

    // Alone, and with something before and behind it.
    fn add_around(&mut self, part: &[u8]) {
        for before in [&b""[..], b"a", "é ".as_bytes()] {
            for behind in [&b""[..], b"b", b" ", b"\x80", "€".as_bytes()] {
                self.add(&[before, part, behind]);
            }
        }
    }

    // Every choice of one byte from each list.
    fn add_choices(&mut self, start: &[u8], lists: &[Vec<u8>]) {
        match lists.split_first() {
            None => self.add(&[start]),
            Some((list, rest)) => {
                for &byte in list {
                    self.add_choices(&[start, &[byte]].concat(), rest);
                }
            }
        }
    }
}

// The bounds of a byte in all rows that the test takes: one below the least, both bounds, one above the greatest.
fn bounds(place: usize, takes: impl Fn(usize) -> bool) -> Vec<u8> {
    let mut list = Vec::new();
    for row in ROWS.iter().filter(|row| takes(row.len()) && place < row.len()) {
        let (least, greatest) = row[place];
        list.extend([least - 1, least, greatest, greatest + 1]);
    }
    list.sort();
    list.dedup();
    list
}

// Three and four bytes: every bound of every byte with every bound of the others, and every first byte from C0 on.
fn add_bounds(sample: &mut Sample) {
    for length in [3, 4] {
        let mut lists = vec![bounds(0, |n| n == length)];
        lists.extend((1..length).map(|place| bounds(place, |_| true)));
        sample.add_choices(&[], &lists);
        let mut lists = vec![(0xC0..=0xFF).collect(), bounds(1, |_| true)];
        lists.extend((2..length).map(|_| vec![0xA5]));
        sample.add_choices(&[], &lists);
    }
}

// Characters whole, cut off at each length, with a byte put in and with a byte changed; and what no text has.
fn add_damaged(sample: &mut Sample) {
    for character in CHARACTERS.chars() {
        let whole = character.to_string().into_bytes();
        sample.add_around(&whole);
        for place in 1..whole.len() {
            let (start, end) = whole.split_at(place);
            sample.add_around(start);
            sample.add_around(end);
            sample.add(&[b"a", start, b"\x80", end, b"b"]);
            for byte in [b'A', b' ', 0xC3, 0xFF] {
                sample.add(&[b"a", start, &[byte], end, b"b"]);
                sample.add(&[b"a", start, &[byte], &end[1..], b"b"]);
            }
        }
    }
    for bytes in NEVER {
        sample.add_around(bytes);
    }
}

// Every code that is white space, its neighbours and those like it: alone, before, between and behind words.
fn add_spaces(sample: &mut Sample) {
    let mut codes: Vec<u32> = white_space().iter().flat_map(|&code| [code - 1, code, code + 1]).collect();
    codes.extend(LIKE_SPACE);
    codes.sort();
    codes.dedup();
    for code in codes {
        let space = char::from_u32(code).expect("no surrogate is near white space").to_string();
        let space = space.as_bytes();
        sample.add(&[space]);
        sample.add(&[space, space]);
        sample.add(&[space, b"a"]);
        sample.add(&[b"a", space]);
        sample.add(&[b"a", space, b"b"]);
        sample.add(&[b" ", space, b" "]);
        sample.add(&[b"\t", space, "ä€".as_bytes(), space, b"\n"]);
        sample.add(&[space, "é".as_bytes(), space, space, b"two", space, "😀".as_bytes(), space]);
    }
}

// Longer texts with all kinds of white space, and one of them cut off at every place.
fn add_longer(sample: &mut Sample) {
    let spaces: Vec<String> = white_space().iter().map(|&code| char::from_u32(code).unwrap().to_string()).collect();
    let all = spaces.concat();
    sample.add(&[]);
    sample.add(&[all.as_bytes()]);
    sample.add(&[all.as_bytes(), b"word", all.as_bytes()]);
    sample.add(&[b"a", all.as_bytes(), b"b"]);
    sample.add(&[spaces.join("x").as_bytes()]);
    sample.add(&[spaces.join("é€").as_bytes()]);
    sample.add(&[b"x", spaces.join("\u{200B}").as_bytes(), "😀".as_bytes()]);
    sample.add(&[&b"one two  three   four".repeat(12)]);
    sample.add(&["  grüß\u{3000}dich\u{2028}Welt\u{A0}😀 ".repeat(8).as_bytes()]);
    sample.add(&[&b"a ".repeat(120)]);
    sample.add(&[&[b' '; 256]]);
    sample.add(&[&[b'z'; 256]]);
    let text = " set\tgröße\u{A0}\u{2003}日本 --name=😀\u{3000}\r\nnaïve\u{85}x \u{1680}".as_bytes();
    for end in 0..=text.len() {
        sample.add(&[&text[..end]]);
        sample.add(&[&text[end..]]);
    }
}

// Numbers that are the same at each run: a linear congruential generator from a fixed start.
struct Numbers(u64);

impl Numbers {
    fn below(&mut self, end: usize) -> usize {
        self.0 = self.0.wrapping_mul(6364136223846793005).wrapping_add(1442695040888963407);
        (self.0 >> 33) as usize % end
    }
}

// Texts of characters and white space in any order; every third has one byte changed.
fn add_mixed(sample: &mut Sample) {
    let spaces: Vec<char> = white_space().iter().map(|&code| char::from_u32(code).unwrap()).collect();
    let solid: Vec<char> = CHARACTERS.chars().chain("abc-=/".chars()).collect();
    let mut numbers = Numbers(2026);
    for turn in 0..180 {
        let mut text = String::new();
        for _ in 0..3 + numbers.below(12) {
            let list = if numbers.below(3) == 0 { &spaces } else { &solid };
            text.push(list[numbers.below(list.len())]);
        }
        let mut bytes = text.into_bytes();
        if turn % 3 == 0 {
            let place = numbers.below(bytes.len());
            bytes[place] = numbers.below(256) as u8;
        }
        sample.add(&[&bytes]);
    }
}

// Where a part of a text lies in it.
fn range(text: &str, part: &str) -> (usize, usize) {
    let start = part.as_ptr() as usize - text.as_ptr() as usize;
    (start, start + part.len())
}

fn words(text: &str) -> Vec<(usize, usize)> {
    text.split_whitespace().map(|word| range(text, word)).collect()
}

// One character for a short input, as the table of replay_text has it.
fn mark(bytes: &[u8]) -> char {
    let text = match std::str::from_utf8(bytes) {
        Ok(text) => text,
        Err(error) => return char::from_digit(error.valid_up_to() as u32, 10).unwrap(),
    };
    let left = text.trim();
    if left.is_empty() {
        assert!(words(text).is_empty());
        return '.';
    }
    assert_eq!(words(text), [range(text, left)]);
    match range(text, left) {
        (0, end) if end == text.len() => 'w',
        (0, _) => 'f',
        _ => 's',
    }
}

// The code of the first character, if the bytes begin with one.
fn first_code(bytes: &[u8]) -> String {
    let length = match std::str::from_utf8(bytes) {
        Ok(text) => text.len(),
        Err(error) => error.valid_up_to(),
    };
    let text = std::str::from_utf8(&bytes[..length]).unwrap();
    text.chars().next().map_or("-".to_string(), |character| format!("{:x}", character as u32))
}

fn answer(bytes: &[u8]) -> String {
    let name = or_dash(hex(bytes));
    let code = first_code(bytes);
    match std::str::from_utf8(bytes) {
        Err(error) => format!("{name} {} {code}", error.valid_up_to()),
        Ok(text) => {
            let left = text.trim();
            let kind = if left.is_empty() { "blank" } else { "text" };
            let mut line = format!("{name} {} {code} {kind} {}", text.len(), or_dash(hex(left.as_bytes())));
            for (start, end) in words(text) {
                write!(line, " {start}-{end}").unwrap();
            }
            line
        }
    }
}

fn write_tables(out: &mut String) {
    out.push_str("Inputs of one byte\n");
    out.extend((0..=0xFF).map(|byte| mark(&[byte])));
    out.push_str("\nInputs of two bytes, a line for each first byte\n");
    for first in 0..=0xFF {
        out.extend((0..=0xFF).map(|second| mark(&[first, second])));
        out.push('\n');
    }
    out.push_str("Codes of two bytes, from 7E to C1 after each from C0 to DF\n");
    for first in 0xC0..0xE0 {
        write!(out, "{first:02x}").unwrap();
        for second in 0x7E..0xC2 {
            write!(out, " {}", first_code(&[first, second])).unwrap();
        }
        out.push('\n');
    }
    out.push_str("The white space among all codes from 0 to 110000\n");
    for code in white_space() {
        writeln!(out, "{code:04x}").unwrap();
    }
}

fn main() {
    let folder = std::env::args().nth(1).expect("the folder of replay_text");
    let mut sample = Sample { texts: Vec::new(), seen: HashSet::new() };
    add_bounds(&mut sample);
    add_damaged(&mut sample);
    add_spaces(&mut sample);
    add_longer(&mut sample);
    add_mixed(&mut sample);

    let mut input = String::new();
    let mut output = String::new();
    write_tables(&mut output);
    output.push_str("Texts of the input: length of the well-formed part, first code, what is left trimmed, words\n");
    for text in &sample.texts {
        assert!(text.len() <= 512);
        writeln!(input, "{}", hex(text)).unwrap();
        writeln!(output, "{}", answer(text)).unwrap();
    }
    assert!(input.len() < 65536, "replay_text reads at most 65,535 bytes");
    std::fs::write(format!("{folder}/stdin"), &input).unwrap();
    std::fs::write(format!("{folder}/stdout"), &output).unwrap();
    println!("{} texts; {} and {} bytes", sample.texts.len(), input.len(), output.len());
}
