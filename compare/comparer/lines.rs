// The lines to compare on: every short one over a few characters, and mixed ones of any length.
use crate::random::Random;
use Kind::*;

/// The characters that matter, two of them ill-formed: a byte that no text has, and the first byte of a character alone.
const ALPHABET: [&[u8]; 11] =
    [b"a", b" ", b"\t", b"\"", b"\\", b"-", b"=", b"\xC2\xA0", b"\xE8\xAA\x9E", b"\xFF", b"\xC2"];

/// What mixed texts are made of.
#[derive(Clone, Copy)]
enum Kind {
    Letter,
    Space,
    Quote,
    Escape,
    Dash,
    /// Any of the characters that are white space.
    White,
    /// Any character of two, three or four bytes.
    Wide,
    /// A control character, or one that is blank to the eye but no white space.
    Odd,
}

/// How often each kind comes in a text: every text is of one of these mixes.
const MIXES: [&[Kind]; 6] = [
    &[Letter, Letter, Letter, Letter, Letter, Letter, Letter, Space, Letter, Letter, Space, Dash, Quote, Escape],
    &[Letter, Letter, Letter, Space, Quote, Escape, Quote, Escape],
    &[Letter, Letter, White, White, White, Odd, Quote, Escape],
    &[Wide, Wide, Wide, Wide, Letter, White, Quote, Escape],
    &[Letter, Space, Quote, Escape, Dash, White, Wide, Odd],
    &[Letter],
];

const ODD: [char; 12] = [
    '\0', '\u{1}', '\u{8}', '\u{E}', '\u{1B}', '\u{1F}', '\u{7F}', '\u{84}', '\u{180E}', '\u{200B}', '\u{2060}',
    '\u{FEFF}',
];

/// The codes of the characters that take two, three and four bytes. Surrogates are passed over.
const WIDE: [(usize, usize); 3] = [(0x80, 0x800), (0x800, 0x1_0000), (0x1_0000, 0x11_0000)];

/// Ill-formed bytes: one that no text has, overlong, a surrogate, past the last code, a later byte alone, two cut off.
pub const DAMAGE: [&[u8]; 7] =
    [b"\xFF", b"\xC0\x80", b"\xED\xA0\x80", b"\xF4\x90\x80\x80", b"\x80", b"\xE2\x82 ", b"\xF0\x9F\x98\\"];

/// Gives out every line of at most so many characters of the alphabet, the shortest first.
pub fn every_line(characters: usize, give: &mut impl FnMut(&[u8])) {
    every(&ALPHABET, characters, give);
}

/// Gives out all that at most so many characters of an alphabet make, the shortest first.
pub fn every(alphabet: &[&[u8]], characters: usize, give: &mut impl FnMut(&[u8])) {
    for exactly in 0..=characters {
        extend(alphabet, &mut Vec::new(), exactly, give);
    }
}

fn extend(alphabet: &[&[u8]], line: &mut Vec<u8>, characters: usize, give: &mut impl FnMut(&[u8])) {
    if characters == 0 {
        return give(line);
    }
    for character in alphabet {
        let length = line.len();
        line.extend(*character);
        extend(alphabet, line, characters - 1, give);
        line.truncate(length);
    }
}

/// Every character that there is.
pub fn every_character() -> impl Iterator<Item = char> {
    '\0'..=char::MAX
}

/// Every character that is white space, or whose neighbour is.
pub fn about_white_space() -> impl Iterator<Item = char> {
    let white = |code| char::from_u32(code).is_some_and(char::is_whitespace);
    every_character().filter(move |&c| (-1..=1).any(|by| white((c as u32).wrapping_add_signed(by))))
}

/// Makes mixed texts and lines.
pub struct Mixer {
    pub random: Random,
    white: Vec<char>,
}

impl Mixer {
    pub fn new(seed: u64) -> Self {
        Mixer { random: Random(seed), white: every_character().filter(|character| character.is_whitespace()).collect() }
    }

    /// A well-formed text of so many bytes.
    pub fn text(&mut self, length: usize) -> String {
        let mix = self.random.pick(&MIXES);
        let mut text = String::with_capacity(length + 4);
        while text.len() < length {
            let kind = self.random.pick(mix);
            let character = self.character(kind);
            let fits = text.len() + character.len_utf8() <= length;
            text.push(if fits { character } else { 'z' });
        }
        text
    }

    fn character(&mut self, kind: Kind) -> char {
        match kind {
            Letter => (b'a' + self.random.below(26) as u8) as char,
            Space => ' ',
            Quote => '"',
            Escape => '\\',
            Dash => self.random.pick(&['-', '=']),
            White => self.random.pick(&self.white),
            Odd => self.random.pick(&ODD),
            Wide => {
                let (least, end) = self.random.pick(&WIDE);
                char::from_u32((least + self.random.below(end - least)) as u32).unwrap_or('\u{FFFD}')
            }
        }
    }

    /// A line of 0 to 1,030 bytes, every eighth about the limit of 1,024, and every eighth damaged.
    pub fn line(&mut self) -> Vec<u8> {
        let length = match self.random.below(8) {
            0 => self.random.below(41),
            1 => 1_018 + self.random.below(13),
            _ => self.random.below(1_031),
        };
        let mut line = self.text(length).into_bytes();
        if self.random.once_in(8) {
            self.damage(&mut line);
        }
        line
    }

    /// Overwrites some bytes with ill-formed ones, changes a byte to any other, or cuts off the end.
    pub fn damage(&mut self, line: &mut Vec<u8>) {
        let place = self.random.below(line.len() + 1);
        match self.random.below(4) {
            0 => line.truncate(place),
            1 if place < line.len() => line[place] = self.random.below(256) as u8,
            _ => {
                let damage = self.random.pick(&DAMAGE);
                if let Some(bytes) = line.get_mut(place..place + damage.len()) {
                    bytes.copy_from_slice(damage);
                }
            }
        }
    }
}
