// The keys of ECMA-48: the library against the model, key by key, in all that it answers and leaves.
use crate::lent::Lent;
use crate::model::{LINE, Model, Profile, saved};
use crate::named::sequences;
use crate::part::Part;
use crate::random::Random;
use crate::streams::Typist;

const PROMPT: &[u8] = b"axvisor:$ ";
/// The sequences that are all tried have up to so many bytes behind `[`, and fewer where the cursor is not in the middle.
const SHORT: usize = 4;
const SHORTER: usize = 3;
const MIXED: usize = 30_000;
const SEED: u64 = 0x6563_6D61_0000_0001;
const SEED_KEYS: u64 = 0x6563_6D61_0000_0002;
/// Buffers that are too short are tried at every key of so many, and at the last of a stream.
const TRIED: usize = 8;
/// Between keys a text is added to the history once in so many times.
const ADDED: usize = 40;

/// Each kind of byte: digits that say something and that don't, other parameters, intermediates, final bytes that act and one
/// that doesn't, and bytes that break a sequence off.
const ALPHABET: [u8; 24] = *b"0134789;?: /ABCDHF~@\r\x1B\x7F\x9B";
const ESCAPE: &[u8] = b"\x1B[";
/// The bytes that end a sequence which acts if nothing or one digit stands before them.
const FINAL: [u8; 7] = *b"ABCDHF~";

/// Lines with the cursor in the middle, of letters and of characters that it splits, with entries on both sides of the place.
const MIDDLE: [&[u8]; 2] =
    [b"old\rnew\rmore\r\x1B[A\x1B[A\x08x\x1B[D\x1B[D", b"\xC3\xA9\rb\r\x1B[A\xC3\xA9\xC3\xA9\x1B[D\x1B[1D\x1B[D"];

/// An empty line; the cursor at the begin and at the end; the longest line with the cursor in it.
fn others() -> [Vec<u8>; 5] {
    let longest = [&[b'l'; LINE][..], &b"\x1B[D".repeat(99)].concat();
    [b"".to_vec(), b"old\r".to_vec(), b"old\rab\x1B[H".to_vec(), b"old\rab".to_vec(), longest]
}

/// A stream that is typed, and gone on with in more than one way.
struct Typing<'a> {
    part: &'a mut Part,
    lent: Lent,
    keys: Vec<u8>,
}

impl Typing<'_> {
    /// Types keys to a fresh state, and gives back what they leave unless there is a difference.
    fn fresh(&mut self, keys: &[u8]) -> Option<Model> {
        self.keys = keys.to_vec();
        self.part.input(keys);
        let mut model = Model::fresh_with(Profile::Ecma48);
        let mut good = self.lent.fresh_with(self.part, Profile::Ecma48 as u8, saved::STATE, saved::SLOTS);
        for (number, &key) in keys.iter().enumerate() {
            let short = number % TRIED == TRIED - 1 || number + 1 == keys.len();
            let press = if short { Lent::press_short } else { Lent::press };
            good = good && press(&mut self.lent, self.part, &mut model, PROMPT, key).is_some();
        }
        good.then_some(model)
    }

    /// Goes on with up to so many of these bytes, in all ways. What the keys before them left is put back for each.
    fn every(&mut self, before: &Model, bytes: &[u8], most: usize) {
        let (state, slots) = (before.state(), before.slots());
        for &key in if most == 0 { &[] } else { bytes } {
            let mut model = before.clone();
            self.keys.push(key);
            self.part.input(&self.keys);
            self.lent.hold(&state, &slots);
            if self.lent.press_short(self.part, &mut model, PROMPT, key).is_some() {
                self.every(&model, bytes, most - 1);
            }
            self.keys.pop();
        }
    }
}

fn typing(part: &mut Part) -> Typing<'_> {
    Typing { part, lent: Lent::new(), keys: Vec::new() }
}

/// Every short sequence. Where one has come to its end early the bytes behind it are typed.
pub fn short_ones(part: &mut Part) {
    let mut typing = typing(part);
    let middle = MIDDLE.map(|keys| (keys.to_vec(), SHORT));
    for (keys, most) in middle.into_iter().chain(others().map(|keys| (keys, SHORTER))) {
        if let Some(model) = typing.fresh(&[&keys, ESCAPE].concat()) {
            typing.every(&model, &ALPHABET, most);
        }
    }
}

/// Each byte in each mode, behind each byte that a sequence may have first, and behind 14 and 15 bytes.
pub fn every_byte(part: &mut Part) {
    let mut typing = typing(part);
    let all: Vec<u8> = (0..=255).collect();
    let first = (0x20..0x40).map(|byte| [ESCAPE, &[byte]].concat());
    let longer = [&b"01"[..], b"10", b"1;", b"11", b"3 ", &[b'1'; 14], &[b';'; 15], &[b' '; 15]]
        .map(|bytes| [ESCAPE, bytes].concat());
    let before: Vec<Vec<u8>> =
        [b"".to_vec(), b"\x1B".to_vec(), ESCAPE.to_vec()].into_iter().chain(first).chain(longer).collect();
    for line in MIDDLE.map(<[u8]>::to_vec).into_iter().chain(others()) {
        for begun in &before {
            if let Some(model) = typing.fresh(&[&line[..], begun].concat()) {
                typing.every(&model, &all, 1);
            }
        }
    }
}

/// Sequences of up to 20 bytes of each kind, ended in each way; a letter and Enter show what is typed.
pub fn long_ones(part: &mut Part) {
    let mut typing = typing(part);
    for (count, byte) in (0..=20).flat_map(|count| b" /0139:;?".map(|byte| (count, byte))) {
        for end in FINAL.iter().chain(b"@}z\r\n\x1B\x18\x7F\x80\x9B\xFF\x00") {
            typing.fresh(&[b"old\rab\x1B[D\x1B[", &vec![byte; count][..], &[*end], b"z\r\x1B[1A"].concat());
        }
    }
}

pub fn named_streams(part: &mut Part) {
    let mut typing = typing(part);
    sequences().iter().for_each(|stream| _ = typing.fresh(stream));
}

/// Mixed streams, in which texts are added to the history too, and buffers are too short now and then.
pub fn mixed_streams(part: &mut Part) {
    let mut mixer = Mixer::new(SEED, SEED_KEYS);
    let mut lent = Lent::new();
    for _ in 0..MIXED {
        let stream = mixer.stream();
        part.input(&stream);
        let mut model = Model::fresh_with(Profile::Ecma48);
        let mut good = lent.fresh_with(part, Profile::Ecma48 as u8, saved::STATE, saved::SLOTS);
        for &key in &stream {
            let press = if mixer.random.once_in(TRIED) { Lent::press_short } else { Lent::press };
            good = good && press(&mut lent, part, &mut model, PROMPT, key).is_some();
            if good && mixer.random.once_in(ADDED) {
                let text = mixer.random.pick(&[&b"a"[..], b"b c", b" ", b"\xC3", &[b'a'; LINE + 1]]);
                good = lent.add(part, &mut model, text);
            }
        }
    }
}

/// Makes mixed streams with control sequences.
pub struct Mixer {
    random: Random,
    typist: Typist,
}

impl Mixer {
    pub fn new(seed: u64, seed_keys: u64) -> Self {
        Mixer { random: Random(seed), typist: Typist::new(seed_keys) }
    }

    /// Up to 8 pieces: two of three are control sequences, the others mixed streams.
    pub fn stream(&mut self) -> Vec<u8> {
        let mut keys = Vec::new();
        for _ in 0..=self.random.below(8) {
            let piece = if self.random.once_in(3) { self.typist.stream() } else { self.sequence() };
            keys.extend(piece);
        }
        keys
    }

    /// A sequence that may act, one of some digits and signs, or up to 40 bytes, most of them such as go on.
    fn sequence(&mut self) -> Vec<u8> {
        let last = self.random.pick(&FINAL);
        let bytes = match self.random.below(4) {
            0 => vec![last],
            1 => vec![self.random.pick(b"1347890; "), last],
            2 => (0..self.random.below(4)).map(|_| self.random.pick(b"1347890;:? /")).chain([last]).collect(),
            _ => {
                let once = self.random.pick(&[2, 8, 40]);
                (0..=self.random.below(40)).map(|_| self.byte(once)).collect()
            }
        };
        [ESCAPE, &bytes].concat()
    }

    /// A byte that goes on; once in so many times a final one, or any.
    fn byte(&mut self, once: usize) -> u8 {
        if !self.random.once_in(once) {
            return 0x20 + self.random.below(0x20) as u8;
        }
        if self.random.once_in(4) { self.random.below(256) as u8 } else { 0x40 + self.random.below(0x3F) as u8 }
    }
}
