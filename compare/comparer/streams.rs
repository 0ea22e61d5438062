// Streams of keys to compare on: every short one over a few keys, and mixed ones.
use crate::lines::{DAMAGE, Mixer, every};

/// The keys that matter: what is typed, both Enters, both erasing keys, the bytes of escapes, and those that are ignored.
const ALPHABET: [&[u8]; 18] = [
    b"a", b" ", b"\r", b"\n", b"\x08", b"\x7F", b"\x1B", b"[", b"A", b"B", b"C", b"D", b"3", b"~", b"\x01", b"\xC3",
    b"\xA9", b"\t",
];

/// Lines that come again and again, so that neighbours in the history are equal. Some are blank, some ill-formed, some run.
const COMMANDS: [&[u8]; 14] = [
    b"a",
    b"a ",
    b" a",
    b"b",
    b"b c",
    b" ",
    b"\xC2\xA0",
    b"\xE3\x80\x80 ",
    b"\xC3\xA9",
    b"\xC3",
    b"help",
    b"log",
    b"clear",
    b"help a",
];

const ARROWS: [&[u8]; 4] = [b"\x1B[A", b"\x1B[B", b"\x1B[C", b"\x1B[D"];

/// Escapes that end early or go on, each of which types or swallows something.
const BROKEN: [&[u8]; 12] = [
    b"\x1B",
    b"\x1B[",
    b"\x1B\x1B",
    b"\x1B[\x1B",
    b"\x1B\r",
    b"\x1B[\r",
    b"\x1B[3~",
    b"\x1BOA",
    b"\x1B[1;5C",
    b"\x1Ba",
    b"\x1B[[A",
    b"\x1B\xC3\xA9",
];

/// Gives out every stream of at most so many keys.
pub fn every_stream(keys: usize, give: &mut impl FnMut(&[u8])) {
    every(&ALPHABET, keys, give);
}

/// Makes mixed streams.
pub struct Typist {
    mixer: Mixer,
    keys: Vec<u8>,
}

impl Typist {
    pub fn new(seed: u64) -> Self {
        Typist { mixer: Mixer::new(seed), keys: Vec::new() }
    }

    /// A stream of up to 6 pieces; one in 40 of up to 50, one in 50 with a line about the longest, one in 400 with about as
    /// many lines as a history takes.
    pub fn stream(&mut self) -> Vec<u8> {
        match self.below(400) {
            0 => self.many_lines(),
            1..=8 => self.long_line(),
            9..=18 => self.pieces(50),
            _ => self.pieces(6),
        }
        std::mem::take(&mut self.keys)
    }

    fn below(&mut self, end: usize) -> usize {
        self.mixer.random.below(end)
    }

    fn pieces(&mut self, most: usize) {
        for _ in 0..self.below(most + 1) {
            self.piece();
        }
    }

    fn piece(&mut self) {
        match self.below(16) {
            0..=2 => self.text(6),
            3 => self.one_of(&COMMANDS),
            4 | 5 => self.command(),
            6 => self.enter(),
            7 | 8 => self.again(&[b"\x08", b"\x7F"], 4),
            9 | 10 => self.again(&ARROWS[2..], 6),
            11 | 12 => self.again(&ARROWS[..2], 3),
            13 => self.one_of(&BROKEN),
            14 => self.one_of(&DAMAGE),
            _ => {
                let byte = self.below(256) as u8;
                self.keys.push(byte);
            }
        }
    }

    /// A line about the longest, in which nothing is a control byte, changed at some places and entered and recalled.
    fn long_line(&mut self) {
        let length = 250 + self.below(9);
        let mut line = self.mixer.text(length).into_bytes();
        if self.mixer.random.once_in(3) {
            self.mixer.damage(&mut line);
        }
        let typed = line.iter().map(|&byte| if byte < 0x20 || byte == 0x7F { b'x' } else { byte });
        self.keys.extend(typed);
        self.pieces(6);
        self.enter();
        self.pieces(6);
    }

    /// Some 95 to 130 lines, among them blank, ill-formed and equal ones, and a walk among them.
    fn many_lines(&mut self) {
        for number in 0..95 + self.below(36) {
            if self.mixer.random.once_in(10) {
                self.command();
            }
            self.keys.extend(format!("{number:x}").bytes());
            self.enter();
        }
        self.again(&ARROWS[..1], 110);
        self.pieces(20);
    }

    fn text(&mut self, most: usize) {
        let length = self.below(most + 1);
        self.keys.extend(self.mixer.text(length).bytes());
    }

    fn command(&mut self) {
        self.one_of(&COMMANDS);
        self.enter();
    }

    fn enter(&mut self) {
        self.one_of(&[b"\r", b"\n"]);
    }

    fn one_of(&mut self, from: &[&[u8]]) {
        self.keys.extend(self.mixer.random.pick(from));
    }

    /// One of these, up to so many times.
    fn again(&mut self, from: &[&[u8]], most: usize) {
        let times = 1 + self.below(most);
        let one = self.mixer.random.pick(from);
        self.keys.extend(one.repeat(times));
    }
}
