// Keys: the library against the original's own loop, key by key, and against the model in all that it answers and leaves.
use crate::lent::Lent;
use crate::model::{Effect, LINE, Mode, Model, Profile, saved};
use crate::named::named;
use crate::part::{Part, hex};
use crate::shell::{PLAIN, Shell, WITH_FS, walk};
use crate::streams::{Typist, every_stream};

const SHORT: usize = 4;
const MIXED: usize = 120_000;
const MIXED_FS: usize = 80_000;
const SEED: u64 = 0x6B65_7973_0000_0001;
const SEED_FS: u64 = 0x6B65_7973_6673_0001;
const SHORT_ALIKE: usize = 3;
const MIXED_ALIKE: usize = 30_000;
const SEED_ALIKE: u64 = 0x6B65_7973_6563_0001;
/// Buffers that are too short are tried at every key of so many, and at the last of a stream.
pub const TRIED: usize = 32;

/// Types a stream to both from the fresh state.
fn check(part: &mut Part, lent: &mut Lent, shell: &Shell, stream: &[u8]) {
    part.input(stream);
    if lent.fresh(part, saved::STATE, saved::SLOTS) {
        both(part, lent, Model::fresh(), shell, stream);
    }
}

/// The same with the keys of ECMA-48 for ours.
fn check_ecma48(part: &mut Part, lent: &mut Lent, stream: &[u8]) {
    part.input(stream);
    if lent.fresh_with(part, Profile::Ecma48 as u8, saved::STATE, saved::SLOTS) {
        both(part, lent, Model::fresh_with(Profile::Ecma48), &PLAIN, stream);
    }
}

/// Types a stream to both, walks through their histories, and compares these.
fn both(part: &mut Part, lent: &mut Lent, mut model: Model, shell: &Shell, stream: &[u8]) {
    let keys = [stream, &walk(stream)].concat();
    let screens = shell.screens(&keys);
    for (number, (&key, screen)) in keys.iter().zip(&screens).enumerate() {
        let short = number % TRIED == TRIED - 1 || number + 1 == stream.len();
        let press = if short { Lent::press_short } else { Lent::press };
        let Some(effect) = press(lent, part, &mut model, shell.prompt, key) else { return };
        if !part.note(apart(shell, number, key, effect, screen)) {
            return;
        }
    }
    // Where a command left the shell there was no walk.
    if screens.len() == keys.len() {
        part.same(&shell.recalled(&screens[stream.len()..]), &lent.entries());
    }
}

/// What the original wrote after a key, if it is not what ours showed and, at Enter, what the original writes for the line.
pub fn apart(shell: &Shell, number: usize, key: u8, effect: Effect, screen: &[u8]) -> Option<String> {
    let behind = effect.entered.map(|line| shell.behind_enter(&line)).unwrap_or_default();
    let ours = [effect.screen, behind].concat();
    (ours != *screen)
        .then(|| format!("key:      number {number}, {key:02x}\nRust:     {}\nours:     {}", hex(screen), hex(&ours)))
}

pub fn short_streams(part: &mut Part) {
    let mut lent = Lent::new();
    every_stream(SHORT, &mut |stream| check(part, &mut lent, &PLAIN, stream));
}

/// The named streams and some that leave the shell, each to the original with and without `fs`.
pub fn named_streams(part: &mut Part) {
    let mut lent = Lent::new();
    let leaving = [&b"a\rexit\rb\r"[..], b"\x1B[A quit \nb"].map(<[u8]>::to_vec);
    for (stream, shell) in named().iter().chain(&leaving).flat_map(|stream| [(stream, PLAIN), (stream, WITH_FS)]) {
        check(part, &mut lent, &shell, stream);
    }
}

/// Each byte in each mode, with one entry in the history: at the end and inside of an empty, a short and the longest line.
pub fn every_byte(part: &mut Part) {
    let mut lent = Lent::new();
    for line in [0, 3, LINE].map(|length| vec![b'a'; length]) {
        for keys in [&b""[..], b"\x1B", b"\x1B[", b"\x1B[D", b"\x1B[D\x1B", b"\x1B[D\x1B[", b"\xC3"] {
            for byte in 0..=255 {
                check(part, &mut lent, &PLAIN, &[b"old\r", &line[..], keys, &[byte], b"z\r"].concat());
            }
        }
    }
}

/// Lines about the longest, with the cursor at every place, and histories about the fullest.
pub fn limits(part: &mut Part) {
    let mut lent = Lent::new();
    for length in LINE - 1..=LINE + 1 {
        for left in 0..=length {
            let stream = [&vec![b'a'; length], &b"\x1B[D".repeat(left)[..], b"bc\x08\x08d\r"].concat();
            check(part, &mut lent, &PLAIN, &stream);
        }
    }
    for count in [99, 100, 101, 102, 200, 201] {
        for length in [1, 2, 20] {
            let lines: Vec<String> = (0..count).map(|number| format!("{number:0length$x}\r")).collect();
            check(part, &mut lent, &PLAIN, lines.concat().as_bytes());
        }
    }
    let longest: Vec<u8> =
        (0..102).flat_map(|number| [vec![b'0' + number % 70; LINE + 1], vec![b'\n']].concat()).collect();
    check(part, &mut lent, &PLAIN, &longest);
}

/// Short, named and mixed streams that both profiles read alike: the original's loop is then the measure of ECMA-48's keys too.
pub fn alike(part: &mut Part) {
    let mut lent = Lent::new();
    let mut one = |stream: &[u8]| {
        if !parting(stream) {
            check_ecma48(part, &mut lent, stream);
        }
    };
    every_stream(SHORT_ALIKE, &mut one);
    named().iter().for_each(|stream| one(stream));
    let mut typist = Typist::new(SEED_ALIKE);
    (0..MIXED_ALIKE).for_each(|_| one(&typist.stream()));
}

/// Whether ESC `[` is gone on with by a byte that the profiles read in two ways: a parameter, an intermediate, Home or End.
fn parting(stream: &[u8]) -> bool {
    let mut model = Model::fresh();
    stream.iter().any(|&key| {
        let parts = model.mode == Mode::Bracket && matches!(key, 0x20..0x40 | b'H' | b'F');
        model.press(PLAIN.prompt, key);
        parts
    })
}

pub fn mixed_streams(part: &mut Part) {
    mixed(part, &PLAIN, SEED, MIXED);
}

pub fn mixed_streams_fs(part: &mut Part) {
    mixed(part, &WITH_FS, SEED_FS, MIXED_FS);
}

fn mixed(part: &mut Part, shell: &Shell, seed: u64, streams: usize) {
    let mut lent = Lent::new();
    let mut typist = Typist::new(seed);
    for _ in 0..streams {
        check(part, &mut lent, shell, &typist.stream());
    }
}
